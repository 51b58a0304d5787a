"""The doubles of a plan in words: which events would have to wait for each other without them, and why."""

import dataclasses
import re
from collections.abc import Sequence

from metis_planner.text import plans
from metis_planner.text.actions import Action, Move, New, in_words

EVENT = re.compile(r"([0-9]{1,10})\.([0-9]{1,10})")
MOST_DOUBLES = 300
# What a state provides, and what it requires, by its type and name; as page/values.py tells it to the page.
Needs = dict[tuple[str, str], tuple[frozenset[str], tuple[str, ...]]]


@dataclasses.dataclass(frozen=True)
class Event:
    """What happens, as the place of its action or in words alone; and in which states the instance is before and after."""

    text: str
    place: int | None = None
    instance: int | None = None
    type: str = ""
    before: str | None = None
    after: str | None = None


@dataclasses.dataclass(frozen=True)
class ToldEvent:
    text: str
    place: int | None
    behind: str


@dataclasses.dataclass(frozen=True)
class Double:
    name: str
    type: str
    state: str
    events: tuple[ToldEvent, ...]


def needs_of(value: dict[str, object]) -> Needs:
    universe = value["universe"]
    rows = universe if isinstance(universe, list) else []
    return {
        (kind, name): (frozenset(provide), tuple(port for port, _ in require))
        for kind, states in rows
        for name, provide, require in states
    }


def told_doubles(plan: plans.Plan, value: dict[str, object]) -> list[Double]:
    needs = needs_of(value)
    first_of = dict(pair for pair in value["first"]) if isinstance(value["first"], list) else {}
    lives: dict[int, list[Action]] = {}
    for action in plan.actions:
        lane = lives.setdefault(action.instance, [])
        if isinstance(action, New | Move):
            lane.append(action)
    found = []
    for place, dup in enumerate(plan.dups[:MOST_DOUBLES]):
        kind, state = dup.pair.split(":")
        instance = len(lives) - len(plan.dups) + place
        own = lives.get(instance)
        name = f"{kind}#{instance}" if own and own[0].type == kind else kind
        events = [event_of(event, lives, first_of) for event in dup.cycle]
        found.append(Double(name, kind, state, tuple(told(events, number, needs) for number in range(len(events)))))
    return found


def event_of(event: str, lives: dict[int, list[Action]], first_of: dict[str, str]) -> Event:
    """An event as a plan writes it: `end`, or a life line and a step in it, of which the first is the making."""
    if event == "end":
        return Event("the end of the plan")
    found = EVENT.fullmatch(event)
    steps = lives.get(int(found[1]), []) if found else []
    number = int(found[2]) if found else 0
    if not steps or number > len(steps):
        return Event(event)
    kind, instance = steps[0].type, steps[0].instance
    states = [first_of.get(kind, ""), *(step.end for step in steps[1:] if isinstance(step, Move))]
    before = states[number - 1] if number else None
    if number == len(steps):
        return Event(f"delete {kind}#{instance}", None, instance, kind, before, None)
    action = steps[number]
    return Event(in_words(action), action.number - 1, instance, kind, before, states[number])


def told(events: Sequence[Event], number: int, needs: Needs) -> ToldEvent:
    event, other = events[number], events[(number + 1) % len(events)]
    following = str(number + 2) if number + 1 < len(events) else "1 again"
    return ToldEvent(event.text, event.place, f"waits for {following}{because(event, other, needs)}")


def because(event: Event, other: Event, needs: Needs) -> str:
    """Why an event has to wait for another one."""
    if event.instance is None or other.instance is None:
        return ""
    if event.instance == other.instance:
        return ", in its own order"

    def gives(one: Event, state: str | None) -> frozenset[str]:
        return needs.get((one.type, state or ""), (frozenset(), ()))[0]

    def wants(one: Event, state: str | None) -> tuple[str, ...]:
        return needs.get((one.type, state or ""), (frozenset(), ()))[1]

    given = [port for port in wants(event, event.after) if port in gives(other, other.after)]
    if given:
        port = next((each for each in given if each not in gives(other, other.before)), given[0])
        return f", which gives it {port}"
    used = [port for port in wants(other, other.before) if port in gives(event, event.before)]
    return f", until which {other.type}#{other.instance} uses its {used[0]}" if used else ""
