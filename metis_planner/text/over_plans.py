"""Reads what Metis prints of a plan, in the plan's numbers: when its actions may start, and where its instances are."""

import dataclasses
import re
from collections.abc import Callable
from typing import NoReturn, TypeVar

from metis_planner.answers import Refused
from metis_planner.text import plans
from metis_planner.text.actions import Action, New
from metis_planner.text.reading import read_text

# No number of Metis is longer: times are sums of durations of up to a million.
NUMBER = "[0-9]{1,18}"
AT = re.compile(rf"({NUMBER}) at ({NUMBER}) to ({NUMBER})")
FINISH = re.compile(rf"finish ({NUMBER})")
CHAIN = re.compile(rf"chain((?: {NUMBER})*)")
ON = re.compile(rf"on ({NUMBER}) ([A-Za-z0-9_./@-]+)")
HOLD = re.compile(rf"hold ({NUMBER}) after ({NUMBER}(?: {NUMBER})*)")
NO_ROOM = re.compile(rf"noroom ({NUMBER}) size ({NUMBER}) free ({NUMBER})")


@dataclasses.dataclass(frozen=True)
class Schedule:
    """When the actions of a plan may start, at the earliest and at the latest, when all is done, and what takes that long."""

    plan: plans.Plan
    starts: tuple[tuple[int, int], ...]
    finish: int
    chain: tuple[int, ...]


@dataclasses.dataclass(frozen=True)
class Placement:
    """The host of each instance of a plan, and what actions wait for besides."""

    plan: plans.Plan
    host_of: dict[int, str]
    holds: dict[int, tuple[int, ...]]


@dataclasses.dataclass(frozen=True)
class NoRoom:
    """The action that makes an instance of this size, where no host has more than so much room."""

    action: Action
    size: int
    free: int


def refuse(line: int, reason: str) -> NoReturn:
    raise plans.NoText(f"line {line}: {reason}")


def action_at(plan: plans.Plan, number: int, line: int) -> Action:
    if not 1 <= number <= len(plan.actions):
        refuse(line, f"the plan has no action {number}")
    return plan.actions[number - 1]


def read_schedule(lines: list[str], plan: plans.Plan) -> Schedule:
    """What `waves` prints over a plan: a line for each of its actions, and then two more."""
    count = len(plan.actions)
    if len(lines) != count + 2:
        refuse(len(lines), f"{len(lines)} lines, where the plan has {count} actions, and two lines follow them")
    starts = []
    for number, text in enumerate(lines[:count], 1):
        found = AT.fullmatch(text)
        if not found or int(found[1]) != number:
            refuse(number, f"not '{number} at E to L'")
        starts.append((int(found[2]), int(found[3])))
    finish, chain = FINISH.fullmatch(lines[count]), CHAIN.fullmatch(lines[count + 1])
    if not finish:
        refuse(count + 1, "not 'finish T'")
    if not chain:
        refuse(count + 2, "not 'chain' and the numbers of actions")
    numbers = tuple(map(int, chain[1].split()))
    for number in numbers:
        action_at(plan, number, count + 2)
    return Schedule(plan, tuple(starts), int(finish[1]), numbers)


def read_placement(lines: list[str], plan: plans.Plan) -> Placement:
    """What `place` prints over a plan: a line for each of its instances, one for each action that is held, and the count."""
    made, host_of, holds = [each.instance for each in plan.actions if isinstance(each, New)], {}, {}
    for line, (text, instance) in enumerate(zip(lines, made), 1):
        found = ON.fullmatch(text)
        if not found or int(found[1]) != instance:
            refuse(line, f"not 'on {instance} HOST', as the plan makes its instances")
        host_of[instance] = found[2]
    for line, text in enumerate(lines[len(made) : -1], len(made) + 1):
        found = HOLD.fullmatch(text)
        if not found:
            refuse(line, "not 'hold K after' and the numbers of actions")
        numbers = tuple(map(int, found[2].split(" ")))
        for number in (int(found[1]), *numbers):
            action_at(plan, number, line)
        if max(numbers) >= int(found[1]):
            refuse(line, f"action {found[1]} cannot wait for a later one")
        holds[int(found[1])] = numbers
    if len(lines) <= len(made) or not re.fullmatch(f"placed {len(made)} hosts [0-9]+", lines[-1]):
        refuse(len(lines), f"not 'placed {len(made)} hosts H'")
    return Placement(plan, host_of, holds)


def read_no_room(lines: list[str], plan: plans.Plan) -> NoRoom:
    found = NO_ROOM.fullmatch(lines[0])
    if not found or len(lines) > 1:
        refuse(1, "not 'noroom K size S free F' alone")
    return NoRoom(action_at(plan, int(found[1]), 1), int(found[2]), int(found[3]))


# How the text of an answer over a plan begins, with its reader.
OF_A_PLAN: tuple[tuple[re.Pattern[str], Callable[[list[str], plans.Plan], Schedule | Placement | NoRoom]], ...] = (
    (re.compile(r"1 at |finish "), read_schedule),
    (re.compile(r"on |placed "), read_placement),
    (re.compile(r"noroom "), read_no_room),
)


def is_over_a_plan(text: str) -> bool:
    return any(begins.match(text) for begins, _ in OF_A_PLAN)


Answer = TypeVar("Answer", Schedule, Placement)


def read_over(path: str, plan: plans.Plan, form: type[Answer]) -> Answer:
    """The schedule or the placement of this plan in a file."""
    text = read_text(path, plans.MOST_BYTES)
    wanted = f"{path}: not what `metis {'waves' if form is Schedule else 'place'}` prints for this plan"
    if not is_over_a_plan(text):
        raise Refused(wanted)
    try:
        found = read(text, plan)
    except plans.NoText as fault:
        raise Refused(f"{path}: {fault}") from fault
    if not isinstance(found, form):
        raise Refused(wanted)
    return found


def read(text: str, plan: plans.Plan) -> Schedule | Placement | NoRoom:
    """What a text of `waves` or `place` says of the plan."""
    reader = next(reader for begins, reader in OF_A_PLAN if begins.match(text))
    if not text.endswith("\n"):
        refuse(text.count("\n") + 1, "the text ends inside a line")
    return reader(text.split("\n")[:-1], plan)
