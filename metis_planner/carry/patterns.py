"""Which step of a commands file an action has: the first that fits, where `*` stands for any part of one name."""

import difflib
import re
from collections.abc import Iterable, Sequence
from typing import assert_never

from metis_planner.answers import Refused
from metis_planner.carry.possible import PossibleActions
from metis_planner.text import plans
from metis_planner.text.actions import Action, Bind, Delete, Move, New, Unbind

PART = r"[A-Za-z0-9_./@*-]+"
WHEN = re.compile(
    rf"(?P<type>{PART}): (?:(?P<verb>new|delete)|(?P<bind>bind|unbind) (?P<port>{PART})(?: from (?P<provider>{PART}))?"
    rf"|(?P<state>{PART}) -> (?P<next>{PART}))"
)
FORMS = (
    "'TYPE: new', 'TYPE: delete', 'TYPE: STATE -> STATE', 'TYPE: bind PORT', 'TYPE: unbind PORT', nor one of the last two "
    "with 'from TYPE' behind it"
)
ANYTHING = r"[A-Za-z0-9_./@-]*"


def subject(action: Action) -> str:
    """The text with which patterns are compared."""
    match action:
        case New() | Delete():
            return f"{action.type}: {action.verb}"
        case Move():
            return f"{action.type}: {action.start} -> {action.end}"
        case Bind() | Unbind():
            return f"{action.type}: {action.verb} {action.port} from {action.provider_type}"
        case _:
            assert_never(action)


def compiled(text: str) -> re.Pattern[str]:
    """Each `*` but the last stands for as little as it can, once and for all: so no pattern takes long."""
    first, *others = [re.escape(part) for part in text.split("*")]
    if not others:
        return re.compile(first)
    middle = "".join(f"(?>{ANYTHING}?{each})" for each in others[:-1])
    return re.compile(f"{first}{middle}{ANYTHING}{others[-1]}")


def matching(part: str, names: Iterable[str]) -> list[str]:
    """Those of some names for which a part of a pattern stands."""
    return list(filter(compiled(part).fullmatch, names)) if "*" in part else [name for name in names if name == part]


class Patterns:
    """The patterns of a commands file. Those without `*` are looked up, so that many cost no more than a few."""

    def __init__(self, whens: Sequence[str]) -> None:
        self.found: list[re.Match[str]] = []
        self.exact: dict[str, int] = {}
        self.starred: list[tuple[int, re.Pattern[str]]] = []
        for place, when in enumerate(whens):
            found = WHEN.fullmatch(when)
            if not found:
                raise Refused(f"step {place + 1}: {plans.shown(when)} is no {FORMS}")
            self.found.append(found)
            if "*" in when:
                is_of_any = found["bind"] and not found["provider"]
                self.starred.append((place, compiled(f"{when} from *" if is_of_any else when)))
            elif self.exact.setdefault(when, place) != place:
                raise Refused(f"step {place + 1}: step {self.exact[when] + 1} is for {when} already")

    def first(self, text: str) -> int | None:
        """The place of the first pattern that fits a subject."""
        found = [self.exact[each] for each in (text, text.rpartition(" from ")[0]) if each in self.exact]
        least = min(found, default=None)
        for place, pattern in self.starred:
            if least is not None and place > least:
                break
            if pattern.fullmatch(text):
                return place
        return least

    def check_fits(self, possible: PossibleActions) -> None:
        """Refuses a pattern that fits nothing that may happen, with what was meant perhaps."""
        for place, found in enumerate(self.found):
            if possible.has_universe and not may_happen(found, possible):
                raise Refused(f"step {place + 1} ({found[0]}) fits nothing in the universe{near(found[0], possible)}")
            if not possible.has_universe and names_nothing(found, possible):
                advice = "--universe FILE says what else there is, and --lax takes it"
                raise Refused(f"step {place + 1} ({found[0]}) fits nothing in the plan{near(found[0], possible) or f': {advice}'}")


def near(when: str, possible: PossibleActions) -> str:
    """What was meant perhaps by a step that fits nothing."""
    words = difflib.get_close_matches(when, [each for each in possible.subjects() if each != when], 1, 0.6)
    return f"; did you mean {words[0]}?" if words else ""


def names_nothing(found: re.Match[str], possible: PossibleActions) -> bool:
    """Whether a name in a pattern is none of the plan's. What a plan does not do may happen all the same, so no more is asked."""
    kind = found["type"]
    kinds = matching(kind, possible.moves)
    states = {state for each in kinds for move in possible.moves[each] for state in move}
    ports = {port for each in kinds for port in possible.required[each]}
    named = [(kind, kinds), (found["provider"], possible.moves), (found["port"], ports)]
    named += [(found["state"], states), (found["next"], states)]
    return any(part is not None and "*" not in part and part not in known for part, known in named)


def fits_something(when: str, possible: PossibleActions) -> bool:
    """Whether a pattern is for something that may happen; where only a plan is known, for a type of it."""
    found = WHEN.fullmatch(when)
    assert found is not None
    if possible.has_universe:
        return may_happen(found, possible)
    return bool(matching(found["type"], possible.moves)) and not names_nothing(found, possible)


def may_happen(found: re.Match[str], possible: PossibleActions) -> bool:
    kind = found["type"]
    kinds = matching(kind, possible.moves) if "*" in kind else [kind] if kind in possible.moves else []
    if found["verb"]:
        return bool(kinds)
    if found["bind"]:
        provider = found["provider"] or "*"
        ports = {port for each in kinds for port in matching(found["port"], possible.required[each])}
        return any(matching(provider, possible.providers.get(port, ())) for port in ports)
    state, after = compiled(found["state"]), compiled(found["next"])
    moves = (move for each in kinds for move in possible.moves[each])
    return any(state.fullmatch(one) and after.fullmatch(other) for one, other in moves)
