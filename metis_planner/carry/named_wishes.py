"""Wishes that name instances as people do (`rebind prom#0`, `rebind prom`, `rebind all`), by the numbers that the program wants."""

import re
from collections.abc import Iterable, Sequence
from typing import NamedTuple

from metis_planner.answers import Refused
from metis_planner.carry.forms import REPLACED, Change, by_name
from metis_planner.text import wishes
from metis_planner.text.configurations import Configuration
from metis_planner.text.documents import ComponentType

NAMED = re.compile(r"(keep|rebind|retire|pause|move|restart) (\S+?)(?:#([0-9]+))?( \S+)?")
NUMBERED = re.compile(r"(keep|rebind|retire) ([0-9]+)")
EVERYBODY = "rebind all"


class Wishes(NamedTuple):
    """What was wished: the text of a file, if there is one, what that is called, and lines that were said besides."""

    text: str | None = None
    name: str = ""
    lines: tuple[str, ...] = ()

    def all(self, more: Iterable[str] = ()) -> list[str]:
        """The lines of all that was wished."""
        return [*(self.text.split("\n")[1:-2] if self.text is not None else ()), *self.lines, *more]

    def check(self) -> None:
        given = ["", ""] if self.text is None else self.text.split("\n")
        if self.text is not None and (given[0] != wishes.HEAD or given[-2:] != ["end", ""]):
            raise Refused(f"{self.name}: wishes begin with the line '{wishes.HEAD}', and end with the line 'end'")

    def placed(self, reason: str) -> str:
        """A reason for a refusal, by the lines of the file. A line that was said besides is told by itself."""
        count = len(self.text.split("\n")) - 2 if self.text is not None else 1

        def line(found: re.Match[str]) -> str:
            return f"{self.name}:{found[1]}: " if int(found[1]) <= count else ""

        return re.sub(r"the wishes:(\d+): ", line, reason)


def numbered(wanted: Wishes, there: Configuration, more: Iterable[str], avoided: Iterable[str]) -> str:
    """The text of the wishes with numbers in place of names, and with what is to be avoided besides."""
    wanted.check()
    lines = [with_number(line, there) for line in wanted.all(more)]
    lines += [f"avoid {each}" for each in avoided]
    return "".join(f"{line}\n" for line in [wishes.HEAD, *with_everybody(lines, there), "end"])


def with_number(line: str, there: Configuration) -> str:
    found = NAMED.fullmatch(line)
    if not found or found[2].isdecimal() or found[2] == wishes.ALL:
        return line
    return f"{found[1]} {number_of(found[2], found[3], there, line)}{found[4] or ''}"


def number_of(kind: str, number: str | None, there: Configuration, line: str) -> int:
    """The instance that a wish names: TYPE#N, or TYPE where it is the only one."""
    own = sorted(each for each, it in there.instances.items() if it.type == kind)
    names = ", ".join(f"{kind}#{each}" for each in own)
    if number is None:
        if len(own) != 1:
            raise Refused(f"{line}: {f'there are {names}' if own else f'no {kind} stands'}")
        return own[0]
    found = there.instances.get(int(number))
    if found is None or found.type != kind:
        what = f"is a {found.type}" if found else "is not there"
        raise Refused(f"{line}: instance {number} {what}; there {'are ' + names if own else 'is none of ' + kind}")
    return int(number)


def with_everybody(lines: Sequence[str], there: Configuration) -> list[str]:
    """The lines, where `rebind all` stands for each instance that takes from one that goes, and is named by no other line."""
    if EVERYBODY not in lines:
        return list(lines)
    named = {int(found[2]) for line in lines if (found := NUMBERED.fullmatch(line))}
    going = {int(found[2]) for line in lines if (found := NUMBERED.fullmatch(line)) and found[1] == "retire"}
    avoided = {line.split(" ")[1] for line in lines if line.startswith("avoid ")}
    going |= {each for each, it in there.instances.items() if it.type in avoided or f"{it.type}:{it.state}" in avoided}
    users = sorted({own for _, own, to in there.bindings if to in going and own not in going | named})
    return [*(line for line in lines if line != EVERYBODY), *(f"rebind {each}" for each in users)]


def check_users(there: Configuration, changes: Iterable[Change], text: str) -> None:
    """Refuses where something takes from an instance of an old form that goes, and nothing is said of it."""
    old = {change.instance: change for change in changes if change.fate == REPLACED}
    said = {int(found[2]) for line in text.split("\n") if (found := NUMBERED.fullmatch(line))}
    for port, own, to in sorted(there.bindings):
        if to in old and own not in old and own not in said and there.required(own, port):
            name = f"{there.instances[own].type}#{own}"
            raise Refused(
                f"{old[to].who} is replaced ({old[to].why}), and {name} takes {port} from it: say --wish 'rebind {name}' if "
                f"{name} may be bound to the new one, or --wish 'retire {name}' if it is to be made anew, too"
            )


def fewer(
    there: Configuration, changed: Iterable[Change], types: Sequence[ComponentType], targets: Sequence[str]
) -> list[str]:
    """Wishes by which those go of which a changed description asks for fewer: the last ones, if nobody else needs them."""
    used, spare = uses(there, {change.instance for change in changed}, types)
    named = {each for each, it in there.instances.items() if f"{it.type}:{it.state}" in targets}
    going = [to for to in sorted(spare) if to not in used | named]
    users = {one for to in going for one in spare[to]}
    return [*(f"retire {each}" for each in going), *(f"rebind {each}" for each in sorted(users))]


def uses(there: Configuration, changed: set[int], types: Sequence[ComponentType]) -> tuple[set[int], dict[int, set[int]]]:
    """The instances that others need, and those that changed ones have to spare, with these."""
    forms_of = by_name(types)
    used: set[int] = set()
    spare: dict[int, set[int]] = {}
    for instance, it in there.instances.items():
        state = forms_of[it.type].get(str(it.state))
        for port, count in (state.require if state else {}).items():
            providers = sorted(to for at, one, to in there.bindings if (at, one) == (port, instance))
            for place, to in enumerate(providers):
                if place >= count and instance in changed:
                    spare.setdefault(to, set()).add(instance)
                else:
                    used.add(to)
    return used, spare
