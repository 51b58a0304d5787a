"""What a way on is found of: what stands in a folder, and what is wanted, by the names that types and states have now."""

import dataclasses
from collections.abc import Iterable, Mapping, Sequence
from typing import NamedTuple

from metis_planner.carry import forms, halfway
from metis_planner.carry.forms import REPLACED, Change
from metis_planner.carry.halfway import Half, Halves, Stopped
from metis_planner.carry.judging import Judge
from metis_planner.carry.named_wishes import Wishes
from metis_planner.carry.stands import Stands, paths_for, types_of
from metis_planner.carry.ways import Evolution
from metis_planner.text.actions import Action, Delete, Move, New, line_of
from metis_planner.text.configurations import Configuration, after


class Aim(NamedTuple):
    """What is to stand: targets in a description, and wishes; and new names of types and states, by the old ones."""

    universe: str
    targets: tuple[str, ...]
    wishes: Wishes = Wishes()
    names: Mapping[str, str] = {}


@dataclasses.dataclass
class Course:
    """What stands, and what is wanted, by the names of now; and what became clear of it so far."""

    stands: Stands
    aim: Aim
    judge: Judge
    first_free: int
    # Why some instances are beyond the description, and why some half-made ones do not go on.
    beyond: dict[int, str] = dataclasses.field(default_factory=dict)
    left: dict[int, str] = dataclasses.field(default_factory=dict)
    early: set[int] = dataclasses.field(default_factory=set)  # half-made ones that go on before anything takes from them anew

    def __post_init__(self) -> None:
        self.free = self.first_free
        self.types = types_of(self.aim.universe)
        self.names = forms.in_use(self.aim.names, self.types)
        steps, marks = self.stands.steps, self.stands.marks
        self.whole = forms.renamed([step.action for step in steps], self.names)
        self.done = forms.renamed(self.stands.done.actions, self.names)
        self.before = forms.renamed_types(self.stands.types, self.names)
        self.rest = tuple(action for action, step in zip(self.whole, steps) if step.key not in marks)

    @property
    def sources(self) -> dict[str, str]:
        return {self.names.get(kind, kind): source for kind, source in self.stands.sources.items()}

    def halves(self) -> Halves:
        """What of that which stands is half made, and what becomes of it."""
        kinds = {action.instance: action.type for action in self.whole if isinstance(action, New)}
        ends = {each: state for each, state in self.stands.ends.items() if each in kinds}
        noted = {each: self.names.get(f"{kinds[each]}:{state}", state) for each, state in ends.items()}
        steps = [dataclasses.replace(step, action=action) for step, action in zip(self.stands.steps, self.whole)]
        initial = {kind.name: kind.states[0].name for kind in self.before}
        ends = halfway.ends_in(steps, self.stands.marks, self.stands.begun, noted, initial)
        helpers = {action.instance for action in self.whole if isinstance(action, Delete)}
        stopped = Stopped(after(self.done, self.before), self.done, ends, kinds, helpers)
        return halfway.halves_in(stopped, self.before, self.types, self.left | self.beyond)

    def changes(self, there: Configuration) -> list[Change]:
        """What the description means for each instance that stands. What cannot be made any more by it is replaced."""
        return [
            each._replace(fate=REPLACED, why=each.why or self.beyond[each.instance]) if each.instance in self.beyond else each
            for each in forms.changes_in(there, self.types, self.before)
        ]

    def merged(self, there: Configuration, old: Sequence[Change]) -> tuple[str, dict[int, str]]:
        """The description with the old forms of these, and the names of their states in it."""
        return forms.merged(self.aim.universe, self.before, old, forms.unrequired(there, self.types), self.sources)

    def outcome(self, found: Evolution) -> tuple[dict[int, str], set[int]]:
        """The half-made instances that are left as they stand, since they cannot go on, or nobody would need them at their end.

        Those that only cannot go on behind a first way are tried in it before.
        """
        going, why = found.halves.going, found.halves.left
        early = {each for each in going if each in why and found.first and each not in self.early}
        unneeded = {each for each, half in going.items() if each not in found.end and not half.is_helper}
        again = {each: why.get(each, halfway.UNNEEDED) for each in going if each in why or each in unneeded}
        return {each: reason for each, reason in again.items() if each not in early}, early

    def paths(self, now: Configuration) -> dict[int, tuple[str, ...]]:
        return paths_for(self.done, self.before, now)

    def lines_now(self) -> dict[str, str]:
        """The lines of the folder's plan, by the names that types and states have now."""
        return {line_of(step.action): line_of(action) for step, action in zip(self.stands.steps, self.whole)}

    def number(self, actions: Iterable[Action]) -> None:
        """No number of these is used again."""
        self.free = max([self.free, *(action.instance + 1 for action in actions if isinstance(action, New))])

    def logs(self, going: Mapping[int, Half]) -> dict[int, dict[str, str]]:
        """The keys of the logs of what was begun of half-made instances, or is done again, by the lines as they read now."""
        kinds = {step.action.instance: step.action.type for step in self.stands.steps}
        found = {
            each: {renamed_line(line, kinds[each], self.names): key for line, key in own.items()}
            for each, own in self.stands.began.items()
            if each in going
        }
        for step, action in zip(self.stands.steps, self.whole):
            half = going.get(action.instance)
            if half is None or not isinstance(action, New | Move):
                continue
            if step.key in self.stands.begun or half.is_back and step.key in self.stands.marks:
                found.setdefault(half.instance, {})[line_of(action)] = step.key
        return found


def renamed_line(line: str, kind: str, names: Mapping[str, str]) -> str:
    """A line by which an instance of this type is made or moved, by the names of now."""
    match line.split(" "):
        case ["new", own, _]:
            return f"new {own} {names.get(kind, kind)}"
        case ["move", own, *states]:
            return " ".join(["move", own, *(names.get(f"{kind}:{state}", state) for state in states)])
    return line
