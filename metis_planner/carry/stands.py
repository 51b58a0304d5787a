"""What stands in a folder that `up` wrote: by the plan in it, by its marks, and by the universe that was kept with it."""

import dataclasses
import json
import re
from collections.abc import Iterable, Mapping, Sequence
from typing import NamedTuple

from metis_planner.carry.folder import FREE, PAST, PLAN, UNIVERSE, Folder, Mark, part_of
from metis_planner.carry.rebase import paths_in, without_loops
from metis_planner.carry.steps import Step
from metis_planner.text import plans
from metis_planner.text.actions import Action, New, with_numbers
from metis_planner.text.configurations import Configuration, Standing
from metis_planner.text.documents import ComponentType
from metis_planner.text.reading import read_text
from metis_planner.text.universes import types_in

NEW_LINE = re.compile(r"^[0-9]+ new ([0-9]+) ", re.MULTILINE)


class Stands(NamedTuple):
    """What stands in a folder: the steps and marks of its plan, the part of it that is done, and the universe of these."""

    steps: tuple[Step, ...]
    marks: Mapping[str, Mark]
    done: plans.Plan
    types: tuple[ComponentType, ...]
    sources: Mapping[str, str] = {}  # what types are called where an importer read of them
    begun: frozenset[str] = frozenset()  # the keys of steps that were begun and are not done
    ends: Mapping[int, str] = {}  # of half-made instances of which the plan says nothing
    began: Mapping[int, Mapping[str, str]] = {}  # and the logs of what was begun of them, by lines

    def when_done(self) -> "Stands":
        """What stands when all of the plan is done."""
        marks = {step.key: self.marks.get(step.key, Mark(step.line, "", "")) for step in self.steps}
        done = part_of(self.steps, {step.key for step in self.steps})
        return self._replace(marks=marks, done=done, begun=frozenset())


def types_of(universe: str) -> tuple[ComponentType, ...]:
    return types_in(universe.encode("utf-8", "surrogateescape"), "the universe")


def sources_of(universe: str) -> dict[str, str]:
    """What types are called where an importer read of them, for those of a universe that say it."""
    types = json.loads(universe).get("types", ())
    return {kind["name"]: kind["source"] for kind in types if isinstance(kind.get("source"), str)}


def stands_in(folder: Folder) -> Stands | None:
    """What stands in a folder that `up` wrote; nothing if nothing is done or begun, or the universe was not kept."""
    path = folder.path / UNIVERSE
    if not folder.has_plan() or not path.is_file():
        return None
    steps = folder.steps()
    done = folder.done(steps)
    begun = frozenset(step.key for step in folder.begun(steps, done))
    if not done and not begun:
        return None
    text = path.read_text(errors="surrogateescape")
    types, marks = types_of(text), folder.marks()
    return Stands(steps, marks, part_of(steps, done), types, sources_of(text), begun, folder.ends(), folder.began())


def first_free(folder: Folder) -> int:
    """A number that no instance of the folder has or ever had, so that no name is used twice."""
    path = folder.path / FREE
    found = [int(read_text(str(path))) - 1] if path.is_file() else [-1]
    for plan in (folder.path / PLAN, *(folder.path / PAST).glob(f"*/{PLAN}")):
        found += map(int, NEW_LINE.findall(read_text(str(plan), plans.MOST_BYTES)))
    return max(found) + 1


def renumbered(actions: Sequence[Action], old: int, free: int) -> tuple[Action, ...]:
    """The actions, of which those behind the first ones make instances under numbers that nobody ever had."""
    made = [action.instance for action in actions[old:] if isinstance(action, New)]
    number_of = {instance: free + place for place, instance in enumerate(made)}
    return (*actions[:old], *(with_numbers(action, number_of) for action in actions[old:]))


def in_order(actions: Iterable[Action]) -> tuple[Action, ...]:
    """Actions with their numbers, and without what they wait for."""
    return tuple(dataclasses.replace(action, number=number, after=()) for number, action in enumerate(actions, 1))


def in_forms(there: Configuration, types: Sequence[ComponentType], states: Mapping[int, str]) -> Configuration:
    """The same instances and bindings, of which some have another state by now."""
    found = Configuration(tuple(types))
    found.instances = {each: Standing(it.type, states.get(each, it.state)) for each, it in there.instances.items()}
    found.bindings = set(there.bindings)
    return found


def paths_for(done: Iterable[Action], types: Sequence[ComponentType], now: Configuration) -> dict[int, tuple[str, ...]]:
    """The path of each instance, which ends in the state that it is to have."""
    found = paths_in(done, {kind.name: kind for kind in types})
    return {each: without_loops((*path[:-1], str(now.instances[each].state))) for each, path in found.items()}
