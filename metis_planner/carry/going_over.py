"""How a folder goes over to a list of what stands, with the marks and logs of the steps that the list has too."""

import pathlib
import tempfile
from collections.abc import Iterable, Mapping, Sequence

from metis_planner.answers import Refused
from metis_planner.carry import turnover
from metis_planner.carry.ahead import UNIVERSE
from metis_planner.carry.folder import CHANGED_SINCE, ENDS, FREE, NAMES, STALE, Folder, Mark, mark_in, written
from metis_planner.carry.fronts import began
from metis_planner.carry.judging import Judge
from metis_planner.carry.rebase import Means, NoList, paths_in, rebased
from metis_planner.carry.stands import Stands, first_free, stands_in
from metis_planner.carry.steps import Step, name_of, steps_of
from metis_planner.carry.turnover import Origin
from metis_planner.carry.ways import Way
from metis_planner.text import plans
from metis_planner.text.actions import Delete, Move, New
from metis_planner.text.configurations import after


def compacted(stands: Stands, universe: str, judge: Judge, free: int) -> Way:
    """The list of what stands, without what is gone."""
    there = after(stands.done.actions, stands.types)
    paths = paths_in(stands.done.actions, {kind.name: kind for kind in stands.types})
    found = rebased(stands.types, there, paths, Means(judge.helpers(universe), free))
    if after(found.actions, stands.types).bindings != there.bindings:
        raise NoList("it leaves other bindings")
    plan = plans.plan_of(judge.replayed(universe, found.actions), "what stands")
    return Way(universe, plan, len(plan.actions))


def known_of(stands: Stands, way: Way, steps: Sequence[Step], names: Mapping[str, str] | None) -> dict[str, Origin]:
    """What is known of each step of a list, by what stands; `names` has what a line of that reads now."""
    known = turnover.origins(stands.steps, stands.marks, steps, way.done, names)
    for instance, own in way.logs.items():
        known |= begun_of(own, [step for step in steps[way.done :] if step.action.instance == instance], instance)
    return known | marked_again(known, steps[: way.done], way)


def marks_of(known: Mapping[str, Origin]) -> dict[str, Mark]:
    """The marks that steps will have."""
    return {key: mark_in(origin.mark) for key, origin in known.items() if origin.mark is not None}


def go_over(folder: Folder, stands: Stands, way: Way, names: Mapping[str, str] | None = None) -> None:
    """The folder goes over to this list. Its lock is held."""
    steps = steps_of(way.plan, "the way on")
    known = known_of(stands, way, steps, names)
    free = max([first_free(folder), *(step.action.instance + 1 for step in steps if isinstance(step.action, New))])
    files = {UNIVERSE: way.universe, NAMES: names_in(folder, stands, way), ENDS: ends_in(way), FREE: f"{free}\n"}
    turnover.turn_to(folder, written(way.plan), way.rollouts, known, files)


def marked_again(known: Mapping[str, Origin], steps: Iterable[Step], way: Way) -> dict[str, Origin]:
    """The marks of the steps that are to be done again, or whose states have changed since they were done."""
    found = {}
    for step in steps:
        action = step.action
        if isinstance(action, Move) and (place := (action.instance, action.end)) in way.stale | way.passed:
            found[step.key] = known[step.key].by(STALE if place in way.stale else CHANGED_SINCE)
    return found


def names_in(folder: Folder, stands: Stands, way: Way) -> str:
    """The names of instances of the list that were made when their type had another one."""
    there = {action.instance: action.type for action in way.plan.actions if isinstance(action, New)}
    named = {each: name for each, name in folder.names().items() if each in there}
    for step in stands.steps:
        instance, kind = step.action.instance, step.action.type
        if isinstance(step.action, New) and instance in there and there[instance] != kind:
            named.setdefault(instance, name_of(kind, instance))
    return "".join(f"{each} {name}\n" for each, name in sorted(named.items()))


def ends_in(way: Way) -> str:
    """The ends of half-made instances of which the list says nothing, and the lines of what was begun of them."""
    found = []
    for each, state in sorted(way.ends.items()):
        found += [f"{each} {state}\n", *(f"{each}.{place} {line}\n" for place, line in enumerate(way.logs.get(each, ())))]
    return "".join(found)


def begun_of(own: Mapping[str, str], steps: Sequence[Step], instance: int) -> dict[str, Origin]:
    """Where the logs of what was begun of an instance go: to the same steps, else to its first one, else they are kept."""
    ways = [step for step in steps if isinstance(step.action, New | Move)]
    found = {step.key: own[step.line] for step in ways if step.line in own}
    if not ways:
        found = {began(instance, place): key for place, key in enumerate(own.values())}
    elif not found:
        found = {ways[0].key: list(own.values())[-1]}
    return {place: Origin(key, None) for place, key in found.items()}


def has_gone(stands: Stands | None) -> bool:
    """Whether something of the list is gone."""
    return stands is not None and any(isinstance(action, Delete) for action in stands.done.actions)


def without_the_gone(folder: Folder) -> bool:
    """Makes the folder's list one of what stands, if an instance of it is gone: what is taken back must not make it again.

    What of the plan is not done yet is not in the list then; `metis up` plans it anew.
    """
    from metis_planner.carry.exporting import kept_commands, written_again

    with folder.held():
        stands = stands_in(folder)
    if stands is None or not has_gone(stands) or kept_commands(folder) is None:
        return False
    universe = (folder.path / UNIVERSE).read_text(errors="surrogateescape")
    with tempfile.TemporaryDirectory(prefix="metis-list-") as name:
        try:
            way = compacted(stands, universe, Judge(pathlib.Path(name)), first_free(folder))
        except NoList as why:
            raise Refused(f"{folder.path}: something of its plan is gone, and no list without it was found: {why}") from why
        with folder.held():
            go_over(folder, stands, way)
        written_again(folder, way, pathlib.Path(name))
    return True
