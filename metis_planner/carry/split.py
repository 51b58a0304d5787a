"""Gives up a rollout that stopped: what it has made so far gets a folder of its own, to be taken down there, and the
old stays.

`metis rollout UNIVERSE NEW/plan.txt` is the plan for that. What is new takes nothing from the old, so each part is a
plan.
"""

import argparse
import pathlib
import shutil
from collections.abc import Iterable, Sequence

from metis_planner.answers import Answer, Refused
from metis_planner.carry.engines import ENGINES
from metis_planner.carry.folder import DONE, LOG, PLAN, Folder, part_of, written
from metis_planner.carry.steps import Step
from metis_planner.carry.writing import write_whole
from metis_planner.text import plans


def add_arguments(parser: argparse.ArgumentParser) -> None:
    parser.add_argument("folder", metavar="FOLDER", help="where a rollout stopped")
    parser.add_argument("new", metavar="NEW", help="a folder that is not there yet, for what the rollout has made")


def run(arguments: argparse.Namespace) -> Answer:
    folder, new = Folder(arguments.folder), Folder(arguments.new)
    plan, steps = folder.plan(), folder.steps()
    with folder.held():
        done = folder.done(steps)
        rollouts = folder.rollouts(len(steps))
        if not rollouts:
            raise Refused(f"{folder.path}: its plan is no rollout")
        old, fresh_end = rollouts[-1].old, rollouts[-1].fresh
        check_parts(folder, steps, old, fresh_end, done)
        names = [name for step in steps[old:] for name in names_of(step)]
        write_new(folder, new, names, written(part_of(steps[old:], done)))
        folder.drop_files(ENGINES.files())
        # From here on the marks of what is new count no more, also if this is ended before they are gone.
        kept = written(plans.Plan(plan.actions[:old], ()))
        folder.part_with(names, kept)
        # The shorter plan comes first: a rollout that goes on from all of it is none, and without it the longer one would be one.
        write_whole(folder.path / PLAN, kept)
        folder.write_plan(kept, rollouts[:-1])
        folder.finish_parting()
    made = sum(step.key in done for step in steps[old:])
    return Answer("", [f"{made} actions are in {new.path}, and {folder.path} has its {old} old ones: export both anew"])


def check_parts(folder: Folder, steps: Sequence[Step], old: int, fresh_end: int, done: set[str]) -> None:
    """Refuses where the old is not whole any more, or is needed by what is new."""
    removed = steps[fresh_end:]
    if any(step.key in done for step in removed) or folder.begun(removed, done):
        raise Refused(f"{folder.path}: what is old is being taken away already; go on instead")
    for step in steps[old:fresh_end]:
        if any(number <= old for number in step.waits):
            raise Refused(
                f"{folder.path}: action {step.action.number} takes from what is old, so the two cannot be parted; "
                "`metis up` with the targets of before goes back"
            )


def names_of(step: Step) -> tuple[str, ...]:
    """The files that a folder may have of a step."""
    return (f"{DONE}/{step.key}", f"{LOG}/{step.key}", f"{LOG}/{step.key}.sh")


def write_new(folder: Folder, new: Folder, names: Iterable[str], plan: str) -> None:
    """The folder of what is new, as a whole or not at all."""
    new.check_empty()
    with new.made():
        for name in names:
            if (folder.path / name).exists():
                copy(folder.path / name, new.path / name)
        new.write_plan(plan, ())


def copy(source: pathlib.Path, target: pathlib.Path) -> None:
    try:
        shutil.copy2(source, target)
    except OSError as fault:
        raise Refused(f"{target}: {fault.strerror}") from fault
