"""Takes marks back: what is left is a part of the plan, so that all that is proved of parts holds, and make goes on from there."""

from collections.abc import Sequence
from typing import assert_never

from metis_planner.carry.folder import DONE, Folder
from metis_planner.carry.steps import Step
from metis_planner.carry.writing import sync_folder
from metis_planner.text.actions import Bind, Delete, Move, New, Unbind


def with_followers(steps: Sequence[Step], done: set[str], numbers: set[int], going: frozenset[int] = frozenset()) -> list[Step]:
    """The steps of these numbers, and all that is done and waited for one of them, in the order of the plan.

    If one of these needs an instance that was deleted since, nothing of that is there: all of its steps are among them too.
    """
    own = [step for step in steps if step.key in done]
    gone = {step.action.instance for step in own if isinstance(step.action, Delete)} | going
    found: set[int] = set()
    more = set(numbers)
    while not more <= found:
        found |= more
        for step in own:
            if found.intersection(step.waits):
                found.add(step.action.number)
        needed = {instance for step in own if step.action.number in found for instance in needed_by(step)}
        more = {step.action.number for step in own if step.action.instance in gone & needed}
    return [step for step in own if step.action.number in found]


def needed_by(step: Step) -> set[int]:
    """The instances that have to be there for a step. To let one go or to delete it again, it need not be."""
    action = step.action
    match action:
        case Unbind() | Delete():
            return set()
        case Bind():
            return {action.instance, action.provider}
        case New() | Move():
            return {action.instance, *(bound.instance for bound in step.bound)}
        case _:
            assert_never(action)


def take_back(folder: Folder, steps: Sequence[Step]) -> None:
    """Takes these marks away, the last one first, so that what is left is a part of the plan at each moment."""
    for step in reversed(steps):
        (folder.path / DONE / step.key).unlink(missing_ok=True)
    sync_folder(folder.path / DONE)
