"""Steps of what stands that are to be done again: since their description has changed, or on demand since their commands have.

A mark says by which script its step was done. It says `by -` where the step is to be done again: the engine does that, side by
side with the rest and before anything goes away, and `status` and `log` tell of it as of any other step.
"""

from collections.abc import Iterable, Mapping

from metis_planner.carry.commands import Rule
from metis_planner.carry.folder import AGAIN, CHANGED_SINCE, DONE, STALE, Folder, Mark
from metis_planner.carry.steps import Step
from metis_planner.carry.turnover import Origin
from metis_planner.carry.writing import sync_folder, write_whole
from metis_planner.text.actions import Delete, Move, in_words

# Of a step without a command.
NO_SCRIPT = "by :"
ADVICE = "its command or description has changed since it was done: --again does it again"


def differing(rules: Iterable[tuple[Step, Rule | None]], marks: Mapping[str, Mark]) -> list[Step]:
    """The moves of what stands that were done by another script than they would be now, or whose states have changed since."""
    found = []
    gone = set()
    for step, rule in rules:
        mark = marks.get(step.key)
        if mark and isinstance(step.action, Delete):
            gone.add(step.action.instance)
        if not mark or not isinstance(step.action, Move) or not mark.more or mark.more == STALE or rule is None or rule.does_nothing:
            continue
        if mark.more == CHANGED_SINCE or mark.more not in (NO_SCRIPT, f"by {rule.sum}"):
            found.append(step)
    return [step for step in found if step.action.instance not in gone]


def stale(steps: Iterable[Step], marks: Mapping[str, Mark]) -> list[Step]:
    """The steps that are marked to be done again."""
    return [step for step in steps if step.key in marks and marks[step.key].more == STALE]


def mark_again(folder: Folder, steps: Iterable[Step]) -> None:
    """Marks steps that are done as to be done again. The folder's lock is held."""
    for step in steps:
        # What was done again before is so no longer, before the mark says that it is to be done once more.
        (folder.path / AGAIN / step.key).unlink(missing_ok=True)
        mark_by(folder, step.key, STALE)


def forget(folder: Folder) -> None:
    """Lets what was to be done again stay as it is."""
    with folder.held():
        for key in folder.stale():
            mark_by(folder, key, CHANGED_SINCE)


def mark_by(folder: Folder, key: str, more: str) -> None:
    """Writes a mark with this in the place of the sum of the script that did it; it is there as a whole at each moment."""
    path, fresh = folder.path / DONE / key, folder.path / f".mark.{key}"
    write_whole(fresh, str(Origin(key, path.read_text("utf-8", "surrogateescape")).by(more).mark))
    fresh.replace(path)
    sync_folder(path.parent)


def all_in_words(steps: Iterable[Step]) -> tuple[str, ...]:
    return tuple(in_words(step.action) for step in steps)
