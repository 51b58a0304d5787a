"""Moves a folder from one list of actions to another one that leaves the same, so that at no moment a mark is lost or doubled.

All that is new is written beside the old, in `next`. Then one renaming, of `next` to `turn`, decides: before it a folder has its
old list, and from it on the new one, since whoever looks at the folder first puts each part into its place. What was there goes
to a folder of its own in `past`, where `status`, `log`, `done` and `gantt` read it as before. No step can be done meanwhile: the
folder's lock is held, what engines read is gone before the renaming, and `run` wants the file `export`, which is gone too.
"""

import os
import pathlib
import shutil
from collections.abc import Iterable, Mapping, Sequence
from typing import NamedTuple

from metis_planner.carry import folder as folders
from metis_planner.carry.engines import ENGINES
from metis_planner.carry.folder import AGAIN, DONE, LOG, NO_HOST, NUMBER, PAST, TURN, Folder, Mark
from metis_planner.carry.rollouts import Rollout
from metis_planner.carry.steps import Step
from metis_planner.carry.writing import sync_folder

NEXT = "next"
# Those of what was done, when, and on which host; behind them stands by what.
LINES_OF_A_MARK = 3


class Origin(NamedTuple):
    """Where what is known of a step comes from: the key under which it was done or begun before, and its mark, if it is done."""

    key: str | None
    mark: str | None

    def by(self, more: str) -> "Origin":
        """The same, with this in the place of the sum of the script that did it."""
        lines = (self.mark or "").split("\n")[:LINES_OF_A_MARK]
        return self._replace(mark="\n".join([*lines, more, ""]))


def origins(
    before: Sequence[Step],
    marks: Mapping[str, Mark],
    after: Sequence[Step],
    done: int,
    names: Mapping[str, str] | None = None,
) -> dict[str, Origin]:
    """What is known of each step of the new list, of which the first ones, as many as `done` says, are done.

    A step of it is an earlier one if both are the same action of the same instance; `names` has what an earlier line reads now.
    """
    last: dict[tuple[int, str], str] = {}
    where: dict[int, str] = {}
    for step in before:
        place = (step.action.instance, (names or {}).get(step.line, step.line))
        mark = marks.get(step.key)
        if mark and mark.host:
            where[step.action.instance] = f"{mark.host} {mark.address}"
        if mark or place not in last:
            last[place] = step.key
    found = {}
    for place_of, step in enumerate(after):
        key = last.get((step.action.instance, step.line))
        is_done = place_of < done
        if is_done != (key in marks):
            key = None
        mark = marks[key] if is_done and key else None
        own = where.get(step.action.instance, f" {NO_HOST}")
        found[step.key] = Origin(key, mark_text(step, mark, own) if is_done else None)
    return found


def mark_text(step: Step, mark: Mark | None, where: str) -> str:
    """The mark of a step that is done, by that of the step which did it, if there is one. What never was anywhere has no host."""
    text = f"{step.line}\n{mark.times if mark else ''}\non {where}\n"
    return f"{text}{mark.more}\n" if mark and mark.more else text


def write(path: pathlib.Path, text: str) -> None:
    with open(path, "w", encoding="utf-8", errors="surrogateescape") as file:
        file.write(text)
        file.flush()
        os.fsync(file.fileno())


def prepare(
    folder: Folder, plan: str, rollouts: Iterable[Rollout], known: Mapping[str, Origin], files: Mapping[str, str]
) -> None:
    """Writes all that is new beside what is there."""
    fresh = folder.path / NEXT
    shutil.rmtree(fresh, ignore_errors=True)
    for each in (fresh, fresh / DONE, fresh / LOG, fresh / AGAIN):
        each.mkdir(mode=0o700)
    for key, origin in known.items():
        if origin.mark is not None:
            write(fresh / DONE / key, origin.mark)
        for end in ("", ".sh") if origin.key else ():
            old = folder.path / LOG / f"{origin.key}{end}"
            if old.is_file():
                shutil.copy2(old, fresh / LOG / f"{key}{end}")
    (folder.path / PAST).mkdir(mode=0o700, exist_ok=True)
    write(fresh / NUMBER, f"{int((folder.past() or ['0'])[-1]) + 1}\n")
    write(fresh / folders.ROLLOUTS, "".join(f"{each.old} {each.fresh} {each.end}\n" for each in rollouts))
    write(fresh / folders.PLAN, plan)
    for name, text in files.items():
        write(fresh / name, text)
    for each in (fresh / DONE, fresh / LOG, fresh / AGAIN, fresh):
        sync_folder(each)


def turn_to(
    folder: Folder, plan: str, rollouts: Iterable[Rollout], known: Mapping[str, Origin], files: Mapping[str, str] | None = None
) -> None:
    """Goes over to a new list, and to these files that belong to it. The folder's lock is held."""
    folder.note_format()
    prepare(folder, plan, rollouts, known, files or {})
    (folder.path / folders.EXPORT).unlink(missing_ok=True)
    folder.drop_files(ENGINES.files())
    sync_folder(folder.path)
    (folder.path / NEXT).rename(folder.path / TURN)
    sync_folder(folder.path)
    folder.put_in_place()
