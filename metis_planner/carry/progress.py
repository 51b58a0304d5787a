"""How far a folder is: what is done, runs, failed, is ready or waits, and the least time that is left.

Nothing is locked for it. Whether a step runs is read from /proc/locks, by the file of its log: to try that lock, even for a moment,
would make a step that begins just then end with status 75.
"""

import dataclasses
import enum
import os
import pathlib
import re
import statistics
import time
from collections.abc import Iterable, Mapping, Sequence

from metis_planner.answers import Refused
from metis_planner.carry.folder import LOG, STALE, Folder, Mark, is_filled
from metis_planner.carry.rollouts import Rollout, again_before, barrier_of
from metis_planner.carry.steps import Step, who
from metis_planner.text import plans
from metis_planner.text.actions import Delete, Move, Unbind, in_words

LOCKS = pathlib.Path("/proc/locks")
HELD = re.compile(r"\d+: FLOCK +\S+ +WRITE +\d+ ([0-9a-f]+):([0-9a-f]+):(\d+) ")
TIMES = re.compile(r"(\d+\.\d+) (\d+\.\d+)")
BEGUN = re.compile(r"== (\S+) .*, try (\d+) of (\d+)")
ENDED = re.compile(r"== status (\d+)|== (stopped) by a signal")
# As much of a log as is looked at, from its end.
END_OF_A_LOG = 20_000
LAST_LINES = 3


class Stage(enum.Enum):
    """How far an action is."""

    DONE = "done"
    RUNNING = "running"
    FAILED = "failed"
    READY = "ready"
    WAITING = "waiting"


@dataclasses.dataclass(frozen=True)
class Row:
    """An action with how far it is."""

    step: Step
    stage: Stage
    since: str = ""  # when a running step was begun
    status: str = ""  # with which a step failed, or `stopped`
    lines: tuple[str, ...] = ()  # the last ones that a failed step printed
    waits_for: tuple[int, ...] = ()
    seconds: float | None = None  # that a step which is done took
    is_again: bool = False  # whether it was done, and is to be done again

    @property
    def instance(self) -> str:
        return who(self.step.action)

    def value(self) -> dict[str, object]:
        """As JSON has it, without what is empty."""
        action = self.step.action
        found: dict[str, object] = {"action": action.number, "key": self.step.key, "instance": self.instance}
        found |= {"what": in_words(action), "stage": self.stage.value}
        more: dict[str, object] = {"since": self.since, "status": self.status, "lines": self.lines}
        more |= {"waits_for": self.waits_for, "again": self.is_again}
        found |= {key: value for key, value in more.items() if value}
        return found if self.seconds is None else {**found, "seconds": round(self.seconds, 3)}


@dataclasses.dataclass(frozen=True)
class Progress:
    """How far all actions of a folder are, and the least seconds that are left, if any action has shown how long it takes."""

    rows: tuple[Row, ...]
    left: float | None

    def count(self, stage: Stage) -> int:
        return sum(row.stage is stage for row in self.rows)

    def is_over(self) -> bool:
        return self.count(Stage.DONE) == len(self.rows)


def held_files() -> set[tuple[int, int]]:
    """The files that somebody holds alone, by device and inode."""
    try:
        lines = LOCKS.read_text().splitlines()
    except OSError:
        return set()
    found = (HELD.match(line) for line in lines)
    return {(os.makedev(int(each[1], 16), int(each[2], 16)), int(each[3])) for each in found if each}


def is_held(path: pathlib.Path, held: set[tuple[int, int]]) -> bool:
    try:
        found = path.stat()
    except OSError:
        return False
    # Some file systems give a file another device number than its locks have.
    return (found.st_dev, found.st_ino) in held or any(inode == found.st_ino for _, inode in held)


def end_of(path: pathlib.Path) -> list[str]:
    """The last lines of a log."""
    try:
        with open(path, "rb") as file:
            file.seek(max(0, path.stat().st_size - END_OF_A_LOG))
            return file.read().decode(errors="replace").splitlines()
    except OSError:
        return []


def row_of_log(step: Step, path: pathlib.Path, held: set[tuple[int, int]]) -> Row:
    """What the log of a step says that was begun and is not done."""
    lines = end_of(path)
    begun = [found for line in lines if (found := BEGUN.match(line))]
    if is_held(path, held):
        return Row(step, Stage.RUNNING, since=begun[-1][1] if begun else "")
    ended = [found for line in lines if (found := ENDED.match(line))]
    if ended and ended[-1][1] == "0":
        # It was done, and its mark was taken back.
        return Row(step, Stage.WAITING)
    said = [line for line in lines if not line.startswith("== ")][-LAST_LINES:]
    return Row(step, Stage.FAILED, status=(ended[-1][1] or ended[-1][2]) if ended else "stopped", lines=tuple(said))


def row_of(step: Step, mark: Mark | None, log: pathlib.Path, held: set[tuple[int, int]]) -> Row:
    """How far a step is, as its mark and its log say; what neither knows waits."""
    if mark and mark.more == STALE:
        return dataclasses.replace(row_of_log(step, log, held) if is_filled(log) else Row(step, Stage.WAITING), is_again=True)
    if mark:
        times = TIMES.fullmatch(mark.times)
        return Row(step, Stage.DONE, seconds=float(times[2]) - float(times[1]) if times else None)
    return row_of_log(step, log, held) if is_filled(log) else Row(step, Stage.WAITING)


def waits_of(step: Step, rollouts: Sequence[Rollout]) -> list[int]:
    """What a step waits for, and in a rollout all that is new before what is old goes."""
    place = barrier_of(step, rollouts)
    more = [] if place is None else [*range(rollouts[place].old + 1, rollouts[place].fresh + 1)]
    return [*step.waits, *more]


def waits_again(rows: Sequence[Row]) -> dict[int, list[int]]:
    """By the numbers of steps that are not done, what is done again before them: what they stand on, and all before anything goes."""
    again = {row.step.key: row.step.action.number for row in rows if row.is_again}
    behind = again_before([row.step for row in rows], again)
    found = {}
    for row in rows if again else ():
        action = row.step.action
        if row.stage is not Stage.DONE:
            is_going = isinstance(action, Unbind | Delete)
            found[action.number] = sorted(again.values() if is_going else behind[action.number])
    return found


def kind_of(step: Step) -> tuple[str, ...]:
    """Actions of one kind take the same time, as far as that is known."""
    action = step.action
    return (action.type, action.start, action.end) if isinstance(action, Move) else (action.type, action.verb)


def least_left(rows: Sequence[Row], waits: Mapping[int, Sequence[int]]) -> float | None:
    """The longest chain of what is not done, by the mean of what was done of each kind."""
    took: dict[tuple[str, ...], list[float]] = {}
    for row in rows:
        if row.seconds is not None:
            took.setdefault(kind_of(row.step), []).append(row.seconds)
    if not took:
        return None
    otherwise = statistics.mean(each for values in took.values() for each in values)
    left: dict[int, float] = {}
    for row in rows:
        number = row.step.action.number
        own = 0.0 if row.stage is Stage.DONE else statistics.mean(took.get(kind_of(row.step), [otherwise]))
        left[number] = own + max((left.get(other, 0.0) for other in waits[number]), default=0.0)
    return max(left.values(), default=0.0)


def progress_of(folder: Folder) -> Progress:
    """How far the plan of a folder is."""
    steps = folder.steps()
    rollouts, marks, held = folder.rollouts(len(steps)), folder.marks(), held_files()
    rows = [row_of(step, marks.get(step.key), folder.path / LOG / step.key, held) for step in steps]
    done = {row.step.action.number for row in rows if row.stage is Stage.DONE}
    waits = {step.action.number: waits_of(step, rollouts) for step in steps}
    for number, before in waits_again(rows).items():
        waits[number] += before
    for place, row in enumerate(rows):
        if row.stage is Stage.WAITING:
            open_ = tuple(other for other in waits[row.step.action.number] if other not in done)
            rows[place] = dataclasses.replace(row, waits_for=open_, stage=Stage.WAITING if open_ else Stage.READY)
    return Progress(tuple(rows), least_left(rows, waits))


def step_named(folder: Folder, name: str, steps: Sequence[Step]) -> list[Step]:
    """The steps that a name means: of an instance, as `mysql#1`, all; else the action of that number, or the step of that key."""
    found = [step for step in steps if name in (who(step.action), step.key, str(step.action.number))]
    if not found:
        known = dict.fromkeys(who(step.action) for step in steps)
        raise Refused(f"{folder.path}: no instance, action or step {plans.shown(name)}; instances are {first(known)}")
    return found


def first(names: Iterable[str], most: int = 8) -> str:
    listed = list(names)
    return ", ".join(listed[:most]) + (f" and {len(listed) - most} more" if len(listed) > most else "")


def seconds_since(moment: str) -> float | None:
    """How long ago a moment of a log was."""
    try:
        return time.time() - time.mktime(time.strptime(moment, "%Y-%m-%dT%H:%M:%SZ")) + time.timezone
    except ValueError:
        return None
