"""What a page shows of a folder while make works in it, read without a lock: its marks, its logs, and its events.

How far each action is comes from `carry/progress.py`. The events say to the millisecond when a step was begun, and when it failed.
"""

import datetime
import hashlib
import json
import os
import shlex
import time
from collections.abc import Mapping, Sequence

from metis_planner.carry import progress
from metis_planner.carry.folder import DONE, EVENTS, LOG, PLAN, ROLLOUTS, Folder, Mark
from metis_planner.carry.progress import Row, Stage
from metis_planner.carry.steps import Step
from metis_planner.draw import gantt
from metis_planner.text.terminal import plain

TAIL_LINES, LONGEST_LINE = 12, 400
MOST_OF_THE_EVENTS = 16_777_216
ENDS = ("failed", "stopped")
State = dict[str, object]
Span = tuple[float, float]
Moments = Mapping[str, Mapping[str, float]]


def state_of(folder: Folder, with_logs: bool) -> State:
    """What is done, in the order in which it was; what was begun and is not done; and when each of these was."""
    steps = folder.steps()
    marks, held = settled_marks(folder, steps), progress.held_files()
    rows = [progress.row_of(step, marks.get(step.key), folder.path / LOG / step.key, held) for step in steps]
    took = {row.step.action.number: span_of(marks[row.step.key]) for row in rows if row.step.key in marks}
    begun = [row for row in rows if row.stage in (Stage.RUNNING, Stage.FAILED)]
    parts = (folder.path / PLAN).read_bytes() + (folder.path / ROLLOUTS).read_bytes()
    return {
        "plan": hashlib.sha256(parts).hexdigest()[:16],
        "now": round(time.time(), 3),
        "folder": shlex.quote(plain(folder.path.resolve().name, 200)),
        "done": as_it_happened(steps, took),
        "begun": [begun_value(folder, row, with_logs) for row in begun],
        "times": times_of(steps, took, open_spans(begun, moments_in(folder))),
    }


class Followed:
    """The state of a folder for who asks again and again: it is read anew if anything in the folder is newer, or if a step runs."""

    def __init__(self, folder: Folder, with_logs: bool) -> None:
        self.folder, self.with_logs = folder, with_logs
        self.signs: tuple[object, ...] = ()
        self.known: State = {}

    def state(self) -> State:
        signs = self.signs_now()
        if signs != self.signs or self.is_running():
            self.known = state_of(self.folder, self.with_logs)
            self.signs = signs
        else:
            self.known = {**self.known, "now": round(time.time(), 3)}
        return self.known

    def is_running(self) -> bool:
        begun = self.known.get("begun")
        return isinstance(begun, list) and any(each["status"] == "running" for each in begun)

    def signs_now(self) -> tuple[object, ...]:
        """When what a page shows of the folder was changed last, and how long it is."""
        path = self.folder.path
        logs = sorted(os.scandir(path / LOG), key=lambda entry: entry.name) if (path / LOG).is_dir() else []
        signs = [(each.name, each.stat().st_mtime_ns, each.stat().st_size) for each in logs]
        for name in (PLAN, ROLLOUTS, DONE, EVENTS):
            try:
                found = (path / name).stat()
            except OSError:
                continue
            signs.append((name, found.st_mtime_ns, found.st_size))
        return tuple(signs)


def settled_marks(folder: Folder, steps: Sequence[Step]) -> dict[str, Mark]:
    """The marks, with each action's those of all that it waits for. What was marked while they were read is left for later."""
    marks, found = folder.marks(), {}
    for step in steps:
        if step.key in marks and all(steps[number - 1].key in found for number in step.waits):
            found[step.key] = marks[step.key]
    return found


def span_of(mark: Mark) -> Span | None:
    found = gantt.TIMES.fullmatch(mark.times)
    return (float(found[1]), float(found[2])) if found else None


def as_it_happened(steps: Sequence[Step], took: Mapping[int, Span | None]) -> list[int]:
    """The numbers of what is done by when it ended; if its mark does not say that, when all that it waited for had."""
    ended: dict[int, float] = {}
    for number, span in took.items():
        before = max((ended[other] for other in steps[number - 1].waits), default=0.0)
        ended[number] = max(before, span[1] if span else 0.0)
    return sorted(ended, key=lambda number: (ended[number], number))


def begun_value(folder: Folder, row: Row, with_log: bool) -> State:
    """What is told of a step that was begun and is not done."""
    status = "running" if row.stage is Stage.RUNNING else "stopped" if row.status == "stopped" else "failed"
    said = {"running": "is being done", "stopped": "was begun and is not done"}.get(
        status, f"failed with status {row.status}"
    )
    lines = progress.end_of(folder.path / LOG / row.step.key)[-TAIL_LINES:] if with_log else []
    tail = [plain(line, LONGEST_LINE) for line in lines]
    return {"number": row.step.action.number, "status": status, "said": said, "tail": tail}


def moments_in(folder: Folder) -> Moments:
    """When each event of each step was last, as the end of the file of events says it. Lines that are cut are passed over."""
    try:
        with open(folder.path / EVENTS, "rb") as file:
            file.seek(max(0, file.seek(0, 2) - MOST_OF_THE_EVENTS))
            lines = file.read().split(b"\n")
    except OSError:
        return {}
    found: dict[str, dict[str, float]] = {}
    for line in lines:
        try:
            event = json.loads(line)
            moment = datetime.datetime.fromisoformat(event["time"]).timestamp()
            found.setdefault(str(event["key"]), {})[str(event["event"])] = moment
        except (ValueError, KeyError, TypeError, RecursionError):
            continue
    return found


def open_spans(begun: Sequence[Row], moments: Moments) -> dict[int, Span]:
    """From when to when what is not done was tried last, if the events say it."""
    spans = {}
    for row in begun:
        known = moments.get(row.step.key, {})
        over = [known[name] for name in ENDS if name in known]
        ends = [time.time()] if row.stage is Stage.RUNNING else over
        if ends and "begun" in known and known["begun"] <= max(ends):
            spans[row.step.action.number] = (known["begun"], max(ends))
    return spans


def times_of(steps: Sequence[Step], took: Mapping[int, Span | None], tried: Mapping[int, Span]) -> State | None:
    """What happened, in seconds from the first beginning on, without the pauses in which nothing ran."""
    spans = {number: span for number, span in {**took, **tried}.items() if span is not None}
    if not spans:
        return None
    found, folds = gantt.folded(spans)
    bars: list[list[float] | None] = [None] * len(steps)
    for number, (begin, end) in found.items():
        bars[number - 1] = [round(begin, 3), round(end, 3), 0]
    finish = max(bar[1] for bar in bars if bar)
    pauses = [[round(fold.at, 3), fold.label] for fold in folds]
    return {"unit": "s", "bars": bars, "finish": finish, "chain": [], "folds": pauses, "note": ""}
