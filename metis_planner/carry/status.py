"""Says how far a folder is, also while make or ninja runs in it: what is done, runs, failed, is ready or waits.

With --watch it is said again and again until all is done or nothing runs any more, and with --json as one JSON object.
"""

import argparse
import json
import shlex
import shutil
import sys
import time
from collections.abc import Iterator, Sequence

from metis_planner.answers import Answer
from metis_planner.carry.configuration import add_folder, folder_of
from metis_planner.carry.folder import Folder
from metis_planner.carry.progress import Progress, Row, Stage, progress_of, seconds_since
from metis_planner.text import configurations
from metis_planner.text.actions import in_words
from metis_planner.text.terminal import plain

WIDTH = 30
SECONDS_BETWEEN = 1.0
MOST_LISTED = 12
MOST_STANDING = 40
LONGEST = 100


def bar(progress: Progress) -> str:
    """One line: a bar, the counts, and the least time that is left."""
    count = len(progress.rows)
    full = WIDTH * progress.count(Stage.DONE) // count if count else WIDTH
    parts = [f"{progress.count(Stage.DONE)} of {count} done"]
    for stage in (Stage.RUNNING, Stage.FAILED, Stage.READY, Stage.WAITING):
        number = progress.count(stage)
        parts += [f"{number} {stage.value}"] if number else []
    left = "" if progress.left is None or progress.is_over() else f"; at least {progress.left:.0f} s left"
    return f"[{'#' * full}{'.' * (WIDTH - full)}] {', '.join(parts)}{left}"


def row_lines(row: Row, folder: str) -> Iterator[str]:
    what = f"{in_words(row.step.action)}{' (again)' if row.is_again else ''}"
    if row.stage is Stage.RUNNING:
        seconds = seconds_since(row.since)
        yield f"  running  {what}" + ("" if seconds is None else f", for {max(0, round(seconds))} s")
    elif row.stage is Stage.FAILED:
        how = "was stopped" if row.status == "stopped" else f"failed with status {row.status}"
        yield f"  failed   {what}: {how}; metis log {shlex.quote(folder)} {row.instance}"
        yield from (f"             | {plain(line, LONGEST)}" for line in row.lines)
    elif row.stage is Stage.READY:
        yield f"  ready    {what}"


def lines_of(progress: Progress, folder: str) -> list[str]:
    found = [bar(progress)]
    for stage in (Stage.RUNNING, Stage.FAILED, Stage.READY):
        rows = [row for row in progress.rows if row.stage is stage]
        found += [line for row in rows[:MOST_LISTED] for line in row_lines(row, folder)]
        if len(rows) > MOST_LISTED:
            found.append(f"  {stage.value}: and {len(rows) - MOST_LISTED} more")
    return found


def standing_lines(progress: Progress) -> Iterator[str]:
    """What stands where all is done: each instance with its state, if a move has named one."""
    standing = configurations.after([row.step.action for row in progress.rows]).instances
    names = [f"{one.type}#{number}" + (f" ({one.state})" if one.state else "") for number, one in sorted(standing.items())]
    yield from (f"  stands   {plain(name, LONGEST)}" for name in names[:MOST_STANDING])
    if len(names) > MOST_STANDING:
        yield f"  stands: and {len(names) - MOST_STANDING} more"


def fitted(lines: Sequence[str], columns: int, rows: int) -> list[str]:
    """As much of the lines as a terminal shows, one line of it each, with one left below for where one types."""
    most = max(1, rows - 1)
    shown = [line if len(line) < columns else f"{line[: max(0, columns - 4)]} .." for line in lines]
    if len(shown) <= most:
        return shown
    return [*shown[: most - 1], f"  and {len(shown) - most + 1} more"[: max(1, columns - 1)]] if most > 1 else shown[:1]


def value_of(progress: Progress) -> dict[str, object]:
    counts = {stage.value: progress.count(stage) for stage in Stage}
    left = None if progress.left is None else round(progress.left, 3)
    return {"counts": counts, "seconds_left": left, "actions": [row.value() for row in progress.rows]}


def watch(folder: Folder) -> Progress:
    """Draws how far the folder is, until it is over or nothing runs. On a terminal the lines are drawn over those before."""
    drawn, before, size_before = 0, "", shutil.get_terminal_size()
    is_terminal = sys.stdout.isatty()
    idle = 0
    while True:
        progress = progress_of(folder)
        size = shutil.get_terminal_size()
        lines = fitted(lines_of(progress, str(folder.path)), *size) if is_terminal else [bar(progress)]
        text = "".join(f"{line}\n" for line in lines)
        if is_terminal and drawn:
            # Where the window has changed, its lines lie otherwise than they were drawn.
            sys.stdout.write(f"\x1b[{drawn}F\x1b[J" if size == size_before else "\x1b[H\x1b[J")
        if is_terminal or text != before:
            sys.stdout.write(text)
            sys.stdout.flush()
        drawn, before, size_before = len(lines), text, size
        idle = 0 if progress.count(Stage.RUNNING) else idle + 1
        # Between two steps nothing runs for a moment.
        if progress.is_over() or idle > 3:
            return progress
        time.sleep(SECONDS_BETWEEN)


def add_arguments(parser: argparse.ArgumentParser) -> None:
    add_folder(parser, "what `metis up`, `metis make` or `metis ninja` wrote")
    parser.add_argument("--watch", action="store_true", help="say it each second, until all is done or nothing runs")
    parser.add_argument("--json", action="store_true", help="one JSON object, with each action")


def run(arguments: argparse.Namespace) -> Answer:
    folder = folder_of(arguments)
    if arguments.watch:
        progress = watch(folder)
        return Answer(status=1 if progress.count(Stage.FAILED) else 0)
    progress = progress_of(folder)
    status = 1 if progress.count(Stage.FAILED) else 0
    if arguments.json:
        return Answer(json.dumps(value_of(progress)) + "\n", status=status)
    lines = lines_of(progress, str(folder.path))
    lines += standing_lines(progress) if progress.is_over() else []
    return Answer("".join(f"{line}\n" for line in lines), status=status)
