"""A chart of when each action starts, as SVG: `gantt PLAN WAVES N N N N N` from what `metis waves` printed for a plan
and these five numbers, or `gantt FOLDER` of what really happened in a folder.

A lane is an instance. A bar is an action, from its start to its end. The dotted line behind it is the time that it may
lose. Bars with a red frame are the chain that takes as long as the whole: who wants to be done sooner has to make one of
these shorter. In a folder in which something runs or has failed, that has a dashed or a dark frame in their place. Pauses in
which nothing ran are folded away.
"""

import argparse
import itertools
import pathlib
import re
from collections.abc import Mapping, Sequence

from metis_planner.answers import Answer, Refused
from metis_planner.carry.folder import LOG, Folder, Mark
from metis_planner.carry.progress import Stage, held_files, row_of
from metis_planner.carry.rollouts import barrier_of
from metis_planner.carry.steps import Step, steps_of
from metis_planner.draw import picture
from metis_planner.draw.chart import Bar, Chart, Fold
from metis_planner.text import plans
from metis_planner.text.actions import VERBS, Verb
from metis_planner.text.over_plans import Schedule, read_over

TIMES = re.compile(r"([0-9]{1,12}\.[0-9]{1,9}) ([0-9]{1,12}\.[0-9]{1,9})")
MOST_LANES = 300
# Actions count from 1.
NOTHING_BEFORE = 0
# A pause longer than the first share of the time in which something ran is drawn as long as the second.
LONGEST_PAUSE, SHORT_PAUSE = 0.1, 0.02


def add_arguments(parser: argparse.ArgumentParser) -> None:
    parser.add_argument("plan", metavar="PLAN|FOLDER")
    parser.add_argument("waves", metavar="WAVES", nargs="?", help="what `metis waves UNIVERSE PLAN N N N N N` printed")
    parser.add_argument(
        "times", metavar="N", type=int, nargs="*", help="how long a new, a delete, a bind, an unbind and a move take"
    )
    parser.add_argument("--unit", default="", help="of the times, as s or min")
    help_text = f"refuse to draw more lanes ({MOST_LANES})"
    parser.add_argument("--most", type=int, default=MOST_LANES, metavar="N", help=help_text)


def run(arguments: argparse.Namespace) -> Answer:
    if pathlib.Path(arguments.plan).is_dir():
        (bars, folds), unit = bars_of_folder(Folder(arguments.plan)), "s"
    elif arguments.waves and len(arguments.times) == len(VERBS):
        bars, unit, folds = bars_of_waves(arguments.plan, arguments.waves, arguments.times), arguments.unit, []
    else:
        raise Refused("a chart is made of a folder, or of a plan, its waves and the five numbers of `metis waves`")
    if not unit.isalnum() and unit:
        raise Refused("--unit is no word of letters and digits")
    lanes: dict[int, list[Bar]] = {}
    for bar in bars:
        lanes.setdefault(bar.step.action.instance, []).append(bar)
    picture.check_size(len(lanes), arguments.most, "lanes", "draw a smaller plan")
    return Answer("".join(Chart(list(lanes.values()), unit, folds).lines()))


def bars_of_waves(plan: str, waves: str, durations: Sequence[int]) -> list[Bar]:
    found = plans.plan_at(plan)
    steps, schedule = steps_of(found, plan), read_over(waves, found, Schedule)
    times, chain = dict(zip(VERBS, durations)), set(schedule.chain)
    check(steps, schedule, times, waves)
    return [
        Bar(step, start, start + times[step.action.verb], latest - start, step.action.number in chain)
        for step, (start, latest) in zip(steps, schedule.starts)
    ]


def check(steps: Sequence[Step], schedule: Schedule, times: Mapping[Verb, int], path: str) -> None:
    """Refuses a schedule of another plan, or of other numbers."""
    ends = [start + times[step.action.verb] for step, (start, _) in zip(steps, schedule.starts)]
    for step, (start, latest) in zip(steps, schedule.starts):
        if start != max((ends[number - 1] for number in step.waits), default=0) or latest < start:
            raise Refused(
                f"{path}: action {step.action.number} starts at {start}, which the plan and these five numbers do not give"
            )
    if schedule.finish != max(ends, default=0):
        raise Refused(f"{path}: it ends at {schedule.finish}, which the plan and these five numbers do not give")


def bars_of_folder(folder: Folder) -> tuple[list[Bar], list[Fold]]:
    """What the marks and events of a folder say of the actions that had a command, without the pauses in which none ran."""
    steps = folder.steps()
    marks = folder.marks()
    tried, status = tried_in(folder, steps, marks)
    found = {step.action.number: TIMES.fullmatch(marks[step.key].times) for step in steps if step.key in marks}
    took = {number: (float(each[1]), float(each[2])) for number, each in found.items() if each}
    if not took and not tried:
        raise Refused(f"{folder.path}: no action with a command is done there")
    chain = chain_of(folder, steps, took) if took and not tried else set()
    times, folds = folded({**took, **tried})
    bars = [
        Bar(step, *times[number], 0, number in chain, status.get(number, ""))
        for step in steps
        if (number := step.action.number) in times
    ]
    return bars, folds


def tried_in(
    folder: Folder, steps: Sequence[Step], marks: Mapping[str, Mark]
) -> tuple[dict[int, tuple[float, float]], dict[int, str]]:
    """What was begun and is not done, as the page shows it: from when to when, and whether it runs or failed."""
    from metis_planner.page.progress import moments_in, open_spans

    held = held_files()
    rows = [row_of(step, marks.get(step.key), folder.path / LOG / step.key, held) for step in steps]
    begun = [row for row in rows if row.stage in (Stage.RUNNING, Stage.FAILED)]
    status = {row.step.action.number: row.stage.value for row in begun}
    return open_spans(begun, moments_in(folder)), status


def spans_of(took: Mapping[int, tuple[float, float]]) -> list[tuple[float, float]]:
    """The times in which something ran, in their order."""
    spans: list[tuple[float, float]] = []
    for start, end in sorted(took.values()):
        if spans and start <= spans[-1][1]:
            spans[-1] = (spans[-1][0], max(spans[-1][1], end))
        else:
            spans.append((start, end))
    return spans


def folded(took: Mapping[int, tuple[float, float]]) -> tuple[dict[int, tuple[float, float]], list[Fold]]:
    """The times from the first start on, with each long pause in which nothing ran made short; and these pauses."""
    spans = spans_of(took)
    busy = sum(end - start for start, end in spans)
    shift, folds = spans[0][0], []
    shifts = [(spans[0][0], shift)]
    for (_, before), (start, _) in itertools.pairwise(spans):
        pause = start - before
        if pause > max(LONGEST_PAUSE * busy, 1):
            shift += pause - SHORT_PAUSE * busy
            folds.append(Fold(start - shift - SHORT_PAUSE * busy / 2, pause))
        shifts.append((start, shift))

    def at(time: float) -> float:
        return time - max((each for each in shifts if each[0] <= time), default=shifts[0])[1]

    return {number: (at(start), at(start) + end - start) for number, (start, end) in took.items()}, folds


def chain_of(folder: Folder, steps: Sequence[Step], took: dict[int, tuple[float, float]]) -> set[int]:
    """From the action that ended last, each time the one that ended last of those that it waited for."""
    rollouts = folder.rollouts(len(steps))
    ended: dict[int, float] = {}  # of an action without a command the end of what it waited for, and that action
    before: dict[int, int] = {}
    last_fresh: dict[int, int] = {}  # of each rollout
    for step in steps:
        number, place = step.action.number, barrier_of(step, rollouts)
        waits = [*step.waits]
        if place is not None:
            if place not in last_fresh:
                fresh = range(rollouts[place].old + 1, rollouts[place].fresh + 1)
                last_fresh[place] = max(fresh, key=lambda other: ended[other])
            waits.append(last_fresh[place])
        carried = [other if other in took else before.get(other, NOTHING_BEFORE) for other in waits]
        last = max(carried, key=lambda other: ended.get(other, 0), default=NOTHING_BEFORE)
        before[number] = last
        ended[number] = took[number][1] if number in took else ended.get(last, 0)
    chain: set[int] = set()
    at = max(took, key=lambda each: took[each][1])
    while at != NOTHING_BEFORE:
        chain.add(at)
        at = before[at]
    return chain
