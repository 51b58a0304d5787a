"""When each action starts: as `metis waves` says it, and with what that does not know, the barrier and the room on hosts."""

import argparse
from collections.abc import Mapping, Sequence

from metis_planner.answers import Refused
from metis_planner.carry.rollouts import Rollout
from metis_planner.carry.steps import Step
from metis_planner.draw import gantt
from metis_planner.page.values import placement_of
from metis_planner.text import plans
from metis_planner.text.actions import VERBS, Verb
from metis_planner.text.over_plans import Schedule, read_over
from metis_planner.text.terminal import plain

Holds = Mapping[int, tuple[int, ...]]

MOST_TIME = 1_000_000


def of_waves(
    plan: plans.Plan, steps: Sequence[Step], rollouts: Sequence[Rollout], arguments: argparse.Namespace
) -> dict[str, object]:
    path, *words = arguments.waves
    if not all(word.isascii() and word.isdecimal() and int(word) <= MOST_TIME for word in words):
        raise Refused("--waves is a file and the five numbers that `metis waves` was given")
    schedule = read_over(path, plan, Schedule)
    took = dict(zip(VERBS, map(int, words), strict=True))
    gantt.check(steps, schedule, took, path)
    holds = placement_of(arguments, plan).holds
    more = [name for name, is_so in (("the barrier", rollouts), ("the room on hosts", holds)) if is_so]
    if more:
        schedule = scheduled(plan, all_waits(steps, rollouts, holds), took)
    bars = [
        [start, start + took[step.action.verb], latest - start]
        for step, (start, latest) in zip(steps, schedule.starts, strict=True)
    ]
    told = {"unit": plain(arguments.unit, 12), "bars": bars, "finish": schedule.finish, "chain": schedule.chain}
    return {**told, "note": f"times with {' and '.join(more)}, which metis waves does not know" if more else ""}


def all_waits(steps: Sequence[Step], rollouts: Sequence[Rollout], holds: Holds) -> list[tuple[int, ...]]:
    """What each action waits for with the barrier, with the room that it needs, and with the old done before the new begins."""
    waits = [(*step.waits, *holds.get(step.action.number, ())) for step in steps]
    for each in rollouts:
        for first, border, end in ((0, each.old, each.fresh), (each.old, each.fresh, each.end)):
            last = {step.action.instance: step.action.number for step in steps[first:border]}
            for place in range(border, end):
                waits[place] = (*waits[place], *last.values())
    return waits


def scheduled(plan: plans.Plan, waits: Sequence[tuple[int, ...]], took: Mapping[Verb, int]) -> Schedule:
    """The earliest and latest starts under these waits, each of which is for an action before."""
    lengths = [took[action.verb] for action in plan.actions]
    starts: list[int] = []
    for own in waits:
        starts.append(max((starts[other - 1] + lengths[other - 1] for other in own), default=0))
    ends = [start + length for start, length in zip(starts, lengths, strict=True)]
    finish = max(ends, default=0)
    latest = [finish] * len(lengths)
    for place in reversed(range(len(lengths))):
        latest[place] -= lengths[place]
        for other in waits[place]:
            latest[other - 1] = min(latest[other - 1], latest[place])
    return Schedule(plan, tuple(zip(starts, latest, strict=True)), finish, chain_of(waits, starts, ends))


def chain_of(waits: Sequence[tuple[int, ...]], starts: Sequence[int], ends: Sequence[int]) -> tuple[int, ...]:
    """From the first action that ends last, each time the first that it waits for and that ends when it starts."""
    chain: list[int] = []
    number = min(range(1, len(ends) + 1), key=lambda each: (-ends[each - 1], each), default=None)
    while number is not None:
        chain.append(number)
        before = [other for other in waits[number - 1] if ends[other - 1] == starts[number - 1]]
        number = min(before, default=None)
    return tuple(reversed(chain))
