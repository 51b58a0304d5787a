"""From which plan a plan goes on: as a rollout, in which all that is old goes, or as a change that keeps some of it."""

import argparse
import itertools
from collections.abc import Sequence

from metis_planner.answers import Refused
from metis_planner.carry.origin import counts_of
from metis_planner.carry.rollouts import Rollout, change_in, sign_of_a_rollout
from metis_planner.carry.steps import Step, who
from metis_planner.text import plans


def found(plan: plans.Plan, steps: Sequence[Step], arguments: argparse.Namespace) -> tuple[tuple[Rollout, ...], list[str]]:
    """The changes in a plan, one after the other, and what is said where one was not named."""
    counts = counts_of(plan, arguments.plan, arguments.olds)
    if not counts:
        gone = sign_of_a_rollout(steps)
        note = f"this may be a rollout, since {who(gone.action)} goes: say by --from OLD from which plan" if gone else ""
        return (), [note] if note else []
    try:
        ends = itertools.pairwise([*counts, len(steps)])
        return tuple(change_in(steps[:end], old) for old, end in ends), []
    except Refused as refused:
        raise Refused(f"{arguments.plan}: {refused}") from refused


def phases_of(steps: Sequence[Step], rollouts: Sequence[Rollout]) -> list[dict[str, object]]:
    """The parts of the plan; for each removal the numbers of the last actions of all that is new before it."""
    if not rollouts:
        return [phase("all", "", 0, len(steps))]
    phases = [phase("old", "the old", 0, rollouts[0].old)]
    for each in rollouts:
        last = {step.action.instance: step.action.number for step in steps[each.old : each.fresh]}
        phases.append(phase("new", "the new, beside it", each.old, each.fresh))
        phases.append(phase("removal", "the removal", each.fresh, each.end, list(last.values())))
    return phases


def phase(kind: str, name: str, first: int, end: int, last: Sequence[int] = ()) -> dict[str, object]:
    return {"kind": kind, "name": name, "from": first, "to": end, "last": list(last)}
