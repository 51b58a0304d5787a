"""From which plan a plan goes on: from the one in its folder, from what is done there, or from one that is named."""

import dataclasses
import itertools
from collections.abc import Sequence

from metis_planner.answers import Refused
from metis_planner.carry.folder import Folder
from metis_planner.carry.rollouts import Rollout, change_in, sign_of_a_rollout
from metis_planner.carry.steps import Step, who
from metis_planner.text import plans
from metis_planner.text.roles import count_of


@dataclasses.dataclass(frozen=True)
class BasePlan:
    """The rollouts in a plan, and what is said of them."""

    rollouts: tuple[Rollout, ...]
    notes: tuple[str, ...] = ()


@dataclasses.dataclass(frozen=True, kw_only=True)
class Ground:
    """What is said of where a plan goes on from: its file, its folder, older plans, and whether nothing of it is a rollout."""

    plan: str
    to: str
    olds: tuple[str, ...] = ()
    is_alone: bool = False


def origin_of_new(plan: plans.Plan, steps: Sequence[Step], ground: Ground) -> BasePlan:
    """For a folder that has no plan, or one of which nothing is done."""
    if ground.is_alone:
        return BasePlan(())
    counts = counts_of(plan, ground.plan, ground.olds)
    gone = sign_of_a_rollout(steps[: counts[0]] if counts else steps)
    if gone:
        raise Refused(
            f"{ground.plan}: a rollout, since by action {gone.action.number} {who(gone.action)} goes, and with it all "
            "that it was bound to. Say by --from OLD from which plan it goes on; where it is none, say --waits-alone"
        )
    if not counts:
        return BasePlan(())
    note = (
        f"it goes on from {counts[-1]} actions: make does those of them that are not done in {ground.to}, too. Where "
        f"what they leave stands already, `make -t old-{len(counts)}` marks them as done"
    )
    return BasePlan(rollouts_at(steps, counts, ground.plan), (note,))


def origin_there(folder: Folder, plan: plans.Plan, steps: Sequence[Step], ground: Ground) -> BasePlan:
    """For a folder that has a plan."""
    before = folder.plan()
    done = folder.done(steps)
    count = len(before.actions)
    if plan.actions[:count] == before.actions:
        earlier, counts = folder.rollouts(count), [count] if count < len(plan.actions) else []
    elif done and all(step.key in done for step in steps[: len(done)]):
        earlier, counts = (), [len(done)]
    else:
        return origin_of_new(plan, steps, ground)
    if ground.is_alone:
        return BasePlan(())
    rollouts = (*earlier, *rollouts_at(steps, counts, ground.plan))
    for named in counts_of(plan, ground.plan, ground.olds):
        if named not in [rollout.old for rollout in rollouts]:
            raise Refused(f"{folder.path}: its plan does not go on from the {named} actions that --from names")
    if not rollouts or not rollouts[-1].has_fresh():
        return BasePlan(rollouts)
    note = f"it goes on from {rollouts[-1].old} actions; what these leave stays until all that is new stands"
    return BasePlan(rollouts, (note,))


def counts_of(plan: plans.Plan, path: str, olds: Sequence[str]) -> list[int]:
    """How many actions the plans have that are named as those from which this one goes on, the longest last."""
    return sorted(count_of(name, plan, path) for name in olds)


def rollouts_at(steps: Sequence[Step], counts: Sequence[int], path: str) -> tuple[Rollout, ...]:
    """The rollouts that go on from so many actions each, one after the other."""
    try:
        return tuple(change_in(steps[:end], old) for old, end in itertools.pairwise([*counts, len(steps)]))
    except Refused as refused:
        raise Refused(f"{path}: {refused}") from refused
