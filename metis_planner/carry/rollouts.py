"""Where a rollout stands in a list of actions, and so what must not begin before what.

A rollout is the old plan's actions, the fresh ones, and the removal of what the old ones leave. The waits alone would
let the removal come before the fresh ones. Where nothing of what stood is taken away before the last fresh one, what stood
or what is to stand is whole at each moment: the law `guarded_rollout_never_lacks`. A reconfiguration is the same, but for
what it keeps: the fresh ones are bound to that, and it may be bound to them.
"""

import dataclasses
from collections.abc import Collection, Iterable, Sequence

from metis_planner.answers import Refused
from metis_planner.carry.steps import Step, lanes, who
from metis_planner.text.actions import Bind, Delete, Unbind
from metis_planner.text.roles import KEPT, roles_of


@dataclasses.dataclass(frozen=True)
class Rollout:
    """How many actions the old plan has, how many these are with the fresh ones, and with the removal."""

    old: int
    fresh: int
    end: int

    def has_fresh(self) -> bool:
        return self.old < self.fresh


def change_in(steps: Sequence[Step], old: int) -> Rollout:
    """The change that goes on from so many first actions: a rollout, or a reconfiguration that keeps something.

    The removal of a reconfiguration begins with the first unbinding or deletion of what the old plan makes: before that the
    new is made, and what is kept is bound to it. A scaffold, which the removal may begin with, is only made before that.
    """
    if KEPT not in roles_of([step.action for step in steps], old).values():
        return rollout_in(steps, old)
    made = {step.action.instance for step in steps[:old]}
    border = next((place for place, step in enumerate(steps) if place >= old and is_removal(step, made)), len(steps))
    removed = made | {step.action.instance for step in steps[border:] if isinstance(step.action, Delete)}
    for step in steps[border:]:
        if step.action.instance not in removed:
            raise Refused(
                f"by action {border + 1} something of the {old} first actions goes, and action {step.action.number} is of "
                f"{who(step.action)}, which is new and stays: no change of these keeps both"
            )
    return Rollout(old, border, len(steps))


def is_removal(step: Step, made: set[int]) -> bool:
    return isinstance(step.action, Unbind | Delete) and step.action.instance in made


def roles_in(steps: Sequence[Step], rollouts: Sequence[Rollout]) -> dict[int, str]:
    """What becomes of each instance in the last change."""
    if not rollouts:
        return {}
    return roles_of([step.action for step in steps[: rollouts[-1].end]], rollouts[-1].old)


def rollout_in(steps: Sequence[Step], old: int) -> Rollout:
    """The rollout that goes on from so many first actions.

    In the removal only old instances act and, where these hold each other in a cycle, those of a scaffold, which are all
    deleted in it. So it begins with the first action of one of these, and what is before that is fresh.
    """
    made = {step.action.instance for step in steps[:old]}
    cut = next((place for place, step in enumerate(steps) if place >= old and step.action.instance in made), len(steps))
    last = {step.action.instance: step.action for step in steps[cut:]}
    removed = made | {instance for instance, action in last.items() if isinstance(action, Delete)}
    fresh = next(
        (place for place, step in enumerate(steps) if place >= old and step.action.instance in removed), len(steps)
    )
    for step in steps[fresh:]:
        if step.action.instance not in removed:
            raise Refused(
                f"no rollout of the {old} actions before: by action {fresh + 1} something goes already, and action "
                f"{step.action.number} is of {who(step.action)}, which is new and stays. Where the plan is the rollout of a "
                "rollout, export one after the other; where it is none, say --waits-alone"
            )
    return Rollout(old, fresh, len(steps))


def ends_of(steps: Iterable[Step]) -> list[str]:
    """The key of the last step of each instance: who waits for these waits for all."""
    return [lane[-1].key for lane in lanes(steps).values()]


def sign_of_a_rollout(steps: Sequence[Step]) -> Step | None:
    """A step that shows a rollout: by it an instance goes, and so does all that it was ever bound to, while others stand.

    In a plan for targets each instance serves, maybe over others, one that is asked for and stays. In a rollout nothing
    leads from an old instance to a fresh one, and all that is old goes.
    """
    group: dict[int, int] = {}
    for step in steps:
        group.setdefault(step.action.instance, step.action.instance)
        if isinstance(step.action, Bind):
            group[head_of(group, step.action.instance)] = head_of(group, step.action.provider)
    last = {lane[-1].action.instance: lane[-1] for lane in lanes(steps).values()}
    standing = {head_of(group, instance) for instance, step in last.items() if not isinstance(step.action, Delete)}
    gone = (step for instance, step in last.items() if standing and head_of(group, instance) not in standing)
    return next(gone, None)


def head_of(group: dict[int, int], instance: int) -> int:
    """The instance that stands for all that are bound with this one, over others too."""
    while group[instance] != instance:
        group[instance] = group[group[instance]]
        instance = group[instance]
    return instance


def barrier_of(step: Step, rollouts: Sequence[Rollout]) -> int | None:
    """The place of the rollout in whose removal the step is, where there is something fresh that it has to wait for."""
    number = step.action.number
    found = (
        place for place, rollout in enumerate(rollouts) if rollout.has_fresh() and rollout.fresh < number <= rollout.end
    )
    return next(found, None)


def longest_chain(steps: Sequence[Step], rollouts: Sequence[Rollout]) -> int:
    """How many actions wait one for the other at most."""
    length, longest_fresh = [0], {}
    for step in steps:
        longest = max((length[number] for number in step.waits), default=0)
        place = barrier_of(step, rollouts)
        if place is not None:
            if place not in longest_fresh:
                longest_fresh[place] = max(length[rollouts[place].old + 1 : rollouts[place].fresh + 1])
            longest = max(longest, longest_fresh[place])
        length.append(1 + longest)
    return max(length)


def again_before(steps: Sequence[Step], again: Collection[str]) -> dict[int, frozenset[int]]:
    """By the number of each step those before it, over others too, that are done again."""
    behind: dict[int, frozenset[int]] = {}
    for step in steps:
        own = {number for number in step.waits if steps[number - 1].key in again}
        before = own.union(*(behind[number] for number in step.waits)) if again else own
        behind[step.action.number] = frozenset(before)
    return behind
