"""What becomes of the instances of a plan that goes on from another one: which it keeps, which are new, and which go."""

from collections.abc import Iterable, Sequence

from metis_planner.answers import Refused
from metis_planner.text.actions import Action, Delete, New
from metis_planner.text.plans import Plan, plan_at

KEPT, NEW, GOING = "kept", "new", "going"


def standing(actions: Iterable[Action]) -> set[int]:
    """The instances that are there after these actions."""
    there: set[int] = set()
    for action in actions:
        if isinstance(action, New):
            there.add(action.instance)
        elif isinstance(action, Delete):
            there.discard(action.instance)
    return there


def roles_of(actions: Sequence[Action], old: int) -> dict[int, str]:
    """What becomes of each instance in what follows so many first actions. Those that only come and go in it have no role."""
    before, after = standing(actions[:old]), standing(actions)
    roles = [(KEPT, before & after), (NEW, after - before), (GOING, before - after)]
    return {instance: role for role, instances in roles for instance in sorted(instances)}


def count_of(old: str, plan: Plan, path: str) -> int:
    """How many actions the plan in the file `old` has, with which this one has to begin."""
    actions = plan_at(old).actions
    if plan.actions[: len(actions)] != actions:
        raise Refused(f"{path}: it does not begin with the {len(actions)} actions of {old}")
    return len(actions)
