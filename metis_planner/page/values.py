"""What the page is told of a plan, as JSON: the scripts keep its waits, and compute nothing of them again."""

import argparse
from collections.abc import Sequence
from typing import assert_never

from metis_planner.answers import Refused
from metis_planner.carry.rollouts import Rollout, roles_in
from metis_planner.carry.steps import Step
from metis_planner.draw import picture
from metis_planner.page import changes
from metis_planner.text import plans
from metis_planner.text.actions import Bind, Delete, Move, New, Unbind
from metis_planner.text.documents import ComponentType
from metis_planner.text.over_plans import Placement, read_over
from metis_planner.text.universes import read_types

Value = dict[str, object]


def checked_size(steps: tuple[Step, ...], most: int) -> tuple[Step, ...]:
    picture.check_size(len(steps), most, "actions", "show a smaller plan")
    return steps


def value_of(plan: plans.Plan, steps: Sequence[Step], rollouts: Sequence[Rollout], arguments: argparse.Namespace) -> Value:
    made = {step.action.instance: step.action.type for step in steps}
    types = types_in(arguments, set(made.values()))
    placement = placement_of(arguments, plan)
    return {
        "types": list(made.items()),
        "actions": [row_of(step) for step in steps],
        "holds": [[number, list(others)] for number, others in placement.holds.items()],
        "hosts": list(placement.host_of.items()),
        "phases": changes.phases_of(steps, rollouts),
        "roles": list(roles_in(steps, rollouts).items()),
        "first": first_states(steps, types),
        "leaves": leaves_of(steps),
        "universe": None if types is None else universe_of(types),
        "times": None,
    }


def row_of(step: Step) -> list[object]:
    """The verb, the instance, what it waits for, and of a move its states, of a binding its port and provider."""
    action = step.action
    row: list[object] = [action.verb, action.instance, list(step.waits)]
    match action:
        case New() | Delete():
            return row
        case Move():
            return [*row, action.start, action.end]
        case Bind() | Unbind():
            return [*row, action.port, action.provider]
        case _:
            assert_never(action)


def types_in(arguments: argparse.Namespace, kept: set[str] | None = None) -> list[ComponentType] | None:
    """The types of the universe that is named, or of these those that the plan makes."""
    if not arguments.universe:
        return None
    types = read_types(arguments.universe)
    if kept is None:
        return list(types)
    missing = kept - {kind.name for kind in types}
    if missing:
        raise Refused(f"{arguments.universe}: it has no type {min(missing)}, which the plan makes")
    return [kind for kind in types if kind.name in kept]


def universe_of(types: Sequence[ComponentType]) -> list[object]:
    """Lists, and no objects: in a script an object has its keys in another order, and some that nobody gave it."""
    return [
        [kind.name, [[state.name, list(state.provide), list(state.require.items())] for state in kind.states]]
        for kind in types
    ]


def first_states(steps: Sequence[Step], types: Sequence[ComponentType] | None) -> list[tuple[str, str]]:
    """The initial state of each type: as the universe says it, else as its first move does."""
    if types is not None:
        return [(kind.name, kind.states[0].name) for kind in types]
    found: dict[str, str] = {}
    for step in steps:
        action = step.action
        if isinstance(action, Move):
            found.setdefault(action.type, action.start)
    return list(found.items())


def leaves_of(steps: Sequence[Step]) -> list[int]:
    """The instances that take nothing from others, while others take something from them."""
    binds = [step.action for step in steps if isinstance(step.action, Bind)]
    return sorted({action.provider for action in binds} - {action.instance for action in binds})


def placement_of(arguments: argparse.Namespace, plan: plans.Plan) -> Placement:
    return read_over(arguments.placement, plan, Placement) if arguments.placement else Placement(plan, {}, {})
