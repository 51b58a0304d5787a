"""A placement laid over the steps of its plan: what they wait for besides."""

import dataclasses
from collections.abc import Iterable

from metis_planner.carry.steps import Step
from metis_planner.text.over_plans import Placement, read_over
from metis_planner.text.plans import Plan


def read_placement(path: str, plan: Plan) -> Placement:
    """What `metis place` printed for this plan."""
    return read_over(path, plan, Placement)


def held(placement: Placement, steps: Iterable[Step]) -> tuple[Step, ...]:
    """The steps, which wait for what the placement asks for, too."""
    return tuple(held_step(placement, step) for step in steps)


def held_step(placement: Placement, step: Step) -> Step:
    more = placement.holds.get(step.action.number)
    return dataclasses.replace(step, waits=tuple(sorted({*step.waits, *more}))) if more else step
