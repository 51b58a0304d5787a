"""What a plan comes to: how many instances of each type it makes, and which pairs serve each port."""

from collections import Counter
from typing import NamedTuple

from metis_planner.lean.universe import Pair, Universe
from metis_planner.text import plans
from metis_planner.text.actions import Bind, Move, New


class Cost(NamedTuple):
    """What a plan with few instances has few of. A plan with as many instances and fewer actions is better."""

    instances: int
    actions: int


class Made:
    """A plan's text with what is asked of it."""

    def __init__(self, text: str, universe: Universe) -> None:
        plan = plans.plan_of(text, "the plan")
        self.text = text
        self.counts: Counter[str] = Counter()
        self.serving: dict[str, set[Pair]] = {}
        type_of, state_of = {}, {}
        for action in plan.actions:
            if isinstance(action, New):
                self.counts[action.type] += 1
                type_of[action.instance] = action.type
                state_of[action.instance] = universe.types[action.type].states[0].name
            elif isinstance(action, Move):
                state_of[action.instance] = action.end
            elif isinstance(action, Bind):
                provider = Pair(action.provider_type, state_of[action.provider])
                self.serving.setdefault(action.port, set()).add(provider)
        self.cost = Cost(len(type_of), len(plan.actions))
        self.on_cycles = {type_of[line] for dup in plan.dups for line in map(line_of, dup.cycle) if line in type_of}


def line_of(event: str) -> int | None:
    """The instance whose event this is, as `3.1`; the end of the plan is nobody's."""
    instance = event.partition(".")[0]
    return int(instance) if plans.NUMBER.fullmatch(instance) else None
