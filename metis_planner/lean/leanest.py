"""The search for one universe and its targets: the plan of `plan`, the best so far, and how few instances there can be."""

from collections.abc import Callable, Sequence

from metis_planner.lean.bound import Bound, ask_without
from metis_planner.lean.calls import Calls
from metis_planner.lean.made import Made
from metis_planner.lean.search import Best, Search, gone_by
from metis_planner.lean.universe import Provide, Universe

DEFAULT_CALLS = 2_000


class Leanest:
    """What is known so far. It begins with the plan over the whole universe, and is whole at every moment."""

    def __init__(self, text: str, path: str, targets: Sequence[str], first: str) -> None:
        self.text = text
        self.universe = Universe(text, path)
        self.bound = Bound(self.universe, targets)
        self.first = Made(first, self.universe)
        self.best = Best(self.first)

    def search(self, calls: Calls, most_calls: int, told: Callable[["Leanest"], None]) -> None:
        """Finds out what no plan can do without, and then the best plan. What was found stays if this is broken off."""

        def better(best: Best) -> None:
            self.best = best
            told(self)

        if self.first.cost.instances > self.bound.instances:
            ask_without(self.bound, self.first, calls)
        Search(self.universe, self.bound, calls, most_calls - 1, better).run(self.best)

    def left_out(self) -> list[Provide]:
        """The provides that the universe of the best plan has not."""
        return sorted(gone_by(self.best.steps, self.universe))

    def sentence(self) -> str:
        """How many instances the plan has, beside that of `plan`, and how few there can be."""
        made, first, least = self.best.made.cost.instances, self.first.cost.instances, self.bound.instances
        count = f"{made} {'instance' if made == 1 else 'instances'}"
        whole = f"{count}, as plan makes" if made == first else f"{count} where plan makes {first}"
        return f"{whole}; {'no plan has fewer' if made <= least else f'at least {least}'}"
