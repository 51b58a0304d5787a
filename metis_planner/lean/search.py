"""Looks for a plan with few instances: the planner's own, over the universe without some of its provides.

Nothing that is done without a provide is forbidden by it, so a plan of the smaller universe is a plan of the whole one. For each
port `plan` takes the pair that can be reached first, and an instance that serves somebody does not move on. So what can be won is
won by leaving out provides until a port comes from a pair that has to be there anyway.

From the plan over the whole universe the best of all steps is taken, and then those that were better too are tried over it, until
none is better; then the steps are looked for anew. It ends where none of them is better, or where no plan has fewer instances. The
order of the steps follows from the universe and the plan alone, and so does the answer.
"""

import functools
import heapq
from collections.abc import Callable, Iterable, Iterator, Sequence
from typing import NamedTuple

from metis_planner.lean.bound import Bound
from metis_planner.lean.calls import Calls
from metis_planner.lean.made import Cost, Made
from metis_planner.lean.universe import Pair, Provide, Universe
from metis_planner.program import Said, Status


class Step(NamedTuple):
    """What is left out of a universe: what other pairs than one provide of some ports, or one provide, or all of a type's."""

    ports: tuple[str, ...] = ()
    only_from: Pair | None = None
    not_from: Pair | None = None
    without: str | None = None

    def gone(self, universe: Universe) -> Iterator[Provide]:
        for port in self.ports:
            for pair in universe.providers[port]:
                if pair == self.not_from or self.only_from not in (None, pair):
                    yield Provide(pair, port)
        if self.without is not None:
            yield from universe.provides_of(self.without)


Steps = frozenset[Step]


def gone_by(steps: Iterable[Step], universe: Universe) -> frozenset[Provide]:
    """All provides that these steps leave out."""
    return frozenset(provide for step in steps for provide in step.gone(universe))


def document_after(universe: Universe, steps: Steps) -> str:
    return universe.without(gone_by(steps, universe))


class Best(NamedTuple):
    """The best plan so far, and by which steps its universe is smaller."""

    made: Made
    steps: Steps = frozenset()


class Search:
    """The search over one universe. `told` is called with the best so far whenever there is a better one."""

    def __init__(self, universe: Universe, bound: Bound, calls: Calls, most_calls: int, told: Callable[[Best], None]) -> None:
        self.universe = universe
        self.bound = bound
        self.calls = calls
        self.most_calls = most_calls
        self.told = told
        self.count = 0
        self.costs: dict[Steps, Cost | None] = {}

    def run(self, best: Best) -> Best:
        """The best that is found from this one on."""
        while best.made.cost.instances > self.bound.instances and self.count < self.most_calls:
            before = best
            hot = Hot(self.universe, self.bound, best)
            steps = [ranked.step for ranked in heapq.nlargest(self.most_calls, hot.steps(), key=lambda each: each.rank)]
            while steps:
                best, steps = self.better(best, list(dict.fromkeys(steps)))
            if best is before:
                break
        return best

    def better(self, best: Best, steps: Sequence[Step]) -> tuple[Best, list[Step]]:
        """The best after one of these steps, and those of the others that were better too, the best first."""
        found = best
        better: list[tuple[Cost, int]] = []
        for place, (after, cost, said) in enumerate(self.tried([best.steps | {step} for step in steps])):
            if cost is not None and cost < best.made.cost:
                better.append((cost, place))
                if said is not None and cost < found.made.cost:
                    found = Best(Made(said.text, self.universe), after)
        if found is not best:
            self.told(found)
        return found, [steps[place] for _, place in sorted(better)[1:]]

    def tried(self, sets: Sequence[Steps]) -> Iterator[tuple[Steps, Cost | None, Said | None]]:
        """What a plan costs after each of these sets of steps, and its text where it was not made before. As many as may be tried."""
        new = [each for each in dict.fromkeys(sets) if each not in self.costs][: self.most_calls - self.count]
        self.count += len(new)
        answers = dict(zip(new, self.calls.plans([functools.partial(document_after, self.universe, each) for each in new])))
        for each in sets:
            said = answers.pop(each, None)
            if said is not None:
                self.costs[each] = Made(said.text, self.universe).cost if said.status == Status.DONE else None
            yield each, self.costs.get(each), said


class Ranked(NamedTuple):
    """A step, and how many instances may be won by it at most."""

    rank: int
    step: Step


class Hot:
    """Where something can be won: types with more instances than they need, those on their cycles, and the ports that they serve."""

    def __init__(self, universe: Universe, bound: Bound, best: Best) -> None:
        self.universe = universe
        self.gone = gone_by(best.steps, universe)
        self.serving = best.made.serving
        self.spare = {kind: count - bound.of(kind) for kind, count in best.made.counts.items() if count > bound.of(kind)}
        kinds = self.spare.keys() | best.made.on_cycles
        self.ports = [port for port, pairs in self.serving.items() if any(pair.type in kinds for pair in pairs)]
        self.needless = [kind for kind in self.spare if bound.of(kind) == 0]

    def steps(self) -> Iterator[Ranked]:
        offered: dict[Pair, list[str]] = {}
        for port in self.ports:
            for pair in self.offers(port):
                offered.setdefault(pair, []).append(port)
        for pair, ports in offered.items():
            yield from self.to_one(pair, [port for port in ports if self.serving[port] != {pair}])
        for port in self.ports:
            yield from self.to_another(port)
        for kind in self.needless:
            yield Ranked(self.spare[kind], Step(without=kind))

    def offers(self, port: str) -> list[Pair]:
        return [pair for pair in self.universe.providers[port] if Provide(pair, port) not in self.gone]

    def to_one(self, pair: Pair, ports: list[str]) -> Iterator[Ranked]:
        """These ports come from this pair alone: all that others of its type serve, all together, and each by itself."""
        own = [port for port in ports if {each.type for each in self.serving[port]} == {pair.type}]
        for group in (own, ports, *([port] for port in ports)):
            if group:
                yield Ranked(max(map(self.rank, group)), Step(tuple(group), only_from=pair))

    def to_another(self, port: str) -> Iterator[Ranked]:
        """What serves this port does not, where something that serves nothing yet provides it."""
        serving = self.serving[port]
        if any(pair not in serving for pair in self.offers(port)):
            for pair in sorted(serving):
                yield Ranked(self.spare.get(pair.type, 0), Step((port,), not_from=pair))

    def rank(self, port: str) -> int:
        return max(self.spare.get(pair.type, 0) for pair in self.serving[port])
