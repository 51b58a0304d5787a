"""How many instances each plan for the targets makes at least, by types, each with its reason.

Most of it follows from the document alone. A pair is *needed* if each list of actions that attains the targets brings an
instance into it: a pair that a target names; each state that no way from the initial state to a needed one goes round; and if one
type alone provides what a needed pair requires, what all its states that provide it have in common. A type has as many instances
as the greatest of these says. For a type of which the document says nothing, the program is asked over the universe without it.
"""

import dataclasses
import functools
from collections import Counter
from collections.abc import Iterable, Sequence

from metis_planner.lean.calls import Calls
from metis_planner.lean.made import Made
from metis_planner.lean.universe import Pair, Universe
from metis_planner.program import Status
from metis_planner.text.documents import RESERVED, ComponentType


@dataclasses.dataclass(frozen=True)
class Least:
    """So many instances of a type every plan makes, and why; `pair` is the one that is needed, where it is not the type."""

    count: int
    reason: str
    is_named: bool = False
    pair: Pair | None = None


def reached(kind: ComponentType, left_out: str | None = None) -> set[str]:
    """The states to which moves lead from the initial one, without one that is left out."""
    after = {state.name: state.next for state in kind.states}
    found, more = {kind.states[0].name}, [kind.states[0].name]
    while more:
        for each in after[more.pop()]:
            if each != left_out and each not in found:
                found.add(each)
                more.append(each)
    return found


def ways_of(kind: ComponentType) -> dict[str, frozenset[Pair]]:
    """For each state the pairs that each way from the initial state to it goes through, with both ends."""
    through: dict[str, set[str]] = {state.name: {kind.states[0].name, state.name} for state in kind.states}
    for state in kind.states[1:]:
        for goal in through.keys() - reached(kind, state.name):
            through[goal].add(state.name)
    return {goal: frozenset(Pair(kind.name, state) for state in states) for goal, states in through.items()}


class Bound:
    """The least number of instances of each type, as far as it is known so far."""

    def __init__(self, universe: Universe, targets: Sequence[str]) -> None:
        self.universe = universe
        self.least: dict[str, Least] = {}
        self.needed: dict[Pair, None] = {}
        self.ways: dict[str, dict[str, frozenset[Pair]]] = {}
        self.pairs, self.ports = goals_of(universe, targets)
        for pair in self.pairs:
            self.need(self.way(pair))
        for port, count in self.ports.items():
            self.need(self.require(port, count, "a target asks for" if count == 1 else f"targets ask for {count} of"))
        self.hold_in_the_end()

    @property
    def instances(self) -> int:
        return sum(each.count for each in self.least.values())

    def of(self, kind: str) -> int:
        return self.least[kind].count if kind in self.least else 0

    def way(self, pair: Pair) -> frozenset[Pair]:
        if pair.type not in self.ways:
            self.ways[pair.type] = ways_of(self.universe.types[pair.type])
        return self.ways[pair.type][pair.state]

    def raise_to(self, kind: str, least: Least) -> None:
        if least.count > self.of(kind):
            self.least[kind] = least

    def need(self, pairs: Iterable[Pair]) -> None:
        """Takes in pairs that are needed, and all that is needed for them."""
        more = [pair for pair in sorted(pairs) if pair not in self.needed]
        while more:
            pair = more.pop()
            if pair in self.needed:
                continue
            self.needed[pair] = None
            more += [each for each in sorted(self.way(pair)) if each not in self.needed]
            for port, count in self.universe.required(pair).items():
                more += self.require(port, count, f"{pair} requires" if count == 1 else f"{pair} requires {count} of", pair)

    def require(self, port: str, count: int, who: str, pair: Pair | None = None) -> list[Pair]:
        """So many providers of a port are needed at once. If one type alone provides it, the pairs that are needed for that."""
        providers = self.universe.providers.get(port, [])
        types = {provider.type for provider in providers}
        if len(types) != 1:
            return []
        (kind,) = types
        # no instance provides to itself
        count += pair is not None and pair.type == kind
        self.raise_to(kind, Least(count, f"{who} {port}, which {kind} alone provides", pair=pair))
        return sorted(frozenset.intersection(*map(self.way, providers)))

    def hold_in_the_end(self) -> None:
        """The targets stand together in the end: one instance for each that names a pair, and providers for all of them."""
        by_type: Counter[str] = Counter()
        for pair, count in self.pairs.items():
            by_type[pair.type] += count
        for kind, count in by_type.items():
            more, why = max((self.beside(kind, port, count) for port in self.universe.providers), default=(0, ""))
            reason = "a target names it" if count == 1 else f"{count} targets name it"
            self.raise_to(kind, Least(count + more, reason + why, is_named=True))

    def beside(self, kind: str, port: str, count: int) -> tuple[int, str]:
        """How many instances of a type the targets use at this port in the end besides those that targets name, and why."""
        if {provider.type for provider in self.universe.providers[port]} != {kind}:
            return 0, ""
        providing = sum(self.pairs[pair] for pair in self.universe.providers[port])
        wanted = self.ports[port] - providing
        for pair in self.pairs:
            own = pair in self.universe.providers[port]
            wanted = max(wanted, self.universe.required(pair).get(port, 0) - providing + own)
        return max(wanted, 0), f", and {wanted} more for {port}, which these do not provide" if wanted > 0 else ""


def ask_without(bound: Bound, made: Made, calls: Calls) -> int:
    """Asks the program over the universe without each type that a plan makes and that the document does not show to be needed.

    Gives the number of calls.
    """
    unsure = [kind for kind in made.counts if bound.of(kind) == 0]
    documents = [functools.partial(bound.universe.without_type, kind) for kind in unsure]
    for kind, said in zip(unsure, calls.plans(documents)):
        if said.status == Status.NO:
            bound.raise_to(kind, Least(1, "without it the targets are refused"))
    return len(unsure)


def goals_of(universe: Universe, targets: Sequence[str]) -> tuple[Counter[Pair], Counter[str]]:
    """What the target words ask for: pairs and ports, each as often as it is named."""
    pairs: Counter[Pair] = Counter()
    ports: Counter[str] = Counter()
    for word in targets:
        first, _, second = word.partition(":")
        if first == RESERVED and RESERVED not in universe.types:
            ports[second] += 1
        else:
            pairs[Pair(first, second)] += 1
    return pairs, ports
