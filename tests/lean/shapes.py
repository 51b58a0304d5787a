"""Drawn universes, and the fewest instances with which their targets can be attained, by a search over whole configurations."""

import heapq
import random
from typing import Any, NamedTuple

Row = dict[str, Any]


class Drawn(NamedTuple):
    """A universe as its document says it, and target words."""

    document: Row
    targets: list[str]


def services(count: int, requirements: int, draw: random.Random) -> Drawn:
    """Services whose later states offer what the earlier ones do, each with requirements of the services before it."""
    types = []
    names = ("started", "healthy", "ready")
    for service in range(count):
        wanted: dict[str, list[str]] = {name: [] for name in names}
        for below in draw.sample(range(service), min(requirements, service)):
            wanted[draw.choice(names)].append(f"s{below}-{draw.choice(names)}")
        states: list[Row] = [{"name": "off", "next": ["started"]}]
        for place, name in enumerate(names):
            required = [port for each in names[: place + 1] for port in wanted[each]]
            provided = [f"s{service}-{each}" for each in names[: place + 1]]
            states.append({"name": name, "provide": provided, "require": required, "next": [*names[place + 1 : place + 2]]})
        types.append({"name": f"S{service}", "initial": "off", "states": states})
    return Drawn({"aeolus": 1, "types": types}, [f"S{count - 1}:ready"])


def tangle(draw: random.Random) -> Drawn:
    """A few types with alternatives for their ports, demands of several providers, states that go on offering, and cycles."""
    kinds, ports = draw.randint(2, 5), [f"p{place}" for place in range(draw.randint(2, 4))]
    types = []
    for kind in range(kinds):
        names = [f"s{place}" for place in range(draw.randint(2, 4))]
        states: list[Row] = []
        offered: list[str] = []
        for place, name in enumerate(names):
            if place:
                offered = [port for port in offered if draw.random() < 0.8] + [port for port in ports if draw.random() < 0.3]
            required = {port: draw.choice((1, 1, 1, 2)) for port in ports if place and draw.random() < 0.25}
            after = [other for far, other in enumerate(names) if far == place + 1 or far > place and draw.random() < 0.2]
            needs = [{"port": port, "count": count} for port, count in required.items()]
            states.append({"name": name, "provide": sorted(set(offered)), "require": needs, "next": after})
        types.append({"name": f"T{kind}", "initial": "s0", "states": states})
    wanted = [f"T{kind}:s{draw.randrange(1, len(types[kind]['states']))}" for kind in draw.sample(range(kinds), draw.randint(1, 2))]
    return Drawn({"aeolus": 2, "types": types}, wanted)


class Pairs:
    """The pairs of a document by numbers: what each provides and requires, and where it may go."""

    def __init__(self, document: Row) -> None:
        self.number: dict[tuple[str, str], int] = {}
        rows = [(row, state) for row in document["types"] for state in row["states"]]
        for row, state in rows:
            self.number[row["name"], state["name"]] = len(self.number)
        self.provides = [set(state.get("provide", [])) for _, state in rows]
        self.requires = [self.counts(state.get("require", [])) for _, state in rows]
        self.after = [[self.number[row["name"], name] for name in state.get("next", [])] for row, state in rows]
        self.first = [self.number[row["name"], row["initial"]] for row in document["types"]]

    @staticmethod
    def counts(needs: list[str | Row]) -> dict[str, int]:
        found: dict[str, int] = {}
        for need in needs:
            port, count = (need, 1) if isinstance(need, str) else (need["port"], need["count"])
            found[port] = max(found.get(port, 0), count)
        return found

    def holds(self, there: tuple[int, ...]) -> bool:
        """Whether each instance has the providers that it requires, if all are bound to all that provide."""
        for place, pair in enumerate(there):
            for port, count in self.requires[pair].items():
                if sum(port in self.provides[other] for far, other in enumerate(there) if far != place) < count:
                    return False
        return True


def fewest(drawn: Drawn, most: int) -> int | None:
    """The fewest instances that are made on any way to the targets, if that is at most so many.

    A configuration is the pairs of its instances, in order. Bindings are left out: where each instance is bound to all that can
    ever provide what it requires, it has as many providers as can be had, and no binding forbids anything but the deletion of its
    provider, before which it can be ended where it is not needed.
    """
    pairs = Pairs(drawn.document)
    goals: dict[int, int] = {}
    for word in drawn.targets:
        kind, state = word.split(":")
        number = pairs.number[kind, state]
        goals[number] = goals.get(number, 0) + 1
    seen: dict[tuple[int, ...], int] = {(): 0}
    ahead: list[tuple[int, tuple[int, ...]]] = [(0, ())]
    while ahead:
        made, there = heapq.heappop(ahead)
        if made > seen[there]:
            continue
        if all(there.count(number) >= count for number, count in goals.items()):
            return made
        moved = {there[:place] + there[place + 1 :] + (after,) for place, pair in enumerate(there) for after in pairs.after[pair]}
        deleted = {there[:place] + there[place + 1 :] for place in range(len(there))}
        for more, nexts in ((0, moved | deleted), (1, {(*there, first) for first in pairs.first} if made < most else set())):
            for each in (tuple(sorted(found)) for found in nexts):
                if made + more < seen.get(each, most + 1) and pairs.holds(each):
                    seen[each] = made + more
                    heapq.heappush(ahead, (made + more, each))
    return None
