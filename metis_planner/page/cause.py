"""Why a target is not attained, as a graph: its pairs, what each of them needs or is reached from, and the circles in it."""

import dataclasses
from metis_planner.text import plans


@dataclasses.dataclass
class Node:
    """A pair, or where there is none what is said of that; its column is the least number of links from the goal."""

    text: str
    is_none: bool = False
    notes: list[str] = dataclasses.field(default_factory=list)
    lines: list[int] = dataclasses.field(default_factory=list)  # whose pair it is
    column: int = 0
    ring: int = 0  # the number of the circle that it is in, from 1


@dataclasses.dataclass(frozen=True)
class Link:
    """From a pair to one that it needs or, if it is a way, to one that it is reached from; with its line, if it has one."""

    start: int
    end: int
    text: str
    line: int | None
    is_way: bool


class Cause:
    def __init__(self, explanation: plans.Explanation) -> None:
        self.nodes: list[Node] = []
        self.links: list[Link] = []
        self.place_of: dict[str, int] = {}
        goal = self.node(explanation.lacks)
        for name in explanation.providers or ():
            self.links.append(Link(goal, self.node(name), "from", None, False))
        if explanation.providers == ():
            self.links.append(Link(goal, self.nothing("nothing provides it"), "from", None, False))
        for line, reason in enumerate(explanation.reasons):
            self.add(reason, line)
        self.out: list[list[int]] = [[] for _ in self.nodes]
        for link in self.links:
            self.out[link.start].append(link.end)
        self.set_rings()
        self.set_columns()

    def node(self, name: str) -> int:
        if name not in self.place_of:
            self.place_of[name] = len(self.nodes)
            self.nodes.append(Node(name))
        return self.place_of[name]

    def nothing(self, text: str) -> int:
        self.nodes.append(Node(text, is_none=True))
        return len(self.nodes) - 1

    def add(self, reason: plans.Reason, line: int) -> None:
        pair = self.node(reason.pair)
        self.nodes[pair].lines.append(line)
        if reason.is_start:
            self.nodes[pair].notes.append(f"its first state, but needs {reason.needs}")
        text = "reached from" if reason.comes else str(reason.needs)
        for name in reason.names:
            self.links.append(Link(pair, self.node(name), text, line, reason.comes))
        if not reason.names and not reason.is_start:
            none = self.nothing("no move leads here" if reason.comes else f"nothing provides {reason.needs}")
            self.links.append(Link(pair, none, "reached" if reason.comes else text, line, reason.comes))

    def set_rings(self) -> None:
        """Nodes that lead to one another are of one ring: each part of what is reached both ways from a node."""
        back: list[list[int]] = [[] for _ in self.nodes]
        for link in self.links:
            back[link.end].append(link.start)
        order: list[int] = []
        seen: set[int] = set()
        for root in range(len(self.nodes)):
            order += finished(root, self.out, seen)
        seen, rings = set(), 0
        for root in reversed(order):
            part = finished(root, back, seen)
            if len(part) > 1 or root in self.out[root] and part:
                rings += 1
                for place in part:
                    self.nodes[place].ring = rings

    def set_columns(self) -> None:
        queue, found = [0], {0}
        for place in queue:
            for end in self.out[place]:
                if end not in found:
                    found.add(end)
                    self.nodes[end].column = self.nodes[place].column + 1
                    queue.append(end)

    def is_in_ring(self, link: Link) -> bool:
        return self.nodes[link.start].ring == self.nodes[link.end].ring > 0

    def columns(self) -> list[list[int]]:
        columns: list[list[int]] = []
        for place in sorted(range(len(self.nodes)), key=lambda each: self.nodes[each].column):
            if self.nodes[place].column == len(columns):
                columns.append([])
            columns[-1].append(place)
        return columns

    def circles(self) -> list[list[str]]:
        found: dict[int, list[str]] = {}
        for node in self.nodes:
            if node.ring:
                found.setdefault(node.ring, []).append(node.text)
        return list(found.values())


def finished(root: int, out: list[list[int]], seen: set[int]) -> list[int]:
    """What is reached from a root and was not seen before, each after all that it leads to."""
    if root in seen:
        return []
    seen.add(root)
    order: list[int] = []
    stack = [(root, iter(out[root]))]
    while stack:
        place, ends = stack[-1]
        following = next((end for end in ends if end not in seen), None)
        if following is None:
            order.append(place)
            stack.pop()
        else:
            seen.add(following)
            stack.append((following, iter(out[following])))
    return order
