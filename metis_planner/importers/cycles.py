"""Cycles of a graph: its strongly connected components of more than one node."""

from collections.abc import Iterable, Iterator, Mapping


def cycles(successors: Mapping[str, Iterable[str]]) -> dict[str, list[str]]:
    """For each node that lies in a cycle with others, the sorted list of all nodes of that cycle.

    `successors` has a list of nodes for each node; edges to nodes that it does not have are left out. Tarjan's way,
    without recursion. One list is shared by all its nodes.
    """
    search = _Search(successors)
    for node in sorted(successors):
        if node not in search.number:
            search.run(node)
    return search.found


class _Search:
    def __init__(self, successors: Mapping[str, Iterable[str]]) -> None:
        self.successors = successors
        self.number: dict[str, int] = {}  # in which order the nodes were entered
        self.lowest: dict[str, int] = {}  # the lowest number that is known to be reached from a node
        self.path: list[str] = []
        self.on_path: set[str] = set()
        self.found: dict[str, list[str]] = {}

    def run(self, root: str) -> None:
        work = [self.enter(root)]
        while work:
            node, rest = work[-1]
            other = self.next_new(node, rest)
            if other is not None:
                work.append(self.enter(other))
                continue
            work.pop()
            if work:
                self.lower(work[-1][0], self.lowest[node])
            if self.lowest[node] == self.number[node]:
                self.leave(node)

    def enter(self, node: str) -> tuple[str, Iterator[str]]:
        self.number[node] = self.lowest[node] = len(self.number)
        self.path.append(node)
        self.on_path.add(node)
        return node, iter(self.successors[node])

    def next_new(self, node: str, rest: Iterator[str]) -> str | None:
        """The next successor that was not entered before, or None; on the way edges back into the path are counted."""
        for other in rest:
            if other not in self.successors:
                continue
            if other not in self.number:
                return other
            if other in self.on_path:
                self.lower(node, self.number[other])
        return None

    def lower(self, node: str, number: int) -> None:
        self.lowest[node] = min(self.lowest[node], number)

    def leave(self, node: str) -> None:
        """Takes the component whose first node this is off the path."""
        group: list[str] = []
        while not group or group[-1] != node:
            group.append(self.path.pop())
        self.on_path.difference_update(group)
        if len(group) > 1:
            group.sort()
            self.found.update(dict.fromkeys(group, group))
