"""The layers of a universe: in which round each pair comes, while nothing is given up (docs/dev/MODEL.md, layers).

The planner chooses by them who provides a port: the pair of least layer, and of several the first in the document.
"""

from collections.abc import Sequence

from metis_planner.text.documents import ComponentType

Pair = tuple[str, str]


def pairs_of(types: Sequence[ComponentType]) -> list[Pair]:
    """The pairs of type and state, in the order of the document. Each type has its initial state first here."""
    return [(kind.name, state.name) for kind in types for state in kind.states]


def layers_of(types: Sequence[ComponentType]) -> dict[Pair, int]:
    """The layer of each pair that ever comes."""
    layer: dict[Pair, int] = {}
    provided: set[str] = set()
    reachable: set[Pair] = {(kind.name, kind.states[0].name) for kind in types if kind.states}
    waiting = [(kind, state) for kind in types for state in kind.states]
    current = 0
    while True:
        come = [
            (kind, state)
            for kind, state in waiting
            if (kind.name, state.name) in reachable and provided.issuperset(state.require)
        ]
        if not come:
            return layer
        for kind, state in come:
            layer[kind.name, state.name] = current
        waiting = [each for each in waiting if (each[0].name, each[1].name) not in layer]
        provided.update(port for _, state in come for port in state.provide)
        reachable.update((kind.name, after) for kind, state in come for after in state.next)
        current += 1


def providers_of(types: Sequence[ComponentType]) -> dict[str, list[Pair]]:
    """The pairs that come and provide a port, in the order in which the planner prefers them."""
    layer = layers_of(types)
    found: dict[str, list[Pair]] = {}
    for kind in types:
        for state in kind.states:
            if (kind.name, state.name) in layer:
                for port in state.provide:
                    found.setdefault(port, []).append((kind.name, state.name))
    return {port: sorted(pairs, key=lambda pair: layer[pair]) for port, pairs in found.items()}
