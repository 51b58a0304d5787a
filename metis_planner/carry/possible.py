"""Which actions may happen, in a plan or a universe: a step of the commands that fits none of them is misspelt."""

from collections.abc import Iterable, Iterator

from metis_planner.text.actions import Action, Bind, Move, Unbind
from metis_planner.text.documents import ComponentType


class PossibleActions:
    """How each type moves, what it may require, and which types provide a port."""

    def __init__(self, types: Iterable[ComponentType] | None = None) -> None:
        self.has_universe = types is not None
        self.moves: dict[str, set[tuple[str, str]]] = {}
        self.required: dict[str, set[str]] = {}
        self.providers: dict[str, set[str]] = {}
        self.add_types(types or ())

    def add_types(self, types: Iterable[ComponentType]) -> None:
        """Notes what types may do as possible."""
        for kind in types:
            self.moves.setdefault(kind.name, set()).update((state.name, each) for state in kind.states for each in state.next)
            self.required.setdefault(kind.name, set()).update(port for state in kind.states for port in state.require)
            for state in kind.states:
                for port in state.provide:
                    self.providers.setdefault(port, set()).add(kind.name)

    def add(self, action: Action) -> None:
        """Notes an action of a plan as possible."""
        moves, required = self.moves.setdefault(action.type, set()), self.required.setdefault(action.type, set())
        if isinstance(action, Move):
            moves.add((action.start, action.end))
        if isinstance(action, Bind | Unbind):
            required.add(action.port)
            self.providers.setdefault(action.port, set()).add(action.provider_type)

    def subjects(self) -> Iterator[str]:
        """The actions, as a commands file names them."""
        for kind, moves in self.moves.items():
            yield from (f"{kind}: new", f"{kind}: delete")
            yield from (f"{kind}: {one} -> {other}" for one, other in sorted(moves))
            for port in sorted(self.required[kind]):
                yield from (f"{kind}: {verb} {port}" for verb in ("bind", "unbind"))
