"""A universe of which some provides, a type or a state can be left out, as a document that the program reads."""

import json
from collections.abc import Collection, Iterator, Mapping
from typing import Any, NamedTuple

from metis_planner.text import universes
from metis_planner.text.documents import ComponentType


class Pair(NamedTuple):
    """A component type in one of its states."""

    type: str
    state: str

    def __str__(self) -> str:
        return f"{self.type}:{self.state}"


class Provide(NamedTuple):
    """A pair with a port that it provides."""

    pair: Pair
    port: str

    def __str__(self) -> str:
        return f"{self.pair} {self.port}"


class Universe:
    """A document, its types, and for each port the pairs that provide it, in the document's order."""

    def __init__(self, text: str, path: str) -> None:
        self.types: dict[str, ComponentType] = {each.name: each for each in universes.types_in(text.encode(), path)}
        self.tree: dict[str, Any] = json.loads(text)
        self.providers: dict[str, list[Pair]] = {}
        for kind in self.types:
            for provide in self.provides_of(kind):
                self.providers.setdefault(provide.port, []).append(provide.pair)

    def provides_of(self, kind: str) -> Iterator[Provide]:
        for state in self.types[kind].states:
            for port in state.provide:
                yield Provide(Pair(kind, state.name), port)

    def required(self, pair: Pair) -> Mapping[str, int]:
        """What a pair requires: ports, each with how many providers."""
        return next(state.require for state in self.types[pair.type].states if state.name == pair.state)

    def without(self, gone: Collection[Provide]) -> str:
        """The document without these provides. Nothing else of it changes, so the types and states keep their order."""
        left_out: dict[Pair, set[str]] = {}
        for provide in gone:
            left_out.setdefault(provide.pair, set()).add(provide.port)
        types_left_out = {pair.type for pair in left_out}
        rows = [self.row_without(row, left_out) if row["name"] in types_left_out else row for row in self.tree["types"]]
        return json.dumps({**self.tree, "types": rows})

    @staticmethod
    def row_without(row: dict[str, Any], left_out: dict[Pair, set[str]]) -> dict[str, Any]:
        states = []
        for state in row["states"]:
            gone = left_out.get(Pair(row["name"], state["name"]))
            states.append({**state, "provide": [port for port in state["provide"] if port not in gone]} if gone else state)
        return {**row, "states": states}

    def is_initial(self, pair: Pair) -> bool:
        return self.types[pair.type].states[0].name == pair.state

    def without_type(self, name: str) -> str:
        return json.dumps({**self.tree, "types": [row for row in self.tree["types"] if row["name"] != name]})

    def without_state(self, pair: Pair) -> str:
        """The document in which no move leads to a state. An initial state cannot be left out so."""
        rows = []
        for row in self.tree["types"]:
            if row["name"] == pair.type:
                states = [{**state, "next": [each for each in state.get("next", []) if each != pair.state]} for state in row["states"]]
                row = {**row, "states": states}
            rows.append(row)
        return json.dumps({**self.tree, "types": rows})
