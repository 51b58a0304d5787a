"""What all importers share: names, component types, and the document of a universe within the limits of Metis."""

import dataclasses
import hashlib
import json
import re
from collections.abc import Iterable, Mapping, Sequence
from typing import Any

from metis_planner.answers import Refused
from metis_planner.text.terminal import plain

# The limits of Metis, as docs/FORMATS.md has them.
MOST_BYTES = 4_194_304
MOST_PAIRS = 2_000
MOST_PORTS = 4_000
MOST_STATES = 64
MOST_REQUIRED = 128
MOST_OF_A_PORT = 16
LONGEST_NAME = 64

# In a universe with a type of this name the word `port:NAME` would ask for a state of that type.
RESERVED = "port"
DIGEST_LENGTH = 12
LONGEST_COMMENT = 100_000


@dataclasses.dataclass(frozen=True)
class State:
    """A state of a component type; of each port that it requires, how many providers it asks for."""

    name: str
    provide: tuple[str, ...] = ()
    require: dict[str, int] = dataclasses.field(default_factory=dict)
    next: tuple[str, ...] = ()

    def demand(self) -> int:
        return sum(self.require.values())


@dataclasses.dataclass(frozen=True)
class ComponentType:
    """A component type; its first state is the initial one."""

    name: str
    states: tuple[State, ...]
    # What tells the thing that it stands for from an earlier form of it, where an importer says that. The model has none of it.
    sum: str = ""

    def demand(self) -> int:
        return sum(state.demand() for state in self.states)


def one_each(ports: Iterable[str]) -> dict[str, int]:
    """A requirement of one provider of each of these ports."""
    return dict.fromkeys(ports, 1)


def two_states(
    name: str, low: str, high: str, provide: Iterable[str] = (), require: dict[str, int] | None = None
) -> ComponentType:
    """The type of what is either there or not: from `low` to `high` and back."""
    return ComponentType(name, (State(low, next=(high,)), State(high, tuple(provide), require or {}, (low,))))


class Names:
    """Gives each text a name of Metis, and no two texts the same one, in whatever order they come.

    A text that is a name stays as it is, where no other text has that name already. In others each character that no name
    has becomes `_`, and a name that is too long, reserved or another text's ends in a digest of its text.
    """

    def __init__(self) -> None:
        self.name_of: dict[str, str] = {}
        self.text_of: dict[str, str] = {}

    def of(self, text: str) -> str:
        if text not in self.name_of:
            self.name_of[text] = self.free(text)
            self.text_of[self.name_of[text]] = text
        return self.name_of[text]

    def free(self, text: str) -> str:
        name = re.sub(r"[^A-Za-z0-9_./@-]", "_", text)
        if name not in (RESERVED, "") and len(name) <= LONGEST_NAME and name not in self.text_of:
            return name
        stem = name[: LONGEST_NAME - DIGEST_LENGTH - 1]
        digested = text.encode(errors="surrogatepass")
        while True:
            digested = hashlib.sha256(digested).hexdigest().encode()
            found = f"{stem}-{digested[:DIGEST_LENGTH].decode()}"
            if found not in self.text_of:
                return found


def within_demand(component: ComponentType, names: Names) -> list[ComponentType]:
    """The type, and the parts that stand for what it requires past the limit.

    Each part requires some of the ports of one state, and that state requires the parts in their place.
    """
    parts: list[ComponentType] = []
    made: dict[tuple[tuple[str, int], ...], list[str]] = {}
    states = list(component.states)
    while sum(state.demand() for state in states) > MOST_REQUIRED:
        greatest = max(range(len(states)), key=lambda place: states[place].demand())
        required = tuple(sorted(states[greatest].require.items()))
        if required not in made:
            made[required] = []
            for chunk in chunks_of(required):
                port = names.of(f"{component.name}/part-{len(parts) + 1}")
                parts.append(two_states(port, "absent", "there", (port,), dict(chunk)))
                made[required].append(port)
        states[greatest] = dataclasses.replace(states[greatest], require=one_each(made[required]))
    return [dataclasses.replace(component, states=tuple(states)), *parts]


def chunks_of(required: Iterable[tuple[str, int]]) -> list[list[tuple[str, int]]]:
    """Ports with their counts, in lists of which each asks for as many providers as a type may."""
    chunks: list[list[tuple[str, int]]] = []
    room = 0
    for port, count in required:
        if count > room:
            chunks.append([])
            room = MOST_REQUIRED
        chunks[-1].append((port, count))
        room -= count
    return chunks


def check_counts(component: ComponentType) -> None:
    for state in component.states:
        for port, count in state.require.items():
            if count > MOST_OF_A_PORT:
                raise Refused(
                    f"{component.name} asks for {count} providers of {port}, and Metis takes at most {MOST_OF_A_PORT}"
                )


def check_limits(types: Sequence[ComponentType]) -> None:
    """The limits that no cutting into parts can keep."""
    for component in types:
        if len(component.states) > MOST_STATES:
            raise Refused(
                f"{component.name} has {len(component.states)} states, and Metis takes at most {MOST_STATES} a type"
            )
    pairs = sum(len(component.states) for component in types)
    if pairs > MOST_PAIRS:
        raise Refused(f"the universe has {pairs} pairs of type and state, and Metis takes at most {MOST_PAIRS}")
    ports = {port for component in types for state in component.states for port in (*state.provide, *state.require)}
    if len(ports) > MOST_PORTS:
        raise Refused(f"the universe has {len(ports)} ports, and Metis takes at most {MOST_PORTS}")


def written_state(state: State) -> dict[str, Any]:
    row: dict[str, Any] = {"name": state.name}
    if state.provide:
        row["provide"] = list(state.provide)
    if state.require:
        row["require"] = [
            port if count == 1 else {"port": port, "count": count} for port, count in state.require.items()
        ]
    if state.next:
        row["next"] = list(state.next)
    return row


def written_type(component: ComponentType, source: str) -> str:
    """A type, with what it is called in its source where its name is another one."""
    row = {
        "name": component.name,
        **({"source": source} if source != component.name else {}),
        **({"sum": component.sum} if component.sum else {}),
        "initial": component.states[0].name,
        "states": [written_state(state) for state in component.states],
    }
    return json.dumps(row, separators=(",", ":"))


class Document(str):
    """A document, and what its names stand for where they are others: of ports too, of which the document itself says nothing."""

    texts: Mapping[str, str]


def document(comment: str, types: Sequence[ComponentType], names: Names) -> Document:
    """The document of the universe of these types, one type a line, with a comment that says what it was made of."""
    for component in types:
        check_counts(component)
    whole = [each for component in types for each in within_demand(component, names)]
    check_limits(whole)
    counts = (count for component in whole for state in component.states for count in state.require.values())
    version = 2 if any(count > 1 for count in counts) else 1
    lines = ",\n".join(written_type(component, names.text_of.get(component.name, component.name)) for component in whole)
    text = f'{{"aeolus":{version},"comment":{json.dumps(plain(comment, LONGEST_COMMENT))},"types":[\n{lines}]}}\n'
    if len(text) > MOST_BYTES:
        raise Refused(f"the document has {len(text)} bytes, and Metis takes at most {MOST_BYTES}")
    found = Document(text)
    found.texts = {name: told for name, told in names.text_of.items() if name != told}
    return found
