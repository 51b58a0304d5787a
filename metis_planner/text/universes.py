"""Reads a universe with the place of each part, and finds all its faults: the first of them is the one that Metis prints."""

import dataclasses
import difflib
import itertools
import re
from collections.abc import Collection, Iterator

from metis_planner.answers import Refused
from metis_planner.text import documents
from metis_planner.text.places import Lines, NoJson, Node, Object, read_json
from metis_planner.text.reading import read_bytes

NAME = re.compile(r"[A-Za-z0-9_./@-]+")
ROOT_KEYS = ("aeolus", "types", "comment", "$schema")
TYPE_KEYS = ("name", "source", "sum", "initial", "states")
STATE_KEYS = ("name", "provide", "require", "next")
NEED_KEYS = ("port", "count")
LONGEST_SHOWN = 72
# Among so many words one that is near is sought, and so much longer or shorter it may be.
MOST_KNOWN = 4_000
FARTHEST = 3


@dataclasses.dataclass(frozen=True, slots=True)
class Named:
    """A name and where it stands; of a port that is required, how many providers are asked for."""

    name: str
    at: int
    count: int = 1


@dataclasses.dataclass(frozen=True, slots=True)
class StateRow:
    name: Named
    provide: tuple[Named, ...]
    require: tuple[Named, ...]
    next: tuple[Named, ...]


@dataclasses.dataclass(frozen=True, slots=True)
class TypeRow:
    name: Named
    initial: Named
    states: tuple[StateRow, ...]
    sum: str = ""


@dataclasses.dataclass(frozen=True, slots=True)
class Rows:
    """A universe as it is written."""

    version: int
    types: tuple[TypeRow, ...]


@dataclasses.dataclass(frozen=True, slots=True)
class Unknown:
    """A word that is not known, and those that are. The one that is near is sought when somebody is to read it."""

    word: str
    known: Collection[str]

    def hint(self) -> str:
        """The nearest word as a question; nothing where none is near."""
        around = len(self.word)
        words = [it for it in itertools.islice(self.known, MOST_KNOWN) if abs(len(it) - around) <= FARTHEST]
        found = difflib.get_close_matches(self.word, words, 1, 0.6)
        return f"; did you mean {shown(found[0])}?" if found else ""


@dataclasses.dataclass(frozen=True, slots=True)
class Note:
    """What stands at a place, and was perhaps not meant."""

    at: int
    reason: str
    unknown: Unknown | None = None

    def text(self) -> str:
        return self.reason + (self.unknown.hint() if self.unknown else "")


@dataclasses.dataclass(frozen=True, slots=True)
class Fault:
    """A reason for which Metis refuses a document: the line that it prints, and where and why it is so."""

    line: str
    at: int
    reason: str
    unknown: Unknown | None = None

    def text(self) -> str:
        behind = f" ({self.line})" if self.line else ""
        return self.reason + (self.unknown.hint() if self.unknown else "") + behind


@dataclasses.dataclass(frozen=True, slots=True)
class Reading:
    """What a file says: its rows, or where there are none its faults of form, with notes and a place for each."""

    rows: Rows | None
    faults: tuple[Fault, ...]
    notes: tuple[Note, ...]
    lines: Lines


def shown(text: str) -> str:
    """A name as it stands, or another text in quotes, without what a terminal would obey, and not all of a long one."""
    if NAME.fullmatch(text) and len(text) <= LONGEST_SHOWN:
        return text
    return ascii(text if len(text) <= LONGEST_SHOWN else f"{text[:LONGEST_SHOWN]}..")


def is_name(text: str) -> bool:
    return bool(NAME.fullmatch(text)) and len(text) <= documents.LONGEST_NAME


def no_name(text: str) -> str:
    if NAME.fullmatch(text):
        return f"{shown(text)} has {len(text)} bytes, and a name at most {documents.LONGEST_NAME}"
    return f"{shown(text)} is no name: letters, digits and _ - . / @ are allowed"


class Form:
    """Goes over a document, and gathers its faults of form and the keys that are not read."""

    def __init__(self) -> None:
        self.faults: list[Fault] = []
        self.notes: list[Note] = []
        self.version = 1

    def fault(self, line: str, at: int, reason: str) -> None:
        self.faults.append(Fault(line, at, reason))

    def look_at_keys(self, found: Object, known: tuple[str, ...]) -> None:
        seen: set[str] = set()
        for member in found.members:
            if member.name in seen:
                self.notes.append(Note(member.at, f"the key {shown(member.name)} stands here once more, and the last one counts"))
            elif member.name not in known:
                self.notes.append(Note(member.at, f"the key {shown(member.name)} is not read", Unknown(member.name, known)))
            seen.add(member.name)

    def root(self, root: Node) -> Rows | None:
        line = "bad universe U2"
        if not isinstance(root.value, Object):
            self.fault(line, root.at, "a universe is an object with the keys aeolus and types")
            return None
        self.look_at_keys(root.value, ROOT_KEYS)
        version, types = root.value.get("aeolus"), root.value.get("types")
        if version is None or type(version.value) is not int or version.value not in (1, 2):
            self.fault(line, version.at if version else root.at, 'it needs "aeolus":1 or "aeolus":2, a whole number')
        if types is None or not isinstance(types.value, tuple):
            self.fault(line, types.at if types else root.at, 'it needs a list "types"')
        if version is None or types is None or not isinstance(types.value, tuple) or self.faults:
            return None
        self.version = version.value if isinstance(version.value, int) else 1
        rows = [self.type(place, node) for place, node in enumerate(types.value)]
        return None if self.faults else Rows(self.version, tuple(row for row in rows if row))

    def text_at(self, found: Object, key: str, line: str, at: int) -> Named | None:
        node = found.get(key)
        if node is not None and isinstance(node.value, str):
            return Named(node.value, node.at)
        self.fault(line, node.at if node else at, f'it needs a text "{key}"')
        return None

    def type(self, place: int, node: Node) -> TypeRow | None:
        line = f"bad universe U3 type {place}"
        if not isinstance(node.value, Object):
            self.fault(line, node.at, "a type is an object with the keys name, initial and states")
            return None
        self.look_at_keys(node.value, TYPE_KEYS)
        before = len(self.faults)
        name, initial = (self.text_at(node.value, key, line, node.at) for key in ("name", "initial"))
        states = node.value.get("states")
        if states is None or not isinstance(states.value, tuple):
            self.fault(line, states.at if states else node.at, 'it needs a list "states"')
        if len(self.faults) > before or not name or not initial or states is None or not isinstance(states.value, tuple):
            return None
        found = [self.state(f"type {place} state {at}", it) for at, it in enumerate(states.value)]
        told = node.value.get("sum")
        own = told.value if told and isinstance(told.value, str) else ""
        return TypeRow(name, initial, tuple(state for state in found if state), own)

    def state(self, where: str, node: Node) -> StateRow | None:
        line = f"bad universe U6 {where}"
        if not isinstance(node.value, Object):
            self.fault(line, node.at, "a state is an object with a text name")
            return None
        self.look_at_keys(node.value, STATE_KEYS)
        name = self.text_at(node.value, "name", line, node.at)
        provide, require, after = (self.list_at(node.value, key, line) for key in ("provide", "require", "next"))
        return StateRow(name, provide, require, after) if name else None

    def list_at(self, found: Object, key: str, line: str) -> tuple[Named, ...]:
        node = found.get(key)
        if node is None:
            return ()
        if not isinstance(node.value, tuple):
            example = f', as ["{node.value}"]' if isinstance(node.value, str) and is_name(node.value) else ""
            self.fault(line, node.at, f'"{key}" is a list{example}')
            return ()
        entries = [self.entry(key, line, it) for it in node.value]
        return tuple(entry for entry in entries if entry)

    def entry(self, key: str, line: str, node: Node) -> Named | None:
        if isinstance(node.value, str):
            return Named(node.value, node.at)
        if key != "require":
            self.fault(line, node.at, f'an entry of "{key}" is a text')
            return None
        if not isinstance(node.value, Object):
            self.fault(line, node.at, "an entry of \"require\" is a port's name, or an object with port and count")
            return None
        self.look_at_keys(node.value, NEED_KEYS)
        return self.counted_entry(node.value, line, node.at)

    def counted_entry(self, found: Object, line: str, at: int) -> Named | None:
        """An entry of `require` with its count."""
        if self.version == 1:
            self.fault(line, at, 'a count needs "aeolus":2')
            return None
        port, count = self.text_at(found, "port", line, at), found.get("count")
        if count is None or type(count.value) is not int or not 0 <= count.value < 2**64:
            self.fault(line, count.at if count else at, 'it needs a whole number "count"')
            return None
        return port and Named(port.name, port.at, count.value)


def greatest_counts(ports: tuple[Named, ...]) -> dict[str, int]:
    """Of each port of a list the greatest of its counts, in the order in which they stand."""
    counts: dict[str, int] = {}
    for port in ports:
        counts[port.name] = max(counts.get(port.name, 0), port.count)
    return counts


def limit(what: str, count: int, most: int, at: int, whose: str) -> Iterator[Fault]:
    if count > most:
        yield Fault(f"bad universe U12 {what} {count}", at, f"{whose} {count}, and Metis takes at most {most}")


def faults_of_state(where: str, state: StateRow, first_of: dict[str, int], kind: str) -> Iterator[Fault]:
    name = state.name
    if not is_name(name.name):
        yield Fault(f"bad universe U7 {where}", name.at, no_name(name.name))
    if name.name in first_of:
        first = first_of[name.name]
        yield Fault(f"bad universe U8 {where} first {first}", name.at, f"{kind} has a state {shown(name.name)} already")
    for place, port in enumerate((*state.provide, *state.require)):
        if not is_name(port.name):
            yield Fault(f"bad universe U11 {where} entry {place}", port.at, no_name(port.name))
    for place, port in enumerate(state.require):
        if not 1 <= port.count <= documents.MOST_OF_A_PORT:
            reason = f"the count of {shown(port.name)} is {port.count}, and has to be 1 to {documents.MOST_OF_A_PORT}"
            yield Fault(f"bad universe U13 {where} entry {place}", port.at, reason)


def faults_of_type(place: int, row: TypeRow, first_of: dict[str, int]) -> Iterator[Fault]:
    """The faults of a type, in the order in which Metis looks for them."""
    name, kind = row.name, shown(row.name.name)
    if not is_name(name.name):
        yield Fault(f"bad universe U4 type {place}", name.at, no_name(name.name))
    if name.name in first_of:
        yield Fault(f"bad universe U5 type {place} first {first_of[name.name]}", name.at, f"a type {kind} stands there already")
    yield from limit("states", len(row.states), documents.MOST_STATES, name.at, f"the states of {kind} are")
    states: dict[str, int] = {}
    for at, state in enumerate(row.states):
        yield from faults_of_state(f"type {place} state {at}", state, states, kind)
        states.setdefault(state.name.name, at)
    demand = sum(sum(greatest_counts(state.require).values()) for state in row.states)
    yield from limit("requires", demand, documents.MOST_REQUIRED, name.at, f"the providers that the states of {kind} require are")
    if row.initial.name not in states:
        reason = f"initial {shown(row.initial.name)} is none of the states of {kind}"
        yield Fault(f"bad universe U9 type {place}", row.initial.at, reason, Unknown(row.initial.name, states))
    for at, state in enumerate(row.states):
        for entry, after in enumerate(state.next):
            if after.name not in states:
                line = f"bad universe U10 type {place} state {at} entry {entry}"
                yield Fault(line, after.at, f"next {shown(after.name)} is none of the states of {kind}", Unknown(after.name, states))


def faults_of_rows(rows: Rows) -> Iterator[Fault]:
    """The faults of what the rows say, in the order in which Metis looks for them."""
    types: dict[str, int] = {}
    for place, row in enumerate(rows.types):
        yield from faults_of_type(place, row, types)
        types.setdefault(row.name.name, place)
    ports = {port.name for row in rows.types for state in row.states for port in (*state.provide, *state.require)}
    pairs = sum(len(row.states) for row in rows.types)
    yield from limit("pairs", pairs, documents.MOST_PAIRS, 0, "the pairs of type and state are")
    yield from limit("ports", len(ports), documents.MOST_PORTS, 0, "the ports are")


def read_document(data: bytes) -> Reading:
    """What a document says, with all its faults of form, or else all of what it says. The first is the one that Metis prints."""
    if len(data) > documents.MOST_BYTES:
        reason = f"the document has more than {documents.MOST_BYTES} bytes"
        return Reading(None, (Fault("too long 2", 0, reason),), (), Lines(""))
    try:
        text = data.decode("utf-8")
    except UnicodeDecodeError as fault:
        text = data[: fault.start].decode("utf-8")
        return Reading(None, (Fault("bad universe U1", len(text), "a byte that is no UTF-8"),), (), Lines(text))
    lines, form = Lines(text), Form()
    try:
        root = read_json(text)
    except NoJson as fault:
        return Reading(None, (Fault("bad universe U1", fault.at, fault.reason),), (), lines)
    rows = form.root(root)
    faults = form.faults if rows is None else faults_of_rows(rows)
    return Reading(rows, tuple(faults), tuple(form.notes), lines)


def types_of(rows: Rows) -> tuple[documents.ComponentType, ...]:
    """The types of a universe, each with its initial state first."""
    found = []
    for row in rows.types:
        states = sorted(row.states, key=lambda state: state.name.name != row.initial.name)
        found.append(documents.ComponentType(row.name.name, tuple(map(state_of, states)), row.sum))
    return tuple(found)


def state_of(row: StateRow) -> documents.State:
    provide, after = (tuple(dict.fromkeys(it.name for it in names)) for names in (row.provide, row.next))
    return documents.State(row.name.name, provide, greatest_counts(row.require), after)


def types_in(data: bytes, path: str) -> tuple[documents.ComponentType, ...]:
    """The types of the universe that these bytes are; the path is for what is said where they are none."""
    reading = read_document(data)
    if reading.rows is None or reading.faults:
        fault = reading.faults[0]
        line, column = reading.lines.place(fault.at)
        raise Refused(f"{path}:{line}:{column}: {fault.text()}")
    return types_of(reading.rows)


def read_types(path: str) -> tuple[documents.ComponentType, ...]:
    """The types of the universe in a file, or on standard input for `-`."""
    return types_in(read_bytes(path, documents.MOST_BYTES), path)
