"""Sketches: a universe with a line a type, read with the place of each part, and written of a universe."""

import dataclasses
import json
import re
from collections.abc import Iterable, Iterator, Mapping, Sequence
from typing import NoReturn

from metis_planner.text import documents
from metis_planner.text.places import Lines
from metis_planner.text.universes import (
    Fault,
    faults_of_rows,
    greatest_counts,
    Named,
    Reading,
    Rows,
    shown,
    StateRow,
    TypeRow,
)

BLANKS = re.compile(r"[ \t\r]*")
WORD = re.compile(r"[^\s:>,()#*+]+")
PORT = re.compile(r"[+-]([^\s()*#]+)")
COUNT = re.compile(r"\*([0-9]{1,20})(?![^\s()#])")
VERSION = re.compile(r"aeolus[ \t]+([12])[ \t\r]*(#.*)?")
# How a type's line that is not one might begin.
FORM = "NAME: STATE > STATE(-port +port)"


class NoSketch(ValueError):
    """Why a line is none of a sketch, and where."""

    def __init__(self, at: int, reason: str):
        super().__init__(reason)
        self.at = at
        self.reason = reason


@dataclasses.dataclass(slots=True)
class Drawn:
    """A state while its type's line is read: it may stand in several paths."""

    name: Named
    provide: dict[str, Named] = dataclasses.field(default_factory=dict)
    require: dict[str, Named] = dataclasses.field(default_factory=dict)
    next: dict[str, Named] = dataclasses.field(default_factory=dict)

    def row(self) -> StateRow:
        return StateRow(self.name, *(tuple(it.values()) for it in (self.provide, self.require, self.next)))


class Line:
    """A type's line, read from the left."""

    def __init__(self, text: str, begin: int, end: int):
        self.text, self.at, self.end = text, begin, end
        self.states: dict[str, Drawn] = {}
        self.initial: Named | None = None

    def skip(self) -> str:
        """Goes past blanks, and gives the next character, or nothing at the end or before a comment."""
        blanks = BLANKS.match(self.text, self.at, self.end)
        self.at = blanks.end() if blanks else self.at
        here = self.text[self.at : min(self.at + 1, self.end)]
        return "" if here == "#" else here

    def refuse(self, reason: str, at: int | None = None) -> NoReturn:
        raise NoSketch(self.at if at is None else at, reason)

    def word(self, what: str) -> Named:
        here = self.skip()
        found = WORD.match(self.text, self.at, self.end) if here else None
        if not found:
            self.refuse(f"{what} is due here" + (f", and not {shown(here)}" if here else ""))
        self.at = found.end()
        return Named(found[0], found.start())

    def type(self) -> TypeRow:
        name = self.word("a type's name")
        if self.skip() != ":":
            self.refuse(f"a colon is due behind the type's name: {FORM}")
        self.at += 1
        self.path()
        while self.skip() == ",":
            self.at += 1
            self.path()
        if self.skip():
            self.refuse(f"a > or a comma is due here, and not {shown(self.text[self.at])}")
        states = tuple(it.row() for it in self.states.values())
        return TypeRow(name, self.initial or states[0].name, states)

    def path(self) -> None:
        before = self.step()
        while self.skip() == ">":
            self.at += 1
            after = self.step()
            before.next.setdefault(after.name.name, Named(after.name.name, self.at))
            before = after

    def step(self) -> Drawn:
        is_initial = self.skip() == "*"
        self.at += is_initial
        name = self.word("a state's name")
        if is_initial:
            if self.initial and self.initial.name != name.name:
                self.refuse(f"{shown(self.initial.name)} is the initial state already", name.at)
            self.initial = name
        state = self.states.setdefault(name.name, Drawn(name))
        if self.skip() == "(":
            self.ports(state)
        return state

    def ports(self, state: Drawn) -> None:
        begun = self.at
        self.at += 1
        while self.skip() != ")":
            here = self.skip()
            if not here:
                self.refuse("this bracket is not closed", begun)
            found = PORT.match(self.text, self.at, self.end)
            if not found:
                self.refuse(f"+ (provides) or - (requires) is due before a port, and not {shown(here)}")
            self.port(state, here, found)
        self.at += 1

    def port(self, state: Drawn, sign: str, found: re.Match[str]) -> None:
        at, count = self.at, 1
        self.at = found.end()
        if self.text[self.at : min(self.at + 1, self.end)] == "*":
            number = COUNT.match(self.text, self.at, self.end)
            if not number or sign == "+":
                self.refuse("a count is a number behind a port that is required")
            count, self.at = int(number[1]), number.end()
        ports = state.provide if sign == "+" else state.require
        if ports.setdefault(found[1], Named(found[1], at, count)).count != count:
            self.refuse(f"{shown(found[1])} stands with another count already", at)


def read_sketch(data: bytes) -> Reading:
    """What a sketch says, with a fault for each line that is none of a sketch, or else all faults of what they say."""
    try:
        text = data.decode("utf-8")
    except UnicodeDecodeError as fault:
        text = data[: fault.start].decode("utf-8")
        return Reading(None, (Fault("", len(text), "a byte that is no UTF-8"),), (), Lines(text))
    types: list[TypeRow] = []
    faults: list[Fault] = []
    version, begin = None, 0
    for line in text.split("\n"):
        end = begin + len(line)
        found = VERSION.fullmatch(text, begin, end)
        reader = Line(text, begin, end)
        if found and not types and version is None:
            version = int(found[1])
        elif reader.skip():
            try:
                types.append(reader.type())
            except NoSketch as fault:
                faults.append(Fault("", fault.at, fault.reason))
        begin = end + 1
    if not types and version is None and not faults:
        faults.append(Fault("", 0, f"there is no type: a line each, {FORM}"))
    if faults:
        return Reading(None, tuple(faults), (), Lines(text))
    rows = Rows(version or version_of(types), tuple(types))
    return Reading(rows, (*faults_of_version(rows), *faults_of_rows(rows)), (), Lines(text))


def counted(types: Sequence[TypeRow]) -> list[Named]:
    """The requirements that ask for another number of providers than one."""
    return [port for row in types for state in row.states for port in state.require if port.count != 1]


def version_of(types: Sequence[TypeRow]) -> int:
    return 2 if counted(types) else 1


def faults_of_version(rows: Rows) -> Iterator[Fault]:
    if rows.version == 1:
        yield from (Fault("", port.at, "a count needs the line aeolus 2, or no such line") for port in counted(rows.types))


def written(rows: Rows) -> str:
    """The document of these rows, a type a line."""
    lines = []
    for row in rows.types:
        states = [documents.State(*parts_of(state)) for state in row.states]
        value = {"name": row.name.name, "initial": row.initial.name, "states": [documents.written_state(it) for it in states]}
        lines.append(json.dumps(value, separators=(",", ":")))
    return f'{{"aeolus":{rows.version},"comment":"made of a sketch","types":[\n' + ",\n".join(lines) + "]}\n"


def parts_of(state: StateRow) -> tuple[str, tuple[str, ...], dict[str, int], tuple[str, ...]]:
    """A state's name, what it provides, what it requires, and where it goes; each once."""
    provide, after = (tuple(dict.fromkeys(it.name for it in names)) for names in (state.provide, state.next))
    return state.name.name, provide, greatest_counts(state.require), after


def ports_in_words(provide: Iterable[str], require: Mapping[str, int]) -> str:
    words = [f"+{port}" for port in provide]
    words += [f"-{port}" if count == 1 else f"-{port}*{count}" for port, count in require.items()]
    return f"({' '.join(words)})" if words else ""


def paths_of(states: Sequence[StateRow]) -> list[list[int]]:
    """Paths that name the states in their order, and go along each move once.

    A path goes on to the next state that is not named yet, where a move leads there, and else by a move that is left.
    """
    place_of = {state.name.name: place for place, state in enumerate(states)}
    left = [[place_of[name] for name in parts_of(state)[3]] for state in states]
    paths: list[list[int]] = []
    named = 0
    while named < len(states) or any(left):
        if not paths or not goes_on(paths[-1], left, named):
            paths.append([start_of(left, named, len(states))])
            # A path may begin with a state that stands in none so far, or lead to it by its first move.
        named = max(named, paths[-1][-1] + 1)
    return paths


def goes_on(path: list[int], left: list[list[int]], named: int) -> bool:
    """Lengthens the path by a move that is left, if there is one that leads to the next state or to one that is named."""
    moves = left[path[-1]]
    after = next((it for it in moves if it == named), next((it for it in moves if it < named), None))
    if after is None:
        return False
    moves.remove(after)
    path.append(after)
    return True


def start_of(left: list[list[int]], named: int, count: int) -> int:
    """Where a new path begins: at a state that leads to the next one, else there, or at any with a move that is left."""
    if named < count:
        return next((place for place in range(named) if named in left[place]), named)
    return next(place for place in range(count) if left[place])


def is_new(place: int, seen: set[int]) -> bool:
    """Whether a state stands here for the first time, with its ports; it has been seen then."""
    if place in seen:
        return False
    seen.add(place)
    return True


def sketched(rows: Rows) -> str:
    """The sketch of a universe: a line a type, after one with its version where the types do not show it."""
    lines = [] if rows.types and version_of(rows.types) == rows.version else [f"aeolus {rows.version}"]
    for row in rows.types:
        words = []
        for state in row.states:
            name, provide, require, _ = parts_of(state)
            mark = "*" if name == row.initial.name and state is not row.states[0] else ""
            words.append((name, mark + name + ports_in_words(provide, require)))
        seen: set[int] = set()
        paths = []
        for path in paths_of(row.states):
            paths.append(" > ".join(words[place][is_new(place, seen)] for place in path))
        lines.append(f"{row.name.name}: {', '.join(paths)}")
    return "".join(f"{line}\n" for line in lines)
