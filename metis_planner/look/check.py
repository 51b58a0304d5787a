"""Looks over a document or a sketch: what Metis refuses in it, and what it takes and was perhaps not meant.

Each thing is a line with its place, and then the status is 1. A file is taken as a document if its name ends with .json, or if
it begins as one. Targets tell which types somebody asks for. If a port may be taken from several types, standard error says
which it will be.
"""

import argparse
import json
from collections.abc import Iterable, Iterator
from typing import NamedTuple

from metis_planner.answers import Answer
from metis_planner.text import documents
from metis_planner.text.reading import read_bytes
from metis_planner.text.layers import providers_of
from metis_planner.text.sketches import read_sketch
from metis_planner.text.universes import Fault, Note, Reading, Rows, StateRow, TypeRow, Unknown, read_document, shown, types_of

# More lines than these nobody reads.
MOST_LINES = 100


def is_document(path: str, data: bytes) -> bool:
    return path.endswith(".json") or data.lstrip(b" \t\r\n\xef\xbb\xbf")[:1] in (b"{", b"[", b'"')


def states_of(rows: Rows) -> Iterator[tuple[TypeRow, StateRow]]:
    for row in rows.types:
        for state in row.states:
            yield row, state


def providers_in(rows: Rows) -> dict[str, list[TypeRow]]:
    """The types that provide each port in some state."""
    found: dict[str, list[TypeRow]] = {}
    for row, state in states_of(rows):
        for port in state.provide:
            found.setdefault(port.name, []).append(row)
    return found


def pair(row: TypeRow, state: StateRow) -> str:
    return f"{shown(row.name.name)}:{shown(state.name.name)}"


def of_ports(rows: Rows) -> Iterator[Note]:
    """Ports that are required and nobody provides, at the first place that requires them."""
    provided, told = providers_in(rows), set()
    for row, state in states_of(rows):
        for port in state.require:
            if port.name not in provided and port.name not in told:
                told.add(port.name)
                reason = f"{pair(row, state)} requires {shown(port.name)}, and nobody provides it"
                yield Note(port.at, reason, Unknown(port.name, provided))


def reached_in(row: TypeRow) -> set[str]:
    """The states that moves lead to from the initial one, and that one."""
    after = {state.name.name: [it.name for it in state.next] for state in row.states}
    reached, todo = set(), [row.initial.name]
    while todo:
        name = todo.pop()
        if name not in reached:
            reached.add(name)
            todo += after[name]
    return reached


def of_states(rows: Rows) -> Iterator[Note]:
    """States that no move leads to, and initial states in which nothing can be made."""
    for row in rows.types:
        reached = reached_in(row)
        for state in row.states:
            name, initial = state.name.name, shown(row.initial.name)
            if name not in reached:
                yield Note(state.name.at, f"{pair(row, state)}: no move leads here from the initial state {initial}")
            if name == row.initial.name and state.require:
                advice = f"begin in a state before it, which leads to {initial} and requires nothing"
                reason = f"{pair(row, state)} requires {shown(state.require[0].name)}, so nothing can be made in it"
                yield Note(state.name.at, f"{reason}: {advice}")


def of_words(rows: Rows) -> Iterator[Note]:
    for row in rows.types:
        if row.name.name == documents.RESERVED:
            yield Note(row.name.at, "with a type of this name the word port:NAME asks for its state, and no word asks for a port")


def goals_of(rows: Rows, words: list[str]) -> tuple[list[TypeRow], list[Note]]:
    """The types that could serve the targets, and what is wrong with their words."""
    wanted, notes = [], []
    provided, types = providers_in(rows), {row.name.name: row for row in rows.types}
    required = {port.name for _, state in states_of(rows) for port in state.require}
    for word in words:
        kind, colon, name = word.partition(":")
        if kind == documents.RESERVED and kind not in types:
            if name in provided:
                wanted += provided[name]
            else:
                what = "nobody provides this port" if name in required else "there is no such port"
                notes.append(Note(0, f"the target {shown(word)}: {what}", Unknown(name, provided)))
        elif not colon or kind not in types:
            notes.append(Note(0, f"the target {shown(word)}: there is no such type", Unknown(kind, types)))
        else:
            wanted.append(types[kind])
            states = [state.name.name for state in types[kind].states]
            if name not in states:
                notes.append(Note(0, f"the target {shown(word)}: its type has no such state", Unknown(name, states)))
    return wanted, notes


def of_targets(rows: Rows, words: list[str]) -> Iterator[Note]:
    """Types that no target names, and nobody needs who is named or needed."""
    todo, notes = goals_of(rows, words)
    provided, needed = providers_in(rows), set()
    while todo:
        row = todo.pop()
        if row.name.name not in needed:
            needed.add(row.name.name)
            ports = {port.name for state in row.states for port in state.require}
            todo += [it for port in ports for it in provided.get(port, ())]
    yield from notes
    if not notes:
        idle = (row.name for row in rows.types if row.name.name not in needed)
        yield from (Note(name.at, f"{shown(name.name)}: nobody needs it, and no target names it") for name in idle)


def of_choices(rows: Rows) -> Iterator[Note]:
    """Ports that several types provide, where one is required: the planner takes one of them by its own rule."""
    providers = providers_of(types_of(rows))
    for row in rows.types:
        told: set[str] = set()
        for port in (port for state in row.states for port in state.require if port.name not in told):
            told.add(port.name)
            kinds = list(dict.fromkeys(kind for kind, _ in providers.get(port.name, ())))
            if len(kinds) > 1:
                names = " or ".join(map(shown, sorted(kinds)))
                yield Note(port.at, f"{shown(row.name.name)} may take {shown(port.name)} from {names}; it will be {shown(kinds[0])}")


def notes_of(reading: Reading, targets: list[str]) -> list[Note]:
    """What Metis takes and was perhaps not meant. Where it refuses the file, that is only what is not read."""
    notes = list(reading.notes)
    if reading.rows is not None and not reading.faults:
        for look in (of_ports, of_states, of_words):
            notes += look(reading.rows)
        if targets:
            notes += of_targets(reading.rows, targets)
    return sorted(notes, key=lambda it: it.at)


class Remark(NamedTuple):
    """What is said of a place in a file."""

    file: str
    line: int
    column: int
    severity: str
    message: str

    def text(self) -> str:
        return f"{self.file}:{self.line}:{self.column}: {self.message}"


def remarks(path: str, reading: Reading, said: Iterable[Fault | Note], severity: str) -> list[Remark]:
    name = path if path.isprintable() else ascii(path)
    return [Remark(name, *reading.lines.place(it.at), severity, it.text()) for it in said]


def faults_and_notes(path: str, reading: Reading, targets: list[str]) -> list[Remark]:
    """What is wrong, the fault that the program prints first, and what was hardly meant."""
    notes = remarks(path, reading, notes_of(reading, targets), "warning")
    return [*remarks(path, reading, reading.faults, "error"), *notes]


def choices(path: str, reading: Reading) -> list[Remark]:
    if reading.rows is None or reading.faults:
        return []
    return remarks(path, reading, of_choices(reading.rows), "information")


def lines_of(path: str, found: list[Remark]) -> list[str]:
    more = len(found) - MOST_LINES
    lines = [each.text() for each in found[:MOST_LINES]]
    return [*lines, f"{path if path.isprintable() else ascii(path)}: {more} more"] if more > 0 else lines


def add_arguments(parser: argparse.ArgumentParser) -> None:
    parser.add_argument("file", metavar="FILE", help="a document or a sketch; - is standard input")
    parser.add_argument("targets", metavar="TARGET", nargs="*", help="TYPE:STATE or port:PORT, as `plan` takes them")
    parser.add_argument("--json", action="store_true", help="a list of JSON objects in place of lines, for editors")


def run(arguments: argparse.Namespace) -> Answer:
    data = read_bytes(arguments.file, documents.MOST_BYTES)
    reading = read_document(data) if is_document(arguments.file, data) else read_sketch(data)
    found, chosen = faults_and_notes(arguments.file, reading, arguments.targets), choices(arguments.file, reading)
    status = 1 if found else 0
    if arguments.json:
        return Answer(json.dumps([each._asdict() for each in (*found, *chosen)], indent=1) + "\n", status=status)
    text = "".join(f"{line}\n" for line in lines_of(arguments.file, found))
    return Answer(text, lines_of(arguments.file, chosen), status)
