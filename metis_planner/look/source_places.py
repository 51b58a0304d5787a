"""Where a component stands in the files that it was imported from: the file, and the line that names what it needs.

The files are looked through as texts. A place is for a reader to begin at; where none is found, none is told.
"""

import argparse
import pathlib
import re
from collections.abc import Callable, Iterator
from typing import NamedTuple

from metis_planner.answers import Refused
from metis_planner.text.reading import read_text

UNIT_FOLDERS = ("etc/systemd/system", "run/systemd/system", "usr/local/lib/systemd/system", "usr/lib/systemd/system", "lib/systemd/system")


# A line as a refusal names it, behind the name of the file or in its words.
LINE = re.compile(r"([0-9]{1,9})(?::[0-9]{1,9})?:")
COMPONENT = re.compile(r"(?:service )?([^\s:]+): ")
LINE_IN_WORDS = re.compile(r"\bline ([0-9]{1,9})\b")


class Place(NamedTuple):
    """A line of a file; lines count from 1."""

    file: str
    line: int


class Region(NamedTuple):
    """The lines of a component in a file: the number of the first, and their texts."""

    file: str
    first: int
    lines: list[str]

    def place(self, needed: str) -> Place:
        """The line that names what is needed, by its last part that stands there; else the first line."""
        for word in words_of(needed):
            pattern = re.compile(rf"(?<![\w.-]){re.escape(word)}(?![\w-]|\.\w)")
            for number, line in enumerate(self.lines):
                if pattern.search(line) and (number or not line.rstrip().endswith(":")):
                    return Place(self.file, self.first + number)
        return Place(self.file, self.first)


PlaceOf = Callable[[str, str], Place | None]


def words_of(needed: str) -> list[str]:
    """What may stand in a source for a port, the most telling first: `db-login` of `Secret/shop/db-login`."""
    parts = re.split(r"[/@]", needed)
    return [word for word in dict.fromkeys([*reversed(parts[1:]), parts[0]]) if len(word) > 1]


def lines_of(path: str) -> list[str]:
    try:
        return read_text(path).split("\n") if path != "-" else []
    except Refused:
        return []


def documents_of(path: str) -> Iterator[Region]:
    """The documents of a stream of YAML, with the lines that each has."""
    lines, first = lines_of(path), 0
    for number, line in enumerate([*lines, "---"]):
        if line.rstrip() == "---" or line.startswith("--- "):
            if number > first:
                yield Region(path, first + 1, lines[first:number])
            first = number + 1


def field_of(lines: list[str], pattern: str) -> tuple[int, str] | None:
    for number, line in enumerate(lines):
        if found := re.match(pattern, line):
            return number, found[1].strip("\"'")
    return None


def of_manifests(files: list[str]) -> PlaceOf:
    """By KIND/NAMESPACE/NAME or KIND/NAME, as the importer names its types."""
    regions: dict[tuple[str, str], list[Region]] = {}
    for path in files:
        for region in documents_of(path):
            kind = field_of(region.lines, r"kind:\s*([^\s#]+)")
            name = field_of(region.lines, r"(?:  |metadata:\s*\{(?:[^}]*[,\s])?)\"?name\"?:\s*([^\s#,}]+)")
            if kind and name:
                begun = Region(region.file, region.first + kind[0], region.lines[kind[0] :])
                regions.setdefault((kind[1], name[1]), []).append(begun)

    def place_of(component: str, needed: str) -> Place | None:
        # the milestone of an object is a component of its own, as StatefulSet/shop/zk@ready
        parts = component.partition("@")[0].split("/")
        found = regions.get((parts[0], parts[-1]), [])
        return found[0].place(needed) if found else None

    return place_of


def block_of(path: str, lines: list[str], number: int) -> Region:
    """The lines below a key, which are indented more than it is."""
    indent = len(lines[number]) - len(lines[number].lstrip())
    end = number + 1
    while end < len(lines) and (not lines[end].strip() or len(lines[end]) - len(lines[end].lstrip()) > indent):
        end += 1
    return Region(path, number + 1, lines[number:end])


def of_project(path: str) -> PlaceOf:
    """By the name of a service, whose block stands below `services`."""
    lines = lines_of(path)
    top = next((number for number, line in enumerate(lines) if re.match(r"services\s*:", line)), None)

    def place_of(component: str, needed: str) -> Place | None:
        if top is None:
            return None
        services = block_of(path, lines, top)
        for number, line in enumerate(services.lines[1:], top + 1):
            if re.match(rf"\s+[\"']?{re.escape(component)}[\"']?\s*:", line):
                return block_of(path, lines, number).place(needed)
        return None

    return place_of


def of_units(root: str) -> PlaceOf:
    """By the name of a unit, whose file lies in one of systemd's folders."""

    def place_of(component: str, needed: str) -> Place | None:
        for folder in UNIT_FOLDERS:
            path = pathlib.Path(root, folder, component)
            if path.is_file():
                return Region(str(path), 1, lines_of(str(path))).place(needed)
        return None

    return place_of


def files_of(arguments: argparse.Namespace) -> list[str]:
    """The files that an importer of files was given."""
    files = getattr(arguments, "files", None) or [getattr(arguments, "file", None), getattr(arguments, "next", None)]
    return [path for path in files if path is not None]


def place_in(reason: str, files: list[str], place_of: PlaceOf) -> tuple[Place | None, str]:
    """The place that a refusal names, or else the one file that it is about, and its reason without the place."""
    for path in files:
        if reason.startswith(f"{path}:"):
            rest = reason.removeprefix(f"{path}:")
            begun = LINE.match(rest)
            named = begun or LINE_IN_WORDS.search(rest)
            return Place(path, int(named[1]) if named else 1), rest[begun.end() if begun else 0 :].strip()
    if len(files) != 1 or files[0] == "-":
        return None, reason
    return place_in_words(reason, place_of) or Place(files[0], 1), reason


def place_in_words(reason: str, place_of: PlaceOf) -> Place | None:
    """The line of the component with which a refusal begins, or the line below it that has a word of the reason."""
    found = COMPONENT.match(reason)
    begin = place_of(found[1], "") if found else None
    if found is None or begin is None:
        return None
    places = (place_of(found[1], word) for word in re.findall(r"[\w./@-]+", reason[found.end() :]))
    return next((place for place in places if place and place != begin), begin)


def places_of(source: str, arguments: argparse.Namespace) -> PlaceOf:
    """Where the components of a source stand, by how its importer was called."""
    if source == "kubernetes":
        return of_manifests(arguments.files)
    if source == "compose":
        return of_project(arguments.file)
    if source == "systemd":
        return of_units(arguments.root)
    return lambda component, needed: None
