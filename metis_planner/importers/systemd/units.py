"""Reads unit files of systemd as they lie in folders: links, drop-ins, masks, instances, and other names."""

import collections
import dataclasses
import functools
import pathlib
import re
from collections.abc import Iterable, Iterator, Sequence

from metis_planner.answers import Refused
from metis_planner.importers.systemd import names as unit_names
from metis_planner.importers.systemd.names import is_name, is_template, kind_of, template_of
from metis_planner.importers.systemd.root_folder import RootFolder

# From the first to the last that is looked at.
FOLDERS = (
    "etc/systemd/system.control",
    "run/systemd/system.control",
    "run/systemd/transient",
    "run/systemd/generator.early",
    "etc/systemd/system",
    "etc/systemd/system.attached",
    "run/systemd/system",
    "run/systemd/system.attached",
    "run/systemd/generator",
    "usr/local/lib/systemd/system",
    "usr/lib/systemd/system",
    "lib/systemd/system",
    "run/systemd/generator.late",
)
MOST_FILE = 4 * 1024 * 1024
# Of all unit files and drop-ins together; those of a large server have some 300 KB, with some thousand words.
MOST_TEXT = 8 * 1024 * 1024
MOST_WORDS = 50_000
# The names in all folders of units; a large desktop has a thousand.
MOST_NAMES = 10_000
# The drop-ins and links beside units, each counted for each unit for which it counts; a large desktop has some thousands.
MOST_BESIDE = 50_000
MOST_LINKS = 40
SAME_KEYS = {"BindTo": "BindsTo", "RequiresOverridable": "Requires", "RequisiteOverridable": "Requisite"}
DEPENDENCIES = frozenset("Requires Requisite BindsTo Wants Upholds After Before Conflicts".split())
OF_UNIT = DEPENDENCIES | {"DefaultDependencies", "RequiresMountsFor"}
# Names of other units in sections of their kinds, and what else of these says what a unit comes after.
NAMES_OF_OTHERS = frozenset(("Sockets", "Service", "Unit", "Slice"))
EXECUTION = frozenset(
    "PrivateTmp DynamicUser LogNamespace StandardInput StandardOutput StandardError WorkingDirectory RootDirectory RootImage "
    "RuntimeDirectory StateDirectory CacheDirectory LogsDirectory ConfigurationDirectory".split()
)
OF_PATHS = frozenset("PathExists PathExistsGlob PathChanged PathModified DirectoryNotEmpty".split())
OF_SOCKETS = frozenset(
    "ListenStream ListenDatagram ListenSequentialPacket ListenFIFO ListenSpecial ListenUSBFunction "
    "ExecStartPre ExecStartPost ExecStopPre ExecStopPost".split()
)
OTHERS = frozenset("Type BusName Accept OnCalendar Persistent What Where Options".split())
OF_KINDS = NAMES_OF_OTHERS | EXECUTION | OF_PATHS | OF_SOCKETS | OTHERS
# What an empty assignment does not take back.
STAYING = DEPENDENCIES | {"RequiresMountsFor", "Sockets"}
LINKED = {"Wants": ".wants", "Requires": ".requires"}
# A line ends at a line feed, a carriage return or a NUL, or at several of these, each once.
END_OF_LINE = re.compile(r"\n(?:\r\0?|\0\r?)?|\r(?:\n\0?|\0\n?)?|\0(?:\n\r?|\r\n?)?")
# What is not valid in a text for systemd: bytes that are no UTF-8, and characters that are none.
NO_CHARACTERS = "".join(chr(plane + last) for plane in range(0, 0x110000, 0x10000) for last in (0xFFFE, 0xFFFF))
NO_TEXT = re.compile(f"[\ud800-\udfff\ufdd0-\ufdef]|[{NO_CHARACTERS}]")


@dataclasses.dataclass
class Unit:
    """A unit with the settings that are looked at, each a list of words."""

    name: str
    settings: dict[str, list[str]]

    def __getitem__(self, key: str) -> list[str]:
        return self.settings.get(key, [])

    @property
    def kind(self) -> str:
        return kind_of(self.name)

    @property
    def has_defaults(self) -> bool:
        return is_true(self["DefaultDependencies"], True)

    def last(self, key: str) -> str:
        """The word that counts of a setting that has one, or an empty one."""
        return self[key][-1] if self[key] else ""


def is_true(words: Sequence[str], default: bool) -> bool:
    return words[-1].lower() in ("yes", "true", "1", "on", "y", "t") if words else default


def whole_lines(text: str) -> Iterator[str]:
    """The lines of a unit file: continued ones joined, and comments left out, also those inside a continued line."""
    kept: list[str] = []
    for line in END_OF_LINE.split(text):
        if line.lstrip().startswith(("#", ";")):
            continue
        backslashes = len(line) - len(line.rstrip("\\"))
        if backslashes % 2:
            kept.append(line[:-1])
            continue
        yield " ".join([*kept, line]).strip()
        kept = []
    yield " ".join(kept).strip()


def words_of(key: str, value: str) -> list[str]:
    """The words of a value: names of units stand without quotes, and others may have some."""
    words = value.split()
    return words if key in DEPENDENCIES else [word.strip("\"'") for word in words]


def settings_in(text: str, kind: str, settings: dict[str, list[str]]) -> str:
    """Adds the assignments of a unit file that stand in their own section; an empty one takes back what may be taken.

    Behind a line that begins as the name of a section, and is none, and behind one that is no text, nothing counts. What
    is wrong with such a line, or nothing.
    """
    section = ""
    for line in whole_lines(text.removeprefix("\ufeff")):
        if NO_TEXT.search(line):
            return "that is no UTF-8"
        if line.startswith("["):
            if not line.endswith("]"):
                return "that begins with [ and names no section"
            section = line[1:-1]
            continue
        key, equals, value = line.partition("=")
        key = SAME_KEYS.get(key.strip(), key.strip())
        wanted = "Unit" if key in OF_UNIT else kind.capitalize() if key in OF_KINDS else None
        if not equals or section != wanted:
            continue
        if value.strip():
            settings[key] += words_of(key, value)
        elif key not in STAYING:
            settings[key] = []
    return ""


class Folders:
    """The folders of unit files below a root."""

    def __init__(self, root: str | pathlib.Path = "/") -> None:
        self.root = RootFolder(root)
        self.notes: list[str] = []
        # Drop-ins count for many units, and are read once.
        self.is_masked = functools.cache(self.looks_masked)
        self.text = functools.cache(self.read_text)
        self.bytes_read = self.words = self.looked_at = 0
        places = {folder: self.root.real(folder) for folder in FOLDERS}
        self.places = {place for place in places.values() if place is not None}
        self.entries = {folder: frozenset(self.root.names(folder)) for folder in FOLDERS}
        if sum(map(len, self.entries.values())) > MOST_NAMES:
            raise Refused(f"{self.root.folder}: more than {MOST_NAMES} names in its folders of units")
        # Of two folders that are one place the first stands for both.
        firsts = {place: folder for folder, place in reversed(places.items())}
        self.folders = [folder for folder in FOLDERS if firsts.get(places[folder]) == folder]
        self.first_of: dict[str, str] = {}
        for folder in self.folders:
            for name in self.entries[folder]:
                if is_name(name) and not self.is_rejected(f"{folder}/{name}"):
                    self.first_of.setdefault(name, f"{folder}/{name}")
        self.loaded: dict[str, Unit | None] = {}
        self.beside_units: dict[str, list[str]] = {}
        self.circular: set[str] = set()
        self.own_names: dict[str, str] = {}
        self.other_names = self.names_by_links()

    def names_by_links(self) -> dict[str, list[str]]:
        """For each unit its other names."""
        others: dict[str, list[str]] = collections.defaultdict(list)
        for name, path in sorted(self.first_of.items()):
            if self.root.link(path) is not None:
                own = self.own_name(name)
                if own != name:
                    others[own].append(name)
        return others

    def is_rejected(self, path: str) -> bool:
        """Whether systemd takes no notice of a link in these folders, since it leads to a unit of another sort."""
        other = self.linked_in(path)
        return other is not None and not unit_names.may_be_alias(path.rpartition("/")[2], other)

    def linked_in(self, path: str) -> str | None:
        """The last part of where a link leads that stays in these folders; None of a file, a mask, or a link out of them."""
        target = self.root.link(path)
        if target is None or self.is_masked(path):
            return None
        whole = target if target.startswith("/") else f"{path.rpartition('/')[0]}/{target}"
        return target.rpartition("/")[2] if self.root.real(whole.rpartition("/")[0]) in self.places else None

    def first(self, name: str) -> str | None:
        """The file or link of this name that comes first, or None."""
        return self.first_of.get(name)

    def alias(self, name: str) -> str | None:
        """The unit that a link of this name leads to, or None: a link out of these folders is a file of that name."""
        path = self.first(name)
        other = self.linked_in(path) if path else None
        return None if other in (name, template_of(name)) else other

    def own_name(self, name: str) -> str:
        """The name of the unit for which a name is another one, by links; its own where these lead round in a circle."""
        if name not in self.own_names:
            self.own_names[name] = self.followed(name)
        return self.own_names[name]

    def followed(self, name: str) -> str:
        found = name
        for _ in range(MOST_LINKS):
            other = self.alias(found)
            template = template_of(found)
            if other is None and self.first(found) is None and template:
                other = self.alias(template)
                other = unit_names.instance_of_template(other, found) if other and is_template(other) else None
            if not other:
                return found
            found = other
        if name not in self.circular:
            self.circular.add(name)
            self.notes.append(f"{name}: a link that leads back to itself, so there is no such unit")
        return name

    def load(self, name: str) -> Unit | None:
        """The unit of this name; None where no file has it, or it is masked."""
        if name not in self.loaded:
            self.loaded[name] = self.read(name)
        return self.loaded[name]

    def read(self, name: str) -> Unit | None:
        path = self.first(name) or self.first(template_of(name) or "")
        if not path or is_template(name) or name in self.circular or self.is_masked(path):
            return None
        text = self.text(path)
        if text is None:
            self.notes.append(f"{name}: /{path} leads to no file that can be read")
            return None
        settings: dict[str, list[str]] = collections.defaultdict(list)
        fault = settings_in(text, kind_of(name), settings)
        if fault:
            self.notes.append(f"{name}: /{path} has a line {fault}, so it is not read")
            return None
        for each in self.drop_ins(name):
            settings_in(self.text(each) or "", kind_of(name), settings)
        self.count_words(name, settings)
        for key, suffix in LINKED.items():
            settings[key] += self.linked(name, suffix)
        for key in settings.keys() & (DEPENDENCIES | NAMES_OF_OTHERS):
            settings[key] = self.named(name, settings[key])
        return Unit(name, settings)

    def looks_masked(self, path: str) -> bool:
        if self.root.real(path) == "dev/null":
            return True
        file = self.root.file(path)
        return file is not None and file.stat().st_size == 0

    def read_text(self, path: str) -> str | None:
        """The text of a file, where bytes that are no UTF-8 are kept as such, or None where it cannot be read."""
        file = self.root.file(path)
        try:
            if file is None or file.stat().st_size > MOST_FILE:
                return None
            with file.open("rb") as opened:
                told = opened.read(MOST_FILE)
        except OSError:
            return None
        self.bytes_read += len(told)
        if self.bytes_read > MOST_TEXT:
            raise Refused(f"/{path}: with the unit files before it more than {MOST_TEXT} bytes")
        return told.decode("utf-8", "surrogateescape")

    def count_words(self, name: str, settings: dict[str, list[str]]) -> None:
        self.words += sum(map(len, settings.values()))
        if self.words > MOST_WORDS:
            raise Refused(f"{name}: with the units before it more than {MOST_WORDS} words of settings")

    def owners(self, name: str) -> Iterator[list[str]]:
        """The names whose folders of drop-ins and links count for a unit, the nearest first, in lists for each name."""
        for each in (name, *self.other_names[name]):
            yield unit_names.names_of_folders(each)

    def beside(self, name: str, suffix: str) -> list[tuple[str, str]]:
        """The entries of the folders of a suffix that count for a unit: of those with one name the first one's path."""
        found: dict[str, str] = {}
        for owners in (*self.owners(name), [kind_of(name)]):
            for folder in self.folders:
                for owner in owners:
                    if f"{owner}{suffix}" in self.entries[folder] and self.root.link(f"{folder}/{owner}{suffix}") is None:
                        for entry in self.entries_beside(f"{folder}/{owner}{suffix}"):
                            found.setdefault(entry, f"{folder}/{owner}{suffix}/{entry}")
        self.looked_at += len(found)
        if self.looked_at > MOST_BESIDE:
            raise Refused(f"{name}: with the units before it more than {MOST_BESIDE} drop-ins and links beside units")
        return [(entry, path) for entry, path in sorted(found.items()) if not self.is_masked(path)]

    def entries_beside(self, folder: str) -> list[str]:
        """The entries of a folder, which is looked at once for all units for which it counts."""
        if folder not in self.beside_units:
            self.beside_units[folder] = self.root.names(folder)
        return self.beside_units[folder]

    def drop_ins(self, name: str) -> list[str]:
        """The drop-ins of a unit, in the order of their names."""
        return [path for entry, path in self.beside(name, ".d") if entry.endswith(".conf") and not entry.startswith(".")]

    def linked(self, name: str, suffix: str) -> list[str]:
        """The links in the folders of a suffix; what is a file itself there counts for nothing."""
        return [
            entry for entry, path in self.beside(name, suffix) if is_name(entry) and self.root.link(path) is not None
        ]

    def named(self, name: str, words: Iterable[str]) -> list[str]:
        """The units that words name, with what their specifiers stand for; one that the machine decides leaves a note."""
        found = []
        for word in dict.fromkeys(words):
            other = unit_names.with_specifiers(word, name)
            if other is None:
                self.notes.append(f"{name}: {word} is left out, since it has a specifier that the machine decides")
            elif is_name(other):
                found.append(
                    self.own_name(unit_names.instance_of_template(other, name) if is_template(other) else other)
                )
        return found
