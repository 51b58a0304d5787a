"""The packages of an index, or of a machine, by name: their records, and who meets a relation."""

import collections
import functools
import io
import itertools
import pathlib
import re
import subprocess
from collections.abc import Iterable, Iterator, Mapping, Sequence
from typing import BinaryIO, cast, IO, NamedTuple

from metis_planner.answers import Refused
from metis_planner.importers.debian import conditions
from metis_planner.importers.debian.conditions import Condition, Fields
from metis_planner.importers.debian.control import (
    alternatives,
    NoControlFile,
    parts_of,
    records as control_records,
    Relation,
    relation,
    shown,
    version_key,
    VersionKey,
)
from metis_planner.text.reading import opened_or_refused

STATUS = pathlib.Path("/var/lib/dpkg/status")
MOST_INDEX = 256 * 1024 * 1024
# Debian 12 has 64,000 packages in an index of 50 MB, which provide 38,000 names.
MOST_RECORDS = 300_000
MOST_PROVIDED = 300_000
MOST_FIELD = 256 * 1024
# So many records at most are looked at for the architecture of an index.
MOST_BEFORE = 10_000
MOST_NAMED = 8
ALL, ANY, NATIVE = "all", "any", "native"
NEEDS = ("Pre-Depends", "Depends")
BARS = ("Conflicts", "Breaks")
RECOMMENDS = "Recommends"
PACKAGE = re.compile(r"[A-Za-z0-9][A-Za-z0-9+.-]*")


def native_architecture() -> str:
    try:
        told = subprocess.run(["dpkg", "--print-architecture"], stdout=subprocess.PIPE, text=True, check=True)
    except (OSError, subprocess.CalledProcessError):
        return "amd64"
    return told.stdout.strip()


def with_architecture(records: Iterator[dict[str, str]]) -> tuple[str, Iterable[dict[str, str]]]:
    """The architecture that the first records of a Packages file name, and all of these records."""
    before = []
    for fields in itertools.islice(records, MOST_BEFORE):
        before.append(fields)
        if fields.get("Architecture", ALL) != ALL:
            return fields["Architecture"], itertools.chain(before, records)
    return native_architecture(), itertools.chain(before, records)


def index_records() -> Iterator[dict[str, str]]:
    """The records of all packages that could be installed, without what is (which may come from elsewhere)."""
    command = ["apt-cache", "-o", "Dir::State::status=/dev/null", "dumpavail"]
    try:
        apt = subprocess.Popen(command, stdout=subprocess.PIPE, stderr=subprocess.DEVNULL)
    except OSError as fault:
        raise Refused(f"apt-cache is not there ({fault.strerror}); --index FILE reads a Packages file") from fault
    with apt:
        assert apt.stdout is not None
        yield from bounded(apt.stdout, "apt-cache")
    if apt.returncode:
        raise Refused(f"apt-cache ended with status {apt.returncode}")


def records_of(path: str) -> Iterator[dict[str, str]]:
    """The records of a file."""
    with opened_or_refused(path) as file:
        yield from bounded(file, path)


class Counted(io.RawIOBase):
    """A file that refuses to go on past so many bytes."""

    def __init__(self, file: IO[bytes], path: str) -> None:
        self.file = file
        self.path = path
        self.count = 0

    def read(self, size: int = -1) -> bytes:
        told = self.file.read(size)
        self.count += len(told)
        if self.count > MOST_INDEX:
            raise Refused(f"{self.path}: more than {MOST_INDEX} bytes")
        return told


def bounded(file: IO[bytes], path: str) -> Iterator[dict[str, str]]:
    try:
        yield from control_records(cast(BinaryIO, Counted(file, path)))
    except NoControlFile as fault:
        raise Refused(f"{path}: {fault}") from fault


def version_fault(fields: Fields) -> str | None:
    """What is wrong with the version of a record, or None."""
    try:
        version_of(fields)
    except NoControlFile as fault:
        return str(fault)
    return None


def version_of(fields: Fields) -> VersionKey:
    return version_key(fields.get("Version", "0"))


def source_of(name: str, fields: Fields) -> tuple[str, str]:
    """The source of a package, with its version: the same as the package's own where its record names no other."""
    source, _, version = fields.get("Source", name).partition(" ")
    return source, version.strip(" ()") or fields.get("Version", "0")


def packages_of(records: Iterable[dict[str, str]], architecture: str) -> dict[str, dict[str, str]]:
    """By name, the record of the highest version of each package of this architecture or of all."""
    packages: dict[str, dict[str, str]] = {}
    for count, fields in enumerate(records):
        if count > MOST_RECORDS:
            raise Refused(f"more than {MOST_RECORDS} records in one index")
        if fields.get("Architecture", architecture) in (architecture, ALL):
            before = packages.get(fields["Package"])
            if before is None or is_later(fields, before):
                packages[fields["Package"]] = fields
    return packages


def is_later(fields: Fields, before: Fields) -> bool:
    """Whether a record takes the place of one before it: a version that is none gives way to any that is one."""
    if version_fault(fields):
        return False
    return version_fault(before) is not None or version_of(fields) > version_of(before)


class Standing(NamedTuple):
    """By name, the records of a status file: of what stands, whole or not; half removed; and for other architectures."""

    packages: dict[str, dict[str, str]]
    half_removed: dict[str, dict[str, str]]
    foreign: dict[str, list[dict[str, str]]]


def standing_of(records: Iterable[dict[str, str]], architecture: str) -> Standing:
    """What stands by the records of a status file."""
    known = list(records)
    packages, half_removed = {}, {}
    for name, fields in packages_of(known, architecture).items():
        condition = conditions.condition(fields)
        if condition is Condition.HALF_REMOVED:
            half_removed[name] = fields
        elif condition is not Condition.ABSENT:
            packages[name] = fields
    return Standing(packages, half_removed, foreign_of(known, architecture))


def foreign_of(records: Iterable[dict[str, str]], architecture: str) -> dict[str, list[dict[str, str]]]:
    """By name, the records of packages of other architectures that stand."""
    foreign: dict[str, list[dict[str, str]]] = collections.defaultdict(list)
    for fields in records:
        is_other = fields.get("Architecture", architecture) not in (architecture, ALL)
        if is_other and conditions.condition(fields) is not Condition.ABSENT:
            foreign[fields["Package"]].append(fields)
    return dict(foreign)


class Provider(NamedTuple):
    """A package that provides a name, perhaps in a version, or for any architecture."""

    name: str
    version: str | None
    architecture: str | None


class Pool:
    """Packages by name, with what they provide. A record that cannot be read provides nothing."""

    def __init__(self, packages: Mapping[str, Fields], architecture: str) -> None:
        self.packages = packages
        self.architectures = (None, ANY, NATIVE, architecture)
        self.fault = functools.cache(self._fault)
        self.condition = functools.cache(lambda name: conditions.condition(self.packages[name]))
        self.providers: dict[str, list[Provider]] = collections.defaultdict(list)
        count = 0
        for name in sorted(packages):
            if "Provides" in packages[name] and self.fault(name) is None:
                provides = self.parts(name, "Provides")
                count += len(provides)
                if count > MOST_PROVIDED:
                    raise Refused(f"more than {MOST_PROVIDED} names that packages provide")
                for part in provides:
                    provided = relation(part)
                    self.providers[provided.name].append(Provider(name, provided.version, provided.architecture))

    def meeting(self, wanted: Relation) -> list[str]:
        """The packages that meet a relation: that of the name, and then those that provide it, by name."""
        if wanted.architecture not in self.architectures:
            return []
        own = [wanted.name] if wanted.name in self.packages and self.allows(wanted) else []
        providing = (each.name for each in self.providers.get(wanted.name, ()) if self.provides(each, wanted))
        return list(dict.fromkeys([*own, *providing]))

    def allows(self, wanted: Relation) -> bool:
        """Whether a relation allows the version of its package; one that is none meets what names no version."""
        fields = self.packages[wanted.name]
        if wanted.architecture == ANY and not self.is_for_any(wanted.name):
            return False
        if wanted.operator is not None and version_fault(fields):
            return False
        return wanted.allows(fields.get("Version"))

    def is_for_any(self, name: str) -> bool:
        """Whether a package meets what asks for it by `:any`."""
        return self.packages[name].get("Multi-Arch") == "allowed"

    def provides(self, provider: Provider, wanted: Relation) -> bool:
        if wanted.architecture == ANY:
            is_meant = provider.architecture == ANY or self.is_for_any(provider.name)
        else:
            is_meant = provider.architecture != ANY
        return is_meant and wanted.allows(provider.version)

    def parts(self, name: str, *fields: str) -> list[str]:
        """The parts of these fields of a package."""
        return [part for field in fields for part in parts_of(self.packages[name].get(field, ""))]

    def sound_parts(self, name: str, *fields: str) -> list[str]:
        """The same of a package whose record can be read, and nothing of others."""
        return self.parts(name, *fields) if self.fault(name) is None else []

    def _fault(self, name: str) -> str | None:
        """What is wrong in the record of a package, or None."""
        if not PACKAGE.fullmatch(name):
            return f"no name of a package: {shown(name)}"
        for field, told in self.packages[name].items():
            if len(told) > MOST_FIELD:
                return f"a field {field} of more than {MOST_FIELD} characters"
        try:
            for part in self.parts(name, *NEEDS, RECOMMENDS):
                alternatives(part)
            for part in self.parts(name, *BARS, "Provides"):
                relation(part)
        except NoControlFile as fault:
            return str(fault)
        return version_fault(self.packages[name])

    def is_held(self, name: str) -> bool:
        return conditions.is_held(self.packages[name])

    def of_condition(self, wanted: Condition) -> list[str]:
        """The packages that stand in a condition."""
        return [name for name in sorted(self.packages) if self.condition(name) is wanted]

    def in_words(self, names: Iterable[str]) -> str:
        """Packages with the words of their conditions, in a line."""
        return named([conditions.in_words(name, self.packages[name]) for name in names])


def no_package(index: Pool, name: str) -> str:
    """Why a request for a name that no package has comes to nothing."""
    providers = [each.name for each in index.providers.get(name, ())]
    if not providers:
        return f"no package {name} in the index (apt-get update renews it)"
    return f"no package {name} in the index; it is a name that others provide: {named(providers)}"


def named(names: Sequence[str]) -> str:
    """The first of some names, in a line."""
    return ", ".join(names[:MOST_NAMED]) + (", .." if len(names) > MOST_NAMED else "")
