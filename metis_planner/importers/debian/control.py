"""Debian's control files: the fields of packages, relations between packages, and the order of versions."""

import functools
import io
import operator
import re
from collections.abc import Callable, Iterable, Iterator, Mapping
from typing import Any, BinaryIO, NamedTuple

FIELDS = frozenset(
    "Package Source Version Architecture Multi-Arch Priority Essential Status Installed-Size "
    "Provides Pre-Depends Depends Recommends Conflicts Breaks Replaces".split()
)
RELATION = re.compile(
    r"(?P<name>[A-Za-z0-9][A-Za-z0-9+.-]*)(?::(?P<architecture>[a-z0-9-]+))?"
    r"\s*(?:\(\s*(?P<operator><<|<=|=|>=|>>|<|>)\s*(?P<version>[^\s)]+)\s*\))?"
)
VERSION = re.compile(r"(?:(?P<epoch>[0-9]+):(?P<behind>[A-Za-z0-9.+~:-]+)|(?P<alone>[A-Za-z0-9.+~-]+))")
# As dpkg has it: an epoch is a whole number that an int of C holds.
MOST_EPOCH = "2147483647"
LONGEST_SHOWN = 60
END_OF_STANZA = b"\n\n"
BLOCK = 1024 * 1024
MOST_STANZA = 4 * 1024 * 1024
# How compressed files begin, and what prints them.
COMPRESSED = (
    (b"\x1f\x8b", "gzip", "zcat"),
    (b"\xfd7zXZ\x00", "xz", "xzcat"),
    (b"BZh", "bzip2", "bzcat"),
    (b"\x28\xb5\x2f\xfd", "zstd", "zstdcat"),
    (b"\x04\x22\x4d\x18", "lz4", "lz4cat"),
)


# `<` and `>` are of old, and mean what `<=` and `>=` do.
COMPARISONS: Mapping[str, Callable[[Any, Any], bool]] = {
    "<<": operator.lt,
    "<": operator.le,
    "<=": operator.le,
    "=": operator.eq,
    ">=": operator.ge,
    ">": operator.ge,
    ">>": operator.gt,
}
# A version of more characters is taken only if it is one number; those in an archive have less than a hundred.
LONG_VERSION = 500


class NoControlFile(ValueError):
    """What is wrong in a control file."""


def shown(text: str) -> str:
    """A text of a control file as a line may name it."""
    return repr(text if len(text) <= LONGEST_SHOWN else text[:LONGEST_SHOWN] + "..")


def stanzas(text: str) -> Iterator[dict[str, str]]:
    """The fields of each stanza of a control file that are looked at, a folded field in one line."""
    return records(io.BytesIO(text.encode(errors="surrogatepass")))


def records(file: BinaryIO) -> Iterator[dict[str, str]]:
    """The same of a file of any length, of which no more is held than one stanza and a block."""
    rest, has_text, has_package = b"", False, False
    while block := file.read(BLOCK):
        if not has_text:
            check_plain(block)
        *whole, rest = (rest + block).replace(b"\r\n", b"\n").split(END_OF_STANZA)
        has_text = True
        for fields in stanzas_in(whole):
            has_package = True
            yield fields
        if len(rest) > MOST_STANZA:
            raise NoControlFile(f"a stanza of more than {MOST_STANZA} bytes")
    for fields in stanzas_in([rest]):
        has_package = True
        yield fields
    if has_text and not has_package:
        raise NoControlFile("no control file of packages, since no stanza has a field Package")


def check_plain(begin: bytes) -> None:
    """Refuses what is compressed, as mirrors serve it, by the first bytes of a file."""
    for magic, name, command in COMPRESSED:
        if begin.startswith(magic):
            raise NoControlFile(f"it is compressed by {name}; `{command} FILE` prints it")


def stanzas_in(texts: Iterable[bytes]) -> Iterator[dict[str, str]]:
    for text in texts:
        fields = fields_of(text.decode("utf-8", "replace"))
        if "Package" in fields:
            yield fields


def fields_of(stanza: str) -> dict[str, str]:
    parts: dict[str, str] = {}
    folded: dict[str, list[str]] = {}
    key: str | None = None
    for line in stanza.split("\n"):
        if line[:1] in (" ", "\t"):
            if key:
                folded.setdefault(key, [parts[key]]).append(line.strip())
            continue
        name, colon, value = line.partition(":")
        key = name if name in FIELDS and colon else None
        if key in parts:
            raise NoControlFile(f"a stanza in which the field {key} stands twice")
        if key:
            parts[key] = value.strip()
    return {**parts, **{key: " ".join(lines) for key, lines in folded.items()}}


class Relation(NamedTuple):
    """One package that a relation names, with the versions that it allows."""

    name: str
    architecture: str | None
    operator: str | None
    version: str | None

    def allows(self, version: str | None) -> bool:
        if self.operator is None or self.version is None:
            return True
        if version is None:
            return False
        return COMPARISONS[self.operator](version_key(version), version_key(self.version))


@functools.lru_cache(maxsize=None)
def relation(word: str) -> Relation:
    found = RELATION.fullmatch(word.strip())
    if not found:
        raise NoControlFile(f"no relation to a package: {shown(word.strip())}")
    if found["version"] is not None:
        version_key(found["version"])
    return Relation(found["name"], found["architecture"], found["operator"], found["version"])


def parts_of(field: str) -> list[str]:
    """The parts of a field of relations that commas divide."""
    return [part.strip() for part in field.split(",") if part.strip()]


@functools.lru_cache(maxsize=None)
def alternatives(part: str) -> tuple[Relation, ...]:
    return tuple(relation(word) for word in part.split("|"))


# Keys compare as what they stand for: a number of any length; a run of other characters with the number behind it.
NumberKey = tuple[int, str]
PartKey = tuple[tuple[tuple[int, ...], NumberKey], ...]
VersionKey = tuple[NumberKey, PartKey, PartKey]


@functools.lru_cache(maxsize=None)
def version_key(version: str) -> VersionKey:
    """A key in which versions compare as Debian Policy orders them (5.6.12). What dpkg takes for no version is none."""
    is_sound = len(version) <= LONG_VERSION or version.isdigit()
    found = VERSION.fullmatch(version) if is_sound else None
    epoch = _number_key(found["epoch"] or "0") if found else None
    if found is None or epoch is None or epoch > _number_key(MOST_EPOCH):
        raise NoControlFile(f"no version: {shown(version)}")
    rest = found["behind"] or found["alone"]
    upstream, dash, revision = rest.rpartition("-")
    if dash and not (upstream and revision):
        raise NoControlFile(f"no version: {shown(version)}")
    return epoch, _part_key(upstream if dash else rest), _part_key(revision if dash else "")


def _number_key(digits: str) -> NumberKey:
    """A key in which runs of digits of any length compare as numbers."""
    rest = digits.lstrip("0")
    return len(rest), rest


NOTHING = ((0,), _number_key(""))


def _part_key(part: str) -> PartKey:
    """Runs of other characters and of digits in turn; the end stands above `~` and below all else, and is that of `0`, too."""
    pairs = [
        (tuple(_rank(each) for each in other) + (0,), _number_key(digits))
        for other, digits in re.findall(r"([^0-9]*)([0-9]*)", part)
        if other or digits
    ]
    return (*(pairs or [NOTHING]), NOTHING)


def _rank(character: str) -> int:
    if character == "~":
        return -1
    return ord(character) if character.isalpha() else ord(character) + 256
