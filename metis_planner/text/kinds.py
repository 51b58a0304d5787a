"""What a file is, by how it begins: so that whoever hands in the wrong one is told what it is, and what to do with it."""

import enum
import re

MOST_LOOKED_AT = 65_536
COMPOSE = re.compile(r"(?m)^services[ \t]*:")
MANIFEST = re.compile(r"(?m)^(apiVersion|kind)[ \t]*:")
SKETCHED = re.compile(r"[^\s:#>,()]+[ \t]*:[ \t]*\*?[^\s:>,()]+[ \t]*([>,(]|$|#)")
TURNS = re.compile(r"[0-9\s]+")
ACTION = re.compile(r"(new|delete|bind|unbind|move|show|undo|check|quit)\b")
SCRIPT = re.compile(r"(order|deliver|restart) [0-9]+\b")
SCHEDULE = re.compile(r"1 at [0-9]+ to [0-9]+|finish [0-9]+$", re.MULTILINE)
PLACEMENT = re.compile(r"on [0-9]+ \S+$|placed [0-9]+ hosts", re.MULTILINE)


class Kind(enum.Enum):
    """What a file may be, as one would say it."""

    UNIVERSE = "a universe"
    JSON = "JSON, but no universe"
    SKETCH = "a sketch"
    PLAN = "a plan"
    REFUSAL = "a refusal"
    EXPLANATION = "an explanation"
    HOSTS = "a text of hosts"
    WISHES = "a text of wishes"
    TURNS = "turns"
    SESSION = "a script of a session"
    CONTROL = "a script for a controller"
    SCHEDULE = "what `waves` printed"
    PLACEMENT = "what `place` printed"
    FAULT = "a line with which `metis` refused something"
    COMPOSE = "a Compose project"
    MANIFESTS = "manifests of Kubernetes"
    EMPTY = "empty"
    BINARY = "no text"
    OTHER = "none of the texts that Metis knows"


# How a text of Metis begins.
HEADS = {
    "metis plan 1": Kind.PLAN,
    "metis refusal 1": Kind.REFUSAL,
    "metis why 1": Kind.EXPLANATION,
    "metis hosts 1": Kind.HOSTS,
    "metis wishes 1": Kind.WISHES,
}
FAULTS = ("bad word ", "bad universe ", "bad plan ", "bad refusal ", "bad why ", "bad hosts ", "bad wishes ", "read fault ", "too long ")


def kind_of_json(text: str) -> Kind:
    if '"aeolus"' in text or '"types"' in text:
        return Kind.UNIVERSE
    if '"services"' in text:
        return Kind.COMPOSE
    return Kind.MANIFESTS if '"apiVersion"' in text else Kind.JSON


def first_line_of_substance(lines: list[str]) -> str:
    return next((line.strip() for line in lines if line.strip() and not line.lstrip().startswith("#")), "")


def kind_of(data: bytes) -> Kind:
    """What these bytes are, by their beginning. It is a guess: whether they are all right is for their reader to say."""
    text = data[:MOST_LOOKED_AT].decode("utf-8-sig", errors="replace")
    if not text.strip():
        return Kind.EMPTY
    if "\0" in text:
        return Kind.BINARY
    lines = text.split("\n")
    if lines[0].rstrip() in HEADS:
        return HEADS[lines[0].rstrip()]
    if text.lstrip()[0] in "{[":
        return kind_of_json(text)
    return kind_of_lines(text, lines)


def kind_of_lines(text: str, lines: list[str]) -> Kind:
    """What a text is that is neither JSON nor has a head of its own."""
    first = first_line_of_substance(lines)
    if first.startswith(FAULTS):
        return Kind.FAULT
    for pattern, kind in ((COMPOSE, Kind.COMPOSE), (MANIFEST, Kind.MANIFESTS)):
        if pattern.search(text):
            return kind
    for pattern, kind in (
        (SCHEDULE, Kind.SCHEDULE),
        (PLACEMENT, Kind.PLACEMENT),
        (SCRIPT, Kind.CONTROL),
        (ACTION, Kind.SESSION),
        (SKETCHED, Kind.SKETCH),
    ):
        if pattern.match(first):
            return kind
    return Kind.TURNS if TURNS.fullmatch(text) else Kind.OTHER
