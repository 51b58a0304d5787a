"""Reads a stream of YAML documents, where PyYAML is there: plain values, within bounds that no alias gets round."""

import re
from typing import Any

import yaml

from metis_planner.answers import Refused

IS_FAST = hasattr(yaml, "CSafeLoader")
# What takes two or three seconds: with the library of C that PyYAML is built over, and without.
MOST_NODES = 300_000 if IS_FAST else 60_000
# An alias is one word of a text and a whole value of what it says, so values are counted as if each were written out.
MOST_VALUES = 1_000_000
DEEPEST = 100
PLAIN, TEXT = "plain", "text"
# The tags of YAML itself that can be said; what they say is read by the form of the scalar, except of a text.
KNOWN_TAGS = frozenset(f"tag:yaml.org,2002:{kind}" for kind in "str int float bool null map seq".split())
OF_TEXT = "tag:yaml.org,2002:str"
MERGE = "<<"
CONSTANTS: dict[str, bool | None] = {"": None, "~": None, "null": None, "Null": None, "NULL": None}
CONSTANTS |= {word: True for word in ("true", "True", "TRUE")} | {word: False for word in ("false", "False", "FALSE")}
WHOLE = re.compile(r"[-+]?[0-9]{1,18}")
EXPONENT = r"[eE][-+]?[0-9]{1,3}"
FRACTION = re.compile(
    rf"[-+]?(?:(?:[0-9]{{1,300}}\.[0-9]{{0,300}}|\.[0-9]{{1,300}})(?:{EXPONENT})?|[0-9]{{1,300}}{EXPONENT})"
)


class Placed(dict[str, Any]):
    """A mapping that knows the line on which it begins; lines count from 1."""

    __slots__ = ("line",)
    line: int


Loader: Any = yaml.CSafeLoader if IS_FAST else yaml.SafeLoader


class Nodes(Loader):  # type: ignore[misc]  # one of two, by what is installed
    """Composes the nodes of a text, not too many and not too deep, and leaves what a scalar says to others."""

    depth = count = 0

    def descend_resolver(self, parent: Any, index: Any) -> None:
        self.depth += 1
        self.count += 1
        if self.depth > DEEPEST:
            raise Refused("nested too deeply")
        if self.count > MOST_NODES:
            raise Refused(f"more than {MOST_NODES} values of YAML; JSON is read faster")

    def ascend_resolver(self) -> None:
        self.depth -= 1

    def resolve(self, kind: Any, value: Any, implicit: Any) -> str:
        return PLAIN if kind is yaml.ScalarNode and implicit[0] else TEXT


def documents(text: str, path: str) -> list[Any]:
    """The value of each document of a text."""
    try:
        nodes = Nodes(text)
        values = Values()
        found = []
        while nodes.check_node():
            found.append(values.of(nodes.get_node()))
        return found
    except yaml.YAMLError as fault:
        place = getattr(fault, "problem_mark", None)
        where = f" line {place.line + 1}:" if place else ""
        raise Refused(f"{path}: no YAML:{where} {getattr(fault, 'problem', None) or 'it cannot be read'}") from fault
    except Refused as refused:
        raise Refused(f"{path}: {refused}") from refused


class Values:
    """What nodes say. A node that several aliases name is read once, and counted each time."""

    def __init__(self) -> None:
        self.known: dict[Any, tuple[Any, int]] = {}  # of a node: its value, and how many values it has if all are written out
        self.entered: set[Any] = set()

    def of(self, node: Any) -> Any:
        return self.counted(node)[0]

    def counted(self, node: Any) -> tuple[Any, int]:
        if node in self.known:
            return self.known[node]
        if node in self.entered:
            raise Refused(f"line {line_of(node)}: an alias that stands inside what it names")
        self.entered.add(node)
        if isinstance(node, yaml.ScalarNode):
            found: tuple[Any, int] = (scalar(node), 1)
        elif isinstance(node, yaml.SequenceNode):
            found = self.sequence(node)
        else:
            found = self.mapping(node)
        self.entered.discard(node)
        if found[1] > MOST_VALUES:
            raise Refused(f"line {line_of(node)}: more than {MOST_VALUES} values, with what aliases stand for")
        self.known[node] = found
        return found

    def sequence(self, node: Any) -> tuple[list[Any], int]:
        check_tag(node)
        members = [self.counted(each) for each in node.value]
        return [value for value, _ in members], 1 + sum(count for _, count in members)

    def mapping(self, node: Any) -> tuple[Placed, int]:
        check_tag(node)
        own: dict[str, Any] = {}
        merged: dict[str, Any] = {}
        count = 1
        for key_node, value_node in node.value:
            if not isinstance(key_node, yaml.ScalarNode):
                raise Refused(f"line {line_of(key_node)}: a key that is no text")
            key = key_node.value
            value, values = self.counted(value_node)
            count += values
            if key == MERGE and key_node.tag == PLAIN:
                for each in value if isinstance(value, list) else [value]:
                    merge(each, merged, key_node)
            elif key in own:
                raise Refused(f"line {line_of(key_node)}: the key '{key}' stands twice in one mapping")
            else:
                own[key] = value
        found = Placed(merged)
        found.update(own)
        found.line = line_of(node)
        return found, count


def merge(told: Any, merged: dict[str, Any], node: Any) -> None:
    if not isinstance(told, dict):
        raise Refused(f"line {line_of(node)}: '<<' of what is no mapping")
    for key, value in told.items():
        merged.setdefault(key, value)


def check_tag(node: Any) -> None:
    if node.tag not in (PLAIN, TEXT) and node.tag not in KNOWN_TAGS:
        raise Refused(f"line {line_of(node)}: the tag '{node.tag}' is not known here")


def scalar(node: Any) -> str | int | float | bool | None:
    """What a scalar says: by its form where it is plain, and a text elsewhere."""
    check_tag(node)
    text: str = node.value
    if node.tag in (TEXT, OF_TEXT):
        return text
    if text in CONSTANTS:
        return CONSTANTS[text]
    if WHOLE.fullmatch(text):
        return int(text)
    return float(text) if FRACTION.fullmatch(text) else text


def line_of(node: Any) -> int:
    return int(node.start_mark.line) + 1
