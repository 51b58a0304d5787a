"""Reads JSON and keeps the place of each value, for what has to lead a reader there. What is JSON is what Metis takes for it."""

import bisect
import dataclasses
import re
from typing import NoReturn

DEEPEST = 127
BLANKS = re.compile(r"[ \t\n\r]*")
PLAIN = re.compile(r'"([^"\\\x00-\x1f]*)"')
PART = re.compile(r'[^"\\\x00-\x1f]+|\\["\\/bfnrt]|\\u[0-9a-fA-F]{4}')
ESCAPED = {"b": "\b", "f": "\f", "n": "\n", "r": "\r", "t": "\t"}
NUMBER = re.compile(r"-?(?:0|[1-9][0-9]*)(\.[0-9]+)?([eE][+-]?[0-9]+)?")
WORDS = {"true": True, "false": False, "null": None}
# What one writes who knows another language: how it begins, and what JSON has.
OTHERS = (
    ("#", "JSON has no comments"),
    ("/", "JSON has no comments"),
    ("'", "a text stands in double quotes"),
    ("\ufeff", "a byte order mark stands before the document"),
)


class NoJson(ValueError):
    """Why a text is no JSON, and where."""

    def __init__(self, at: int, reason: str):
        super().__init__(reason)
        self.at = at
        self.reason = reason


@dataclasses.dataclass(frozen=True, slots=True)
class Node:
    """A value and where it begins. It is a text, a number, a truth value, none, a tuple of nodes, or an object."""

    value: object
    at: int


@dataclasses.dataclass(frozen=True, slots=True)
class Member:
    name: str
    at: int
    node: Node


@dataclasses.dataclass(frozen=True, slots=True)
class Object:
    members: tuple[Member, ...]

    def get(self, name: str) -> Node | None:
        """The value at the name; where it stands twice, the last one."""
        return next((it.node for it in reversed(self.members) if it.name == name), None)


class Lines:
    """The lines of a text, by which a place in it has a line and a column."""

    def __init__(self, text: str):
        self.starts = [0, *(found.end() for found in re.finditer("\n", text))]

    def place(self, at: int) -> tuple[int, int]:
        line = bisect.bisect_right(self.starts, at)
        return line, at - self.starts[line - 1] + 1


class Reader:
    def __init__(self, text: str):
        self.text, self.at, self.depth = text, 0, 0

    def refuse(self, reason: str, at: int | None = None) -> NoReturn:
        raise NoJson(self.at if at is None else at, reason)

    def skip(self) -> str:
        """Goes past blanks, and gives the next character, or nothing at the end."""
        blanks = BLANKS.match(self.text, self.at)
        self.at = blanks.end() if blanks else self.at
        return self.text[self.at : self.at + 1]

    def document(self) -> Node:
        root = self.value()
        if self.skip():
            self.refuse("the document has ended before this")
        return root

    def value(self) -> Node:
        first, at = self.skip(), self.at
        if first == '"':
            return Node(self.string(), at)
        if first in ("{", "["):
            return Node(self.nested(first), at)
        for word, value in WORDS.items():
            if self.text.startswith(word, at):
                self.at += len(word)
                return Node(value, at)
        found = NUMBER.match(self.text, at)
        if found:
            return Node(self.number(found), at)
        self.no_value(first)

    def no_value(self, first: str) -> NoReturn:
        if not first:
            self.refuse("the text ends where a value is due")
        self.refuse_other(first)
        if first in "]}":
            self.refuse("a value is due here: is a comma too many before it?")
        self.refuse("no value of JSON: a text stands in double quotes")

    def refuse_other(self, first: str) -> None:
        for begins, reason in OTHERS:
            if first == begins:
                self.refuse(reason)

    def number(self, found: re.Match[str]) -> int | float:
        text = found[0]
        if abs(float(text)) == float("inf"):
            self.refuse("the number is too large")
        self.at = found.end()
        return float(text) if found[1] or found[2] or text == "-0" else int(text)

    def string(self) -> str:
        plain = PLAIN.match(self.text, self.at)
        if plain:
            self.at = plain.end()
            return plain[1]
        begun, parts = self.at, []
        self.at += 1
        while self.text[self.at : self.at + 1] != '"':
            part = PART.match(self.text, self.at)
            if not part:
                self.refuse_in_string(begun)
            self.at = part.end()
            parts.append(self.unescaped(part[0]) if part[0][0] == "\\" else part[0])
        self.at += 1
        return "".join(parts)

    def refuse_in_string(self, begun: int) -> NoReturn:
        here = self.text[self.at : self.at + 1]
        if here in ("", "\n", "\r"):
            self.refuse("the text that begins here has no quotes at its end", begun)
        self.refuse("an escape that JSON has not" if here == "\\" else "a control character in a text")

    def unescaped(self, part: str) -> str:
        if part[1] != "u":
            return ESCAPED.get(part[1], part[1])
        code = int(part[2:], 16)
        if not 0xD800 <= code < 0xE000:
            return chr(code)
        low = PART.match(self.text, self.at)
        if not low or code >= 0xDC00 or low[0][:2] != "\\u" or not 0xDC00 <= int(low[0][2:], 16) < 0xE000:
            self.refuse("half of a pair of escapes", self.at - len(part))
        self.at = low.end()
        return chr(0x10000 + ((code - 0xD800) << 10) + int(low[0][2:], 16) - 0xDC00)

    def nested(self, first: str) -> Object | tuple[Node, ...]:
        begun, close = self.at, "}" if first == "{" else "]"
        self.depth += 1
        if self.depth > DEEPEST:
            self.refuse(f"this nests deeper than {DEEPEST}")
        self.at += 1
        members, entries = [], []
        is_first = True
        while self.skip() != close:
            if not is_first:
                self.comma(begun, close)
            is_first = False
            if close == "}":
                members.append(self.member())
            else:
                entries.append(self.value())
        self.at += 1
        self.depth -= 1
        return Object(tuple(members)) if close == "}" else tuple(entries)

    def comma(self, begun: int, close: str) -> None:
        here = self.text[self.at : self.at + 1]
        if here == ",":
            self.at += 1
            return
        what = "object" if close == "}" else "list"
        if not here:
            self.refuse(f"the text ends, and the {what} that begins here is still open", begun)
        self.refuse_other(here)
        if here in "]}":
            self.refuse(f"an open {what} ends with {close}")
        self.refuse("a comma is missing before this" if here != ":" else "no name stands before this colon")

    def member(self) -> Member:
        """A member of an object."""
        first, at = self.skip(), self.at
        if first != '"':
            self.refuse_other(first)
            self.refuse("a name in double quotes is due here" if first != "}" else "a comma too many stands before this")
        name = self.string()
        if self.skip() != ":":
            self.refuse(f"a colon is due here, behind the name {name[:64]!a}")
        self.at += 1
        return Member(name, at, self.value())


def read_json(text: str) -> Node:
    return Reader(text).document()
