"""The file `.env` beside a project, as Compose reads it: quotes, comments behind values, and variables in values."""

import collections
import re
from collections.abc import Mapping

from metis_planner.answers import Refused
from metis_planner.importers.compose.variables import Unset, Variables

# What is a space inside of a line.
SPACE = "\t\v\f\r \x85\xa0"
KEY = re.compile(r"[\w.\-\[\]]*")
EXPORT = re.compile(rf"export[{re.escape(SPACE)}]+")
INSIDE = {'"': re.compile(r'(?:[^"\\]|\\.)*', re.DOTALL), "'": re.compile(r"(?:[^'\\]|\\.)*", re.DOTALL)}
ESCAPED = re.compile(r'\\([abcfnrtv$"\\])')
SAID_BY = {"a": "\a", "b": "\b", "f": "\f", "n": "\n", "r": "\r", "t": "\t", "v": "\v", '"': '"', "\\": "\\", "$": "$$"}


def read_variables(text: str, path: str, outside: Mapping[str, str]) -> dict[str, str]:
    """The variables of a file. In its values those of the outside count before its own, and what is not set is empty."""
    return Reader(text.removeprefix("\ufeff").replace("\r\n", "\n"), path, outside).read()


class Reader:
    """Reads a text statement by statement."""

    def __init__(self, text: str, path: str, outside: Mapping[str, str]) -> None:
        self.text = text
        self.path = path
        self.outside = outside
        self.at = 0
        self.found: dict[str, str] = {}
        self.variables = Variables(collections.ChainMap(dict(outside), self.found), Unset.EMPTY)

    def read(self) -> dict[str, str]:
        while self.skip_to_statement():
            started = self.at
            key, has_value = self.key()
            if has_value:
                self.found[key] = self.value(started)
            elif key in self.outside:
                self.found[key] = self.outside[key]
        return self.found

    def skip_to_statement(self) -> bool:
        """Goes on behind blanks and comments; whether a statement follows."""
        while self.at < len(self.text):
            each = self.text[self.at]
            if each == "#":
                self.at = self.end_of_line()
            elif each.isspace():
                self.at += 1
            else:
                return True
        return False

    def end_of_line(self) -> int:
        found = self.text.find("\n", self.at)
        return len(self.text) if found < 0 else found

    def key(self) -> tuple[str, bool]:
        """The name of a variable, and whether a value follows; without one it is that of the outside."""
        exported = EXPORT.match(self.text, self.at)
        self.at = exported.end() if exported else self.at
        end = self.end_of_line()
        line = self.text[self.at : end]
        cut = re.search("[=:]", line)
        key = (line[: cut.start()] if cut else line).strip(SPACE)
        if not key or not KEY.fullmatch(key):
            raise self.fault(self.at, f"no name of a variable: {key[:60]}")
        self.at = self.at + cut.end() if cut else end
        return key, cut is not None

    def value(self, started: int) -> str:
        while self.at < len(self.text) and self.text[self.at] in SPACE:
            self.at += 1
        quote = self.text[self.at : self.at + 1]
        if quote not in INSIDE or not quote:
            end = self.end_of_line()
            told = self.text[self.at : end].partition(" #")[0].rstrip()
            self.at = end
            return self.expanded(told, started)
        inside = INSIDE[quote].match(self.text, self.at + 1)
        end = inside.end() if inside else self.at
        if not self.text.startswith(quote, end):
            raise self.fault(started, "a quote that nothing closes")
        told = self.text[self.at + 1 : end]
        self.at = end + 1
        if quote == "'":
            return told.replace("\\'", "'")
        return self.expanded(ESCAPED.sub(lambda found: SAID_BY.get(found[1], found[0]), told), started)

    def expanded(self, told: str, started: int) -> str:
        if "$" not in told:
            return told
        try:
            return self.variables.text(told)
        except Refused as fault:
            raise self.fault(started, str(fault)) from fault

    def fault(self, at: int, reason: str) -> Refused:
        return Refused(f"{self.path}: line {self.text.count(chr(10), 0, at) + 1}: {reason}")
