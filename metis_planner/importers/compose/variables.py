"""The variables in a Compose project: `$NAME`, `${NAME}`, and what stands in the place of one that is not set."""

import enum
import re
from collections.abc import Iterator, Mapping
from typing import Any

from metis_planner.answers import Refused

NAME = re.compile(r"[A-Za-z_][A-Za-z0-9_]*")
OPERATOR = re.compile(r":?[-?+]")
# What counts in a text, and what counts inside of braces.
MARK, MARK_INSIDE = re.compile(r"[$]"), re.compile(r"[$}]")
DEEPEST = 20
# So many variables at most are resolved in a project, and their values have so many characters together.
MOST_VARIABLES = 100_000
MOST_CHARACTERS = 4 * 1024 * 1024


class Unset(enum.Enum):
    """What stands for a variable that is not set: its own text, or nothing."""

    STAYS = "stays"
    EMPTY = "empty"


class Variables:
    """Puts values in the places of variables. One that has none stays as it stands, and is kept for a note, or is empty."""

    def __init__(self, values: Mapping[str, str], of_unset: Unset = Unset.STAYS, is_lenient: bool = False) -> None:
        self.values = values
        self.of_unset = of_unset
        self.is_lenient = is_lenient  # whether a dollar sign before what is no variable says itself
        self.unset: dict[str, str] = {}
        self.count = self.size = 0

    def notes(self) -> Iterator[str]:
        for name in sorted(self.unset):
            yield f"the variable {name} is not set, and stays as it stands in: {self.unset[name]}"

    def inside(self, value: Any) -> Any:
        """A value with each text in it, keys left alone."""
        if isinstance(value, str):
            return self.text(value) if "$" in value else value
        if isinstance(value, list):
            return [self.inside(each) for each in value]
        if isinstance(value, dict):
            return {key: self.inside(each) for key, each in value.items()}
        return value

    def text(self, text: str) -> str:
        return self.run_to(text, 0, 0, True)[0]

    def run_to(self, text: str, at: int, depth: int, is_used: bool) -> tuple[str, int]:
        """What a text says from a place on, and where it ends: inside of braces at the one that closes them."""
        if depth > DEEPEST:
            raise Refused("variables inside variables too deeply")
        found: list[str] = []
        while True:
            mark = (MARK_INSIDE if depth else MARK).search(text, at)
            if mark is None and depth:
                raise Refused(f"no brace closes the variable in: {text}")
            if mark is None:
                return "".join([*found, text[at:]]), len(text)
            found.append(text[at : mark.start()])
            if mark[0] == "}":
                return "".join(found), mark.end()
            value, at = self.variable(text, mark.start(), depth, is_used)
            found.append(value)

    def variable(self, text: str, dollar: int, depth: int, is_used: bool) -> tuple[str, int]:
        """What stands for the variable that begins at a dollar sign, and where the text goes on."""
        self.count += 1
        if self.count > MOST_VARIABLES:
            raise Refused(f"more than {MOST_VARIABLES} variables")
        if text.startswith("$$", dollar):
            return "$", dollar + 2
        if text.startswith("${", dollar):
            return self.braced(text, dollar, depth, is_used)
        name = NAME.match(text, dollar + 1)
        if not name and self.is_lenient:
            return "$", dollar + 1
        if not name:
            raise Refused(f"no variable behind the $ in: {text}; $$ says one")
        return self.value(name[0], name[0], is_used), name.end()

    def braced(self, text: str, dollar: int, depth: int, is_used: bool) -> tuple[str, int]:
        name = NAME.match(text, dollar + 2)
        at = name.end() if name else dollar + 2
        operator = OPERATOR.match(text, at)
        if text.find("}", at) < 0:
            raise Refused(f"no brace closes the variable in: {text}")
        if not name or not (operator or text.startswith("}", at)):
            raise Refused(f"no variable: {text[dollar : text.index('}', at) + 1]}")
        if not operator:
            return self.value(name[0], f"{{{name[0]}}}", is_used), at + 1
        value = self.values.get(name[0])
        is_there = value is not None and (value != "" or not operator[0].startswith(":"))
        kind = operator[0][-1]
        rest, end = self.run_to(text, operator.end(), depth + 1, is_used and kind != "?" and (kind == "+") == is_there)
        if kind == "+":
            return rest if is_there else "", end
        if value is not None and is_there:
            return value, end
        if kind == "?" and is_used:
            reason = text[operator.end() : end - 1] or "it is required"
            raise Refused(f"the variable {name[0]} is not set: {reason}")
        return rest, end

    def value(self, name: str, told: str, is_used: bool) -> str:
        """The value of a variable; where it has none, what stands for it. What is not used need not be set."""
        if name not in self.values and is_used:
            self.unset.setdefault(name, f"${told}")
        self.size += len(self.values.get(name, ""))
        if self.size > MOST_CHARACTERS:
            raise Refused(f"variables whose values have more than {MOST_CHARACTERS} characters together")
        return self.values.get(name, f"${told}" if self.of_unset is Unset.STAYS else "")


def check_required(value: Any, values: Mapping[str, str]) -> None:
    """Refuses a project in which a variable is required anywhere, and is not set, as Compose does."""
    Variables(values, is_lenient=True).inside(value)
