"""What a command comes to: its answer, or why it is refused."""

from collections.abc import Callable, Iterable, Sequence
from typing import NamedTuple, TypeVar

Name = TypeVar("Name")
Made = TypeVar("Made")


class Refused(Exception):
    """Why nothing is made of an input, in one line; and further reasons, where somebody may want all of them."""

    def __init__(self, reason: str, *more: str) -> None:
        super().__init__(reason)
        self.more = more


def made_of_each(names: Iterable[Name], make: Callable[[Name], Made]) -> dict[Name, Made]:
    """What is made of each of some names, or why some are refused: the first reason, with the others behind it."""
    found: dict[Name, Made] = {}
    reasons: list[str] = []
    for name in names:
        try:
            found[name] = make(name)
        except Refused as refused:
            reasons += [str(refused), *refused.more]
    if reasons:
        raise Refused(*reasons)
    return found


class Answer(NamedTuple):
    """A text for standard output, notes for standard error, one line each, and the exit status."""

    text: str = ""
    notes: Sequence[str] = ()
    status: int = 0
