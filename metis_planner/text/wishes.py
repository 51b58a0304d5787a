"""Reads a text of wishes: what of that which stands is to stay, to go or may be bound anew, and what is to be avoided."""

import re
from typing import NamedTuple

from metis_planner.text.plans import NAME, NUMBER, PAIR

HEAD = "metis wishes 1"
# The longest text of wishes that the program reads.
MOST_BYTES = 65_536
# No wish at all; an empty file is no text of wishes, since one that was cut off would lose a `keep`.
NO_WISHES = f"{HEAD}\nend\n"
FORMS = "keep Z, keep all, rebind Z, retire Z, avoid TYPE:STATE or avoid TYPE"
OF_AN_INSTANCE = ("keep", "rebind", "retire")
ALL = "all"
WISH = re.compile(rf"(?:(keep|rebind|retire) ({NUMBER.pattern})|(keep) (all)|(avoid) ({PAIR.pattern}|{NAME.pattern}))")


class Wish(NamedTuple):
    """A line of the text: what is wished, and of which instance, pair or type."""

    line: int
    verb: str
    word: str

    @property
    def text(self) -> str:
        return f"{self.verb} {self.word}"

    @property
    def instance(self) -> int | None:
        return int(self.word) if self.verb in OF_AN_INSTANCE and self.word != ALL else None

    def avoids(self, kind: str, state: str | None) -> bool:
        """Whether the line avoids this state of the type."""
        return self.verb == "avoid" and self.word in (kind, f"{kind}:{state}")


def wishes_in(text: str) -> tuple[Wish, ...]:
    """The wishes that a text has. What has no form of one is left out: to refuse it is for the program."""
    found = ((number, WISH.fullmatch(line)) for number, line in enumerate(text.split("\n"), 1))
    return tuple(Wish(number, *(each for each in match.groups() if each)) for number, match in found if match)
