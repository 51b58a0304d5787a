"""In which condition packages stand on a machine: whole, half set up, to be installed again, or half removed."""

import enum
from collections.abc import Mapping

Fields = Mapping[str, str]

HELD = "hold"
AGAIN = "reinstreq"
# The last word of a status: of what is not there, and of what is there and not set up.
ABSENT = ("not-installed", "config-files")
UNSET = ("unpacked", "half-configured", "triggers-awaited", "triggers-pending")
HALF_THERE = "half-installed"


class Condition(enum.Enum):
    """What stands, as far as apt tells it apart."""

    ABSENT = "absent"
    WHOLE = "whole"
    UNSET = "unset"  # its files are there, and it is not set up, or triggers are due
    BROKEN = "broken"  # nothing but installing it again sets it right
    HALF_REMOVED = "half removed"  # a removal that failed: it is gone, unless it is installed again


def condition(fields: Fields) -> Condition:
    """The condition in which a status file says that a package is."""
    words = fields.get("Status", "").split()
    if len(words) != 3 or words[2] in ABSENT:
        return Condition.ABSENT
    if words[1] == AGAIN:
        return Condition.BROKEN
    if words[2] == HALF_THERE:
        return Condition.HALF_REMOVED
    return Condition.UNSET if words[2] in UNSET else Condition.WHOLE


def is_held(fields: Fields) -> bool:
    return fields.get("Status", "").split()[:1] == [HELD]


def in_words(name: str, fields: Fields) -> str:
    """A package with the words of its condition: `lib (half-configured)`."""
    words = fields.get("Status", "").split()
    return f"{name} ({' '.join(each for each in words[1:] if each != 'ok')})"
