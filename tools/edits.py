#!/usr/bin/env python3
"""Lists for each must-fail edit the goal at which the check refused it.

    edits.py LOG ..

A LOG is what `rt ci` or `rt must-fail` printed; `-` is standard input. Run it at the top of the repository. Of several
tries of one edit the last one counts. The status is 1 where an edit in a crate's must-fail/ was not tried, or was not
refused at an open goal: it passed, a proof only misses a name that it takes away, or a limit of the prover was met. It is
2 where the words or a log are wrong.
"""

import re
import sys
from pathlib import Path
from typing import NamedTuple

TRIED = re.compile(r"must-fail (?P<crate>\w+)/(?P<edit>[\w-]+)\.edit: (?P<said>.*)")
PLACE = re.compile(r"(?:note: )?(?:\./)?(?P<file>[\w/]+\.(?:rt|antt)):(?P<line>\d+):\d+: ")
GOAL = re.compile(r"`(?P<goal>[\w-]+)`")
REFUSED = "refused, as it must be"


class Try(NamedTuple):
    """What a try of an edit came to."""

    is_open_goal: bool
    place: str
    goal: str


def try_of(said: str) -> Try:
    """Returns what the words behind an edit's name say."""
    if not said.startswith(REFUSED):
        return Try(False, "", said.split(":")[0].lower())
    rest = said[len(REFUSED) :]
    place = PLACE.search(rest)
    where = f"{place['file']}:{place['line']}" if place else ""
    if rest.startswith(" (only"):
        why = "a limit of the prover" if "limit of the prover" in rest else "a name that a proof misses"
        return Try(False, where, why)
    goal = GOAL.search(rest[place.end() :]) if place else None
    return Try(goal is not None, where, goal["goal"] if goal else "no goal is told")


def tries_in(text: str) -> dict[tuple[str, str], Try]:
    """Returns the last try of each edit, by crate and name."""
    return {(found["crate"], found["edit"]): try_of(found["said"]) for found in TRIED.finditer(text)}


def edits_here() -> list[tuple[str, str]]:
    """Returns the edits of all crates."""
    return sorted((path.parts[1], path.stem) for path in Path("crates").glob("*/must-fail/*.edit"))


def text_of(name: str) -> str:
    return sys.stdin.read() if name == "-" else Path(name).read_text()


def main(names: list[str]) -> int:
    if not names:
        print(__doc__.strip(), file=sys.stderr)
        return 2
    try:
        tries = tries_in("\n".join(text_of(name) for name in names))
    except (OSError, UnicodeDecodeError) as fault:
        print(f"edits.py: {fault}", file=sys.stderr)
        return 2
    wrong = 0
    for crate, edit in edits_here():
        tried = tries.get((crate, edit), Try(False, "", "not tried"))
        wrong += not tried.is_open_goal
        mark = " " if tried.is_open_goal else "!"
        print(f"{mark} {crate}/{edit}: {tried.goal}{' at ' + tried.place if tried.place else ''}")
    print(f"{len(edits_here())} edits, {wrong} of them not refused at an open goal")
    return 1 if wrong else 0


if __name__ == "__main__":
    sys.exit(main(sys.argv[1:]))
