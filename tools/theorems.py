#!/usr/bin/env python3
"""Lists the theorems of all crates, each with its premises and with what the comment above it says.

    tools/theorems.py             prints the page
    tools/theorems.py --write     writes it: docs/dev/THEOREMS.md
    tools/theorems.py --check     ends with status 1 if the page is not the one that the sources make

A theorem is a public function without arguments and without code. Its premises are the definitions that stand to the left of
the arrows of its `ensures`, so a reader sees under which ones the sentence beside it is meant.
"""

import dataclasses
import pathlib
import re
import sys
from collections.abc import Iterator

TOP = pathlib.Path(__file__).resolve().parent.parent
PAGE = "docs/dev/THEOREMS.md"
HEAD = """\
# All theorems

`tools/theorems.py --write` makes this page from the sources, in the order of `crates.txt`, and `tools/try_documents.py` checks
that it is up to date. Each theorem has its name, the definitions that it has as premises in brackets (not those that are
equations or orders of numbers), and the comment above it. The comments use the words of [MODEL](MODEL.md), and one that begins
with "So" or "Then" continues the one above it. What counts is the `ensures` in `crates/CRATE/src`, which
`rt check --only NAME` proves alone.
"""
THEOREM = re.compile(r"(?m)^((?:///.*\n)*)(?:#\[.*\n)*pub fn (\w+)\(\)\n((?: +.*\n|\n)*?)\{\}")
ENSURES = re.compile(r"(?s)ensures (?:\w+ )?\{(.*?)\}\s*(?=ensures|\Z)")
# A group that binds variables, as `(u : Universe)`.
BINDER = re.compile(r"^\([^():]+ : ")
HEAD_OF_A_PREMISE = re.compile(r"[A-Za-z]\w*(?:\.\w+)*")
# What a statement names before a premise.
NAMED_BEFORE = re.compile(r"^(?:let \w+ = .*? in )+")
# What only wraps a premise.
WRAPPERS = ("IsTrue", "IsFalse", "IsSomeAnd", "IsNone", "IsSome", "All")


@dataclasses.dataclass(frozen=True)
class Theorem:
    crate: str
    name: str
    premises: tuple[str, ...]
    comment: str


def crates() -> list[str]:
    lines = [line.split("#")[0].strip() for line in (TOP / "crates.txt").read_text().splitlines()]
    return [line.split(":")[0].split()[0] for line in lines if line]


def parts_of(statement: str) -> Iterator[str]:
    """The parts of a statement that arrows divide, without those in brackets. A group that binds variables is no part."""
    depth, part = 0, ""
    for letter in statement:
        depth += (letter in "([{") - (letter in ")]}")
        if letter == "→" and depth == 0:
            yield part.strip()
            part = ""
            continue
        part += letter
        if letter == ")" and depth == 0 and BINDER.match(part.strip()):
            part = ""
    yield part.strip()


def name_of(premise: str) -> str | None:
    """The definition that a premise is about; none if it is an equation, an order or a negation."""
    said = NAMED_BEFORE.sub("", premise)
    if re.search(r"[≡≤<≢⊎×]|→", said):
        return None
    names = HEAD_OF_A_PREMISE.findall(re.sub(r"λ [^.]*\.", "", said))
    wrapped = [name for name in names if name not in WRAPPERS]
    return wrapped[0] if wrapped else None


def premises_of(contract: str) -> tuple[str, ...]:
    """The definitions that the statements of a contract have to the left of their arrows, each once."""
    found: dict[str, None] = {}
    for statement in ENSURES.findall(contract):
        for premise in list(parts_of(" ".join(statement.split())))[:-1]:
            name = name_of(premise)
            if name:
                found[name] = None
    return tuple(found)


def theorems_of(crate: str) -> Iterator[Theorem]:
    for path in sorted((TOP / "crates" / crate / "src").rglob("*.rt")):
        for comment, name, contract in THEOREM.findall(path.read_text()):
            said = " ".join(line.removeprefix("///").strip() for line in comment.splitlines())
            yield Theorem(crate, name, premises_of(contract), said)


def line_of(theorem: Theorem) -> str:
    premises = ", ".join(f"`{name}`" for name in theorem.premises)
    return f"- `{theorem.name}`{f' ({premises})' if premises else ''}: {theorem.comment}"


def page() -> str:
    parts = [HEAD]
    for crate in crates():
        found = list(theorems_of(crate))
        if found:
            parts.append(f"\n## `{crate}`\n\n" + "".join(f"{line_of(it)}\n" for it in found))
    return "".join(parts)


def faults() -> Iterator[str]:
    """What is wrong with the page, and theorems of which no comment says what they say."""
    path = TOP / PAGE
    if not path.is_file() or path.read_text() != page():
        yield f"{PAGE}: it is not what the sources make: tools/theorems.py --write"
    for crate in crates():
        yield from (f"{PAGE}: the theorem {it.name} of {crate} has no comment" for it in theorems_of(crate) if not it.comment)


def main(words: list[str]) -> int:
    if words == ["--write"]:
        (TOP / PAGE).write_text(page())
        return 0
    if words == ["--check"]:
        found = list(faults())
        print(*found, sep="\n", end="\n" if found else "")
        return 1 if found else 0
    if words:
        print((__doc__ or "").split("\n\n")[1], file=sys.stderr)
        return 2
    print(page(), end="")
    return 0


if __name__ == "__main__":
    sys.exit(main(sys.argv[1:]))
