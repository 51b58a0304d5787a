#!/usr/bin/env python3
"""Tries the edits of crates: wrong bodies, one a file in crates/NAME/edits/, which the check has to refuse at an open goal.

    tools/try_edits.py NAME ..      those of these crates
    tools/try_edits.py --due        those of each crate that changed since they were last tried, and of three more by turns
    tools/try_edits.py --all        all

It runs `rt ci` over a copy of these crates and those below, in which the edits stand in must-fail/. A kit that keeps what
`rt ci` passed proves nothing again there. For each edit it tells the goal at which it was refused, and it ends with a line
`N refused, M not`. The status is 0 where all are refused.

crates/edits.json says for each crate the sum of its own src, specs and edits when all its edits were last refused; imports,
declarations of modules and whole-line comments do not count, so an import that gives a name another meaning makes nothing due.
It is written anew after each run, and committed. An edit in must-fail/ is tried by `rt ci` itself, and not here.
"""

import argparse
import hashlib
import json
import pathlib
import re
import shutil
import subprocess
import sys
import tempfile
from collections.abc import Iterable

from build import below, read_lines
from building import TOP, say
from edits import Try, tries_in

LEDGER = TOP / "crates" / "edits.json"
# How many crates are tried at each run although they did not change: a clause below that grew weaker shows so.
BY_TURNS = 3
CODE = ("src", "specs")
# A line that says nothing of its own: where names are found, or a comment.
SILENT = re.compile(r"\s*((ghost |pub |unfoldable )*use .*|(pub )?mod \w+;?|(//|--).*)?")


def crates_with_edits() -> list[str]:
    return sorted({path.parts[-3] for path in TOP.glob("crates/*/edits/*.edit")})


def edits_of(crate: str) -> list[str]:
    return sorted(path.stem for path in (TOP / "crates" / crate / "edits").glob("*.edit"))


def said_in(path: pathlib.Path) -> bytes:
    """What a file of code says: its lines without imports and comments."""
    return "\n".join(line for line in path.read_text().splitlines() if not SILENT.fullmatch(line)).encode()


def sum_of(crate: str) -> str:
    """A sum of what the crate's edits stand on: its own code, specs and edits. Proofs may change without making one due."""
    home = TOP / "crates" / crate
    texts = {path: said_in(path) for part in CODE for path in (home / part).rglob("*") if path.is_file()}
    texts |= {path: path.read_bytes() for path in (home / "edits").glob("*.edit")}
    found = hashlib.sha256()
    for path in sorted(path for path, text in texts.items() if text):
        found.update(f"{path.relative_to(TOP)}\n{hashlib.sha256(texts[path]).hexdigest()}\n".encode())
    return found.hexdigest()[:16]


def read_ledger() -> dict[str, str]:
    return json.loads(LEDGER.read_text()) if LEDGER.is_file() else {}


def write_ledger(tried: Iterable[str]) -> None:
    """Notes these crates as tried, and forgets those that have no edits any more."""
    sums = read_ledger() | {crate: sum_of(crate) for crate in tried}
    kept = {crate: sums[crate] for crate in crates_with_edits() if crate in sums}
    LEDGER.write_text(json.dumps(kept, indent=1) + "\n")


def changed() -> list[str]:
    known = read_ledger()
    return [crate for crate in crates_with_edits() if known.get(crate) != sum_of(crate)]


def by_turns() -> list[str]:
    """Three crates, others at each commit, so that each has its turn."""
    counted = subprocess.run(["git", "rev-list", "--count", "HEAD"], cwd=TOP, capture_output=True, text=True, check=False)
    crates, first = crates_with_edits(), int(counted.stdout or 0) * BY_TURNS
    return [crates[(first + place) % len(crates)] for place in range(min(BY_TURNS, len(crates)))]


def lay_out(room: pathlib.Path, crates: Iterable[str]) -> None:
    """A repository of these crates and those below them. Their edits stand in must-fail/, and no others do."""
    lines = read_lines()
    needed: tuple[str, ...] = ()
    for crate in crates:
        needed = needed if crate in needed else below(lines, crate, needed)
    (room / ".git").mkdir()
    (room / "crates.txt").write_text("".join(f"{lines[it]}\n" for it in needed))
    shutil.copyfile(TOP / "HANDLES", room / "HANDLES")
    for crate in needed:
        left_out = shutil.ignore_patterns("out", "must-fail", "edits")
        shutil.copytree(TOP / "crates" / crate, room / "crates" / crate, copy_function=shutil.copyfile, ignore=left_out)
    for crate in crates:
        shutil.copytree(TOP / "crates" / crate / "edits", room / "crates" / crate / "must-fail", copy_function=shutil.copyfile)


def tried_in(room: pathlib.Path, log: pathlib.Path) -> tuple[dict[tuple[str, str], Try], bool]:
    """What `rt ci` says there of each edit, and whether all else passed too."""
    with log.open("w") as told:
        ended = subprocess.run(["rt", "ci"], cwd=room, stdin=subprocess.DEVNULL, stdout=told, stderr=subprocess.STDOUT, check=False)
    return tries_in(log.read_text(errors="replace")), ended.returncode == 0


def try_edits(crates: list[str]) -> int:
    if not crates:
        print("0 refused, 0 not")
        return 0
    with tempfile.TemporaryDirectory(prefix="metis-edits-") as folder:
        room = pathlib.Path(folder) / "copy"
        room.mkdir()
        lay_out(room, crates)
        log = pathlib.Path(folder) / "log"
        tries, is_good = tried_in(room, log)
        refused, sound = 0, []
        for crate in crates:
            found = {edit: tries.get((crate, edit), Try(False, "", "not tried")) for edit in edits_of(crate)}
            for edit, tried in found.items():
                mark = " " if tried.is_open_goal else "!"
                print(f"{mark} {crate}/{edit}: {tried.goal}{' at ' + tried.place if tried.place else ''}")
            refused += sum(tried.is_open_goal for tried in found.values())
            if all(tried.is_open_goal for tried in found.values()):
                sound.append(crate)
        count = sum(len(edits_of(crate)) for crate in crates)
        if not is_good:
            print("".join(log.read_text(errors="replace").splitlines(keepends=True)[-12:]), end="")
    write_ledger(sound)
    print(f"{refused} refused, {count - refused} not")
    return 0 if refused == count and is_good else 1


def main() -> int:
    parser = argparse.ArgumentParser(description=__doc__, formatter_class=argparse.RawDescriptionHelpFormatter)
    which = parser.add_mutually_exclusive_group()
    which.add_argument("--due", action="store_true", help="of crates that changed, and of three more by turns")
    which.add_argument("--all", action="store_true", help="of all crates, as before a release")
    parser.add_argument("--list", action="store_true", help="only print the names of the crates whose edits would be tried")
    parser.add_argument("names", metavar="NAME", nargs="*", help="a crate")
    arguments = parser.parse_args()
    unknown = [name for name in arguments.names if name not in crates_with_edits()]
    if unknown or bool(arguments.names) == (arguments.due or arguments.all):
        say(f"no crate with edits: {unknown[0]}" if unknown else "name crates, or say --due or --all")
        return 2
    crates = crates_with_edits() if arguments.all else sorted({*changed(), *by_turns()}) if arguments.due else arguments.names
    if arguments.list:
        print(*crates, sep="\n")
        return 0
    return try_edits(list(dict.fromkeys(crates)))


if __name__ == "__main__":
    sys.exit(main())
