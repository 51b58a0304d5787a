"""Tries the commands of the table 'What you see, what to do' of docs/ERRORS.md.

Each row of that table says by which command the place of a fault is found. Here each row has a case at least: files with the
fault, the words with which the program prints the row's line, and what the row's command has to print then. A row without a
case is a fault, and so is a case whose row is gone.
"""

import dataclasses
import os
import pathlib
import re
import subprocess
import tempfile
from collections.abc import Iterator

TOP = pathlib.Path(__file__).resolve().parent.parent
PAGE = "docs/ERRORS.md"
HEADING = "## What you see, what to do"
CELL = re.compile(r"(?<!\\)\|")
SPAN = re.compile(r"`([^`]+)`")
# What a reader puts into a command: `Np` of sed is a number too.
LETTERS = re.compile(r"\b(FILE|UNIVERSE|TARGETS|WORDS|NAME|[KN](?=p?\b))")

WEB = (TOP / "examples" / "web.json").read_text()
WAITING = (TOP / "examples" / "waiting.json").read_text()
HEAD = "metis plan 1\ninstances 1 actions 2 dups 0\n"
PLAN = HEAD + "1 new 0 Db\n2 move 0 off on\nend\n"
REPLAY = "replay web.json text.txt"
RECONFIGURE = "reconfigure web.json plan.txt text.txt Db:on"
OF_TEXT = {"FILE": "text.txt", "UNIVERSE": "web.json"}


@dataclasses.dataclass(frozen=True)
class Case:
    """A fault: how its row begins, a file with it, the words of the command that meets it, and what is printed then."""

    row: str
    text: str
    words: str
    line: str
    letters: dict[str, str]
    found: str
    name: str = "text.txt"


def of_a_line(row: str, text: str, words: str, line: str, number: int, found: str, name: str = "") -> Case:
    return Case(row, text, words, line, OF_TEXT | {"N": str(number), "NAME": name}, found)


CASES = (
    Case("a refusal", "", "plan waiting.json Shop:up", "metis refusal 1", {"UNIVERSE": "waiting.json", "TARGETS": "Shop:up"}, "Shop:up needs mail from Mail:up"),
    Case("`bad word K`", "", "plans web.json", "bad word 1", {"WORDS": "plans web.json", "K": "1"}, "^plans$"),
    Case("`bad word K`", "", "plan web.json Web/run", "bad word 3", {"WORDS": "plan web.json Web/run", "K": "3"}, "^Web/run$"),
    Case("`bad word K` of", "", "plan web.json Web:runs", "bad word 3", {"UNIVERSE": "web.json", "TARGETS": "Web:runs"}, "no such state; did you mean run"),
    Case("`too long K`", " " * 65_537, "sim web.json text.txt", "too long 3", OF_TEXT, "^65537 text.txt$"),
    Case("`bad universe U..`", WEB.replace('["on"]', '["no"]'), "print bad.json", "bad universe U10 type 0 state 0 entry 0", {"FILE": "bad.json"}, r"^bad\.json:\d+:\d+: next no is none of the states", "bad.json"),
    Case("`bad universe U..`", PLAN, "print text.txt", "bad universe U1", OF_TEXT, r"^text\.txt:1:\d+: "),
    of_a_line("`bad plan line N`", PLAN.replace("off on", "off on "), REPLAY, "bad plan line 4", 4, r"^2 move 0 off on \$$"),
    of_a_line("`bad plan line N`", "metis refusal 1\r\n", "refute web.json text.txt", "bad refusal line 1", 1, r"\^M\$$"),
    of_a_line("`bad plan line N`", "metis why 2\n", "confirm web.json text.txt", "bad why line 1", 1, r"^metis why 2\$$"),
    Case("`bad plan line 2`", PLAN.replace("instances 1", "instances 2"), REPLAY, "bad plan line 2", OF_TEXT, "^1$"),
    Case("`bad why line N`, and", "metis why 1\nlacks Shop:up\nlines 1\nShop:up needs mail from none\nend\n", "confirm waiting.json text.txt", "bad why line 4", {"FILE": "text.txt", "UNIVERSE": "waiting.json", "TARGETS": "Shop:up"}, "^> Shop:up needs mail from Mail:up$"),
    of_a_line("`bad plan number N`", PLAN.replace("2 move", "3 move"), REPLAY, "bad plan number 4", 4, "^3 move 0 off on$"),
    of_a_line("`bad plan name N`", PLAN.replace("off on", "off no"), REPLAY, "bad plan name 4", 4, "^2 move 0 off no$", "no"),
    of_a_line("`bad plan name N`", PLAN.replace("off on", "off run"), REPLAY, "bad plan name 4", 4, '"name": *"run"', "run"),
    Case("`bad plan short`", PLAN.removesuffix("end\n"), REPLAY, "bad plan short", OF_TEXT, "^2 move 0 off on$"),
    Case("a line of an explanation that ends", WEB.replace('"provide":["sql"]', '"provide":["sqll"]'), "why bad.json Web:run", "metis why 1", {"UNIVERSE": "bad.json"}, "requires sql, and nobody provides it; did you mean sqll", "bad.json"),
    Case("an explanation without", "", "why waiting.json Shop:up", "metis why 1", {"UNIVERSE": "waiting.json", "TARGETS": "Shop:up"}, "Shop:up needs mail, provided by Mail:up alone"),
    Case("`bad turns K`", " 0 1\n0 x 1\n", "crew web.json plan.txt text.txt", "bad turns 4", {"FILE": "text.txt", "K": "4"}, "^x$"),
    of_a_line("`bad hosts line N`", "metis hosts 1\nhost left  3\nend\n", "place web.json plan.txt text.txt", "bad hosts line 2", 2, r"^host left  3\$$"),
    of_a_line("`bad wishes line N`", "metis wishes 1\nkeep 00\nend\n", RECONFIGURE, "bad wishes line 2", 2, r"^keep 00\$$"),
    of_a_line("`bad wishes line N`", "metis wishes 1\nkeep 0\nretire 0\nend\n", RECONFIGURE, "bad wishes twice 3", 3, r"^retire 0\$$"),
    Case("`bad plan short`", "", RECONFIGURE, "bad wishes short", OF_TEXT, "^$"),
    Case("`absent Z`", "metis wishes 1\nkeep 7\nend\n", RECONFIGURE, "absent 7", {"FILE": "plan.txt"}, "^ +1 +make Db#0$"),
    Case("`bad K` and", PLAN.replace("off on", "on off"), REPLAY, "bad 2 A3 0 Db:off", OF_TEXT | {"K": "2"}, "^4:2 move 0 on off$"),
    Case("`read fault K`", "", "print examples", "read fault 2", {"FILE": "examples"}, "^d.* examples$"),
    Case("nothing more, status 5", "", "print web.json >/dev/full", "", {}, "Avail"),
    # What a machine without memory prints is tried by tools/try_failures.py.
    Case("nothing more, status 6", "", "", "", {}, "Mem:"),
    Case("a line that begins with", "", "", "", {}, "/commands/rt$"),
)


def commands_of_rows() -> dict[str, str]:
    """How each row of the table begins, with the command in its second cell."""
    table = (TOP / PAGE).read_text().split(HEADING)[1].split("\n#")[0]
    rows = [CELL.split(line) for line in table.splitlines() if line.startswith("| ")][1:]
    commands = {row[1].strip(): SPAN.search(row[2]) for row in rows}
    return {row: found[1].replace("\\|", "|") if found else "" for row, found in commands.items()}


def lay_out(folder: pathlib.Path, program: pathlib.Path) -> None:
    for name, text in (("web.json", WEB), ("waiting.json", WAITING), ("plan.txt", PLAN)):
        (folder / name).write_text(text)
    for name in ("examples", "commands"):
        (folder / name).mkdir()
    command = f"script={folder}/commands/metis top={TOP}\nfind_program() {{\n    program={program}\n}}\n. {TOP}/metis_planner/front.sh\n"
    (folder / "commands" / "metis").write_text(f"#!/bin/sh\n{command}")
    (folder / "commands" / "metis").chmod(0o755)
    (folder / "commands" / "rt").symlink_to("/bin/true")


def printed(command: str, folder: pathlib.Path) -> str:
    path = f"{folder / 'commands'}:{os.environ['PATH']}"
    environment = {**os.environ, "PATH": path, "LC_ALL": "C"}
    ran = subprocess.run(["bash", "-c", command], cwd=folder, env=environment, capture_output=True, text=True, check=False, timeout=600)
    return ran.stdout


def faults_of(case: Case, row: str, command: str, program: pathlib.Path) -> Iterator[str]:
    """What comes otherwise than the row says, if a reader has the fault of the case."""
    with tempfile.TemporaryDirectory() as name:
        folder = pathlib.Path(name)
        lay_out(folder, program)
        (folder / case.name).write_bytes(case.text.encode())
        said = printed(f"metis {case.words}", folder).split("\n")[0] if case.words else ""
        if said != case.line:
            yield f"{PAGE}: the row {row}: metis {case.words} prints {said}, and not {case.line}"
        filled = LETTERS.sub(lambda found: case.letters[found[1]], command)
        text = printed(filled, folder)
        if not re.search(case.found, text, re.MULTILINE):
            yield f"{PAGE}: the row {row}: the command does not lead to the place: {filled}: {text[:100]}"


def faults(program: pathlib.Path) -> Iterator[str]:
    """What is wrong with the table: rows without a case, cases without a row, and commands that lead nowhere."""
    rows = commands_of_rows()
    tried = set()
    for case in CASES:
        fitting = [row for row in rows if row.startswith(case.row)]
        row = min(fitting, key=len, default=None)
        if row is None:
            yield f"{PAGE}: no row begins with {case.row}"
            continue
        tried.add(row)
        yield from faults_of(case, row, rows[row], program)
    yield from (f"{PAGE}: a row without a case in tools/error_lines.py: {row}" for row in rows if row not in tried)
