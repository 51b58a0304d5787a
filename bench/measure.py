"""What the scripts of bench/ share: timed runs, tables, the words of a command line, and the plans and universes that several measure."""

import contextlib
import dataclasses
import hashlib
import json
import os
import re
import shutil
import subprocess
import sys
import tempfile
from collections.abc import Callable, Iterable, Iterator, Sequence
from pathlib import Path
from typing import Any, NoReturn

Type = dict[str, Any]

LAUNCH = Path(__file__).resolve().parent / "launch.py"
# The most bytes of a text that a command takes beside a universe and a plan.
LIMIT = 65536

# The universe of the large plans is near the limits, and so are the plans for the most targets.
LARGE = (32, 64, 128, 256)
STATES, CHAINS = 64, 31

MOST_PAIRS = 2000
# A type may require 128 ports.
WIDTH = 120

# --- the command line


def usage(page: str) -> NoReturn:
    """Ends the script with status 2, and shows how it is called: that is the first indented lines of its page."""
    lines = page.split("\n\n")[1].splitlines()
    print(*(f"usage: {line.strip()}" for line in lines), sep="\n", file=sys.stderr)
    sys.exit(2)


def words_of(page: str, least: int, most: int | None) -> list[str]:
    """The words behind the script's name, if there are as many as there may be."""
    words = sys.argv[1:]
    if words in (["-h"], ["--help"]):
        print(page.strip())
        sys.exit(0)
    if len(words) < least or most is not None and len(words) > most:
        usage(page)
    return words


def place_of(program: str) -> str:
    """Where a program is, from any folder; a name without a slash is looked up on the path."""
    found = shutil.which(program)
    if not found:
        fail(f"there is no program {program}", 2)
    return os.path.abspath(found)


def program_and_words(page: str, most: int | None = 1) -> tuple[str, list[str]]:
    """The place of the program that comes first, and the words behind it. There are at most this many words."""
    program, *words = words_of(page, 1, most)
    return place_of(program), words


def program_and_sizes(page: str, otherwise: Sequence[int]) -> tuple[str, Sequence[int]]:
    """The place of the program, and the sizes behind it, or others if none is given."""
    program, words = program_and_words(page, None)
    if not all(word.isascii() and word.isdigit() for word in words):
        usage(page)
    return program, [int(word) for word in words] or otherwise


def fail(what: str, status: int = 1) -> NoReturn:
    """Ends the script, mostly because an answer is not the one that has to come."""
    print(f"{Path(sys.argv[0]).name}: {what}", file=sys.stderr)
    sys.exit(status)


@contextlib.contextmanager
def temporary_folder() -> Iterator[Path]:
    """A folder that is there for a while."""
    with tempfile.TemporaryDirectory() as name:
        yield Path(name)


# --- timed runs


@dataclasses.dataclass(frozen=True)
class Run:
    """How a command ended, its seconds of the processor and by the clock, and the most memory that it had."""

    status: int
    seconds: float
    clock: float
    megabytes: float


def run(command: Sequence[str | Path], out: Path, folder: Path | None = None, limit: float = 0, is_quiet: bool = False) -> Run:
    """One run of a command. What it prints goes into the file, and what it says on standard error nowhere if it is to be quiet.
    It is killed if it takes longer than the limit, in seconds; 0 is no limit."""
    told, file = os.pipe()
    words = [sys.executable, "-I", "-S", LAUNCH, str(file), str(limit), *command]
    with open(out, "wb") as text:
        errors = subprocess.DEVNULL if is_quiet else None
        subprocess.run(words, cwd=folder, stdin=subprocess.DEVNULL, stdout=text, stderr=errors, pass_fds=[file], check=True)
    os.close(file)
    with open(told, encoding="ascii") as numbers:
        status, *others = numbers.read().split()
    return Run(int(status), *map(float, others))


def best(runs: int, command: Sequence[str | Path], out: Path, folder: Path | None = None) -> Run:
    """The least times and the most memory of some runs, which have to end and to answer alike."""
    made, answers = [], set()
    for _ in range(runs):
        made.append(run(command, out, folder))
        with open(out, "rb") as text:
            answers.add((made[-1].status, hashlib.file_digest(text, "sha256").digest()))
    if len(answers) > 1:
        fail(f"{' '.join(map(str, command[:2]))}: another answer when it ran again")
    seconds, clock, megabytes = (min(it.seconds for it in made), min(it.clock for it in made), max(it.megabytes for it in made))
    return Run(made[0].status, seconds, clock, megabytes)


# --- counted runs


def counted(command: Iterable[str | Path], given: bytes | None = None) -> tuple[int, str, int]:
    """The instructions of one run by valgrind's callgrind, which has to be there, and the run's text and status."""
    words = ["valgrind", "--tool=callgrind", "--callgrind-out-file=/dev/null", *map(str, command)]
    done = subprocess.run(words, input=given, stdout=subprocess.PIPE, stderr=subprocess.PIPE, check=False)
    found = re.search(rb"Collected : (\d+)", done.stderr)
    return int(found[1]) if found else 0, done.stdout.decode("latin-1"), done.returncode


# --- tables


@dataclasses.dataclass(frozen=True)
class Table:
    """A table. A column is its head and, behind a blank, how its cells are written; one without a value is a dash."""

    columns: Sequence[str]
    is_framed: bool = True
    is_ruled: bool = True

    def line(self, cells: Iterable[str]) -> None:
        text = " | ".join(cells)
        print(f"| {text} |" if self.is_framed else text, flush=True)

    def head(self) -> None:
        self.line(column.rsplit(" ", 1)[0] for column in self.columns)
        if self.is_framed and self.is_ruled:
            self.line("---" for _ in self.columns)

    def row(self, *cells: object) -> None:
        forms = [column.rsplit(" ", 1)[1] for column in self.columns]
        self.line("-" if cell is None else form.format(cell) for form, cell in zip(forms, cells, strict=True))


def ratio(number: float, base: float | None) -> float | None:
    """How often the base is in the number, if there is one."""
    return number / base if base else None


# --- texts and plans


def text_of(lines: Iterable[str]) -> str:
    return "".join(line + "\n" for line in lines)


def lines_in(space: int, start: Sequence[str], more: Callable[[int], Sequence[str]]) -> list[str]:
    """The lines at the start, and then groups of further ones, by their number from 0, as long as there is space for a whole group."""
    lines, size, number = list(start), len(text_of(start)), 0
    while size + len(text_of(group := more(number))) <= space:
        lines += group
        size += len(text_of(group))
        number += 1
    return lines


def plan_of(actions: Sequence[str]) -> str:
    """The text of a plan with these actions."""
    made = sum(action.startswith("new ") for action in actions)
    numbered = (f"{number} {action}" for number, action in enumerate(actions, 1))
    return text_of(["metis plan 1", f"instances {made} actions {len(actions)} dups 0", *numbered, "end"])


def counts_of(plan: Path) -> tuple[int, ...] | None:
    """The instances, actions and dups that a plan tells, if its first two lines and its last one are those of a plan."""
    with open(plan, "rb") as text:
        head = text.readline(256) + text.readline(256)
        text.seek(max(0, plan.stat().st_size - 4))
        found = re.fullmatch(rb"metis plan 1\ninstances (\d+) actions (\d+) dups (\d+)\n", head)
        return tuple(map(int, found.groups())) if found and text.read() == b"end\n" else None


def actors_and_waits(plan: str) -> tuple[list[int], list[list[int]]]:
    """The actor of each action of a plan's text, and the numbers behind its `after`."""
    actors, after = [], []
    for line in plan.split("\n")[2:-2]:
        words = line.split(" ")
        actors.append(int(words[3] if words[1] in ("bind", "unbind") else words[2]))
        fixed = {"new": 4, "delete": 3, "bind": 5, "unbind": 5, "move": 5}[words[1]]
        after.append([int(word) for word in words[fixed + 1:]])
    return actors, after


# --- universes


def document(types: Sequence[Type], version: int = 1) -> str:
    return json.dumps({"aeolus": version, "types": types}, separators=(",", ":"))


def write_universe(file: Path, types: Sequence[Type], version: int = 1) -> None:
    file.write_text(document(types, version) + "\n")


def last_states(types: Sequence[Type]) -> list[str]:
    """The target words of the last states of the types."""
    return [f"{row['name']}:{row['states'][-1]['name']}" for row in types]


def line_of(name: str, states: Sequence[tuple[str, Sequence[Any], Sequence[Any]]]) -> Type:
    """A type whose states follow one another, the first of which is initial: each with what it provides and what it requires."""
    rows = []
    for place, (state, provide, require) in enumerate(states):
        following = [other for other, _, _ in states[place + 1:place + 2]]
        row = {"name": state, "provide": list(provide), "require": list(require), "next": following}
        rows.append({key: value for key, value in row.items() if value})
    return {"name": name, "initial": states[0][0], "states": rows}


def switch(name: str, provide: Sequence[str], require: Sequence[str]) -> Type:
    """A type that goes from off to on, where it provides and requires these ports."""
    on = {"name": "on", "provide": provide, "require": require}
    return {"name": name, "initial": "off", "states": [{"name": "off", "next": ["on"]}, on]}


def chain(count: int) -> list[Type]:
    """Each type but the first requires the port of the one before it."""
    return [switch(f"T{i}", [f"p{i}"], [f"p{i - 1}"] if i > 0 else []) for i in range(count)]


def providers_among(count: int) -> int:
    """How many of the types of a wide universe provide a port: half of them, rounded up."""
    return (count + 1) // 2


def width_of(count: int) -> int:
    """How many ports each user requires in a wide universe of this many types."""
    return min(WIDTH, providers_among(count))


def wide(count: int) -> list[Type]:
    """Providers of one port each, and then users.

    The window of ports that a user requires begins one port later than that of the user before it, and goes on at
    port 0 after the last one. So no two users require the same ports, except where a window is all ports.
    """
    providers, width = providers_among(count), width_of(count)
    types = [switch(f"P{i}", [f"p{i}"], []) for i in range(providers)]
    return types + [switch(f"U{i}", [], [f"p{(i + k) % providers}" for k in range(width)]) for i in range(count - providers)]


KINDS: dict[str, Callable[[int], list[Type]]] = {"chain": chain, "wide": wide}


def generated(size: int) -> list[Type]:
    """The types of the generated universe (docs/dev/MODEL.md): two a place, of which each needs the other in its third state."""
    types = []
    for place in range(size):
        here, needs = f"{place:03}", [f"z{place - 1:03}"] if place else []
        x, y, z = ([f"{port}{here}"] for port in "xyz")
        types.append(line_of(f"left{here}", [("a0", [], []), ("a1", x, needs), ("a2", [], y), ("a3", [], [])]))
        types.append(line_of(f"right{here}", [("b0", [], []), ("b1", y, []), ("b2", [], x), ("b3", z, [])]))
    return types


# --- large plans


def long_name(short: str) -> str:
    """A name of 64 bytes that begins so."""
    return (short + "-" * 64)[:64]


def common_port(number: int) -> str:
    """One of the four ports that all states but the first ones take in turn."""
    return long_name(f"common{number}")


def large_types() -> list[Type]:
    """One type that provides the common ports from the start, and types whose states follow one another. Each of these states
    provides a port of its own, and requires two of the common ports, which are not those of the state before it."""
    types = [line_of(long_name("common"), [(long_name("up"), [common_port(one) for one in range(4)], [])])]
    for number in range(CHAINS):
        states = []
        for place in range(STATES):
            pair = (0, 1) if place % 2 == 0 else (2, 3)
            require = [common_port(one) for one in pair] if place > 0 else []
            states.append((long_name(f"s{place}"), [long_name(f"own{number}.{place}")], require))
        types.append(line_of(long_name(f"t{number}"), states))
    return types


def large_targets(count: int) -> list[str]:
    """This many target words: the last states of the types in turn."""
    return [f"{long_name(f't{k % CHAINS}')}:{long_name(f's{STATES - 1}')}" for k in range(count)]


@dataclasses.dataclass(frozen=True)
class LargePlan:
    """A plan for this many large targets, its universe, and what it has to have."""

    size: int
    universe: Path
    file: Path
    targets: list[str]
    instances: int
    actions: int

    def written(self, program: str, runs: int) -> Run:
        """The runs that print it into its file."""
        made = best(runs, [program, "plan", self.universe, *self.targets], self.file)
        if made.status != 0 or counts_of(self.file) != (self.instances, self.actions, 0):
            fail(f"{self.size} targets: the plan is not the one that has to come")
        return made


def large_plan(folder: Path, size: int) -> LargePlan:
    """The plan for this many targets, which is not written yet, and its universe, which is.

    There is an instance for each target, and the one that provides the common ports. An instance is made, and for each further
    state two ports are bound, it moves, and the two ports before are unbound, which the first state does not have.
    """
    universe = folder / "u.json"
    write_universe(universe, large_types())
    return LargePlan(size, universe, folder / "p.txt", large_targets(size), size + 1, 1 + size * (1 + 5 * (STATES - 1) - 2))


def large_plans(program: str, folder: Path, sizes: Iterable[int]) -> Iterator[LargePlan]:
    """The plans for these numbers of targets, each written when its turn comes."""
    for size in sizes:
        plan = large_plan(folder, size)
        plan.written(program, 1)
        yield plan
