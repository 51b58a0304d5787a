#!/usr/bin/env python3
"""Exports plans of 700,000 actions, and looks at the time and the memory that this takes:

    python3 -m trials carry_sizes [--actions N]

Two plans are written: a wide one, in which 40 of each 104 instances take 64 ports from the other 64, and a long one, in
which each instance takes a port from the one before it, and all are deleted at the end. Each step has a command. An
exporter may take 30 seconds of the processor and 1.5 GB. The long plan has to be refused for make. Then make and ninja
look at the wide one without doing anything; they have to be there.
"""

import argparse
import dataclasses
import itertools
import os
import pathlib

import subprocess
import sys
import tempfile
from collections.abc import Iterator


from metis_planner.carry.folder import written
from metis_planner.carry.steps import Simulator
from metis_planner.text import plans
from trials.trial import TOP, Failed, expect

PROVIDERS, REQUIRERS, KINDS = 64, 40, 39
MOST_SECONDS, MOST_BYTES = 30, 1.5e9
COMMANDS = "".join(
    f'[[step]]\nwhen = "{when}"\nrun = "true"\n' for when in ("*: new", "*: delete", "*: bind *", "*: * -> *")
)


def wide() -> Iterator[str]:
    """Actions without end."""
    for group in itertools.count():
        first = group * (PROVIDERS + REQUIRERS)
        for number in range(first, first + PROVIDERS):
            yield f"new {number} P{group % KINDS}"
            yield f"move {number} a b"
        for number in range(first + PROVIDERS, first + PROVIDERS + REQUIRERS):
            yield f"new {number} C{group % KINDS}"
            yield from (f"bind port{group % KINDS}_{place} {number} {first + place}" for place in range(PROVIDERS))
            yield f"move {number} a b"


def long(actions: int) -> Iterator[str]:
    instances = actions // 4
    for number in range(instances):
        yield f"new {number} T{number}"
        if number:
            yield f"bind p{number} {number} {number - 1}"
        yield f"move {number} a b"
    yield from (f"delete {number}" for number in reversed(range(instances)))


def plan_of(lines: Iterator[str]) -> str:
    """The text of a plan of these actions, with what they wait for."""
    course, types, last, actions = Simulator(), {}, {}, []
    for number, line in enumerate(lines, 1):
        verb, *words = line.split(" ")
        if verb == "new":
            types[int(words[0])] = words[1]
        action = plans.action_of((verb, *words), types, number, ())
        others = tuple(each for each in course.step(action).waits if each != last.get(action.instance))
        last[action.instance] = number
        actions.append(dataclasses.replace(action, after=others))
    return written(plans.Plan(tuple(actions), ()))


def measured(words: list[object]) -> tuple[int, str, str]:
    """The status, what was said, and what it took."""
    process = subprocess.Popen(
        [*map(str, words)], cwd=TOP, stdout=subprocess.DEVNULL, stderr=subprocess.PIPE, text=True
    )
    said = process.stderr.read()
    _, status, used = os.wait4(process.pid, 0)
    process.returncode = os.waitstatus_to_exitcode(status)
    seconds, size = used.ru_utime + used.ru_stime, used.ru_maxrss * 1024
    if words[0] == sys.executable:
        expect(seconds < MOST_SECONDS and size < MOST_BYTES, f"{seconds:.0f} s, {size / 1e9:.1f} GB")
    return process.returncode, said, f"{seconds:.1f} s of the processor, {size / 1e9:.2f} GB"


def try_sizes(top: pathlib.Path, actions: int) -> None:
    (top / "c.toml").write_text(COMMANDS)
    for name, lines in (("wide", itertools.islice(wide(), actions)), ("long", long(actions))):
        plan = top / name
        plan.write_text(plan_of(lines))
        print(f"{name}: {plan.read_text().splitlines()[1]}", flush=True)
        for form in ("make", "ninja"):
            words = [
                sys.executable,
                "-m",
                "metis_planner",
                form,
                plan,
                "--commands",
                top / "c.toml",
                "--to",
                top / f"f-{name}",
            ]
            status, said, took = measured(words)
            is_refused = (name, form) == ("long", "make")
            expect(status == is_refused and ("use ninja" in said) == is_refused, said)
            print(f"  metis {form}: {took}{', refused' if is_refused else ''}", flush=True)
    for words in (["make", "-n"], ["ninja", "-n"]):
        status, said, took = measured([*words, "-C", top / "f-wide"])
        expect(status == 0, said)
        print(f"  {' '.join(words)} over the wide one: {took}", flush=True)


def main() -> int:
    parser = argparse.ArgumentParser(description=__doc__, formatter_class=argparse.RawDescriptionHelpFormatter)
    parser.add_argument("--actions", type=int, default=700_000, metavar="N")
    arguments = parser.parse_args()

    with tempfile.TemporaryDirectory() as top:
        try:
            try_sizes(pathlib.Path(top), arguments.actions)
        except Failed as fault:
            print(f"FAILED: {fault}")
            return 1
    return 0


if __name__ == "__main__":
    sys.exit(main())
