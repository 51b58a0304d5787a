#!/usr/bin/env python3
"""Proves and builds the program, crates/metis/out/metis, by `rt ci` over a copy of what it stands on.

The copy has the program's crate and those below it, without their edits. So this proves no more than the program needs,
and it is `rt ci`, the gate itself, that proves and builds. A kit whose `rt ci` keeps what it passed, by the checksums of
all that it read, takes that from here at the next `rt ci`, and the other way round. Each crate that is done gives a line
on standard error. Ends with status 0 where the program stands, and else 1.

The copy lies in ~/.cache/metis-build (XDG_CACHE_HOME), one for each copy of the repository, and goes when it is done with.
"""

import hashlib
import os
import re
import shutil
import subprocess
import sys
import time

from building import CACHE, PROGRAM, TOP, alone, run, say

ROOM = CACHE / hashlib.sha256(str(TOP).encode()).hexdigest()[:16]
TARGET = TOP / "crates" / PROGRAM / "out" / PROGRAM
DONE = re.compile(r"rt: (\w+) (proved$|is kept: )")
LINES_OF_A_FAILURE = 8


def read_lines() -> dict[str, str]:
    """The lines of crates.txt, by the crate that each names."""
    lines = [line.split("#")[0].strip() for line in (TOP / "crates.txt").read_text().splitlines()]
    return {line.split(":")[0].split()[0]: line for line in lines if line}


def below(lines, crate, found=()):
    """All crates of the repository that the crate stands on, and it, behind those that were found before; lowest first."""
    for lower in lines[crate].split(":", 1)[1].split():
        if lower in lines and lower not in found:
            found = below(lines, lower, found)
    return (*found, crate)


def copy_sources(lines, crates, room):
    """Makes a repository of these crates, without what earlier runs made and without edits."""
    # rt looks for the top of a repository above a folder that is none
    (room / ".git").mkdir(parents=True)
    (room / "crates.txt").write_text("".join(f"{lines[it]}\n" for it in crates))
    shutil.copyfile(TOP / "HANDLES", room / "HANDLES")
    for it in crates:
        left_out = shutil.ignore_patterns("out", "must-fail", "edits")
        shutil.copytree(TOP / "crates" / it, room / "crates" / it, copy_function=shutil.copyfile, ignore=left_out)


def in_minutes(seconds):
    return f"{seconds:.0f} s" if seconds < 90 else f"{seconds / 60:.0f} min"


def prove(room, log, count):
    """Runs `rt ci` there, and tells of each crate that it proved. Returns whether all is well."""
    begun, done = time.time(), 0
    how = {"stdin": subprocess.DEVNULL, "stdout": subprocess.PIPE, "stderr": subprocess.STDOUT, "start_new_session": True}
    job = subprocess.Popen(["rt", "ci"], cwd=room, errors="replace", text=True, **how)
    try:
        with open(log, "w") as told:
            for line in job.stdout:
                told.write(line)
                found = DONE.match(line)
                if found:
                    done += 1
                    say(f"proved {done} of {count} crates: {found[1]}, after {in_minutes(time.time() - begun)}")
        return job.wait() == 0
    finally:
        job.terminate()
        job.wait()


def put_program(made, begun):
    """Puts the program where rt leaves it. What is newer than it is not in it yet, also where it came while crates were proved."""
    TARGET.parent.mkdir(exist_ok=True)
    shutil.copy(made, TARGET.with_suffix(".new"))
    os.utime(TARGET.with_suffix(".new"), (begun, begun))
    os.replace(TARGET.with_suffix(".new"), TARGET)


def build_in(room) -> int:
    begun, lines, log = time.time(), read_lines(), ROOM / "log"
    crates = below(lines, PROGRAM)
    copy_sources(lines, crates, room)
    if not prove(room, log, len(crates)):
        last = log.read_text(errors="replace").splitlines()[-LINES_OF_A_FAILURE:]
        say("\n".join([f"not all was proved; {log} has what rt ci said, of which the last lines are", *last]))
        return 1
    put_program(room / "crates" / PROGRAM / "out" / PROGRAM, begun)
    return 0


def build() -> int:
    if not os.access(TOP / "crates" / PROGRAM, os.W_OK):
        say(f"{TOP} cannot be written to, and the proved program stands there: take a copy")
        return 1
    with alone(ROOM, "build of this copy of the repository"):
        room = ROOM / "copy"
        # What a build left that was killed.
        shutil.rmtree(room, ignore_errors=True)
        try:
            return build_in(room)
        finally:
            shutil.rmtree(room, ignore_errors=True)


if __name__ == "__main__":
    sys.exit(run(build))
