#!/usr/bin/env python3
"""Builds the program without a proof, and keeps it where ./metis looks for it.

The kit's `rt try` builds the program, runs it, and removes it. So it is copied while it runs: it is told to read a pipe,
and waits there until it has been copied. It is built for trying: it stops by signal 6 where, say, an index is out of
bounds, and it takes a hundred times as long as the proved one. It is kept in ~/.cache/metis-build/unproved
(XDG_CACHE_HOME), which may be removed at any time.

Ends with status 0 where it stands, 3 where the kit leaves nothing here that can be kept, and else 1.
"""

import contextlib
import errno
import os
import pathlib
import shutil
import subprocess
import sys
import tempfile
import time

from building import CACHE, PROGRAM, TOP, alone, run, say

CRATE = TOP / "crates" / PROGRAM
ROOM = CACHE / "unproved"
# The programs of so many states of the sources are kept, at 16 MB each.
KEPT = 4
# So often it is said that the build goes on.
SECONDS_BETWEEN_LINES = 20
# What a build writes, and the program twice.
MEGABYTES = 120
STANDS, FAILED, NOT_KEPT = 0, 1, 3


def sum_of_sources() -> str:
    ran = subprocess.run([TOP / "tools" / "sources_sum"], stdout=subprocess.PIPE, text=True, check=True)
    return ran.stdout.strip()


def end_of(pipe, job):
    """The end of the pipe that keeps its reader waiting, or None where the job ends before anything reads it. Says how long it takes."""
    begun = said = time.monotonic()
    while job.poll() is None:
        if time.monotonic() - said >= SECONDS_BETWEEN_LINES:
            said = time.monotonic()
            say(f"still building, for {said - begun:.0f} s so far")
        try:
            return os.open(pipe, os.O_WRONLY | os.O_NONBLOCK)
        except OSError as fault:
            # no reader yet
            if fault.errno != errno.ENXIO:
                raise
        time.sleep(0.05)
    return None


def programs_below(folder):
    """The programs in a folder: files that may be run, and begin as a program of Linux does."""
    files = [it for it in folder.rglob("*") if it.is_file() and os.access(it, os.X_OK)]
    return [it for it in files if first_bytes(it) == b"\x7fELF"]


def first_bytes(path):
    with open(path, "rb") as file:
        return file.read(4)


@contextlib.contextmanager
def started(words, room, log):
    """`rt try`, which is told to end however the block ends. It then ends what it started, and removes what it made, unless
    a second signal comes meanwhile: so it is in a session of its own, where none comes from the terminal."""
    how = {"stdin": subprocess.DEVNULL, "start_new_session": True, "env": {**os.environ, "TMPDIR": str(room)}}
    with open(log, "wb") as told:
        job = subprocess.Popen(words, cwd=CRATE, stdout=told, stderr=told, **how)
    try:
        yield job
    finally:
        job.terminate()
        job.wait()


def try_and_copy(room, copy):
    """Has `rt try` build the program and run it, and copies it meanwhile. Returns the status."""
    pipe, log = room / "pipe", room / "log"
    os.mkfifo(pipe)
    with started(["rt", "try", "--", "print", str(pipe)], room, log) as job:
        end = end_of(pipe, job)
        if end is not None:
            found = programs_below(room)
            if len(found) == 1:
                shutil.copy(found[0], copy)
            os.close(end)
    if copy.is_file():
        return STANDS
    said = log.read_text(errors="replace")
    if end is None:
        sys.stderr.write(said)
    # It says so where it refuses the sources.
    is_refused = end is None and "run=none" in said
    return FAILED if is_refused or os.strerror(errno.ENOSPC) in said else NOT_KEPT


def runs(program):
    """Whether the program runs by itself, and not only where `rt try` runs it."""
    words, how = [program, "print", TOP / "examples" / "web.json"], {"stdin": subprocess.DEVNULL, "stdout": subprocess.DEVNULL}
    try:
        return subprocess.run(words, timeout=60, check=False, **how).returncode == 0
    except (OSError, subprocess.TimeoutExpired):
        return False


def build_in(room):
    """Builds the program in a folder that is removed afterwards, and puts it to its place. Returns the status."""
    copy, before = room / PROGRAM, sum_of_sources()
    status = try_and_copy(room, copy)
    if status == STANDS and not runs(copy):
        status = NOT_KEPT
    if status == NOT_KEPT:
        say("rt try leaves no program here that can be kept")
    if status != STANDS:
        return status
    if sum_of_sources() != before:
        say("a source has changed meanwhile, so the program is not kept: call again")
        return FAILED
    (ROOM / before).mkdir(exist_ok=True)
    os.replace(copy, ROOM / before / PROGRAM)
    return STANDS


def thin_out():
    """Removes what builds left that were killed, and all programs but the newest ones."""
    for it in ROOM.glob("building-*"):
        shutil.rmtree(it, ignore_errors=True)
    newest_first = sorted((it for it in ROOM.iterdir() if it.is_dir()), key=lambda it: -it.stat().st_mtime)
    for it in newest_first[KEPT - 1 :]:
        shutil.rmtree(it, ignore_errors=True)


def build() -> int:
    with alone(ROOM, "build without a proof"):
        if (ROOM / sum_of_sources() / PROGRAM).is_file():
            return STANDS
        thin_out()
        free = shutil.disk_usage(ROOM).free // 1_000_000
        if free < MEGABYTES:
            say(f"{free} MB are free at {ROOM}, and a build without a proof takes {MEGABYTES}")
            return FAILED
        say("not proved yet: building without a proof first, a minute or two, once")
        with tempfile.TemporaryDirectory(prefix="building-", dir=ROOM) as room:
            return build_in(pathlib.Path(room))


if __name__ == "__main__":
    sys.exit(run(build, FAILED))
