#!/usr/bin/env python3
"""Kills `metis up` and all that it started at random moments, while a description changes again and again, and calls it once more:

    python3 -m trials carry_kills [--kills N] [--engine make|ninja] [--seed S]

The steps keep a world of files: a folder for each instance, with its state and what it takes. Nine edits come one after the other:
a third replica, a new need, two at once, a dropped need, a type that goes, a state with another name, a new type, and back. Each
call is killed up to three times, in planning, while the folder goes over, in the first part or in the second. In the end of each
change all is done, the world is what the folder says, and at no time anything was made again that was deleted, nor was a step done
twice that had worked, but those that are done again. The status is 1 if anything was otherwise.
"""

import argparse
import json
import os
import pathlib
import random
import shutil
import signal
import subprocess
import sys
import tempfile
import time

from metis_planner.carry.folder import Folder
from metis_planner.text.configurations import after
from metis_planner.text.universes import types_in
from trials.trial import TOP

BASE = {
    "disk": "absent > mounted(+disk)",
    "pg": "absent > inst(-disk) > on(-disk +sql)",
    "cache": "absent > on(+cache)",
    "mig": "absent > done(-sql +schema)",
    "api": "absent > inst > on(-sql -schema +http)",
    "lb": "absent > conf > on(-http*2 +site)",
}
THREE = "absent > conf > on(-http*3 +site)"
CACHED = "absent > conf > on(-http*3 -cache +site)"
API = "absent > inst > on(-sql -schema -cache +http)"
LIVE = "absent > conf > live(-http*2 +site)"
QUEUED = "absent > conf > live(-http*2 -queue +site)"
# What differs from the first description, the target, and what is said besides.
EDITS = (
    ({}, "lb:on", ()),
    ({"lb": THREE}, "lb:on", ()),
    ({"lb": CACHED}, "lb:on", ()),
    ({"lb": CACHED, "api": API}, "lb:on", ()),
    ({"lb": THREE, "api": API}, "lb:on", ()),
    ({"cache": None}, "lb:on", ()),
    ({"lb": LIVE}, "lb:live", ("--renamed", "lb:on=live")),
    ({"lb": QUEUED, "queue": "absent > on(-disk +queue)"}, "lb:live", ()),
    ({}, "lb:on", ("--renamed", "lb:live=on")),
)
COMMANDS = """timeout = 20
[env]
W = "{world}"
[[step]]
when = "*: new"
run = 'mkdir -p "$W/$METIS_NAME"; echo "new $METIS_NAME" >>"$W/../journal"'
[[step]]
when = "*: bind *"
run = 'touch "$W/$METIS_NAME/$METIS_PORT=$METIS_PROVIDER_NAME"'
[[step]]
when = "*: unbind *"
run = 'rm -f "$W/$METIS_NAME/$METIS_PORT=$METIS_PROVIDER_NAME"'
[[step]]
when = "*: * -> *"
run = 'test -d "$W/$METIS_NAME"; echo "$METIS_TO" >"$W/$METIS_NAME/state"'
[[step]]
when = "*: delete"
run = 'rm -rf "$W/$METIS_NAME"; echo "delete $METIS_NAME" >>"$W/../journal"'
"""
# A renamed state does nothing, so the file has either word.
SAME_STATE = {"live": "on", "on": "on"}
LONGEST, MOST_KILLS = 3.5, 3


def sketch_of(differs: dict[str, str | None]) -> str:
    lines = {**BASE, **differs}
    return "".join(f"{kind}: {path}\n" for kind, path in lines.items() if path)


def world(top: pathlib.Path) -> dict[str, tuple[str | None, frozenset[str]]]:
    """Each instance with its state, and what it takes, by the files that the steps keep."""
    found = {}
    for path in (top / "world").iterdir():
        state = path / "state"
        text = state.read_text().strip() if state.exists() else None
        found[path.name] = (SAME_STATE.get(text, text), frozenset(each.name for each in path.iterdir() if each.name != "state"))
    return found


def wanted(folder: Folder) -> dict[str, tuple[str | None, frozenset[str]]]:
    """The same, as the folder says it."""
    universe = (folder.path / "universe.json").read_bytes()
    types = types_in(universe, "the universe")
    initial = {kind.name: kind.states[0].name for kind in types}
    there = after(folder.plan().actions, types)
    name = {each: f"{it.type}-{each}" for each, it in there.instances.items()}
    return {
        name[each]: (
            None if it.state == initial[it.type] else SAME_STATE.get(str(it.state), it.state),
            frozenset(f"{port}={name[to]}" for port, own, to in there.bindings if own == each),
        )
        for each, it in there.instances.items()
    }


class Round:
    """A folder with its world, through all the edits."""

    def __init__(self, rng: random.Random, engine: str) -> None:
        self.rng, self.engine = rng, engine
        base = "/dev/shm" if os.path.isdir("/dev/shm") else None
        self.top = pathlib.Path(tempfile.mkdtemp(prefix="kills-", dir=base))
        (self.top / "world").mkdir()
        (self.top / "journal").touch()
        (self.top / "c.toml").write_text(COMMANDS.format(world=self.top / "world"))
        self.kills, self.calls, self.bad = 0, 0, []

    def up(self, target: str, more: tuple[str, ...], is_killed: bool) -> int | None:
        """A call of `up`, which may be killed with all that it started; its status, or nothing if it was killed."""
        words = [str(TOP / "metis"), "up", "u.sketch", target, "--commands", "c.toml", "--to", "f", "--engine", self.engine]
        words += ["--yes", "--delete", "all", "-j", "2", *more]
        self.calls += 1
        job = subprocess.Popen(
            words, cwd=self.top, stdout=subprocess.PIPE, stderr=subprocess.STDOUT, start_new_session=True, text=True
        )
        if is_killed:
            try:
                job.wait(self.rng.random() * LONGEST)
            except subprocess.TimeoutExpired:
                os.killpg(job.pid, signal.SIGKILL)
                job.communicate()
                self.kills += 1
                return None
        said = job.communicate()[0]
        if job.returncode and "is being done" not in said:
            self.bad.append(f"status {job.returncode}: {said[-400:]}")
        return job.returncode

    def change(self, number: int) -> None:
        differs, target, more = EDITS[number]
        (self.top / "u.sketch").write_text(sketch_of(differs))
        for attempt in range(40):
            status = self.up(target, more, attempt < MOST_KILLS)
            if status == 0:
                break
            if status is not None:
                time.sleep(0.3)  # what was killed may hold the folder for a moment
        folder = Folder(str(self.top / "f"))
        steps = folder.steps()
        left = [step.line for step in steps if step.key not in folder.done(steps)]
        have, want = world(self.top), wanted(folder)
        if left or have != want or folder.stale():
            self.bad.append(f"edit {number}: left {left}, and differs {sorted(set(have.items()) ^ set(want.items()))}")

    def check_journal(self) -> None:
        """What was deleted was never made again, and what keeps data was never deleted."""
        gone: set[str] = set()
        for line in (self.top / "journal").read_text().splitlines():
            verb, name = line.split()
            if verb == "new" and name in gone:
                self.bad.append(f"{name} was made again")
            if verb == "delete":
                gone.add(name)
                if name.startswith(("pg-", "mig-", "disk-")):
                    self.bad.append(f"{name} was deleted")


def main() -> int:
    parser = argparse.ArgumentParser(description=__doc__, formatter_class=argparse.RawDescriptionHelpFormatter)
    parser.add_argument("--kills", type=int, default=300)
    parser.add_argument("--engine", choices=("make", "ninja"), default="make")
    parser.add_argument("--seed", type=int, default=1)
    words = parser.parse_args()
    rng, total = random.Random(words.seed), {"kills": 0, "calls": 0, "changes": 0, "bad": 0}
    while total["kills"] < words.kills and total["bad"] < 10:
        found = Round(rng, words.engine)
        for number in range(len(EDITS)):
            found.change(number)
        found.check_journal()
        for reason in found.bad:
            print(reason)
        total["kills"] += found.kills
        total["calls"] += found.calls
        total["changes"] += len(EDITS)
        total["bad"] += len(found.bad)
        print(json.dumps(total), flush=True)
        shutil.rmtree(found.top)
    return 1 if total["bad"] else 0


if __name__ == "__main__":
    sys.exit(main())
