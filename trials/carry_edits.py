#!/usr/bin/env python3
"""Edits of a description under what stands, each in one `up`: python3 -m trials carry_edits

A photo archive of 13 types, of which 14 instances are up, gets ten edits, each over a copy of the same folder. What `up` would do is
looked at by --dry-run and done by its sum: the lines have to be those of the table below, no step is done twice but those that are said
to be done again, and at rest universe.json is the description byte for byte. An imported Compose project gets three tags one after the
other, by --yes alone. Then the first `up` fails at a step, and each of twelve edits follows: nothing is deleted that was not named, and
nothing is done twice but what failed and what is said to be done again.
"""

import collections
import json
import os
import pathlib
import re
import shutil
import subprocess
import sys
import tempfile
from collections.abc import Sequence
from typing import NamedTuple

from trials.trial import TOP, Failed, expect

LINES = {
    "disk": "off > mounted(+disk)",
    "db": "absent > made(-disk) > primary(-disk +sql +log)",
    "copy": "absent > cloned(-log) > streaming(-log +read)",
    "cache": "absent > on(+cache)",
    "locks": "absent > on(+locks)",
    "queue": "absent > on(-locks +queue)",
    "topics": "none > made(-queue +topics)",
    "tables": "none > done(-sql +tables)",
    "api": "absent > installed > on(-sql -tables -cache -topics +http)",
    "worker": "absent > on(-sql -tables -topics)",
    "stats": "absent > on(-read +stats)",
    "front": "absent > configured > serving(-http*2 -stats +site)",
    "probe": "absent > on(-site)",
}
TARGETS = ("probe:on", "worker:on")
COMMANDS = """\
timeout = 60
[env]
J = "{journal}"
[[step]]
when = "*: new"
run = ''
[[step]]
when = "*: bind *"
run = ''
[[step]]
when = "*: unbind *"
run = ''
[[step]]
when = "*: * -> *"
run = '[ "$METIS_TYPE $METIS_TO" != "{failing}" ] || exit 1; echo "$METIS_NAME $METIS_FROM -> $METIS_TO ${{METIS_AGAIN:-}}" >>"$J"'
[[step]]
when = "*: delete"
run = 'echo "$METIS_NAME delete" >>"$J"'
"""
SERVING = "serving(-http*2 -stats +site)"


class Edit(NamedTuple):
    """What an edit changes, with which words, and what is said and done then."""

    name: str
    lines: dict[str, str | None]
    words: Sequence[str] = ()
    said: Sequence[str] = ()
    done: Sequence[str] = ()
    targets: Sequence[str] = TARGETS
    # What --yes alone is refused for.
    refused: str = ""


FRONT_3 = {"front": "absent > configured > serving(-http*3 -stats +site)"}
NO_STATS = {"front": "absent > configured > serving(-http*2 +site)"}
WITH_LOCKS = {"api": "absent > installed > on(-sql -tables -cache -topics -locks +http)"}
EDITS = (
    Edit(
        "a third replica",
        FRONT_3,
        (),
        (r"changed  front#\d+ \(serving\): needs http; its steps are done again while probe#\d+ takes from it", r"new      api#\d+"),
        ("api absent -> installed", "api installed -> on", "front configured -> serving yes"),
    ),
    Edit(
        "the worker needs the cache",
        {"worker": "absent > on(-sql -tables -topics -cache)"},
        (),
        (r"changed  worker#\d+ \(on\): needs cache; its steps are done again",),
        ("worker absent -> on yes",),
    ),
    Edit(
        "the front needs no figures",
        NO_STATS,
        ("--delete=stats", "--delete=copy"),
        (r"changed  front#\d+ \(serving\): lets stats go", r"going    .*stats#\d+", r"copy#\d+"),
        ("front configured -> serving yes", "stats delete", "copy delete"),
        refused="would be deleted with all data, and --yes does not agree to that",
    ),
    Edit(
        "and their type is removed",
        {**NO_STATS, "stats": None},
        ("--delete=stats", "--delete=copy"),
        (r"changed  front#\d+ \(serving\): lets stats go", r"going    .*stats#\d+"),
        ("front configured -> serving yes", "stats delete", "copy delete"),
        refused="would be deleted with all data",
    ),
    Edit(
        "both replicas need locks",
        WITH_LOCKS,
        (),
        (r"changed  api#\d+", r"needs locks"),
        ("api installed -> on yes", "api installed -> on yes"),
    ),
    Edit(
        "a state has another name",
        {"worker": "absent > up(-sql -tables -topics)"},
        ("--renamed=worker:on=up",),
        targets=("probe:on", "worker:up"),
    ),
    Edit(
        "a type has another name",
        {"worker": None, "jobs": "absent > on(-sql -tables -topics)"},
        ("--renamed=worker=jobs",),
        targets=("probe:on", "jobs:on"),
    ),
    Edit(
        "a new version beside the old",
        {"cache": None, "cache@2": "absent > on(+cache)"},
        ("--wish=rebind all", "--delete=cache"),
        (r"new      cache@2#\d+", r"going    cache#\d+ \(on\): the description has no cache any more"),
        ("cache@2 absent -> on", "cache delete"),
        refused="api#",
    ),
    Edit("a new version on the same data", {"db": None, "db@2": LINES["db"]}, ("--renamed=db=db@2",)),
    Edit(
        "one that nobody needs",
        {"backup": "absent > on(-read)"},
        (),
        (r"new      backup#\d+",),
        ("backup absent -> on",),
        (*TARGETS, "backup:on"),
    ),
)
# After the first `up` has failed at this step, and what may go by name.
FAILING = "api on"
HALFWAY = (
    ("nothing", {}),
    ("a third replica", FRONT_3),
    ("the worker needs the cache", {"worker": "absent > on(-sql -tables -topics -cache)"}),
    ("the front needs no figures", NO_STATS),
    ("both replicas need locks", WITH_LOCKS),
    ("what failed has a state more", {"api": "absent > installed > set > on(-sql -tables -cache -topics +http)"}),
    ("what failed needs no cache", {"api": "absent > installed > on(-sql -tables -topics +http)"}),
    ("its state has another name", {"api": "absent > ready > on(-sql -tables -cache -topics +http)"}),
    ("its end has another name", {"api": "absent > installed > up(-sql -tables -cache -topics +http)"}),
    ("the queue needs the disk", {"queue": "absent > on(-locks -disk +queue)"}),
    ("a type that has to be new", {"mail": "off > on(+mail)", "api": "absent > installed > on(-sql -tables -cache -topics -mail +http)"}),
    ("the database gives one more", {"db": "absent > made(-disk) > primary(-disk +sql +log +blobs)"}),
)
COMPOSE = """\
services:
  db: {{image: "postgres:15", volumes: ["data:/var/lib/postgresql/data"]}}
  redis: {{image: "redis:7"}}
  migrate: {{image: "shop:{tag}", depends_on: [db]}}
  web:
    image: "shop:{tag}"
    depends_on: {{migrate: {{condition: service_completed_successfully}}, redis: {{condition: service_started}}}}
  sidekiq: {{image: "shop:{tag}", depends_on: [web, redis]}}
  streaming: {{image: "shop-streaming:{tag}", depends_on: [db, redis]}}
volumes: {{data: {{}}}}
"""


class Archive:
    """A folder with its description and journal, by calls of `metis`."""

    def __init__(self, top: pathlib.Path) -> None:
        self.top, self.folder = top, top / "f"
        self.sketch, self.commands, self.journal = top / "u.sketch", top / "c.toml", top / "journal"
        self.universe = self.sketch

    def metis(self, *words: object) -> subprocess.CompletedProcess[str]:
        return subprocess.run([str(TOP / "metis"), *map(str, words)], cwd=self.top, capture_output=True, text=True, check=False)

    def write(self, lines: dict[str, str | None], failing: str = "") -> None:
        self.sketch.write_text("".join(f"{name}: {path}\n" for name, path in {**LINES, **lines}.items() if path))
        self.commands.write_text(COMMANDS.format(journal=self.journal, failing=failing))
        self.journal.write_text("")

    def up(self, targets: Sequence[str], *more: str) -> subprocess.CompletedProcess[str]:
        return self.metis("up", self.universe, *targets, "--commands", self.commands, "--to", self.folder, "-j", "4", *more)

    def did(self) -> list[str]:
        return self.journal.read_text().splitlines()

    def begin(self) -> None:
        self.write({})
        done = self.up(TARGETS, "--yes")
        expect(done.returncode == 0, done.stderr)

    def at_rest(self, what: str) -> None:
        rows = json.loads(self.metis("status", "--json", self.folder).stdout)["actions"]
        expect(all(row["stage"] == "done" for row in rows), f"{what}: something is left")
        document = self.universe.read_text() if self.universe.suffix == ".json" else self.metis("sketch", self.sketch).stdout
        expect((self.folder / "universe.json").read_text() == document, f"{what}: universe.json is not the description")
        done = self.metis("done", self.folder).stdout
        (self.top / "part").write_text(done)
        told = self.metis("replay", self.universe, self.top / "part").stdout
        expect(told.startswith("good "), f"{what}: {told}")


def fates(text: str, *words: str) -> list[str]:
    """What is said of each instance, of these words."""
    return [line.split()[0] for line in text.splitlines() if line.split()[:1] and line.split()[0] in words]


def kinds(lines: Sequence[str]) -> list[str]:
    """What was done, by types in place of names."""
    return sorted(re.sub(r"^(\S+)-\d+ ", lambda found: f"{found[1].replace('_', '@')} ", line).strip() for line in lines)


def edited(top: pathlib.Path, edit: Edit) -> str:
    it = Archive(top)
    it.write(edit.lines)
    if edit.refused:
        done = it.up(edit.targets, "--yes")
        expect(done.returncode == 1 and edit.refused in done.stderr and not it.did(), f"{edit.name}: {done.returncode} {done.stderr}")
    shown = it.up(edit.targets, "--dry-run", *edit.words)
    expect(shown.returncode in (0, 2) and not it.did(), f"{edit.name}: {shown.returncode} {shown.stdout}{shown.stderr}")
    for line in edit.said:
        expect(re.search(line, shown.stdout), f"{edit.name}: no {line} in\n{shown.stdout}")
    sums = re.findall(r"\b[0-9a-f]{16,}\b", shown.stdout + shown.stderr)
    words = ("--yes", "--expect", sums[-1], *edit.words) if sums else ("--yes", *edit.words)
    done = it.up(edit.targets, *words)
    expect(done.returncode == 0, f"{edit.name}: {done.stdout}{done.stderr}")
    expect(kinds(it.did()) == sorted(edit.done), f"{edit.name}: {kinds(it.did())}")
    it.at_rest(edit.name)
    after = it.up(edit.targets, "--dry-run")
    expect(after.returncode == 0, f"{edit.name}: once more: {after.returncode} {after.stdout}")
    others = fates(shown.stdout, "changed", "new", "going")
    asked = ", asked by name" if edit.refused else ""
    return f"{edit.name}: {dict(collections.Counter(others))}, {len(it.did())} steps, by its sum{asked}"


def goes_back(top: pathlib.Path) -> str:
    """The old file again: the reverse of the first edit."""
    it = Archive(top)
    it.write({})
    done = it.up(TARGETS, "--yes", "--delete", "api#14")
    if done.returncode:
        names = re.findall(r"api#\d+", done.stderr)
        done = it.up(TARGETS, "--yes", f"--delete={names[0]}")
    expect(done.returncode == 0, done.stderr)
    expect(kinds(it.did()) == ["api delete", "front configured -> serving yes"], kinds(it.did()))
    it.at_rest("back")
    return f"back to the old file: {len(it.did())} steps"


def tagged(top: pathlib.Path) -> list[str]:
    it, told = Archive(top), list[str]()
    it.universe = top / "project.json"
    for tag in ("v4.3.0", "v4.3.1", "v4.3.2", "v4.3.3"):
        it.write({})
        # An image that goes loses no data, and has no step for that.
        goes = "[[step]]\nwhen = \"image/*: delete\"\nrun = ''\n"
        it.commands.write_text(it.commands.read_text().replace("[[step]]", f"{goes}[[step]]", 1))
        (top / "compose.yaml").write_text(COMPOSE.format(tag=tag))
        it.universe.write_text(it.metis("import", "compose", "compose.yaml").stdout)
        done = it.up(("project:up",), "--yes")
        expect(done.returncode == 0, f"{tag}: {done.stdout}{done.stderr}")
        it.at_rest(tag)
        found = fates(done.stdout, "changed", "new", "going", "kept")
        expect(not any(line.endswith("delete") and "db" in line for line in it.did()), f"{tag}: the database was deleted")
        told.append(f"tag {tag} by --yes alone: {dict(collections.Counter(found))}, {len(it.did())} steps")
    return told


def mended(top: pathlib.Path, name: str, lines: dict[str, str | None]) -> str:
    it = Archive(top)
    it.write({}, FAILING)
    expect(it.up(TARGETS, "--yes").returncode == 1, "the first call did not fail")
    before = it.did()
    it.write(lines)
    done, named = it.up(TARGETS, "--yes"), list[str]()
    deleted = [line for line in it.did() if line.endswith("delete")]
    expect(not deleted, f"{name}: {deleted} without being named")
    if done.returncode:
        named = re.findall(r"--delete (\S+)", done.stderr)
        expect(bool(named) and not it.did(), f"{name}: {done.stdout}{done.stderr}")
        done = it.up(TARGETS, "--yes", *(f"--delete={each}" for each in named))
        gone = {line.split()[0] for line in it.did() if line.endswith("delete")}
        expect(gone <= {each.replace("#", "-") for each in named}, f"{name}: {gone}, and {named} were named")
    expect(done.returncode == 0, f"{name}: {done.stdout}{done.stderr}")
    again = {line.strip() for line in before} & {line.removesuffix("yes").strip() for line in it.did()}
    said = {found.replace("#", "-") for found in re.findall(r"^(?:changed|goes on) +(\S+#\d+)", done.stdout, re.MULTILINE)}
    left = {line for line in again if line.split()[0] not in said}
    expect(not left, f"{name}: done twice: {left}\n{done.stdout}")
    it.at_rest(name)
    count = len(re.findall(r"^goes on", done.stdout, re.MULTILINE))
    more = f"; refused first, and then {', '.join(named)} went by name" if named else ""
    return f"{name}: {count} go on, {len(it.did())} steps, {len(again)} again{more}"


def tried(top: pathlib.Path) -> None:
    base = Archive(top / "base")
    base.top.mkdir()
    base.begin()
    print(f"up: {base.metis('status', base.folder).stdout.splitlines()[0]}", flush=True)
    for number, edit in enumerate(EDITS):
        shutil.copytree(base.top, top / f"e{number}", symlinks=True)
        print(edited(top / f"e{number}", edit), flush=True)
    print(goes_back(top / "e0"), flush=True)
    (top / "compose").mkdir()
    print(*tagged(top / "compose"), sep="\n", flush=True)
    for number, (name, lines) in enumerate(HALFWAY):
        (top / f"h{number}").mkdir()
        print("half made;", mended(top / f"h{number}", name, lines), flush=True)


def main() -> int:
    with tempfile.TemporaryDirectory(prefix="metis-edits-") as name:
        os.environ["METIS_LOCKS"] = name
        try:
            tried(pathlib.Path(name))
        except Failed as failed:
            print(f"FAILED: {failed}")
            return 1
    print("all is as it has to be")
    return 0


if __name__ == "__main__":
    sys.exit(main())
