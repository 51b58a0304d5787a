#!/usr/bin/env python3
"""Strikes at what carries plans out, again and again: python3 -m trials carry_blows [--blows N] [--seed N] [--engine make|ninja]

A system of files: a database, its standby, an application in two versions, and a route to it, which is asked all the time. It comes
up, goes on to version 2 and back, is rolled out anew, and is taken down, by make and by ninja in turn. Each call is struck in the middle:
its engine, all of its tree, single processes, all that watches over the steps (`metis`, the engine, run, timeout), a step, signals to
the engine and to the terminal's group, and everything in a PID namespace of its own, as a loss of power would. Half of the time nobody
reads what it prints. After each blow no mark may be without its effect, no step may have run beside itself, and `metis replay` has to call
what is done good; and the same call has to go on. While the system is up, no request and no row may be lost, and the database has to be
the same. Two calls at once with different targets, full disks, planted links, a folder that cannot be written and another user are tried
between. At the end nothing of it may be left. It wants root, for the namespace and small file systems.
"""

import argparse
import collections
import contextlib
import os
import pathlib
import random
import re
import shutil
import signal
import subprocess
import sys
import tempfile
import threading
import time
from collections.abc import Callable, Iterator
from typing import NamedTuple

from metis_planner.text import plans
from metis_planner.text.actions import Bind, Delete, Move, New
from trials.trial import TOP, Failed, expect

METIS = str(TOP / "metis")
SKETCH = """\
route: absent > serving(-site)
web@1: absent > installed > running(-sql +site)
web@2: absent > installed > running(-sql -table +site)
table: absent > done(-sql +table)
database: absent > made > primary(+sql)
standby: absent > streaming(-sql)
"""
TARGETS = ("route:serving", "standby:streaming")
# What a step holds as long as anything of it runs: a second one of the same step would find it held.
LIBRARY = r"""
D=$TOP/system/$METIS_NAME
exec 5>>"$TOP/alone/$METIS_NAME.$METIS_VERB.$METIS_FROM.$METIS_TO.${METIS_PORT-}.${METIS_PROVIDER-}"
flock -n 5 || echo "$METIS_ACTION $METIS_NAME $METIS_VERB" >>"$TOP/twice"
work() { # lasts a moment, by a child that may take its time when it is to end
  r=$(od -An -N1 -tu1 /dev/urandom)
  if [ $((r % 3)) -eq 0 ]; then sh -c 'trap "sleep 0.3; exit 1" TERM; sleep "$1" & wait $!' - "0.$((r % 4))"; else sleep "0.$((r % 3))"; fi
}
say() { printf '%s\n' "$1" >"$D/state.new" && mv "$D/state.new" "$D/state"; }
"""
COMMANDS = """\
timeout = 60
[env]
TOP = "{top}"
[[step]]
when = "database: new"
run = '. "$TOP/library"; mkdir -p "$D"; work; [ -s "$D/id" ] || {{ cat /proc/sys/kernel/random/uuid >"$D/id.new"; mv "$D/id.new" "$D/id"; }}; >>"$D/rows"; say made-up'
[[step]]
when = "*: new"
run = '. "$TOP/library"; mkdir -p "$D"; work; say made-up'
[[step]]
when = "*: bind *"
run = '. "$TOP/library"; work; : >"$D/port.$METIS_PORT.$METIS_PROVIDER_NAME"'
[[step]]
when = "*: unbind *"
run = '. "$TOP/library"; work; rm -f "$D/port.$METIS_PORT.$METIS_PROVIDER_NAME"'
[[step]]
when = "web@1: installed -> running"
lock = "web"
run = '. "$TOP/library"; work; say "$METIS_TO"'
[[step]]
when = "*: * -> *"
run = '. "$TOP/library"; work; say "$METIS_TO"'
[[step]]
when = "*: delete"
run = '. "$TOP/library"; work; rm -f "$D/state"; work; rm -rf "$D"'
"""
MOST_SECONDS = 120.0
WATCHERS = ("make", "ninja", "run", "timeout", "python3", "metis")


class Process(NamedTuple):
    number: int
    name: str
    session: int
    group: int


def processes(session: int) -> list[Process]:
    """What runs in a session: a call has one of its own, and steps do not leave it."""
    found = []
    for path in pathlib.Path("/proc").glob("[0-9]*/stat"):
        with contextlib.suppress(OSError, IndexError):
            text = path.read_text(errors="replace")
            words = text.rpartition(") ")[2].split()
            each = Process(int(path.parent.name), text.split("(", 1)[1].rpartition(")")[0], int(words[3]), int(words[2]))
            if each.session == session and words[0] not in "ZX":
                found.append(each)
    return found


def metis(*words: object, text: str | None = None) -> subprocess.CompletedProcess[str]:
    return subprocess.run([METIS, *map(str, words)], input=text, capture_output=True, text=True, check=False)


def put(numbers: list[int], sent: signal.Signals) -> None:
    for number in numbers:
        with contextlib.suppress(ProcessLookupError):
            os.kill(number, sent)


class System:
    """The system of files, and its client, which asks as long as it is up."""

    def __init__(self, top: pathlib.Path) -> None:
        self.top, self.place = top, top / "system"
        self.is_up, self.is_over = False, threading.Event()
        self.asked, self.lost, self.rows = 0, list[str](), collections.Counter[str]()
        for name in ("system", "alone"):
            (top / name).mkdir()
        (top / "library").write_text(LIBRARY)
        (top / "c.toml").write_text(COMMANDS.format(top=top))
        (top / "u.sketch").write_text(SKETCH)
        self.client = threading.Thread(target=self.go_on_asking)
        self.client.start()

    def state(self, name: str) -> str:
        with contextlib.suppress(OSError):
            return (self.place / name / "state").read_text().strip()
        return ""

    def bound(self, name: str, port: str) -> list[str]:
        with contextlib.suppress(OSError):
            return [each.name.split(".", 2)[2] for each in (self.place / name).glob(f"port.{port}.*")]
        return []

    def databases(self) -> list[str]:
        return sorted(each.name for each in self.place.glob("database-*") if self.state(each.name) == "primary")

    def identity(self) -> dict[str, str]:
        return {name: (self.place / name / "id").read_text() for name in self.databases()}

    def answer(self) -> str:
        """The database that counted a request; or nothing, where no route leads to one."""
        for route in sorted(self.place.glob("route-*"), reverse=True):
            for web in self.bound(route.name, "site") if self.state(route.name) == "serving" else ():
                for database in self.bound(web, "sql") if self.state(web) == "running" else ():
                    if self.state(database) == "primary":
                        with contextlib.suppress(OSError), open(self.place / database / "rows", "r+") as rows:
                            rows.seek(0, os.SEEK_END)
                            rows.write("row\n")
                            return database
        return ""

    def go_on_asking(self) -> None:
        while not self.is_over.wait(0.03):
            is_due = self.is_up
            # Between two looks of one request something may have gone on: a client that is refused at one address asks at the next.
            found = self.answer() or self.answer() or self.answer()
            if found:
                self.rows[found] += 1
            if is_due and self.is_up:
                self.asked += 1
                if not found:
                    self.lost.append(f"{time.monotonic():.1f} {sorted(each.name for each in self.place.glob('*/*'))}")

    def close(self) -> None:
        self.is_over.set()
        self.client.join()


class Stage(NamedTuple):
    """A part of the life of the system: how it is called, and what has to be so when it is done."""

    name: str
    words: list[str]
    is_done: Callable[[], bool]


class Campaign:
    """One life of the system, in one folder, with blows at each stage."""

    def __init__(self, top: pathlib.Path, engine: str, draw: random.Random, counts: collections.Counter[str]) -> None:
        self.top, self.folder, self.engine, self.draw, self.counts = top, top / "f", engine, draw, counts
        self.system = System(top)
        self.identity: dict[str, str] = {}

    # What is struck at.

    def blows(self) -> dict[str, Callable[[int], None]]:
        def of(session: int, *names: str) -> list[int]:
            return [each.number for each in processes(session) if each.name in names]

        def some(session: int, count: int) -> list[int]:
            found = processes(session)
            return [each.number for each in self.draw.sample(found, min(count, len(found)))]

        def step(session: int) -> list[int]:
            found = [each for each in processes(session) if each.group != session and each.name not in WATCHERS]
            return [self.draw.choice(found).number] if found else []

        kill, term = signal.SIGKILL, signal.SIGTERM
        return {
            "engine killed": lambda session: put(of(session, self.engine), kill),
            "engine ended": lambda session: put(of(session, self.engine), term),
            "whole tree": lambda session: put([each.number for each in processes(session)], kill),
            "one process": lambda session: put(some(session, 1), kill),
            "three processes": lambda session: put(some(session, 3), kill),
            "a step": lambda session: put(step(session), kill),
            "run": lambda session: put(of(session, "run"), kill),
            "limits": lambda session: put(of(session, "timeout"), kill),
            "all that watches": lambda session: put(of(session, *WATCHERS), kill),
            "Ctrl-C": lambda session: os.killpg(session, signal.SIGINT),
            "hangup": lambda session: os.killpg(session, signal.SIGHUP),
            "term to all": lambda session: os.killpg(session, term),
            "namespace": lambda session: put([session], kill),
        }

    # What has to hold after each.

    def audit(self) -> None:
        expect(not (self.top / "twice").exists(), f"a step ran beside itself: {self.text('twice')}")
        expect(not self.system.lost, f"requests were lost: {self.system.lost[:3]}")
        if not (self.folder / "plan.txt").exists():
            return
        for _ in range(50):
            done, said = metis("done", self.folder), ""
            expect(done.returncode == 0, done.stderr)
            said = self.wrong_in(done.stdout, done.stderr)
            if not said or metis("done", self.folder).stdout == done.stdout:
                break
        expect(not said, f"{said}\n{done.stdout}{done.stderr}")
        universe = self.folder / "universe.json"
        if universe.exists():
            judged = metis("--plain", "replay", universe, "-", text=done.stdout)
            expect(judged.stdout.startswith("good "), f"replay: {judged.stdout}{judged.stderr}{done.stdout}")
        for name, identity in self.identity.items():
            now = self.system.identity().get(name)
            expect(now in (None, identity), f"{name} has another identity")
        for path in (self.folder / "done").iterdir():
            expect(path.stat().st_size > 0, f"{path.name}: an empty mark")

    def text(self, name: str) -> str:
        with contextlib.suppress(OSError):
            return (self.top / name).read_text()
        return ""

    def wrong_in(self, done: str, notes: str) -> str:
        """A mark without its effect: what the files say beside what the marks say, but where a step was begun and is not done."""
        begun = set(map(int, re.findall(r"#(\d+)", "\n".join(line for line in notes.splitlines() if "begun and is not done" in line))))
        names, states, bound = dict[int, str](), dict[int, str](), dict[int, set[str]]()
        plan = plans.read(done)
        for action in plan.actions:
            own = action.instance
            if isinstance(action, New):
                names[own], states[own], bound[own] = f"{action.type.replace('@', '_')}-{own}", "made-up", set()
            elif isinstance(action, Move):
                states[own] = action.end
            elif isinstance(action, Delete):
                del states[own]
            elif isinstance(action, Bind):
                bound[own].add(f"port.{action.port}.{names[action.provider]}")
            else:
                bound[own].discard(f"port.{action.port}.{names[action.provider]}")
        for own, name in names.items():
            place = self.top / "system" / name
            if own in begun:
                continue
            if own not in states:
                if place.exists():
                    return f"{name} was deleted, and is there"
                continue
            there = {each.name for each in place.glob("port.*")}
            if self.system.state(name) != states[own] or there != bound[own]:
                return f"{name} is {states[own]} by its marks with {bound[own]}, and {self.system.state(name) or 'gone'} with {there}"
        return ""

    # The stages.

    def up(self, *more: str) -> list[str]:
        words = ["up", self.top / "u.sketch", *TARGETS, f"--commands={self.top / 'c.toml'}", f"--to={self.folder}", "--yes", "--delete=all"]
        return [METIS, *map(str, words), f"--engine={self.engine}", "-j4", *more]

    def engine_words(self) -> list[str]:
        return ["make", "-s", "-j4", "-C", str(self.folder)] if self.engine == "make" else ["ninja", "-j4", "-C", str(self.folder)]

    def is_all_done(self) -> bool:
        return metis("status", self.folder).stdout.startswith("[##############################]")

    def has_route(self, version: str) -> bool:
        """Whether all is done, and the routes lead to this version alone."""
        routes = [each.name for each in self.system.place.glob("route-*")]
        webs = [web for route in routes for web in self.system.bound(route, "site")]
        return self.is_all_done() and len(webs) == len(routes) == 1 and webs[0].startswith(f"web_{version}-")

    def stages(self) -> Iterator[Stage]:
        first = self.up("--wish=avoid web@2")
        yield Stage("up", first, lambda: self.has_route("1"))
        self.identity, self.system.is_up = self.system.identity(), True
        expect(len(self.identity) == 1, self.identity)
        yield Stage("change", self.up("--wish=avoid web@1", "--wish=rebind all"), lambda: self.has_route("2"))
        expect(self.system.identity() == self.identity, "another database")
        yield Stage("back", self.up("--wish=avoid web@2", "--wish=rebind all"), lambda: self.has_route("1"))
        expect(self.system.identity() == self.identity, "another database")
        self.write_rollout()
        yield Stage("rollout", self.engine_words(), self.is_all_done)
        self.identity = self.system.identity()
        expect(len(self.identity) == 1, self.identity)
        self.system.is_up = False
        time.sleep(0.1)
        for name in self.identity:
            rows = (self.system.place / name / "rows").read_text().count("row\n")
            expect(rows >= self.system.rows[name], f"{name}: {self.system.rows[name]} rows were answered, and it has {rows}")
        self.identity = {}
        down = [METIS, "down", str(self.folder), "--yes", f"--engine={self.engine}", "-j4"]
        yield Stage("down", down, lambda: self.is_all_done() and not any(self.system.place.iterdir()))

    def write_rollout(self) -> None:
        part, plan = self.top / "part.txt", self.top / "rollout.txt"
        universe = self.folder / "universe.json"
        part.write_text(metis("done", self.folder).stdout)
        found = metis("--plain", "rollout", universe, part, *TARGETS)
        expect(found.returncode == 0, found.stdout)
        plan.write_text(found.stdout)
        made = metis(self.engine, plan, "--commands", self.top / "c.toml", "--universe", universe, "--to", self.folder)
        expect(made.returncode == 0, made.stderr)

    def go(self, most: int) -> None:
        for stage in self.stages():
            struck = 0
            until = time.monotonic() + MOST_SECONDS
            # The call of down says that nothing is done once all is, so its end is looked at before it is made.
            while struck < most and not (struck and stage.is_done()):
                struck += self.struck(stage)
                self.audit()
                expect(time.monotonic() < until + 30 * most, f"{stage.name}: no end")
            self.finish(stage)

    def finish(self, stage: Stage) -> None:
        """Calls it until all is done. What was struck may hold locks while it ends."""
        until = time.monotonic() + MOST_SECONDS
        while not stage.is_done():
            done = subprocess.run(stage.words, capture_output=True, text=True, check=False)
            expect(time.monotonic() < until, f"{stage.name} does not come to its end: {done.returncode} {done.stdout[-2000:]}{done.stderr[-2000:]}")
            if done.returncode:
                time.sleep(0.2)
        self.audit()

    def struck(self, stage: Stage) -> int:
        """Calls it, and strikes after a moment: 1 if it was under way."""
        name = self.draw.choice(list(self.blows()))
        words = ["unshare", "--pid", "--fork", "--mount-proc", "--kill-child=KILL", *stage.words] if name == "namespace" else stage.words
        is_read = self.draw.random() < 0.5
        with open(self.top / "said", "ab") as said:
            job = subprocess.Popen(words, start_new_session=True, stdin=subprocess.DEVNULL, stdout=said if is_read else subprocess.PIPE, stderr=subprocess.STDOUT)
        if job.stdout:
            self.close_at_once(job)
        begun = self.draw.choice((0.3, 0.8, 1.3, 2.0)) * self.draw.random() + (0.0 if stage.words[0] != METIS else 0.9)
        with contextlib.suppress(subprocess.TimeoutExpired):
            job.wait(begun)
        is_running = job.poll() is None
        if is_running:
            self.blows()[name](job.pid)
            self.counts[f"{stage.name}: {name}"] += 1
        with contextlib.suppress(subprocess.TimeoutExpired):
            job.wait(MOST_SECONDS)
        expect(job.poll() is not None, f"{stage.name}: it does not end after {name}")
        time.sleep(self.draw.choice((0.0, 0.05, 0.5)))
        return int(is_running)

    @staticmethod
    def close_at_once(job: subprocess.Popen[bytes]) -> None:
        assert job.stdout
        job.stdout.close()
        job.stdout = None

    def close(self) -> None:
        self.system.close()


def life(engine: str, seed: int, most: int, counts: collections.Counter[str]) -> str:
    with tempfile.TemporaryDirectory(prefix="metis-blows-") as name:
        top = pathlib.Path(name)
        os.environ["METIS_LOCKS"] = name
        campaign = Campaign(top, engine, random.Random(seed), counts)
        try:
            campaign.go(most)
            return f"{campaign.system.asked} requests, {len(campaign.system.lost)} lost, {sum(campaign.system.rows.values())} rows"
        except Failed:
            kept = pathlib.Path(tempfile.mkdtemp(prefix="metis-blows-kept-"))
            shutil.copytree(top, kept, dirs_exist_ok=True, symlinks=True)
            print(f"kept in {kept}")
            raise
        finally:
            campaign.close()


def main() -> int:
    parser = argparse.ArgumentParser(description=__doc__, formatter_class=argparse.RawDescriptionHelpFormatter)
    parser.add_argument("--blows", type=int, default=200)
    parser.add_argument("--seed", type=int, default=random.randrange(1_000_000))
    parser.add_argument("--engine", choices=("make", "ninja"))
    parser.add_argument("--each", type=int, default=5, help="blows at each stage")
    arguments = parser.parse_args()
    if os.geteuid():
        print("carry_blows wants root")
        return 0
    # What a shell starts in the background ignores it, and so would the calls and their steps.
    signal.signal(signal.SIGINT, signal.default_int_handler)
    counts, begun, number = collections.Counter[str](), time.monotonic(), 0
    while counts.total() < arguments.blows:
        engine = arguments.engine or ("make", "ninja")[number % 2]
        seed = arguments.seed + number
        try:
            said = life(engine, seed, arguments.each, counts)
        except Failed as failed:
            print(f"seed {seed}, {engine}, after {counts.total()} blows: {failed}")
            return 1
        number += 1
        print(f"{time.monotonic() - begun:6.0f} s  seed {seed}, {engine}: {counts.total()} blows so far; {said}", flush=True)
    by_stage, by_blow = collections.Counter[str](), collections.Counter[str]()
    for name, count in counts.items():
        stage, _, blow = name.partition(": ")
        by_stage[stage] += count
        by_blow[blow] += count
    print(f"{counts.total()} blows in {number} lives, all as it has to be: {dict(by_stage)}; {dict(by_blow)}")
    return 0


if __name__ == "__main__":
    sys.exit(main())
