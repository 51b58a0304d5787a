#!/usr/bin/env python3
"""Carries examples/store out, breaks it, heals it, and changes its version while it is asked: python3 -m trials carry_postgres

It wants root, and Debian's postgresql, pgbouncer, nginx-light, python3-psycopg2, curl and procps; where one is absent that is
said, and nothing is done. All is in a temporary folder, and on ports of 127.0.0.1 that are free.

PostgreSQL with a standby, pgbouncer, nginx and version 1 come up, while the shell of a step is killed, and make gets SIGINT and
SIGTERM. Then all processes are killed, once midway and once at the end, and pid files get the number of a stranger: `verify` has
to name what is lost, and --take-back and make have to heal it. Version 2 comes by `metis up .. --wishes`, which keeps the rest,
while the one address is asked ten times a second: each request has to be answered and counted, by the same database. A first try
fails, and version 1 has to go on. Then version 2 is killed and healed. At last all is taken down: no process and no file of it may be left, and the stranger has to
live. The last line says that all is as it has to be. `--commands FILE` takes other commands.
"""

import argparse
import contextlib
import dataclasses
import json
import os
import pathlib
import random
import shutil
import signal
import socket
import subprocess
import sys
import tempfile
import threading
import time
import urllib.error
import urllib.request
from collections import Counter
from collections.abc import Callable, Iterator

from trials.trial import TOP, Failed, expect

EXAMPLE = TOP / "examples" / "store"
TARGETS = ("route:serving", "standby:streaming")
WISHES = EXAMPLE / "version-2.wishes"
BINARIES = "/usr/lib/postgresql/15/bin"
NEEDED = ("make", "nginx", "pgbouncer", "curl", "ps", "psql", "setpriv", f"{BINARIES}/initdb", f"{BINARIES}/pg_controldata")
# What stands at version 1, and so is lost when all processes are gone.
SERVING = {"route#0", "standby#1", "database#2", "pool#3", "edge#4", "migration@1#5", "app@1#6"}
SERVING_2 = SERVING - {"app@1#6"} | {"app@2#7", "migration@2#8"}
# What `up` shows of the change to version 2.
CHANGE = """\
kept   route#0 (serving), standby#1 (streaming), database#2 (primary), pool#3 (serving), edge#4 (serving), migration@1#5 (done)
new    app@2#7 (running), migration@2#8 (done)
going  app@1#6 (running)
the first 24 actions are done, and 12 are left
"""
# What a step starts and does not leave behind.
PASSING = {"initdb", "pg_basebackup", "pg_ctl", "psql", "setpriv", "sh", "timeout", "run"}
EACH = 0.1
BEGUN = time.monotonic()


def say(text: str) -> None:
    print(f"{time.monotonic() - BEGUN:6.1f} s  {text}", flush=True)


def metis(*words: object, status: int = 0) -> str:
    done = subprocess.run([str(TOP / "metis"), *map(str, words)], capture_output=True, text=True, check=False)
    expect(done.returncode == status, f"metis {' '.join(map(str, words))}: {done.returncode}: {done.stdout}{done.stderr}")
    return done.stdout


def wait_for(what: str, is_so: Callable[[], object], seconds: float = 60.0) -> None:
    until = time.monotonic() + seconds
    while not is_so():
        expect(time.monotonic() < until, f"after {seconds:.0f} s still not: {what}")
        time.sleep(0.005)


@dataclasses.dataclass(frozen=True)
class Process:
    number: int
    name: str
    words: str
    files: frozenset[str]

    def is_of(self, folder: pathlib.Path) -> bool:
        return f"{folder}/" in self.words or any(each == str(folder) or each.startswith(f"{folder}/") for each in self.files)


def processes(name: str = "") -> Iterator[Process]:
    """What runs, if it has this name, with the files that it has open and where it works."""
    for entry in pathlib.Path("/proc").iterdir():
        if not entry.name.isdecimal() or int(entry.name) == os.getpid():
            continue
        with contextlib.suppress(OSError):
            if name and (entry / "comm").read_text() != f"{name}\n":
                continue
            words = (entry / "cmdline").read_bytes().replace(b"\0", b" ").decode(errors="replace")
            files = set()
            for each in (entry / "cwd", *(entry / "fd").iterdir()):
                with contextlib.suppress(OSError):
                    files.add(str(each.readlink()))
            if words:
                yield Process(int(entry.name), (entry / "comm").read_text().strip(), words, frozenset(files))


class Load:
    """Asks the one address ten times a second, and keeps what was answered."""

    def __init__(self, url: str) -> None:
        self.url, self.answers, self.over = url, Counter[str](), threading.Event()
        self.lock, self.slowest = threading.Lock(), 0.0

    def ask(self) -> None:
        begun = time.monotonic()
        try:
            with urllib.request.urlopen(self.url, timeout=10) as answer:
                found = f"version {json.loads(answer.read())['version']}"
        except (OSError, ValueError, KeyError) as fault:
            found = f"{type(fault).__name__} {fault}"
        with self.lock:
            self.answers[found] += 1
            self.slowest = max(self.slowest, time.monotonic() - begun)

    def go(self) -> None:
        begun, asked = time.monotonic(), []
        while not self.over.is_set():
            asked.append(threading.Thread(target=self.ask))
            asked[-1].start()
            time.sleep(max(0.0, begun + EACH * len(asked) - time.monotonic()))
        for each in asked:
            each.join()

    @contextlib.contextmanager
    def going(self) -> Iterator[None]:
        thread = threading.Thread(target=self.go)
        thread.start()
        try:
            yield
        finally:
            self.over.set()
            thread.join()


class Store:
    """The example in a folder of its own."""

    def __init__(self, top: pathlib.Path, commands: pathlib.Path) -> None:
        self.top, self.folder, self.state = top, top / "folder", top / "state"
        self.universe, self.plan, self.commands = top / "store.json", top / "plan.txt", top / "store.toml"
        self.ports = free_ports(20)
        self.front = self.ports + 19
        text = commands.read_text()
        for old, new in (
            ("/var/lib/store", self.state),
            ("/usr/share/store/app.py", EXAMPLE / "app.py"),
            ('"25400"', f'"{self.ports}"'),
            ('"28080"', f'"{self.front}"'),
        ):
            expect(str(old) in text, f"{commands} has no {old}")
            text = text.replace(str(old), str(new))
        self.commands.write_text(text)
        self.universe.write_text(metis("sketch", EXAMPLE / "store.sketch"))
        self.plan.write_text(metis("plan", self.universe, *TARGETS))
        metis("make", self.plan, "--universe", self.universe, "--commands", self.commands, "--to", self.folder)
        self.rows = {row["what"]: row for row in self.status()}

    def status(self) -> list[dict[str, str]]:
        done = subprocess.run([str(TOP / "metis"), "status", "--json", str(self.folder)], capture_output=True, text=True, check=False)
        rows: list[dict[str, str]] = json.loads(done.stdout)["actions"]
        return rows

    def goal(self, what: str) -> str:
        return f"done/{self.rows[what]['key']}"

    def words(self) -> list[str]:
        return ["make", "-s", "-j8", "-C", str(self.folder)]

    def make(self) -> str:
        done = subprocess.run(self.words(), stdout=subprocess.PIPE, stderr=subprocess.STDOUT, text=True, check=False)
        expect(done.returncode == 0, f"make ended with {done.returncode}:\n{done.stdout}")
        return done.stdout

    def up(self, commands: pathlib.Path, status: int = 0) -> str:
        """What `metis up` says on the way to version 2."""
        words = ("--commands", commands, "--to", self.folder, "--wishes", WISHES, "--yes", "--delete", "app@1", "--delete", "migration@1")
        return metis("up", EXAMPLE / "store.sketch", *TARGETS, *words, status=status)

    def shell_of(self, what: str) -> int | None:
        """The shell that does a step, while it does."""
        script = str(self.folder / "log" / f"{self.rows[what]['key']}.sh")
        return next((each.number for each in processes("sh") if script in each.files), None)

    def stopped(self, what: str, stop: Callable[[int, int], None]) -> None:
        """make works until a step goes on, and is stopped then: when the folder is free, nothing of any step may be left."""
        begun = subprocess.Popen(
            self.words(), stdout=subprocess.DEVNULL, stderr=subprocess.DEVNULL, start_new_session=True
        )
        try:
            wait_for(f"{what} is done", lambda: self.shell_of(what))
            stop(begun.pid, self.shell_of(what) or 0)
            expect(begun.wait(60) != 0, f"make ended with 0, though it was stopped at {what}")
        finally:
            begun.kill()
        wait_for("the folder is free", self.is_free)
        expect(not (left := self.passing()), f"the folder is free, and this goes on: {left}")
        expect(not (self.folder / self.goal(what)).exists(), f"{what} is marked")

    def is_free(self) -> bool:
        return subprocess.run(["flock", "-n", str(self.folder / "lock" / ".folder"), "true"], check=False).returncode == 0

    def passing(self) -> list[Process]:
        return [each for each in self.own() if each.name in PASSING]

    def own(self) -> list[Process]:
        return [each for each in processes() if each.is_of(self.state) or each.is_of(self.folder)]

    def kill_all(self) -> None:
        """What a loss of power would end, and pid files that name somebody else by now."""
        until = time.monotonic() + 20
        while found := self.own():
            expect(time.monotonic() < until, f"not killed: {found}")
            for each in found:
                with contextlib.suppress(ProcessLookupError):
                    os.kill(each.number, signal.SIGKILL)
            time.sleep(0.1)

    def lie(self, stranger: int) -> None:
        for path in (*self.state.glob("*/pid"), *self.state.glob("*/data/postmaster.pid")):
            lines = path.read_text().splitlines()
            path.write_text("\n".join([str(stranger), *lines[1:], ""]))

    def lost(self, *more: str, status: int = 1) -> dict[str, str]:
        rows = json.loads(metis("verify", "--json", self.folder, *more, status=status))
        return {row["instance"]: row["reason"] for row in rows if row["verdict"] == "lost"}

    def sql(self, port: int, command: str) -> str:
        words = ["psql", "-X", "-qtA", "-h", "127.0.0.1", "-U", "postgres", "-p", str(port), "-c", command, "store"]
        return subprocess.run(words, stdout=subprocess.PIPE, text=True, check=True).stdout.strip()

    def count(self, instance: int = 2) -> int:
        return int(self.sql(self.ports + instance, "SELECT count(*) FROM hits"))

    def first(self, rows: int) -> str:
        """So many first rows, as a sum of all that version 1 knows of them."""
        found = f"SELECT id, at FROM hits ORDER BY id LIMIT {rows}"
        return self.sql(self.ports + 2, f"SELECT md5(string_agg(id || ' ' || at, ',' ORDER BY id)) FROM ({found}) AS found")

    def identifier(self, name: str = "database-2") -> str:
        words = [f"{BINARIES}/pg_controldata", str(self.state / name / "data")]
        lines = subprocess.run(words, stdout=subprocess.PIPE, text=True, check=True).stdout.splitlines()
        return next(line.split(":")[1].strip() for line in lines if line.startswith("Database system identifier"))

    def load(self) -> Load:
        return Load(f"http://127.0.0.1:{self.front}/")

    def __enter__(self) -> "Store":
        return self

    def __exit__(self, *_: object) -> None:
        self.kill_all()


def free_ports(count: int) -> int:
    """The first of so many ports of the loopback address that are free."""
    for _ in range(100):
        first = random.randrange(20_000, 30_000)
        with contextlib.ExitStack() as stack:
            try:
                for port in range(first, first + count):
                    stack.enter_context(socket.socket()).bind(("127.0.0.1", port))
            except OSError:
                continue
            return first
    raise Failed("no free ports")


def comes_up(store: Store) -> None:
    """Version 1, with a step's shell killed on the way, and make stopped twice."""
    store.stopped("database#2: absent -> installed", lambda make, _: os.killpg(make, signal.SIGINT))
    say("SIGINT while the database is made: nothing of it goes on, and nothing is marked")
    store.stopped("database#2: installed -> primary", lambda make, _: os.kill(make, signal.SIGTERM))
    say("SIGTERM to make while it starts: as before")
    store.stopped("standby#1: absent -> copied", lambda _, shell: os.kill(shell, signal.SIGKILL))
    say("SIGKILL to the shell of the step that copies: nothing of it goes on, and nothing is marked")
    store.make()
    expect(not store.lost(status=0), "something is lost")
    say("resumed: version 1 serves, and the standby streams")


def is_healed(store: Store, stranger: int, serving: set[str]) -> None:
    """All processes are killed, and the pid files name a stranger."""
    before, rows = store.identifier(), store.count()
    store.kill_all()
    store.lie(stranger)
    expect(store.make() == "", "make does something, though nothing has told it")
    lost = store.lost()
    expect(set(lost) == serving and all(lost.values()), f"lost: {lost}")
    say(f"kill -9 of all: make says nothing, and verify names {', '.join(sorted(lost))}")
    store.lost("--take-back")
    store.make()
    expect(not store.lost(status=0), "something is lost still")
    expect(store.identifier() == before and store.count() == rows, "another database, or other rows")
    say(f"verify --take-back and make heal it: the same database, {rows} rows")


def is_healed_midway(store: Store, stranger: int) -> None:
    """make and all that it started are killed while the copy is made."""

    def stop(make: int, _: int) -> None:
        os.killpg(make, signal.SIGKILL)
        store.kill_all()

    store.stopped("standby#1: absent -> copied", stop)
    store.lie(stranger)
    lost = store.lost("--take-back")
    expect({"database#2"} <= set(lost) < SERVING, f"lost midway: {lost}")
    store.make()
    expect(not store.lost(status=0), "something is lost still")
    say(f"kill -9 of all midway: {', '.join(sorted(lost))} lost, and healed")


def changes_version(store: Store) -> None:
    """Version 2 in place of version 1, while the one address is asked. Where it cannot be installed at first, version 1 goes on."""
    identifier, rows, load = store.identifier(), store.count(), store.load()
    before, broken = store.first(rows), store.top / "broken.toml"
    broken.write_text(store.commands.read_text().replace(str(EXAMPLE / "app.py"), "/nonexistent/app.py"))
    with load.going():
        expect(CHANGE in store.up(broken, status=1), "it shows another change")
        time.sleep(1)
        expect(set(load.answers) == {"version 1"} and not store.lost(status=0), f"version 1 does not go on: {load.answers}")
        say(f"a first try fails where version 2 is installed: version 1 goes on, {sum(load.answers.values())} requests so far")
        store.up(store.commands)
        time.sleep(1)
    expect(set(load.answers) == {"version 1", "version 2"}, f"answers: {load.answers}")
    expect(store.identifier() == identifier == store.identifier("standby-1"), "another database")
    answered = sum(load.answers.values())
    expect(store.count() - rows == answered, f"{store.count() - rows} rows of {answered} requests")
    expect(store.first(rows) == before, "the rows of before are others")
    by_2 = int(store.sql(store.ports + 2, "SELECT count(*) FROM hits WHERE who IS NOT NULL"))
    expect(by_2 == load.answers["version 2"], f"{by_2} rows of version 2, which answered {load.answers['version 2']}")
    wait_for("the standby has all rows", lambda: store.count(1) == rows + answered)
    expect(not [each for each in store.own() if "app_1" in each.words], "version 1 still runs")
    expect(not store.lost(status=0), "something is lost")
    told = ", ".join(f"{count} by {name}" for name, count in sorted(load.answers.items()))
    say(f"version 2: {answered} requests, {told}, none lost, the slowest after {load.slowest * 1000:.0f} ms; {answered} rows more")


def goes(store: Store) -> None:
    metis("down", store.folder, "--universe", store.universe, "--commands", store.commands, "--yes")
    expect(not (found := store.own()), f"still there: {found}")
    expect(not (left := list(store.state.rglob("*"))), f"left: {left}")
    (store.top / "part").write_text(metis("done", store.folder))
    told = metis("replay", store.universe, store.top / "part")
    expect(told.startswith("good standing 0 "), told)
    say(f"taken down: no process and no file of it; {told.strip()}")


def tried(top: pathlib.Path, commands: pathlib.Path) -> None:
    with subprocess.Popen(["sleep", "3600"]) as stranger, Store(top / "one", commands) as store:
        try:
            comes_up(store)
            for _ in range(20):
                store.load().ask()
            is_healed(store, stranger.pid, SERVING)
            changes_version(store)
            is_healed(store, stranger.pid, SERVING_2)
            expect(not [each for each in store.own() if "app_1" in each.words], "version 1 runs again")
            goes(store)
            with Store(top / "two", commands) as other:
                is_healed_midway(other, stranger.pid)
                goes(other)
            expect(stranger.poll() is None, "the stranger was killed")
        finally:
            stranger.kill()


def main() -> int:
    parser = argparse.ArgumentParser(description="Carries examples/store out, breaks it and heals it.")
    parser.add_argument("--commands", type=pathlib.Path, default=EXAMPLE / "store.toml")
    commands = parser.parse_args().commands
    os.environ["PATH"] += ":/usr/sbin:/sbin"
    # What a shell starts in the background ignores it, and so would make and the steps.
    signal.signal(signal.SIGINT, signal.default_int_handler)
    missing = [name for name in NEEDED if shutil.which(name) is None]
    if subprocess.run(["/usr/bin/python3", "-c", "import psycopg2"], capture_output=True, check=False).returncode:
        missing.append("python3-psycopg2")
    if os.geteuid():
        missing.append("root")
    if missing:
        print(f"not run: {', '.join(missing)} is wanted", file=sys.stderr)
        return 2
    with tempfile.TemporaryDirectory(prefix="metis-store-") as name:
        top = pathlib.Path(name)
        top.chmod(0o711)
        for each in ("one", "two"):
            (top / each).mkdir()
        try:
            tried(top, commands)
        except Failed as failed:
            print(f"FAILED: {failed}")
            return 1
    print("all is as it has to be")
    return 0


if __name__ == "__main__":
    sys.exit(main())
