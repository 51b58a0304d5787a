#!/usr/bin/env python3
"""The second year of examples/store: python3 -m trials carry_years

It wants what carry_postgres wants. PostgreSQL with a standby, pgbouncer, nginx and version 1 come up by `metis up`. While the one address
is asked ten times a second it goes on to version 2 and back to version 1, the standby is killed and healed, the application needs the
standby too, and the type of the pool gets another name and its own again: each request has to be answered and counted by the same database.
The application is killed and healed, and nobody may see version 2. Then the folder is deleted and the system adopted, once whole and once
with the pool and the application down: the next `up` makes nothing twice and deletes nothing. At last all is taken down.
"""

import json
import os
import pathlib
import shutil
import signal
import sys
import tempfile
import time
from collections.abc import Callable, Sequence

from trials.carry_postgres import EXAMPLE, NEEDED, TARGETS, Store, metis, say, wait_for
from trials.trial import Failed, expect

SECOND = ("--wish=avoid app@1", "--wish=rebind all", "--delete=app@1")
FIRST = ("--wish=avoid app@2", "--wish=rebind all", "--delete=app@2", "--delete=migration@2")


class Years(Store):
    """The store, which is called by `metis up` with a description and commands that change."""

    def __init__(self, top: pathlib.Path) -> None:
        super().__init__(top, EXAMPLE / "store.toml")
        shutil.rmtree(self.folder)
        self.sketch, self.words_of_steps = (EXAMPLE / "store.sketch").read_text(), self.commands.read_text()

    def goes_on(self, *more: str, status: int = 0) -> str:
        path = self.top / "now.sketch"
        path.write_text(self.sketch)
        self.commands.write_text(self.words_of_steps)
        return metis("up", path, *TARGETS, "--commands", self.commands, "--to", self.folder, "--yes", *more, status=status)

    def renamed(self, old: str, new: str) -> None:
        self.sketch = self.sketch.replace(f"\n{old}: ", f"\n{new}: ")
        self.words_of_steps = self.words_of_steps.replace(f'"{old}: ', f'"{new}: ')

    def begun(self) -> list[str]:
        """What was begun in the folder so far."""
        events = self.folder / "events"
        lines = events.read_text().splitlines() if events.exists() else []
        return [each["what"] for each in map(json.loads, lines) if each["event"] == "begun"]

    def at_rest(self) -> None:
        document = metis("sketch", self.top / "now.sketch")
        expect((self.folder / "universe.json").read_text() == document, "universe.json is not the description")
        expect(all(row["stage"] == "done" for row in self.status()), "something is left to do")
        expect(not self.lost(status=0), "something is lost")

    def process(self, name: str) -> int:
        path = next(path for path in (self.state / name / "pid", self.state / name / "data" / "postmaster.pid") if path.exists())
        return int(path.read_text().splitlines()[0])

    def app(self) -> str:
        return next(path.name for path in self.state.glob("app_*"))

    def killed(self, name: str) -> None:
        """All that runs of one instance."""
        found = [each.number for each in self.own() if each.is_of(self.state / name)]
        expect(bool(found), f"nothing of {name} runs")
        for number in found:
            os.kill(number, signal.SIGKILL)
        wait_for(f"{name} is gone", lambda: not [each for each in self.own() if each.number in found])


def answered(store: Years, what: str, versions: Sequence[str], change: Callable[[], object]) -> None:
    """Makes a change while the address is asked: each request is answered by one of these versions, and is a row of the same database."""
    identifier, rows, load = store.identifier(), store.count(), store.load()
    with load.going():
        time.sleep(0.5)
        change()
        time.sleep(0.5)
    count = sum(load.answers.values())
    expect(set(load.answers) == {f"version {each}" for each in versions}, f"{what}: {load.answers}")
    expect((store.identifier(), store.count() - rows) == (identifier, count), f"{what}: {store.count() - rows} rows of {count} requests")
    told = ", ".join(f"{number} by {name}" for name, number in sorted(load.answers.items()))
    say(f"{what}: {count} requests, {told}, none lost, {count} rows more, the slowest after {load.slowest * 1000:.0f} ms")
    store.at_rest()


def healed(store: Years, name: str) -> list[str]:
    """Kills one instance and heals it: the steps that were done again."""
    before = len(store.begun())
    store.killed(name)
    lost = store.lost("--take-back")
    expect(any(each.replace("@", "_").replace("#", "-") == name for each in lost), f"lost: {lost}")
    store.make()
    return store.begun()[before:]


def changes(store: Years) -> None:
    answered(store, "to version 2", "12", lambda: store.goes_on(*SECOND))
    answered(store, "back to version 1", "12", lambda: store.goes_on(*FIRST))
    again: list[str] = []
    answered(store, "the standby killed and healed", "1", lambda: again.extend(healed(store, "standby-1")))
    expect(bool(again) and all("standby" in each for each in again), f"done again: {again}")
    say(f"done again: {'; '.join(again)}")
    load = store.load()
    with load.going():
        again = healed(store, store.app())
        time.sleep(1)
    versions = {each for each in load.answers if each.startswith("version")}
    expect(versions == {"version 1"}, f"while version 1 is healed: {load.answers}")
    expect(all("app@1" in each or "route" in each for each in again), f"done again: {again}")
    say(f"the application killed and healed: {dict(load.answers)}; done again: {'; '.join(again)}")
    store.at_rest()

    def needs_more() -> None:
        store.sketch = store.sketch.replace("running(-pool -schema@1 +http)", "running(-pool -schema@1 -replica +http)")
        told = store.goes_on()
        expect("needs replica; its steps are done again" in told, told)

    answered(store, "the application needs the standby, too", "1", needs_more)

    def has_another_name(old: str, new: str) -> None:
        before = len(store.begun())
        store.renamed(old, new)
        store.goes_on(f"--renamed={old}={new}")
        expect(store.begun()[before:] == [], "something is done for a name")

    answered(store, "the pool's type has another name", "1", lambda: has_another_name("pool", "bouncer"))
    answered(store, "and its own again", "1", lambda: has_another_name("bouncer", "pool"))


def adopted(store: Years, down: Sequence[str]) -> None:
    """Deletes the folder, with some instances down, and takes over what runs."""
    identifier, rows = store.identifier(), store.count()
    for name in down:
        store.killed(name)
    there = {path.name for path in store.state.iterdir()}
    kept = {name: store.process(name) for name in there - set(down) if name.startswith(("database", "standby", "pool", "edge", "app"))}
    shutil.rmtree(store.folder)
    words = ("--commands", store.commands, "--to", store.folder, "--look", "20", "--trust", "route", "--trust", "migration@1", "--yes")
    # What is down cannot be found by its number, which the names of its files say.
    numbers = (f"--number={name.rpartition('-')[0].replace('_', '@')}={name.rpartition('-')[2]}" for name in down)
    metis("adopt", store.top / "now.sketch", *TARGETS, *words, *numbers, status=1 if down else 0)
    rested = sum(row["stage"] == "done" for row in store.status())
    expect({name: store.process(name) for name in kept} == kept, "adopting started or ended something")
    told = store.goes_on()
    expect("going" not in told and "new " not in told, told)
    expect({name: store.process(name) for name in kept} == kept, "what ran was started anew")
    expect({path.name for path in store.state.iterdir()} == there, "made twice, or deleted")
    expect((store.identifier(), store.count()) == (identifier, rows), "another database, or other rows")
    expect(not [each for each in store.begun() if "delete" in each], "something was deleted")
    store.at_rest()
    what = f"with {' and '.join(down)} down" if down else "whole"
    marked = f"{rested} of {len(store.status())} marked"
    say(f"adopted {what}: {marked}, and up did {len(store.begun())}: {len(there)} instances as before, {rows} rows")


def tried(top: pathlib.Path) -> None:
    with Years(top) as store:
        store.goes_on("--wish=avoid app@2")
        store.at_rest()
        for _ in range(20):
            store.load().ask()
        say(f"version 1 serves; {len(store.status())} actions")
        changes(store)
        adopted(store, ())
        adopted(store, ("pool-3", store.app()))
        answered(store, "after all of that", "1", store.goes_on)
        metis("down", store.folder, "--yes")
        expect(not (found := store.own()), f"still there: {found}")
        expect(not (left := list(store.state.rglob("*"))), f"left: {left}")
        say("taken down: no process and no file of it")


def main() -> int:
    os.environ["PATH"] += ":/usr/sbin:/sbin"
    missing = [name for name in NEEDED if shutil.which(name) is None] + (["root"] if os.geteuid() else [])
    if missing:
        print(f"not run: {', '.join(missing)} is wanted", file=sys.stderr)
        return 2
    with tempfile.TemporaryDirectory(prefix="metis-years-") as name:
        top = pathlib.Path(name)
        top.chmod(0o711)
        try:
            tried(top)
        except Failed as failed:
            print(f"FAILED: {failed}")
            return 1
    print("all is as it has to be")
    return 0


if __name__ == "__main__":
    sys.exit(main())
