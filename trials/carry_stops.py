#!/usr/bin/env python3
"""What happens when a run is stopped, and when the disk is full:

    python3 -m trials carry_stops

By make and by ninja: Ctrl-C, SIGTERM to the engine, a terminal that is closed, and SIGKILL to the engine, while steps
run, wait for a lock and pause between two tries. After the first three nothing may be left running and nothing be
marked. After each the next run does what is left, and each action once. A full disk is a small file system of memory,
for which root is needed: the exporters and the steps have to say so, and no mark may be there in part. make and ninja
have to be there.
"""

import os
import pathlib
import signal
import subprocess
import sys
import tempfile
import time


from trials import trial
from trials.trial import TOP, Failed, expect

ENGINES = ("make", "ninja")
STOPS = (
    ("Ctrl-C", signal.SIGINT, True),
    ("SIGTERM to the engine", signal.SIGTERM, False),
    ("a closed terminal", signal.SIGHUP, True),
    ("SIGKILL to the engine", signal.SIGKILL, False),
)
ACTIONS = 6
AT_ONCE = 0.8  # a second after a stop, less what it takes to look
# The first three run, the next two wait for the lock of the first, and the last one pauses between two tries.
COMMANDS = """
[[step]]
when = "Pausing: new"
retries = 1
pause = 3
run = '[ -n "$(find done -name "0.1")" ] || [ -e {top}/again ] || exit 1; echo "$METIS_ACTION" >>{top}/trace'
[[step]]
when = "Locked: new"
lock = "one"
run = 'sleep 1.5; echo "$METIS_ACTION" >>{top}/trace'
[[step]]
when = "*: new"
run = '(sleep 1.5; echo "$METIS_ACTION" >>{top}/trace) & wait $!'
"""
TYPES = ("Free", "Free", "Locked", "Locked", "Locked", "Pausing")
SMALL = "size=600k"
MOST_SECONDS = 5


class Stopped:
    """A run that is stopped in the middle."""

    def __init__(self, engine: str, top: pathlib.Path) -> None:
        self.top, self.folder = top, top / "f"
        (top / "c.toml").write_text(COMMANDS.format(top=top))
        (top / "plan").write_text(trial.plan_text([f"new {number} {kind}" for number, kind in enumerate(TYPES)]))
        trial.exporters(engine, top / "plan", "--commands", top / "c.toml", "--to", self.folder)
        self.words = trial.engine_words(engine, self.folder, ACTIONS)

    def go(self, sent: signal.Signals, to_group: bool) -> str:
        with subprocess.Popen(
            self.words, stdout=subprocess.DEVNULL, stderr=subprocess.DEVNULL, start_new_session=True
        ) as run:
            time.sleep(AT_ONCE)
            before = self.running()
            (os.killpg if to_group else os.kill)(run.pid, sent)
            sent_at = time.monotonic()
            run.wait()
            # An engine may end before those that it told to end. A process counts until init has reaped it.
            while self.running() and sent != signal.SIGKILL and time.monotonic() < sent_at + MOST_SECONDS:
                time.sleep(0.1)
            took = time.monotonic() - sent_at
        time.sleep(AT_ONCE)
        left, marks = self.running(), self.marks()
        expect(before >= ACTIONS, f"only {before} processes were running")
        if sent == signal.SIGKILL:
            self.wait_for_the_end()
        else:
            expect(took < MOST_SECONDS, f"it took {took:.1f} s to stop")
            expect(left == 0, f"{left} processes are left")
            expect(marks == 0 and not self.trace(), f"{marks} marks, {self.trace()}")
        done = len(self.trace())
        (self.top / "again").touch()
        resumed = trial.carry_out(self.words)
        expect(resumed.returncode == 0, resumed.stdout)
        lines = self.trace()
        expect(sorted(lines) == sorted(set(lines)) and len(lines) == ACTIONS == self.marks(), lines)
        ended = f"{before} processes ran, and ended within {took:.1f} s but for {left}"
        return f"{ended}; {done} steps ended by themselves, {ACTIONS - done} in the next run"

    def running(self) -> int:
        """How many processes work in the folder, without the engine."""
        count = 0
        for entry in pathlib.Path("/proc").iterdir():
            try:
                is_here = entry.name.isdecimal() and (entry / "cwd").readlink() == self.folder
                count += is_here and (entry / "comm").read_text().strip() not in ENGINES
            except OSError:
                continue
        return count

    def wait_for_the_end(self) -> None:
        for _ in range(100):
            if not self.running():
                return
            time.sleep(0.1)
        raise Failed("the steps did not end")

    def marks(self) -> int:
        return len(list((self.folder / "done").iterdir()))

    def trace(self) -> list[str]:
        path = self.top / "trace"
        return path.read_text().splitlines() if path.exists() else []


class FullDisk:
    """A folder on a small disk."""

    def __init__(self, engine: str, top: pathlib.Path) -> None:
        self.engine, self.top, self.disk = engine, top, top / "disk"
        self.folder, self.filling = self.disk / "f", self.disk / "filling"
        self.plan, self.commands = top / "plan", top / "c.toml"
        self.plan.write_text(trial.plan_text(["new 0 A", "new 1 B", "move 1 off on", "new 2 C"]))
        fills = f"dd if=/dev/zero of={self.filling} 2>/dev/null || true"
        body = f'[ "$METIS_ACTION" != 3 ] || [ -n "$METIS_AGAIN" ] || {fills}; echo "$METIS_ACTION" >>{top}/trace'
        steps = "".join(f"[[step]]\nwhen = \"{when}\"\nrun = '{body}'\n" for when in ("*: new", "*: * -> *"))
        self.commands.write_text(steps)
        self.words = trial.engine_words(engine, self.folder, 1)

    def fill(self) -> None:
        subprocess.run(["dd", "if=/dev/zero", f"of={self.filling}"], stderr=subprocess.DEVNULL, check=False)

    def export(self) -> subprocess.CompletedProcess[str]:
        words = ["-m", "metis_planner", self.engine, self.plan, "--commands", self.commands, "--to", self.folder]
        return subprocess.run([sys.executable, *map(str, words)], cwd=TOP, capture_output=True, text=True, check=False)

    def refused(self) -> str:
        done = self.export()
        expect(
            done.returncode == 1 and done.stderr.count("\n") == 1 and "No space left on device" in done.stderr,
            done.stderr,
        )
        return done.stderr.strip()

    def go(self) -> list[str]:
        self.disk.mkdir()
        subprocess.run(["mount", "-t", "tmpfs", "-o", SMALL, "tmpfs", self.disk], check=True)
        try:
            return list(self.tried())
        finally:
            subprocess.run(["umount", self.disk], check=True)

    def tried(self) -> list[str]:
        self.fill()
        yield self.refused()
        self.filling.unlink()
        done = self.export()
        expect(done.returncode == 0, done.stderr)
        self.fill()
        yield self.refused()
        stopped = trial.carry_out(self.words)
        expect(stopped.returncode != 0 and not self.trace(), stopped.stdout)
        self.filling.unlink()
        stopped = trial.carry_out(self.words)
        said = [
            line for line in stopped.stdout.splitlines() if "could not be written, so it will be done again" in line
        ]
        expect(stopped.returncode != 0 and len(said) == 1, stopped.stdout)
        yield said[0]
        self.check_marks()
        self.filling.unlink()
        resumed = trial.carry_out(self.words)
        expect(resumed.returncode == 0 and self.check_marks() == 4, resumed.stdout)
        expect(sorted(set(self.trace())) == ["1", "2", "3", "4"] and self.trace().count("3") == 2, self.trace())

    def check_marks(self) -> int:
        """Whether each mark is whole; and how many there are."""
        marks = [path.read_text() for path in (self.folder / "done").iterdir()]
        expect(all(text.count("\n") == 3 and text.endswith("\n") for text in marks), marks)
        return len(marks)

    def trace(self) -> list[str]:
        path = self.top / "trace"
        return path.read_text().split() if path.exists() else []


def main() -> int:
    try:
        for engine in ENGINES:
            for name, sent, to_group in STOPS:
                with tempfile.TemporaryDirectory() as top:
                    print(
                        f"{engine}, {name}: {Stopped(engine, pathlib.Path(top).resolve()).go(sent, to_group)}",
                        flush=True,
                    )
            with tempfile.TemporaryDirectory() as top:
                for line in (
                    FullDisk(engine, pathlib.Path(top).resolve()).go()
                    if os.geteuid() == 0
                    else ["not tried, since this is not root"]
                ):
                    print(f"{engine}, a full disk: {line}", flush=True)
    except Failed as fault:
        print(f"FAILED: {fault}")
        return 1
    return 0


if __name__ == "__main__":
    sys.exit(main())
