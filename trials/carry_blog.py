#!/usr/bin/env python3
"""Carries out examples/blog.json for real: haproxy, Apache with PHP, MariaDB and WordPress of Debian's packages.

    python3 -m trials carry_blog [--metis PROGRAM] [--chart FILE]

It wants root on a Debian machine with apt's index, overlay mounts, and the TCP ports 13301, 13305, 18002 to 18007,
18100 and 18104 of the loopback address. All is done by `make -j8` in a root of its own over this machine's, which is
taken away at the end. The application comes up, while a port is taken at first, so that MariaDB cannot start; it is
asked through haproxy, and WordPress is set up. A rollout that cannot start its MariaDB is given up, and what it made
taken down. A second one fails in the same way, is resumed, and ends; meanwhile the front is asked each 0.2 s. Then all
is taken down. In the end no process, no file and no package may be left. The transcript is printed, with the seconds
since the beginning.
"""

import argparse
import contextlib
import os
import pathlib
import re
import shutil
import signal
import socket
import subprocess
import sys
import tempfile
import threading
import time
import urllib.error
import urllib.parse
import urllib.request
from collections.abc import Iterator


from trials import trial
from trials.trial import TOP, Failed, expect

UNIVERSE, COMMANDS = TOP / "examples" / "blog.json", TOP / "examples" / "blog.toml"
TARGET = "haproxy:run"
PAGE, LOGIN = "/wp-admin/install.php", "/wp-login.php"
OLD_FRONT, NEW_FRONT = 18100, 18104
OLD_DATABASE, NEW_DATABASE = 13301, 13305
EACH = 0.2
PASSWORD = "only-for-this-trial"
FORM = {
    "weblog_title": "Metis",
    "user_name": "admin",
    "admin_password": f"{PASSWORD}-1",
    "admin_password2": f"{PASSWORD}-1",
    "admin_email": "a@localhost.localdomain",
    "blog_public": "0",
}
MOUNTS = (("proc", "proc", "proc"), ("tmpfs", "tmpfs", "run"), ("tmpfs", "tmpfs", "tmp"))
OPENER = urllib.request.build_opener(urllib.request.ProxyHandler({}))
BEGUN = time.monotonic()


def say(text: str) -> None:
    for line in text.rstrip("\n").splitlines():
        print(f"{time.monotonic() - BEGUN:6.1f} s  {line}", flush=True)


def run(*words: object) -> None:
    subprocess.run([*map(str, words)], check=True)


class Root:
    """A root over this machine's: what is changed in it stays in a folder of its own."""

    def __init__(self, place: pathlib.Path) -> None:
        self.place, self.path = place, place / "root"
        self.folder = self.path / "srv" / "blog"
        self.mounted: list[pathlib.Path] = []

    def __enter__(self) -> "Root":
        try:
            self.make()
        except BaseException:
            self.__exit__()
            raise
        return self

    def make(self) -> None:
        for each in ("root", "changed", "work"):
            (self.place / each).mkdir()
        options = f"lowerdir=/,upperdir={self.place}/changed,workdir={self.place}/work"
        run("mount", "-t", "overlay", "overlay", "-o", options, self.path)
        self.mounted.append(self.path)
        for kind, source, name in MOUNTS:
            run("mount", "-t", kind, source, self.path / name)
            self.mounted.append(self.path / name)
        run("mount", "--bind", "/dev", self.path / "dev")
        self.mounted.append(self.path / "dev")
        (self.path / "usr/sbin/policy-rc.d").write_text("#!/bin/sh\nexit 101\n")
        (self.path / "usr/sbin/policy-rc.d").chmod(0o755)
        (self.path / "etc/blog").mkdir(mode=0o700)
        (self.path / "etc/blog/admin-password").write_text(f"{PASSWORD}\n")

    def settle(self) -> None:
        """Whether apt can work here: the machine's own dpkg may have been at work when the root was made."""
        for words in (
            ["dpkg", "--configure", "-a"],
            ["apt-get", "-q", "-y", "--fix-broken", "install"],
            ["apt-get", "check"],
        ):
            done = self.inside("env", "DEBIAN_FRONTEND=noninteractive", *words)
        expect(done.returncode == 0, done.stdout)

    def __exit__(self, *_: object) -> None:
        for process in self.processes():
            with contextlib.suppress(ProcessLookupError):
                process.kill()
        time.sleep(1)
        for path in reversed(self.mounted):
            run("umount", path)
        shutil.rmtree(self.place)

    def processes(self) -> list["Process"]:
        """What runs in this root."""
        found = (Process(int(entry.name)) for entry in pathlib.Path("/proc").iterdir() if entry.name.isdecimal())
        return [process for process in found if process.root() == self.path]

    def inside(self, *words: str) -> subprocess.CompletedProcess[str]:
        return trial.carry_out(["chroot", str(self.path), *words])

    def packages(self) -> list[str]:
        return self.inside(
            "dpkg-query", "--show", "--showformat", "${Package} ${Version} ${db:Status-Abbrev}\n"
        ).stdout.splitlines()

    def carry_out(self, folder: str, *more: str) -> int:
        """Carries out what is exported to a folder, and gives the status of make."""
        say(f"$ make -j8 -C {folder} {' '.join(more)}".rstrip())
        words = ["chroot", str(self.path), "make", "--no-print-directory", "-j8", "-C", folder, *more]
        with subprocess.Popen(words, stdout=subprocess.PIPE, stderr=subprocess.STDOUT, text=True) as making:
            for line in making.stdout:
                if not line.endswith(" ..\n"):
                    say(line)
        return making.returncode


class Process:
    def __init__(self, number: int) -> None:
        self.number = number

    def root(self) -> pathlib.Path | None:
        with contextlib.suppress(OSError):
            return pathlib.Path(f"/proc/{self.number}/root").readlink()
        return None

    def kill(self) -> None:
        os.kill(self.number, signal.SIGKILL)


@contextlib.contextmanager
def taken(port: int) -> Iterator[None]:
    """While somebody else has a port."""
    with socket.socket() as listener:
        listener.setsockopt(socket.SOL_SOCKET, socket.SO_REUSEADDR, 1)
        listener.bind(("127.0.0.1", port))
        listener.listen()
        yield


def asked(port: int, path: str = PAGE, form: dict[str, str] | None = None) -> str:
    """What is answered on a port; nothing where nobody answers."""
    data = urllib.parse.urlencode(form).encode() if form else None
    try:
        with OPENER.open(f"http://127.0.0.1:{port}{path}", data, timeout=5) as answer:
            return answer.read().decode("utf-8", "replace")
    except (OSError, urllib.error.URLError):
        return ""


class Watcher:
    """Asks the front each 0.2 seconds, the old one, and where that does not answer the new one."""

    def __init__(self) -> None:
        self.answers: list[tuple[float, int]] = []
        self.is_over = threading.Event()
        self.thread = threading.Thread(target=self.watch)

    def watch(self) -> None:
        while not self.is_over.wait(EACH):
            begun = time.monotonic()
            front = next((port for port in (OLD_FRONT, NEW_FRONT) if "WordPress" in asked(port)), 0)
            self.answers.append((begun, front))

    def __enter__(self) -> "Watcher":
        self.thread.start()
        return self

    def __exit__(self, *_: object) -> None:
        self.is_over.set()
        self.thread.join()

    def summary(self) -> str:
        counts = {port: sum(front == port for _, front in self.answers) for port in (OLD_FRONT, NEW_FRONT, 0)}
        gaps = [other - one for (one, _), (other, _) in zip(self.answers, self.answers[1:])]
        return (
            f"asked {len(self.answers)} times, at most {max(gaps, default=0):.1f} s apart: "
            f"{counts[OLD_FRONT]} answers of the old front, {counts[NEW_FRONT]} of the new one, {counts[0]} times none"
        )

    def check(self) -> None:
        expect(
            len(self.answers) > 10 and all(front for _, front in self.answers),
            "the front did not answer at each moment",
        )


class Blog:
    def __init__(self, program: str, root: Root, place: pathlib.Path) -> None:
        self.program, self.root, self.place = program, root, place
        self.first = self.planned("plan", TARGET)
        self.second = self.planned("rollout", self.first, TARGET)

    def planned(self, verb: str, *words: object) -> pathlib.Path:
        path = self.place / f"{verb}-{len(list(self.place.iterdir()))}.txt"
        path.write_text(trial.printed(self.program, verb, UNIVERSE, *words))
        return path

    def export(self, plan: pathlib.Path, folder: str = "blog") -> None:
        say(f"$ metis make {plan.name} --commands examples/blog.toml --to {folder}")
        trial.exporters(
            "make", plan, "--commands", COMMANDS, "--universe", UNIVERSE, "--to", self.root.folder.parent / folder
        )

    def stands(self, count: int, *targets: str) -> None:
        """Whether so many instances stand by the program's own replay of what is done."""
        part = trial.exporters("done", self.root.folder)
        verdict = trial.printed(self.program, "replay", UNIVERSE, "-", *targets, text=part)
        say(f"$ metis done blog | metis replay blog.json - {' '.join(targets)}\n{verdict}")
        expect(verdict.startswith(f"good standing {count} "), verdict)

    def comes_up(self, chart: str | None) -> None:
        say(f"--- up, while port {OLD_DATABASE} is taken")
        self.export(self.first)
        with taken(OLD_DATABASE):
            expect(self.root.carry_out("/srv/blog") == 2, "it did not fail")
        left = self.root.inside("make", "-s", "-n", "-C", "/srv/blog").stdout
        say(f"$ make -n -C blog\n{left}")
        expect("./run 1.3 " in left and "./run 0.4 " in left and "./run 1.2 " not in left, "something else is left")
        say("--- the port is free again")
        expect(self.root.carry_out("/srv/blog") == 0, "it did not end")
        self.stands(4, TARGET)
        if chart:
            pathlib.Path(chart).write_text(trial.exporters("gantt", self.root.folder))
        title = re.search("<title>.*</title>", asked(OLD_FRONT))
        say(f"through haproxy: {title and title[0]}")
        answer = asked(OLD_FRONT, f"{PAGE}?step=2", FORM)
        expect("Success!" in answer, answer)
        say("WordPress is set up: Success!")
        expect("Metis" in asked(OLD_FRONT, LOGIN), "the blog has another title")

    def is_given_up(self) -> None:
        say(f"--- a rollout, while port {NEW_DATABASE} is taken; it is given up")
        self.export(self.second)
        with Watcher() as watcher:
            with taken(NEW_DATABASE):
                expect(self.root.carry_out("/srv/blog", "-k") == 2, "it did not fail")
            new = self.root.folder.parent / "new"
            say(f"$ metis split blog new\n{trial.exporters('split', self.root.folder, new)}")
            self.export(self.planned("rollout", new / "plan.txt"), "new")
            expect(self.root.carry_out("/srv/new") == 0, "it did not end")
        say(watcher.summary())
        watcher.check()
        expect(all(front == OLD_FRONT for _, front in watcher.answers), "the old front did not answer")
        self.export(self.first)
        self.stands(4, TARGET)
        expect("Metis" in asked(OLD_FRONT, LOGIN), "the blog has another title")

    def is_rolled_out(self) -> None:
        say(f"--- a rollout, while port {NEW_DATABASE} is taken at first")
        self.export(self.second)
        with Watcher() as watcher:
            with taken(NEW_DATABASE):
                expect(self.root.carry_out("/srv/blog") == 2, "it did not fail")
            expect(self.root.carry_out("/srv/blog") == 0, "it did not end")
            time.sleep(2)
        say(watcher.summary())
        watcher.check()
        expect("WordPress" in asked(NEW_FRONT) and not asked(OLD_FRONT), "another front answers")
        self.stands(4, TARGET)

    def is_taken_down(self) -> None:
        say("--- down")
        part = self.place / "done.txt"
        part.write_text(trial.exporters("done", self.root.folder))
        self.export(self.planned("rollout", part))
        expect(self.root.carry_out("/srv/blog") == 0, "it did not end")
        self.stands(0)


def check_nothing_is_left(root: Root, packages: list[str]) -> None:
    left = [str(path) for path in (root.path / "var/lib/blog").iterdir() if path.name != "users" or any(path.iterdir())]
    names = {line.split()[0] for line in packages}
    kept = [line.split()[0] for line in root.packages() if line.split()[0] not in names]
    services = [name for name in kept if re.match("haproxy|apache2|libapache2|mariadb|wordpress|php", name)]
    processes = [process.number for process in root.processes()]
    say(f"left: {len(processes)} processes, {len(left)} folders, {len(services)} packages of the services")
    say(f"left by apt, since something else suggests them: {' '.join(kept) or 'nothing'}")
    expect(not processes and not left and not services, f"{processes} {left} {services}")


def main() -> int:
    parser = argparse.ArgumentParser(description=__doc__, formatter_class=argparse.RawDescriptionHelpFormatter)
    parser.add_argument("--metis", default=str(TOP / "metis"), metavar="PROGRAM")
    parser.add_argument("--chart", metavar="FILE", help="write what `gantt` makes of the first part into this file")
    arguments = parser.parse_args()
    if os.geteuid() != 0:
        say("it wants root")
        return 1
    signal.signal(signal.SIGTERM, lambda *_: sys.exit(1))
    place = pathlib.Path(tempfile.mkdtemp(dir="/var/tmp"))
    texts = pathlib.Path(tempfile.mkdtemp())
    try:
        with Root(place) as root:
            root.settle()
            packages = root.packages()
            blog = Blog(arguments.metis, root, texts)
            blog.comes_up(arguments.chart)
            blog.is_given_up()
            blog.is_rolled_out()
            blog.is_taken_down()
            check_nothing_is_left(root, packages)
    except (Failed, subprocess.CalledProcessError, OSError) as fault:
        say(f"FAILED: {fault}")
        return 1
    finally:
        shutil.rmtree(texts)
    say("all as it has to be")
    return 0


if __name__ == "__main__":
    sys.exit(main())
