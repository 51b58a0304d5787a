"""Calls of `plan` over one universe without some of its parts, side by side on all processors."""

import concurrent.futures
import contextlib
import os
import pathlib
import subprocess
import tempfile
import threading
from collections.abc import Callable, Iterable, Iterator, Sequence

from metis_planner.answers import Refused
from metis_planner.program import PLAIN, Said, Status, command


class Calls:
    """Asks the program for plans for the same targets. Used as a context, at whose end no call goes on."""

    def __init__(self, targets: Sequence[str], at_once: int | None = None) -> None:
        self.targets = tuple(targets)
        self.at_once = at_once or os.cpu_count() or 1
        self.jobs: set[subprocess.Popen[str]] = set()
        self.lock = threading.Lock()
        self.is_over = False
        self.kept = contextlib.ExitStack()

    def __enter__(self) -> "Calls":
        self.folder = pathlib.Path(self.kept.enter_context(tempfile.TemporaryDirectory(prefix="metis-lean-")))
        self.pool = concurrent.futures.ThreadPoolExecutor(self.at_once)
        return self

    def __exit__(self, *_: object) -> None:
        with self.lock:
            self.is_over = True
            for job in self.jobs:
                job.terminate()
        self.pool.shutdown(cancel_futures=True)
        self.kept.close()

    def plans(self, documents: Sequence[Callable[[], str]]) -> Iterator[Said]:
        """What `plan` answers over each of these documents, in their order, however many are tried at once."""
        return self.pool.map(lambda document: self.plan(document()), documents)

    def plan(self, document: str) -> Said:
        """What `plan` answers over a document."""
        with tempfile.NamedTemporaryFile("w", dir=self.folder, suffix=".json", errors="surrogateescape") as file:
            file.write(document)
            file.flush()
            return self.run(["plan", file.name, *self.targets])

    def run(self, words: Iterable[str]) -> Said:
        """What the program answers. A call that is still going on when this context ends is ended, and is no answer."""
        with self.lock:
            if self.is_over:
                return Said("", Status.NO_MEMORY)
            job = subprocess.Popen(
                [command(), PLAIN, *words], stdin=subprocess.DEVNULL, stdout=subprocess.PIPE, stderr=subprocess.DEVNULL, text=True
            )
            self.jobs.add(job)
        try:
            text, _ = job.communicate()
        finally:
            with self.lock:
                self.jobs.discard(job)
        return Said(text, job.returncode)

    def check(self, universe: str, text: str) -> None:
        """Holds a plan against the whole universe: `replay` finds it good there, and `waits` gives it the same waits."""
        whole, plan = self.folder / "whole.json", self.folder / "plan.txt"
        whole.write_text(universe, errors="surrogateescape")
        plan.write_text(text)
        verdict = self.run(["replay", str(whole), str(plan), *self.targets])
        if verdict.status != Status.DONE:
            raise Refused(f"replay over the whole universe does not find the plan good: {verdict.text.strip()}")
        waited = self.run(["waits", str(whole), str(plan)])
        if waited.status != Status.DONE or actions_of(waited.text) != actions_of(text):
            raise Refused("over the whole universe the plan's actions wait for others than the plan says")


def actions_of(text: str) -> list[str]:
    """The lines of a plan's actions, with their waits."""
    return [line for line in text.split("\n")[2:] if not line.startswith("dup ")]
