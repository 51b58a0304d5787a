"""The program: its words, what stands behind each, its exit statuses, and how it is run."""

import dataclasses
import enum
import os
import pathlib
import shutil
import subprocess
from collections.abc import Mapping, Sequence

from metis_planner.answers import Refused

TOP = pathlib.Path(__file__).resolve().parent.parent
# The command `metis`, as it names itself to what it starts; and the word that leaves all to the program.
COMMAND = "METIS_COMMAND"
PLAIN = "--plain"
STANDARD_INPUT = "-"
UNIVERSE = "UNIVERSE"
# As much of an answer as is looked at again.
MOST_OF_AN_ANSWER = 1_048_576


class Status(enum.IntEnum):
    """How the program ends."""

    DONE = 0
    NO = 1
    BAD_WORDS = 2
    BAD_INPUT = 3
    READ_FAULT = 4
    WRITE_FAULT = 5
    NO_MEMORY = 6


@dataclasses.dataclass(frozen=True)
class Form:
    """What stands behind a word of the program: files, then targets or numbers; and what it does in one line."""

    files: tuple[str, ...]
    help: str
    has_targets: bool = False
    numbers: tuple[str, ...] = ()

    def usage(self, word: str) -> str:
        return " ".join(["metis", word, *self.files, *self.numbers, *(["[TARGET ..]"] if self.has_targets else [])])


WORDS: Mapping[str, Form] = {
    "plan": Form((UNIVERSE,), "plan for targets, or print a refusal: a set of pairs that shows why there is no plan", True),
    "why": Form((UNIVERSE,), "say why the first target that is lacking cannot be attained", True),
    "replay": Form((UNIVERSE, "PLAN"), "do a plan's actions one by one, and say whether each is allowed", True),
    "rollout": Form((UNIVERSE, "PLAN"), "go from what a plan leaves to other targets, and take the old away", True),
    "reconfigure": Form(
        (UNIVERSE, "PLAN", "WISHES"), "go from what a plan leaves to other targets, and keep what serves them", True
    ),
    "audit": Form((UNIVERSE, "PLAN"), "check that a plan has the instances that the rules make, and no others", True),
    "refute": Form((UNIVERSE, "REFUSAL"), "check a refusal, without the planner", True),
    "confirm": Form((UNIVERSE, "EXPLANATION"), "check an explanation of `why`, without the planner", True),
    "waits": Form((UNIVERSE, "PLAN"), "print a plan with the waits that its actions need, whatever its own text says"),
    "waves": Form(
        (UNIVERSE, "PLAN"),
        "say when each action may start, when all is done, and on which critical path",
        numbers=("NEW", "DELETE", "BIND", "UNBIND", "MOVE"),
    ),
    "place": Form((UNIVERSE, "PLAN", "HOSTS"), "put a plan's instances on hosts with room for them"),
    "crew": Form((UNIVERSE, "PLAN", "TURNS"), "let a plan's instances take turns, and say who has to wait"),
    "control": Form((UNIVERSE, "PLAN", "SCRIPT"), "carry a plan out over a network that loses and repeats, as a script says"),
    "sim": Form((UNIVERSE, "SCRIPT"), "try actions by hand, with undo"),
    "print": Form((UNIVERSE,), "print a universe in its canonical form"),
    "load": Form((), "plan and replay for a generated universe of a size from 1 to 128", numbers=("SIZE",)),
}


def command() -> str:
    """The command `metis`: the one that started this, or the one of this checkout, or the one on the path."""
    found = os.environ.get(COMMAND) or str(TOP / "metis")
    if os.access(found, os.X_OK):
        return found
    on_path = shutil.which("metis")
    if on_path is None:
        raise Refused("the command metis is not there")
    return on_path


@dataclasses.dataclass(frozen=True)
class Said:
    """What the program printed, or the beginning of it, and its status."""

    text: str
    status: int


def ask(words: Sequence[str], text: str | None = None) -> Said:
    """What the program answers to these words, with this text on its standard input."""
    done = subprocess.run([command(), PLAIN, *words], input=text, capture_output=True, text=True, errors="replace", check=False)
    return Said(done.stdout, done.returncode)


def beginning(words: Sequence[str]) -> str:
    """The beginning of what the program answers to these words, which may be long. It reads no standard input."""
    job = subprocess.Popen(
        [command(), PLAIN, *words], stdin=subprocess.DEVNULL, stdout=subprocess.PIPE, stderr=subprocess.DEVNULL
    )
    assert job.stdout is not None
    try:
        return job.stdout.read(MOST_OF_AN_ANSWER).decode(errors="replace")
    finally:
        job.stdout.close()
        job.terminate()
        job.wait()
