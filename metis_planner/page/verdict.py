"""What the program says of a plan, a refusal or an explanation: a page carries that, or says that nobody was asked."""

import dataclasses
import os
from collections.abc import Sequence

from metis_planner import program
from metis_planner.answers import Refused
from metis_planner.look import version
from metis_planner.text.terminal import plain

# What the program answers where a text is right, by its word.
RIGHT = {"replay": "good ", "refute": "closed ", "confirm": "confirmed "}
PROVED, NOT_PROVED = "by the proved program", "by a build of Metis that is not proved"


@dataclasses.dataclass(frozen=True)
class Verdict:
    """`good`, `bad`, or `none` if nobody was asked, and what a reader is told."""

    kind: str
    text: str


@dataclasses.dataclass(frozen=True)
class Question:
    """A word of the program with a text that it is asked about, and its targets."""

    word: str
    text: str
    targets: tuple[str, ...] = ()


def of(universe: str, questions: Sequence[Question]) -> Verdict:
    """What the program says of each: the page is as good as the worst of these."""
    answers = []
    for each in questions:
        try:
            said = program.ask([each.word, os.path.abspath(universe), "-", *each.targets], each.text)
        except (Refused, OSError) as fault:
            return Verdict("none", f"Not checked, since metis {each.word} could not be asked: {plain(str(fault), 200)}.")
        line = plain(said.text, 200) or f"nothing, with status {said.status}"
        if said.status != program.Status.DONE or not line.startswith(RIGHT[each.word]):
            return Verdict("bad", f"metis {each.word} does not bear this out: {line}")
        answers.append(f"metis {each.word} says: {line}")
    by = PROVED if is_proved() else NOT_PROVED
    return Verdict("good", f"Checked when this page was made, {by}; {'; '.join(answers)}")


def is_proved() -> bool:
    """Whether what is asked is the proved program: that of a package, or of a checkout in which it is current."""
    return version.package_file() is not None or version.is_proved_here()
