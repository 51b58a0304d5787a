"""Says in words what the program answered: `python3 -m metis_planner.front STATUS WORD ..`, one to three lines on standard error.

The program has run already, and its answer is on standard output. If none of its files was standard input, it is asked once more
here, for the line that says what is wrong. Nothing that stands here is proved, and nothing of it changes what was printed.
"""

import difflib
import pathlib
import sys
from collections.abc import Callable, Iterable, Sequence

from metis_planner.answers import Refused
from metis_planner.look import no, wrong
from metis_planner.look.wrong import shown
from metis_planner.program import WORDS, Status, beginning
from metis_planner.text.terminal import say
from metis_planner.words import FRONT_WORDS

MOST_LINES = 3


def near(word: str, known: Iterable[str]) -> str:
    """The nearest of the known words, as a question."""
    found = difflib.get_close_matches(word, list(known), 1, 0.5)
    return f"; did you mean {found[0]}?" if found else ""


def no_command(words: Sequence[str]) -> list[str]:
    """What is said where the first word is none of the program's."""
    if not words or not words[0]:
        return ["say what to do: `metis help` lists the commands", "to begin with: metis plan UNIVERSE TYPE:STATE"]
    word = words[0]
    if pathlib.Path(word).is_file():
        return [f"a command comes first, and {word} is a file: perhaps metis plan {word}"]
    known = [] if word.startswith("-") else [*WORDS, *FRONT_WORDS]
    return [f"no command {shown(word)}{near(word, known)}", "`metis help` lists the commands"]


def sentences(status: int, words: Sequence[str]) -> list[str]:
    """What the answer of the program to these words means, and what to do."""
    if status == Status.WRITE_FAULT:
        return ["standard output could not be written to the end: the disk is full, or its reader has gone; use nothing of it"]
    if status == Status.NO_MEMORY:
        return ["memory ran out: what was printed is not whole (docs/dev/BENCHMARKS.md has what runs take)"]
    if not words or words[0] not in WORDS:
        return no_command(words)
    call = wrong.Call(words[0], tuple(words[1:]))
    if status == Status.DONE:
        return no.without_targets(call)
    answer = None if call.reads_standard_input() else beginning(words)
    explain: Callable[[wrong.Call, str | None], list[str]] = no.said if status == Status.NO else wrong.said
    return explain(call, answer)


def main(words: Sequence[str]) -> int:
    """Says it. Whatever happens here, the program's own answer and status stand."""
    try:
        lines = sentences(int(words[0]), words[1:])
    except (Refused, OSError, MemoryError, RecursionError):
        return 0
    for line in lines[:MOST_LINES]:
        say(line)
    return 0


if __name__ == "__main__":
    sys.exit(main(sys.argv[1:]))
