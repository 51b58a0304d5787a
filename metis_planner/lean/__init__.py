"""A plan with few instances: metis lean UNIVERSE TARGET .. prints a plan as `metis plan` does, and says how many instances it has.

For each port `plan` takes the provider that can be reached first, and a provider in use never moves. So it makes a second
database where the first one would serve in a later state too. `lean` plans over the universe without some of its provides, and
keeps the best plan. It is a plan of the whole universe: `metis replay` finds it good there, and `metis waits` gives it the same
waits, both of which are asked before it is printed. It never has more instances than the plan of `metis plan`.

On standard error stands how many instances the plan has, and how few any plan can have as far as is known. The search tries
universes side by side. The same words give the same plan, unless Ctrl-C ends the search: then the best so far is printed.
A `dup` line is that of the smaller universe.
"""

import argparse
import pathlib
import sys

from metis_planner import front
from metis_planner.answers import Answer
from metis_planner.carry.writing import write_whole
from metis_planner.lean.calls import Calls
from metis_planner.lean.evidence import write_refusals
from metis_planner.lean.leanest import DEFAULT_CALLS, Leanest
from metis_planner.look.sketch import universe_text
from metis_planner.program import Said, Status

ERASE = "\r\x1b[K"


class Progress:
    """A line on the terminal that says how far the search is. Nothing is said where standard error is none."""

    def __init__(self) -> None:
        self.is_shown = sys.stderr is not None and sys.stderr.isatty()

    def __call__(self, lean: Leanest) -> None:
        if self.is_shown:
            sys.stderr.write(f"{ERASE}metis: so far {lean.sentence()}")
            sys.stderr.flush()

    def end(self) -> None:
        if self.is_shown:
            sys.stderr.write(ERASE)
            sys.stderr.flush()


def positive(word: str) -> int:
    """A whole number from 1 on."""
    if not word.isascii() or not word.isdigit() or not 0 < int(word[:10]):
        raise argparse.ArgumentTypeError(f"{word!r} is no whole number from 1 on")
    return int(word[:10])


def add_arguments(parser: argparse.ArgumentParser) -> None:
    parser.add_argument("universe", metavar="UNIVERSE", help="a universe or a sketch")
    parser.add_argument("targets", metavar="TARGET", nargs="*", help="TYPE:STATE or port:PORT")
    parser.add_argument("--calls", type=positive, metavar="N", default=DEFAULT_CALLS, help=f"try at most so many plans ({DEFAULT_CALLS})")
    parser.add_argument("--left-out", action="store_true", help="say which provides were left out")
    parser.add_argument("--why", action="store_true", help="say of each type why no plan has fewer instances of it")
    parser.add_argument("--universe", dest="smaller", metavar="FILE", help="write the universe without these provides")
    parser.add_argument("--refusals", metavar="FOLDER", help="write for each type a refusal of the universe without it, for metis refute")


def notes_of(lean: Leanest, arguments: argparse.Namespace) -> list[str]:
    notes = [lean.sentence()]
    if arguments.why:
        notes += [f"at least {least.count} {kind}: {least.reason}" for kind, least in lean.bound.least.items()]
    if arguments.left_out:
        notes += [f"left out: {provide}" for provide in lean.left_out()] or ["nothing was left out"]
    return notes


def as_plan_says(first: Said, text: str, path: str, calls: Calls) -> Answer:
    """The answer of `plan` where there is no plan, with what the front says of it."""
    kept = calls.folder / (pathlib.Path(path).name if path != "-" else "universe.json")
    kept.write_text(text, errors="surrogateescape")
    notes = front.sentences(first.status, ["plan", str(kept), *calls.targets])[: front.MOST_LINES]
    return Answer(first.text, [note.replace(str(kept), path) for note in notes], first.status)


def searched(lean: Leanest, calls: Calls, most_calls: int) -> list[str]:
    """Searches, and says so if a person ended it."""
    progress = Progress()
    try:
        lean.search(calls, most_calls, progress)
        return []
    except KeyboardInterrupt:
        return ["the search was ended: this is the best so far"]
    finally:
        progress.end()


def run(arguments: argparse.Namespace) -> Answer:
    path, targets = arguments.universe, arguments.targets
    text = universe_text(path)
    with Calls(targets) as calls:
        first = calls.plan(text)
        if first.status != Status.DONE or not targets:
            return as_plan_says(first, text, path, calls)
        lean = Leanest(text, path, targets, first.text)
        notes = searched(lean, calls, arguments.calls)
        calls.check(text, lean.best.made.text)
        if arguments.smaller:
            write_whole(pathlib.Path(arguments.smaller), lean.universe.without(lean.left_out()) + "\n")
        if arguments.refusals:
            write_refusals(pathlib.Path(arguments.refusals), lean, calls)
    return Answer(lean.best.made.text, [*notes, *notes_of(lean, arguments)])
