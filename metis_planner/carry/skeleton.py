"""Writes a commands file for a plan: with each step to fill in, or, for what an importer read, the one that comes with the package.

Such a file says what is done by Compose, kubectl or apt. Of its steps those are left out that fit nothing in the universe, or in
the plan where there is no universe.
"""

import dataclasses
import json
import os
import pathlib
import re
from collections.abc import Iterable, Iterator

from metis_planner.answers import Refused
from metis_planner.carry.patterns import Patterns, fits_something, subject
from metis_planner.carry.possible import PossibleActions
from metis_planner.importers.compose.input import DEFAULT_NAMES
from metis_planner.text import plans
from metis_planner.text.actions import Move

FOLDER = pathlib.Path(__file__).resolve().parent / "skeletons"
HEAD = """\
# What each step of the plan means on a real system. docs/EXPORTERS.md has the form. Fill in what says `false`: a step is done when
# it ends, may be done a second time, and finds its variables in METIS_NAME and the others.
timeout = 600
"""
TO_FILL_IN = "echo 'this step is not written yet' >&2; false"
# The document of an importer says in its comment by which one it was made.
BY_IMPORTER = re.compile(r"by importers (compose|debian|kubernetes)\b")
COMPOSE_FILE = re.compile(r"by importers compose from (/.+); target: ")
OF_COMPOSE = re.compile(r"(?:image|network|volume)/.+: absent -> there|project(?:@next)?: down -> up|.+: created -> started")
OF_KUBERNETES = re.compile(r"[A-Z][A-Za-z0-9]*/.+: absent -> (?:there|applied)|manifests: down -> up|.+@ready: awaited -> ready")
OF_DEBIAN = {"installed", "unpacked", "configured", "set-up"}
# A step of a file, with the comment before it.
NEXT_STEP = re.compile(r"\n\n(?=(?:#[^\n]*\n)*\[\[step\]\])")
WHEN = re.compile(r'^when = "([^"]*)"$', re.MULTILINE)
UNFILLED = '"/WHOLE/PATH"'


@dataclasses.dataclass(frozen=True)
class Rule:
    """A step to be written: for which actions, what it runs, and a word about it."""

    when: str
    run: str
    comment: str = ""

    def text(self) -> str:
        comment = f"# {self.comment}\n" if self.comment else ""
        run = f"'''\n{self.run}\n'''" if "'" in self.run else f"'{self.run}'"
        return f'\n{comment}[[step]]\nwhen = "{self.when}"\nrun = {run}\n'


def source_of(plan: plans.Plan, comment: str = "") -> str:
    """Of which importer the universe of a plan is: by the comment of its document, else by the types and states of the plan."""
    found = BY_IMPORTER.search(comment)
    if found:
        return found[1]
    moves = [action for action in plan.actions if isinstance(action, Move)]
    for name, pattern in (("compose", OF_COMPOSE), ("kubernetes", OF_KUBERNETES)):
        if any(pattern.fullmatch(subject(action)) for action in moves):
            return name
    states = {action.end for action in moves}
    return "debian" if "installed" in states and states <= OF_DEBIAN else ""


def by_hand(plan: plans.Plan) -> Iterator[Rule]:
    """A rule for each kind of move, and for the other actions one each."""
    yield Rule("*: new", "", comment="Provision: a machine, a container, a folder named by METIS_NAME.")
    yield Rule("*: bind *", "", comment="Tell METIS_NAME where it finds METIS_PROVIDER_NAME.")
    yield Rule("*: unbind *", "")
    kinds = dict.fromkeys(subject(action) for action in plan.actions if isinstance(action, Move))
    yield from to_fill_in(kinds)
    yield Rule("*: delete", TO_FILL_IN, comment="Take all of METIS_NAME away, in whatever state it is.")


def to_fill_in(moves: Iterable[str]) -> Iterator[Rule]:
    for each in moves:
        kind, _, move = each.partition(": ")
        yield Rule(each, TO_FILL_IN, comment=f"{kind} goes from {move.replace(' -> ', ' to ')}; end when it can be used.")


def whole_text(name: str) -> str:
    """The commands file of an importer's plans, for anything that they may have."""
    return (FOLDER / f"{name}.toml").read_text()


def fitting(text: str, possible: PossibleActions) -> str:
    """A commands file without the steps that fit nothing."""
    head, *steps = NEXT_STEP.split(text)
    kept = [step for step in steps if fits_something(WHEN.findall(step)[0], possible)]
    return "\n\n".join([head, *(step.rstrip("\n") for step in kept)]) + "\n"


def quoted(text: str) -> str:
    """A text as TOML has it."""
    try:
        text.encode()
    except UnicodeEncodeError as fault:
        raise Refused(f"{ascii(text)} is no text in UTF-8") from fault
    return json.dumps(text, ensure_ascii=False).replace("\x7f", "\\u007f")


def with_folder(text: str, comment: str) -> str:
    """The commands of a Compose project with its folder: that of the file which the document names, else this one if a file is here."""
    named = COMPOSE_FILE.search(comment)
    beside = [os.path.abspath(each) for each in DEFAULT_NAMES if os.path.isfile(each)]
    if not named and not beside:
        return text
    path = pathlib.Path(named[1] if named else beside[0])
    more = "" if path.name in DEFAULT_NAMES else f"\nCOMPOSE_FILE = {quoted(str(path))}"
    return text.replace(UNFILLED, quoted(str(path.parent)) + more)


def of_source(name: str, plan: plans.Plan, possible: PossibleActions, comment: str) -> str:
    """What comes with the package for this plan, and a step to fill in for each move that it does not know."""
    text = fitting(whole_text(name), possible)
    patterns = Patterns(WHEN.findall(text))
    moves = dict.fromkeys(subject(action) for action in plan.actions if isinstance(action, Move))
    more = to_fill_in(each for each in moves if patterns.first(each) is None)
    if name == "compose":
        text = with_folder(text, comment)
    return "".join([text, *(rule.text() for rule in more)])


def text_of(plan: plans.Plan, possible: PossibleActions, comment: str = "") -> str:
    """A commands file for a plan, of whose universe this is the comment, if it is known."""
    for action in plan.actions:
        possible.add(action)
    name = source_of(plan, comment)
    return of_source(name, plan, possible, comment) if name else "".join([HEAD, *(rule.text() for rule in by_hand(plan))])
