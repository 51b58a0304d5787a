"""Asks each instance of a folder whether it still stands, by the `check` of the step that brought it into its state.

All are asked at once. The status is 1 if one is lost, else 75 if of one it is not known, since its check was not asked to its end,
and else 0. With --take-back the marks of what is lost are taken away, and of all that waited for it: make then does these steps
again, and heals what is lost. What is not known keeps its marks.
"""

import argparse
import concurrent.futures
import dataclasses
import json
import subprocess
from collections.abc import Sequence

from metis_planner.answers import Answer, Refused
from metis_planner.carry.configuration import add_folder, folder_of
from metis_planner.carry.folder import JOBS, LOG, STEPS, Busy, Folder
from metis_planner.carry.going_over import without_the_gone
from metis_planner.carry.jobs import JobLine, job_lines_in
from metis_planner.carry.own import check_own
from metis_planner.carry.steps import Step, lanes, who
from metis_planner.carry.taking_back import take_back, with_followers
from metis_planner.text.actions import Delete, Move, New, in_words
from metis_planner.text.terminal import plain, say

AT_ONCE = 16
LONGEST = 200


@dataclasses.dataclass(frozen=True)
class Standing:
    """An instance that stands as far as the marks say: the step that brought it into its state, and its job."""

    step: Step
    state: str
    job: JobLine


@dataclasses.dataclass(frozen=True)
class Asked:
    """What the check of an instance said: that it stands, why it does not, or nothing if there is no check."""

    standing: Standing
    verdict: str
    reason: str = ""

    def line(self, width: int) -> str:
        name = who(self.standing.step.action)
        return f"{name:<{width}}  {self.standing.state:<12}  {self.verdict}{': ' + self.reason if self.reason else ''}"

    def value(self) -> dict[str, str]:
        name = who(self.standing.step.action)
        return {"instance": name, "state": self.standing.state, "verdict": self.verdict, "reason": self.reason}


OK, LOST, UNASKED, UNKNOWN = "ok", "lost", "not asked", "not known"
NOT_KNOWN = 75  # as of a lock that somebody else holds: ask again
SAID = "== said "


def jobs_of(folder: Folder, steps: Sequence[Step]) -> dict[str, JobLine]:
    """By which words `run` does each step, as the export wrote them down."""
    lines = job_lines_in(folder.path)
    if len(lines) != len(steps):
        raise Refused(f"{folder.path / JOBS}: not the jobs of the plan: export it anew")
    return {step.key: line for step, line in zip(steps, lines)}


def standing_in(folder: Folder, steps: Sequence[Step], done: set[str]) -> list[Standing]:
    """The instances that were made and not deleted, each with the last move that is done, or else its making."""
    found, jobs = [], jobs_of(folder, steps)
    going = going_in(folder, steps, done)
    for lane in lanes(steps).values():
        own = [step for step in lane if step.key in done]
        if not own or isinstance(own[-1].action, Delete) or own[0].action.instance in going:
            continue
        last = [step for step in own if isinstance(step.action, New | Move)][-1]
        state = last.action.end if isinstance(last.action, Move) else "made"
        found.append(Standing(last, state, jobs[last.key]))
    return found


def going_in(folder: Folder, steps: Sequence[Step], done: set[str]) -> frozenset[int]:
    """The instances whose deletion was begun and is not done: what of them is left nobody knows, and nothing may need it."""
    return frozenset(step.action.instance for step in folder.begun(steps, done) if isinstance(step.action, Delete))


def has_check(folder: Folder, standing: Standing) -> bool:
    return has_check_of(folder, standing.job)


def has_check_of(folder: Folder, job: JobLine) -> bool:
    return any((folder.path / STEPS).glob(f"{job.rule}-*.check.sh"))


def ask(folder: Folder, standing: Standing) -> Asked:
    if not has_check(folder, standing):
        return Asked(standing, UNASKED)
    words = ["./run", "-c", *standing.job.words()]
    done = subprocess.run(words, cwd=folder.path, stdin=subprocess.DEVNULL, capture_output=True, text=True, errors="replace", check=False)
    return Asked(standing, *verdict_of(done.returncode, lines_in(done.stdout), lines_in(done.stderr), in_words(standing.step.action)))


def lines_in(text: str) -> list[str]:
    return [line for line in text.splitlines() if line.strip()]


def verdict_of(status: int, said: list[str], why: list[str], what: str) -> tuple[str, str]:
    """The verdict and its reason: what the check said is in the last line; what kept it from being asked is on standard error.

    A `run` of a version before this one says no such line: it ends with the status of the check, of which only 0 is certain.
    """
    if status:
        return UNKNOWN, plain((why or said or [f"status {status}"])[-1].removeprefix(f"{what}: "), LONGEST)
    if not said or not said[-1].startswith(SAID):
        return OK, ""
    answer = said.pop().removeprefix(SAID)
    return (OK, "") if answer == "0" else (LOST, plain(said[-1] if said else f"status {answer}", LONGEST))


def status_of(asked: Sequence[Asked]) -> int:
    verdicts = {each.verdict for each in asked}
    return 1 if LOST in verdicts else NOT_KNOWN if UNKNOWN in verdicts else 0


def notes_on(asked: Sequence[Asked]) -> list[str]:
    """What there is to say of the whole: that nothing was asked, and what --take-back does not touch."""
    verdicts = [each.verdict for each in asked]
    notes = ["no step has a check, so nothing was asked"] if set(verdicts) == {UNASKED} else []
    count = verdicts.count(UNKNOWN)
    return notes + ([f"of {count} it is not known whether they stand: nothing of them is taken back"] if count else [])


def ask_all(folder: Folder, standing: Sequence[Standing]) -> list[Asked]:
    with concurrent.futures.ThreadPoolExecutor(AT_ONCE) as pool:
        return list(pool.map(lambda each: ask(folder, each), standing))


def add_arguments(parser: argparse.ArgumentParser) -> None:
    add_folder(parser)
    parser.add_argument("--take-back", action="store_true", help="let make do again what is lost, and what waited for it")
    parser.add_argument("--json", action="store_true", help="one JSON object in place of lines")


def taken_back(folder: Folder, steps: Sequence[Step], asked: Sequence[Asked]) -> list[Step]:
    """Takes the marks of what is lost away, while nothing is done in the folder."""
    with folder.held():
        done = folder.done(steps)
        lost = {each.standing.step.action.number for each in asked if each.verdict == LOST}
        back = with_followers(steps, done, lost, going_in(folder, steps, done))
        take_back(folder, back)
        made_anew = {step.action.instance for step in back if isinstance(step.action, New)}
        for step in steps:
            if isinstance(step.action, Delete) and step.action.instance in made_anew and step.key not in done:
                (folder.path / LOG / step.key).unlink(missing_ok=True)
    return back


def all_taken_back(folder: Folder, steps: Sequence[Step], asked: Sequence[Asked]) -> tuple[list[Asked], int]:
    """Takes back what is lost, and asks for the state before it, until nothing is lost: what was found, and how many steps go."""
    found, now, back = list(asked), list(asked), set[str]()
    while any(each.verdict == LOST for each in now):
        back |= {step.key for step in taken_back(folder, steps, now)}
        known = {each.standing.step.key for each in found}
        standing = standing_in(folder, steps, folder.done(steps))
        now = ask_all(folder, [each for each in standing if each.step.key not in known])
        found += [each for each in now if each.verdict in (LOST, UNKNOWN)]
    return found, len(back)


def forget_the_gone(folder: Folder) -> None:
    """Lets the plan go over to what stands, unless somebody else is at work: then each check says that it is not known."""
    try:
        is_over = without_the_gone(folder)
    except Busy:
        return
    if is_over:
        say("what is gone is no part of the plan any more; metis up plans what is left")


def run(arguments: argparse.Namespace) -> Answer:
    folder = folder_of(arguments)
    check_own(folder.path)
    if arguments.take_back:
        forget_the_gone(folder)
    steps = folder.steps()
    asked = ask_all(folder, standing_in(folder, steps, folder.done(steps)))
    is_lost = any(each.verdict == LOST for each in asked)
    if arguments.take_back and is_lost:
        asked, count = all_taken_back(folder, steps, asked)
        notes = [*notes_on(asked), f"{count} steps will be done again by make"]
    else:
        more = ["--take-back lets make do again what is lost, and what waited for it"] if is_lost else []
        notes = [*notes_on(asked), *more]
    if arguments.json:
        return Answer(json.dumps([each.value() for each in asked]) + "\n", notes, status_of(asked))
    width = max((len(who(each.standing.step.action)) for each in asked), default=0)
    return Answer("".join(f"{each.line(width)}\n" for each in asked), notes, status_of(asked))
