"""The folder in which a plan is carried out: the plan that it has, what of it is done, and who may write it."""

import contextlib
import dataclasses
import fcntl
import hashlib
import os
import pathlib
import re
import shutil
import time
from collections.abc import Iterable, Iterator, Mapping, Sequence

from metis_planner.answers import Refused
from metis_planner.carry.living import check_ended
from metis_planner.carry.own import check_own, make_own
from metis_planner.carry.rollouts import Rollout
from metis_planner.carry.steps import Step, steps_of, who
from metis_planner.carry.writing import sync_folder, write_whole
from metis_planner.text import plans
from metis_planner.text.actions import Action, New, line_of
from metis_planner.text.reading import read_text

PLAN, ROLLOUTS, UNIVERSE = "plan.txt", "rollouts", "universe.json"
DONE, LOG, LOCK, STEPS = "done", "log", "lock", "steps"
# The words of `run` for each action, in the order of the plan; what happened, a line of JSON each; an inventory for Ansible.
JOBS, EVENTS, INVENTORY = "jobs", "events", "inventory"
# Which export `run` belongs to; where there is none, nothing can be done in the folder.
EXPORT = "export"
# By which METIS_NAME an instance was made, where its type has another name by now.
NAMES = "names"
# Has a file for each step that was done again. What is to be done again says its mark; before that is done nothing is unbound.
AGAIN = "again"
# In the place of the sum in a mark: the step is to be done again, since what did it is not what the description means now; or
# a state has changed that its instance came through, of which is only told.
STALE, CHANGED_SINCE = "by -", "by changed"
# The first number that no instance of the folder ever had.
FREE = "free"
# How a folder is laid out. One without the file is of the first form, which has a history and no list of what stands.
FORMAT, THIS_FORMAT = "format", 2
# The states to which half-made instances are still to be brought of which the list says nothing: a line `INSTANCE STATE` each.
# Steps of them that were begun have a line `INSTANCE.NUMBER ACTION`, and a log `began.INSTANCE.NUMBER`.
ENDS, BEGAN = "ends", "began."
# A list that was decided on and is not in its place yet, by its parts; and what was there before, by numbers.
TURN, PAST, NUMBER = "turn", "past", "number"
PARTS = (DONE, LOG, AGAIN, ROLLOUTS, UNIVERSE, NAMES, ENDS, FREE, PLAN)
MOST_OF_THE_PAST = 10
# What `split` takes away behind the plan that it writes.
PARTED = "parted"
# Held by whoever writes the folder, and by each step that is being done in it, which shares it with other steps.
FOLDER_LOCK = ".folder"
# As `run` writes a host that there is not.
NO_HOST = ":"
LOOKS = 20
ROLLOUT = re.compile(rf"({plans.NUMBER.pattern}) ({plans.NUMBER.pattern}) ({plans.NUMBER.pattern})")


@dataclasses.dataclass(frozen=True)
class Mark:
    """That an action is done: its line, which is empty where the mark was made by hand; when it began and ended; on which host."""

    line: str
    times: str
    host: str  # empty where it is not known, and NO_HOST where it was done here
    more: str = ""  # `by` and the sum of the script that did it, if that is known
    address: str = NO_HOST  # of the host


class Busy(Refused):
    """That somebody else is at work in a folder just now."""


class Folder:
    def __init__(self, path: str) -> None:
        self.path = pathlib.Path(path)
        self.check_format()
        self.finish_turning()

    def check_format(self) -> None:
        """Refuses a folder that a newer version wrote: what it does not know of it would be lost."""
        path = self.path / FORMAT
        found = read_text(str(path)).strip() if path.is_file() else str(THIS_FORMAT)
        if not found.isdecimal() or int(found) > THIS_FORMAT:
            raise Refused(
                f"{self.path}: a folder of format {plans.shown(found)}, and this version of Metis knows {THIS_FORMAT}: "
                "use the newer one that wrote it"
            )

    def note_format(self) -> None:
        if not (self.path / FORMAT).is_file():
            write_whole(self.path / FORMAT, f"{THIS_FORMAT}\n")

    def finish_turning(self) -> None:
        """Puts a list into its place that was decided on. Whoever is at it already is waited for."""
        for _ in range(LOOKS * 5):
            if not (self.path / TURN).is_dir():
                return
            check_own(self.path)
            with open(self.path / LOCK / FOLDER_LOCK, "ab") as lock:
                try:
                    fcntl.flock(lock, fcntl.LOCK_EX | fcntl.LOCK_NB)
                except BlockingIOError:
                    time.sleep(0.05)
                    continue
                self.put_in_place()

    def put_in_place(self) -> None:
        """Puts the parts of a list that was decided on into their places; what was there goes to the past. The lock is held."""
        turn = self.path / TURN
        if not turn.is_dir():
            return
        if (turn / NUMBER).is_file():
            past = self.path / PAST / (turn / NUMBER).read_text().strip()
            past.mkdir(mode=0o700, parents=True, exist_ok=True)
            for each in PARTS:
                self.put_part(turn / each, past / each)
            (turn / NUMBER).unlink()
        turn.rmdir()
        sync_folder(self.path)
        for each in self.past()[:-MOST_OF_THE_PAST]:
            shutil.rmtree(self.path / PAST / each, ignore_errors=True)

    def put_part(self, fresh: pathlib.Path, past: pathlib.Path) -> None:
        if not fresh.exists():
            return
        own = self.path / fresh.name
        if own.exists() and not past.exists():
            own.rename(past)
            sync_folder(past.parent)
        fresh.rename(own)
        sync_folder(self.path)

    def past(self) -> list[str]:
        """The names of what was there before, the oldest first."""
        top = self.path / PAST
        found = [each.name for each in top.iterdir() if each.name.isdecimal()] if top.is_dir() else []
        return sorted(found, key=int)

    def has_plan(self) -> bool:
        return (self.path / PLAN).is_file()

    def check_empty(self) -> None:
        """Refuses what is no folder for a plan: what others have in it must not be written over."""
        if self.path.is_symlink() or self.path.exists():
            try:
                others = any(self.path.iterdir())
            except OSError as fault:
                raise Refused(f"{self.path}: {fault.strerror}") from fault
            if others:
                why = "it has a plan already" if self.has_plan() else f"it has no {PLAN}, and is not empty"
                raise Refused(f"{self.path}: {why}")

    def make(self) -> None:
        """Makes what a folder has in it. Scripts and logs may have what nobody else should see."""
        try:
            self.path.mkdir(mode=0o700, parents=True, exist_ok=True)
            make_own(self.path)
            check_own(self.path)
            for each in (DONE, LOG, AGAIN, LOCK, STEPS):
                (self.path / each).mkdir(exist_ok=True)
            self.note_format()
        except OSError as fault:
            raise Refused(f"{fault.filename}: {fault.strerror}") from fault

    @contextlib.contextmanager
    def held(self) -> Iterator[None]:
        """While nothing is being done in the folder, and nobody else writes it."""
        check_own(self.path)
        try:
            lock = open(self.path / LOCK / FOLDER_LOCK, "ab")
        except OSError as fault:
            raise Refused(f"{fault.filename}: {fault.strerror}") from fault
        with lock:
            try:
                fcntl.flock(lock, fcntl.LOCK_EX | fcntl.LOCK_NB)
            except BlockingIOError:
                raise Busy(f"{self.path}: a step of its plan is being done, or somebody else writes it") from None
            check_ended(self.path, LOG)
            self.put_in_place()
            self.finish_parting()
            yield

    @contextlib.contextmanager
    def made(self) -> Iterator[None]:
        """While a new folder is written; where that cannot be done, nothing of it stays."""
        self.make()
        with self.held():
            if self.has_plan():
                raise Refused(f"{self.path}: somebody else has just written it")
            try:
                yield
            except BaseException:
                for path in self.path.iterdir():
                    shutil.rmtree(path) if path.is_dir() else path.unlink()
                raise

    def plan(self) -> plans.Plan:
        return plans.plan_at(str(self.path / PLAN))

    def names(self) -> dict[int, str]:
        """The names of instances that were made when their type had another one."""
        path = self.path / NAMES
        lines = read_text(str(path)).splitlines() if path.is_file() else []
        return {int(number): name for number, _, name in (line.partition(" ") for line in lines)}

    def ends(self) -> dict[int, str]:
        """The states to which half-made instances are to be brought of which its plan says nothing."""
        return {int(number): state for number, state in self.lines_of_ends() if number.isdecimal()}

    def began(self) -> dict[int, dict[str, str]]:
        """The logs of steps of these that were begun, by their lines."""
        found: dict[int, dict[str, str]] = {}
        for name, line in self.lines_of_ends():
            if not name.isdecimal():
                found.setdefault(int(name.partition(".")[0]), {})[line] = f"{BEGAN}{name}"
        return found

    def lines_of_ends(self) -> list[tuple[str, str]]:
        path = self.path / ENDS
        lines = read_text(str(path)).splitlines() if path.is_file() else []
        return [(name, text) for name, _, text in (line.partition(" ") for line in lines)]

    def text(self) -> str:
        """The text of its plan."""
        return read_text(str(self.path / PLAN), plans.MOST_BYTES)

    def steps(self) -> tuple[Step, ...]:
        return steps_of(self.plan(), str(self.path / PLAN))

    def rollouts(self, count: int) -> tuple[Rollout, ...]:
        """The rollouts in its plan, which has so many actions. One that goes on from all of them was never written whole."""
        path = self.path / ROLLOUTS
        lines = read_text(str(path)).splitlines()
        found = [each for each in map(ROLLOUT.fullmatch, lines) if each]
        if len(found) < len(lines):
            raise Refused(f"{path}: not the numbers of rollouts")
        rollouts = (Rollout(*map(int, each.groups())) for each in found)
        return tuple(each for each in rollouts if each.old < count)

    def part_with(self, names: Iterable[str], plan_text: str) -> None:
        """Notes files that go when this plan is written, and not before."""
        write_whole(self.path / PARTED, "".join(f"{line}\n" for line in (sum_of(plan_text.encode()), *names)))

    def parted(self) -> list[str]:
        """The files that are to go, if the plan for which they were noted has been written."""
        path = self.path / PARTED
        if not path.is_file():
            return []
        plan, *names = read_text(str(path)).splitlines() or [""]
        return names if sum_of((self.path / PLAN).read_bytes()) == plan else []

    def finish_parting(self) -> None:
        """Takes the files away that were noted, also those that an earlier call was ended before."""
        for name in self.parted():
            (self.path / name).unlink(missing_ok=True)
        (self.path / PARTED).unlink(missing_ok=True)

    def marks(self) -> dict[str, Mark]:
        """What is done, by the keys of the steps."""
        gone = set(self.parted())
        try:
            with os.scandir(self.path / DONE) as entries:
                return {entry.name: mark_of(pathlib.Path(entry.path)) for entry in entries if f"{DONE}/{entry.name}" not in gone}
        except OSError as fault:
            raise Refused(f"{fault.filename}: {fault.strerror}") from fault

    def stale(self) -> set[str]:
        """The keys of what is done, and is to be done again."""
        return {key for key, mark in self.marks().items() if mark.more == STALE}

    def done(self, steps: Sequence[Step]) -> set[str]:
        """The keys of what is done. All of it has to be of these steps, and so has what it waited for."""
        marks = self.marks()
        line_of = {step.key: step.line for step in steps} if marks else {}
        for key, mark in sorted(marks.items()):
            if mark.line not in ("", line_of.get(key)) or key not in line_of:
                raise Refused(
                    f"{self.path}: {plans.shown(mark.line or key)} is done in it, which is no such action of this plan; "
                    "a rollout of the plan that is in it would have it"
                )
        for step in steps if marks else ():
            for number in step.waits if step.key in marks else ():
                if steps[number - 1].key not in marks:
                    raise Refused(
                        f"{self.path}: action {step.action.number} is done in it, and action {number}, for which that "
                        "waits, is not"
                    )
        return set(marks)

    def settled(self, steps: Sequence[Step]) -> set[str]:
        """What is done, also while more gets done: a look that misses a mark and sees a later one is not the last."""
        for _ in range(LOOKS):
            before = set(self.marks())
            try:
                done = self.done(steps)
            except Refused:
                if set(self.marks()) == before:
                    raise
                continue
            return done
        return self.done(steps)

    def check_hosts(self, steps: Iterable[Step], hosts: Mapping[int, str]) -> None:
        """Refuses to go on elsewhere than where an instance was made: what is done of it stands there."""
        marks = self.marks()
        for step in steps:
            mark, host = marks.get(step.key), hosts.get(step.action.instance, NO_HOST)
            if mark and mark.host and mark.host != host:
                there, here = (f"on {each}" if each != NO_HOST else "on this machine" for each in (mark.host, host))
                raise Refused(
                    f"{self.path}: {who(step.action)} was begun {there}, and this would go on with it {here}: "
                    "--placement names the host of each instance"
                )

    def begun(self, steps: Iterable[Step], done: set[str]) -> list[Step]:
        """The steps that were begun and are not done. A log is there before its step has all its locks."""
        return [step for step in steps if step.key not in done and is_filled(self.path / LOG / step.key)]

    def write_plan(self, text: str, rollouts: Iterable[Rollout]) -> None:
        lines = "".join(f"{each.old} {each.fresh} {each.end}\n" for each in rollouts)
        write_whole(self.path / ROLLOUTS, lines)
        write_whole(self.path / PLAN, text)

    def drop_files(self, names: Iterable[str], but: str = "", digest: str = "") -> None:
        """Takes away what engines read of another plan, or by other commands."""
        for name in names:
            path = self.path / name
            if name != but and path.exists() and not (digest and digest in head_of(path)):
                path.unlink()


def sum_of(data: bytes) -> str:
    return hashlib.sha256(data).hexdigest()


def is_filled(path: pathlib.Path) -> bool:
    return path.is_file() and path.stat().st_size > 0


def head_of(path: pathlib.Path) -> str:
    with open(path, encoding="utf-8", errors="replace") as file:
        return file.read(4096)


def mark_of(path: pathlib.Path) -> Mark:
    return mark_in(path.read_text("utf-8", "replace"))


def mark_in(text: str) -> Mark:
    """What the text of a mark says."""
    lines = [*text.split("\n"), "", "", ""]
    host, _, address = lines[2].removeprefix("on ").partition(" ") if lines[2].startswith("on ") else ("", "", "")
    return Mark(lines[0], lines[1], host, lines[3] if lines[3].startswith("by ") else "", address or NO_HOST)


def written(plan: plans.Plan) -> str:
    """The text of a plan."""
    made = sum(isinstance(action, New) for action in plan.actions)
    lines = ["metis plan 1", f"instances {made} actions {len(plan.actions)} dups {len(plan.dups)}"]
    for action in plan.actions:
        after = f" after {' '.join(map(str, action.after))}" if action.after else ""
        lines.append(f"{action.number} {line_of(action)}{after}")
    lines += [f"dup {number} {dup.pair} cycle {' '.join(dup.cycle)}" for number, dup in enumerate(plan.dups, 1)]
    return "\n".join([*lines, "end", ""])


def part_of(steps: Iterable[Step], kept: set[str]) -> plans.Plan:
    """The steps of these keys, as a plan of their own: each part of a plan is one that has all that its actions wait for."""
    actions: list[Action] = []
    number_of: dict[int, int] = {}
    for step in steps:
        if step.key in kept:
            number_of[step.action.number] = len(actions) + 1
            after = tuple(number_of[number] for number in step.action.after)
            actions.append(dataclasses.replace(step.action, number=len(actions) + 1, after=after))
    return plans.Plan(tuple(actions), ())
