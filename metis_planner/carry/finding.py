"""What the checks of a plan's steps say of what runs already: under which numbers it runs, and what of it is done for sure."""

import concurrent.futures
import dataclasses
import subprocess
import time
from collections.abc import Collection, Iterable, Mapping, Sequence
from typing import NamedTuple

from metis_planner.answers import Refused
from metis_planner.carry.folder import Folder
from metis_planner.carry.jobs import JobLine
from metis_planner.carry.steps import Step, lanes
from metis_planner.carry.verify import SAID, has_check_of, jobs_of
from metis_planner.text import plans
from metis_planner.text.actions import Delete, Move, New
from metis_planner.text.terminal import plain

YES, NO, UNKNOWN, BLIND = "yes", "no", "not known", "blind"
DECOY = 900_001  # the number of an instance that there is not
AT_ONCE, ROUNDS, SECONDS_BETWEEN = 16, 2, 1.0
LONGEST = 100
MOST_LOOKED_FOR = 1_000


class Said(NamedTuple):
    """What a check says, and why."""

    verdict: str
    reason: str = ""


def ask(folder: Folder, job: JobLine) -> Said:
    """What the check of a step says."""
    call = ["./run", "-c", *job.words()]
    done = subprocess.run(
        call, cwd=folder.path, stdin=subprocess.DEVNULL, capture_output=True, text=True, errors="replace", check=False
    )
    lines = [line for line in (done.stderr + done.stdout).splitlines() if line.strip()]
    if done.returncode or not lines or not lines[-1].startswith(SAID):
        return Said(UNKNOWN, plain(lines[-1], LONGEST) if lines else "")
    status = lines.pop().removeprefix(SAID)
    return Said(YES if status == "0" else NO, plain(lines[-1], LONGEST) if lines else f"status {status}")


def ask_all(folder: Folder, jobs: Iterable[JobLine]) -> list[Said]:
    with concurrent.futures.ThreadPoolExecutor(AT_ONCE) as pool:
        return list(pool.map(lambda job: ask(folder, job), jobs))


def for_number(step: Step, job: JobLine, number_of: Mapping[int, int], own: int) -> JobLine:
    """A step's job for an instance of another number; what it is bound to has the numbers found so far."""
    bound = [f"{each.port}={each.name_by(number_of.get(each.instance, each.instance))}" for each in step.bound]
    return job.for_instance(own, bound)


@dataclasses.dataclass
class Search:
    """The numbers under which the instances of a plan run: those that are given, and those that checks find below `look`."""

    folder: Folder
    steps: Sequence[Step]
    look: int
    given: Mapping[str, Sequence[int]]
    open: dict[str, list[int]] = dataclasses.field(default_factory=dict)  # what was found of types that are not settled

    def __post_init__(self) -> None:
        self.jobs = jobs_of(self.folder, self.steps)
        self.lanes: dict[str, list[list[Step]]] = {}
        for lane in lanes(self.steps).values():
            self.lanes.setdefault(lane[0].action.type, []).append(lane)
        last = {kind: self.last_checked(own[0]) for kind, own in self.lanes.items()}
        self.checked = {kind: step for kind, step in last.items() if step is not None}
        # A check that says yes for an instance that there is not says nothing.
        self.blind = {kind for kind, step in self.checked.items() if self.asked(step, {}, [DECOY])[0].verdict != NO}
        self.settled = {kind: list(numbers) for kind, numbers in self.given.items()}

    def last_checked(self, lane: Iterable[Step]) -> Step | None:
        found = [step for step in lane if isinstance(step.action, Move) and has_check_of(self.folder, self.jobs[step.key])]
        return found[-1] if found else None

    def asked(self, step: Step, number_of: Mapping[int, int], numbers: Iterable[int]) -> list[Said]:
        return ask_all(self.folder, [for_number(step, self.jobs[step.key], number_of, number) for number in numbers])

    def number_of(self) -> dict[int, int]:
        """The number of each instance of the plan where it runs, as far as that is settled."""
        pairs = ((lane, number) for kind, found in self.settled.items() for lane, number in zip(self.lanes[kind], found))
        return {lane[0].action.instance: number for lane, number in pairs}

    @property
    def taken(self) -> set[int]:
        return {number for found in self.settled.values() for number in found}

    def find(self) -> None:
        """Asks until nothing more is settled: what is bound to others is found when these are."""
        is_new = self.look > 0
        while is_new:
            free = [number for number in range(self.look) if number not in self.taken]
            for kind, step in self.checked.items():
                if kind not in self.settled and kind not in self.blind:
                    said = self.asked(step, self.number_of(), free)
                    self.open[kind] = [number for number, each in zip(free, said) if each.verdict == YES]
            is_new = self.settle_one()
        self.check_clear()

    def settle_one(self) -> bool:
        """Settles a type of which as many are found as the plan has, and for none of which another type says yes as well."""
        for kind, found in self.open.items():
            if kind not in self.settled and len(found) == len(self.lanes[kind]) and not self.rivals(kind).intersection(found):
                self.settled[kind] = found
                return True
        return False

    def rivals(self, kind: str) -> set[int]:
        """The numbers of other types that are not settled, and of which no more than wanted are found."""
        others = [each for each in self.open if each != kind and each not in self.settled]
        return {number for each in others if len(self.open[each]) <= len(self.lanes[each]) for number in self.open[each]}

    def check_clear(self) -> None:
        unclear = {kind: found for kind, found in self.open.items() if kind not in self.settled and found}
        if unclear:
            rows = [f"{kind}: {len(self.lanes[kind])} wanted, found {names(found)}" for kind, found in unclear.items()]
            raise Refused(f"which is which cannot be told: {'; '.join(rows)}. Say it by --number TYPE=N,..")

    def strays(self) -> list[str]:
        """What was found besides, and is none of the plan's."""
        return [f"{kind}#{number}" for kind, found in self.open.items() for number in found if number not in self.taken]


def names(numbers: Iterable[int]) -> str:
    return ", ".join(f"#{each}" for each in numbers)


def all_numbers(plan: plans.Plan, found: Mapping[int, int]) -> dict[int, int]:
    """The number of each instance of a plan: the one that was found, else its own, else one that nobody has."""
    number_of, taken = dict(found), set(found.values())
    made = [action.instance for action in plan.actions if isinstance(action, New)]
    fresh = max([*taken, *made], default=0) + 1
    for instance in made:
        if instance not in number_of:
            number_of[instance] = fresh if instance in taken else instance
            fresh += instance in taken
            taken.add(number_of[instance])
    return number_of


def verdicts(folder: Folder, steps: Sequence[Step], trusted: Collection[str], blind: Collection[str]) -> dict[str, Said]:
    """What the checks say, twice alike. Of an instance the last state that holds tells of all before it."""
    jobs = jobs_of(folder, steps)
    asked_of = [step for step in steps if isinstance(step.action, New | Move) and has_check_of(folder, jobs[step.key])]
    rounds = []
    for turn in range(ROUNDS):
        time.sleep(SECONDS_BETWEEN if turn else 0)
        rounds.append(ask_all(folder, [jobs[step.key] for step in asked_of]))
    found = {step.key: agreed(step, said, trusted, blind) for step, *said in zip(asked_of, *rounds)}
    for lane in lanes(steps).values():  # who is in a later state has left the earlier ones
        is_later = False
        for step in reversed(lane):
            if is_later and step.key in found:
                found[step.key] = Said(YES, "by its later state")
            is_later = is_later or found.get(step.key, Said("")).verdict == YES
    return found


def agreed(step: Step, said: Sequence[Said], trusted: Collection[str], blind: Collection[str]) -> Said:
    """What a check says, if it says so each time, and may be believed."""
    kind = step.action.type
    if len({each.verdict for each in said}) > 1:
        return Said(UNKNOWN, "it says now yes and now no")
    if said[-1].verdict == YES and kind in blind and kind not in trusted:
        return Said(BLIND, f"it says yes also for {kind}#{DECOY}, which there is not; --trust {kind}")
    return said[-1]


def front(steps: Sequence[Step], verdict_of: Mapping[str, str], idle: Collection[str] = ()) -> set[str]:
    """The keys of what is done for sure: the greatest part of the plan that no check denies, and to which a check leads that says yes.

    Of the idle ones, which do nothing, also those are done that only wait for what is done; the first one of an instance if there is
    nothing to be done for it at all.
    """
    denied: set[int] = set()
    for step in steps:
        says_no = verdict_of.get(step.key) in (NO, UNKNOWN)
        if says_no or denied.intersection(step.waits) or isinstance(step.action, Delete):
            denied.add(step.action.number)
    held: set[int] = set()
    for step in reversed(steps):
        if step.action.number not in denied and (verdict_of.get(step.key) == YES or step.action.number in held):
            held.update((step.action.number, *step.waits))
    alone = {lane[0].key for lane in lanes(steps).values() if all(step.key in idle for step in lane)}
    for step in steps:
        is_behind = held.issuperset(step.waits) if step.waits else step.key in alone
        if step.key in idle and step.action.number not in denied and is_behind:
            held.add(step.action.number)
    return {step.key for step in steps if step.action.number in held}
