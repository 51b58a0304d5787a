"""Takes over what runs already: metis adopt UNIVERSE TARGET .. --commands FILE --to FOLDER. Nothing is started and nothing ended.

It plans from nothing, or takes a plan that was kept, and asks the checks of all steps twice. With --look N the instances get the
numbers by which they are found. Marked is the largest part of the plan that is consistent with what the checks said:

  a step whose check says no, or cannot be asked, is not done, and nothing that waits for it is;
  a step whose check says yes is done, unless it waits for such a one; and then all that it waits for is done;
  a step without a command is done if all that it waits for is done, which may be nothing if its instance has no command at all;
  of anything else nobody knows, and it is not marked: `make` does it (again).

metis adopt compose.yaml needs no more words: it finds each container by Compose's labels.

A deletion is never marked. A check that says yes for an instance that there is not is blind, and counts only with --trust TYPE.
"""

import argparse
import dataclasses
import os
import pathlib
import re
import tempfile
import time
import tomllib
from collections.abc import Mapping, Sequence

from metis_planner.answers import Answer, Refused
from metis_planner.carry.agreeing import asked
from metis_planner.carry.ahead import answered
from metis_planner.carry.calling import Call
from metis_planner.carry.commands import commands_of, read_commands
from metis_planner.carry.compose import COMMANDS, CONTAINERS, FOLDER, TARGET, Container, Project, is_project, project_at, taken
from metis_planner.carry.configuration import configured, is_of
from metis_planner.carry.exporting import exported
from metis_planner.carry.finding import MOST_LOOKED_FOR, UNKNOWN, YES, Said, Search, all_numbers, front, verdicts
from metis_planner.carry.folder import DONE, Folder, written
from metis_planner.carry.jobs import job_lines_in
from metis_planner.carry.judging import Judge
from metis_planner.carry.request import Request
from metis_planner.carry.stands import types_of
from metis_planner.carry.steps import Step, lanes, name_of, steps_of, who
from metis_planner.carry.up import document
from metis_planner.carry.writing import sync_folder, write_whole
from metis_planner.text import plans
from metis_planner.text.actions import Action, Move, New, in_words, with_numbers
from metis_planner.text.reading import read_text
from metis_planner.text.terminal import say

NUMBER = f"(?:{plans.NUMBER.pattern})"
NUMBERS = re.compile(rf"({plans.NAME.pattern})=({NUMBER}(?:,{NUMBER})*)")
PLACE = re.compile(rf"({plans.NAME.pattern}#{NUMBER})=({plans.NAME.pattern})")


def add_arguments(parser: argparse.ArgumentParser) -> None:
    parser.add_argument("universe", metavar="UNIVERSE", help="a universe, a sketch or a Compose file")
    parser.add_argument("targets", metavar="TARGET", nargs="*", help="TYPE:STATE or port:PORT")
    parser.add_argument("--plan", metavar="PLAN", help="the plan that was carried out, if it was kept, in place of targets")
    parser.add_argument("--commands", metavar="FILE", help="what each step means (TOML), with checks")
    parser.add_argument("--to", metavar="FOLDER", help="a folder that is not there yet")
    parser.add_argument("--hosts", metavar="FILE", help="hosts with their rooms")
    parser.add_argument("--on", metavar="NAME=HOST", action="append", default=[], help="where an instance runs, as db#1=left")
    parser.add_argument("--look", type=int, metavar="N", default=0, help="look for instances with the numbers below N")
    parser.add_argument("--number", metavar="TYPE=N,..", action="append", default=[], help="the numbers of a type's instances")
    parser.add_argument("--trust", metavar="TYPE", action="append", default=[], help="take a blind check of the type for true")
    parser.add_argument("--yes", action="store_true", help="do not ask")


@dataclasses.dataclass
class Trial:
    """A plan that is written into a folder of ours, so that its checks may be asked."""

    call: Call
    plan: plans.Plan
    placement: str | None = None
    strays: Sequence[Container] = ()  # of a Compose project: containers that are none of the plan's

    def __post_init__(self) -> None:
        call = self.call
        said = answered(["replay"], [call.judge.path(call.universe), call.judge.path(written(self.plan))])
        if not said.startswith("good"):
            raise Refused(f"the plan: {said.strip()}")
        self.steps = steps_of(self.plan, "the plan")
        self.idle = {step.key for step, rule in call.rules(self.steps, {}) if rule is None or rule.does_nothing}
        self.placement = call.placement(self.plan.actions, call.universe, ())
        self.folder = Folder(f"{call.judge.path('')}.f")
        self.write(str(self.folder.path))

    def write(self, to: str) -> None:
        """Writes the plan into a folder."""
        judge = self.call.judge
        texts = (pathlib.Path(judge.path(text)) for text in (written(self.plan), self.call.universe))
        plan, universe = texts
        placement = pathlib.Path(judge.path(self.placement)) if self.placement else None
        project = self.call.request.project
        commands = judge.path(project.commands) if project else self.call.request.commands
        exported(dataclasses.replace(self.call.request, to=to, commands=commands), plan, universe, placement)
        if project:
            self.strays = write_containers(project, self.steps, pathlib.Path(to))


def write_containers(project: Project, steps: Sequence[Step], folder: pathlib.Path) -> list[Container]:
    """Says in a folder which container each instance is; and returns those that are none of the plan's."""
    made = [(step.action.type, name_of(step.action.type, step.action.instance)) for step in steps if isinstance(step.action, New)]
    found, strays = taken(project, made)
    (folder / CONTAINERS).mkdir(mode=0o700, exist_ok=True)
    for name, text in found.items():
        write_whole(folder / CONTAINERS / name, text)
    return strays


def with_project(arguments: argparse.Namespace) -> Project | None:
    """The Compose project that is named in the place of a universe, and what it says of the other words."""
    project = None
    if is_project(arguments.universe) and not arguments.commands:
        project = project_at(arguments.universe)
        arguments.targets = arguments.targets or [TARGET]
        arguments.to = arguments.to or os.path.join(os.path.dirname(arguments.universe), FOLDER)
        arguments.commands = os.path.join(arguments.to, COMMANDS)
        # An image is found by its name, of which there is one.
        arguments.trust += [kind.name for kind in types_of(project.document) if kind.name.startswith("image/")]
    if not arguments.commands or not arguments.to:
        raise Refused("--commands FILE and --to FOLDER are wanted")
    return project


def run(arguments: argparse.Namespace) -> Answer:
    project = with_project(arguments)
    final = Folder(arguments.to)
    if final.has_plan():
        raise Refused(f"{final.path}: it has a plan: `metis verify` asks of what is done in it")
    final.check_empty()
    if arguments.look > MOST_LOOKED_FOR:
        raise Refused(f"--look {arguments.look}: at most {MOST_LOOKED_FOR} numbers are looked for")
    with tempfile.TemporaryDirectory(prefix="metis-adopt-") as name:
        call = call_of(arguments, final, pathlib.Path(name), project)
        plan = plan_of(arguments, call)
        search = Search(*begun(call, plan), arguments.look, numbers_given(arguments.number, plan))
        search.find()
        number_of = all_numbers(plan, search.number_of())
        trial = Trial(call, renumbered(plan, number_of))
        said = verdicts(trial.folder, trial.steps, arguments.trust, search.blind)
        done = front(trial.steps, {key: each.verdict for key, each in said.items()}, trial.idle)
        tell(trial.steps, said, done, search, number_of)
        for each in trial.strays:
            say(f"{each.name} runs too, and is none of the plan's: nothing here will ever take it away")
        question = f"Mark {len(done)} of {len(trial.steps)} actions as done in {arguments.to}, and start nothing?"
        if not asked(question, arguments.yes):
            return Answer("", ("nothing was done",), 1)
        adopt(call, trial, done)
    note = f"{len(done)} of {len(trial.steps)} actions are marked; `metis up` or make does the others"
    return Answer("", (note,), 0 if len(done) == len(trial.steps) else 1)


def call_of(arguments: argparse.Namespace, final: Folder, texts: pathlib.Path, project: Project | None) -> Call:
    """What is asked for, as `metis up` would be asked."""
    found = configured()
    protect = tuple(found["protect"]) if "protect" in found and is_of(found, arguments.to) else None
    request = Request(
        arguments.universe, tuple(arguments.targets), arguments.commands, arguments.to, hosts=arguments.hosts, protect=protect
    )
    request = dataclasses.replace(request, project=project)
    commands = commands_of(tomllib.loads(project.commands)) if project else read_commands(arguments.commands)
    universe = project.document if project else document(arguments.universe)
    return Call(request, final, Judge(texts), universe, commands, hosts=places(arguments))


def places(arguments: argparse.Namespace) -> dict[int, str]:
    """The hosts on which instances run, by their numbers."""
    found = [PLACE.fullmatch(word) for word in arguments.on]
    for word, each in zip(arguments.on, found):
        if each is None or not arguments.hosts:
            raise Refused(f"--on {word}: it is NAME=HOST, as db#1=left, and --hosts names the hosts")
    return {int(each[1].rpartition("#")[2]): each[2] for each in found if each}


def plan_of(arguments: argparse.Namespace, call: Call) -> plans.Plan:
    """The plan that was kept, or the one from nothing, which is the same each time."""
    if arguments.plan:
        return plans.plan_of(read_text(arguments.plan, plans.MOST_BYTES), arguments.plan)
    if not arguments.targets:
        raise Refused("a target is not said, and --plan names no plan that was kept")
    path = call.judge.path(call.universe)
    return plans.plan_of(answered(["plan", *arguments.targets], [path], {path: arguments.universe}), "the plan")


def begun(call: Call, plan: plans.Plan) -> tuple[Folder, Sequence[Step]]:
    """The plan with numbers of its own, in a folder where checks may be asked."""
    trial = Trial(dataclasses.replace(call, hosts={}), plan)
    return trial.folder, trial.steps


def numbers_given(words: Sequence[str], plan: plans.Plan) -> dict[str, list[int]]:
    """The numbers that were said for a type's instances."""
    counts: dict[str, int] = {}
    for action in plan.actions:
        if isinstance(action, New):
            counts[action.type] = counts.get(action.type, 0) + 1
    given: dict[str, list[int]] = {}
    for word in words:
        found = NUMBERS.fullmatch(word)
        if found is None:
            raise Refused(f"--number {word}: it is TYPE=N,.. with the numbers of its instances")
        numbers = [int(each) for each in found[2].split(",")]
        if len(numbers) != counts.get(found[1], 0):
            raise Refused(f"--number {word}: the plan has {counts.get(found[1], 0)} of {found[1]}")
        given[found[1]] = numbers
    every = [number for numbers in given.values() for number in numbers]
    if len(set(every)) < len(every):
        raise Refused("--number: no two instances have the same number")
    return given


def renumbered(plan: plans.Plan, number_of: Mapping[int, int]) -> plans.Plan:
    """The plan by other numbers of its instances."""
    return plan._replace(actions=tuple(with_numbers(action, number_of) for action in plan.actions))


def tell(
    steps: Sequence[Step], said: Mapping[str, Said], done: set[str], search: Search, number_of: Mapping[int, int]
) -> None:
    """Says what was found; refuses where of some nobody knows."""
    for old, new in sorted(number_of.items()):
        if old != new:
            say(f"instance {old} of the plan is {new} here")
    print("".join(f"{line}\n" for line in report(steps, said, done)), end="", flush=True)
    for each in search.strays():
        say(f"{each} runs too, and is none of the plan's: nothing here will ever take it away")
    unknown = [step for step in steps if step.key in said and said[step.key].verdict == UNKNOWN]
    if unknown:
        raise Refused(f"of {who(unknown[0].action)} nobody knows, so nothing was written")


def report(steps: Sequence[Step], said: Mapping[str, Said], done: set[str]) -> list[str]:
    """A line for each instance: the state to which it is marked, what its checks said, and what is left."""
    lines = []
    for lane in lanes(steps).values():
        own = [step for step in lane if step.key in done and isinstance(step.action, New | Move)]
        state = "-" if not own else state_after(own[-1].action)
        left = [in_words(step.action) for step in lane if step.key not in done]
        words = "; ".join(words_for(step, said[step.key]) for step in lane if step.key in said)
        more = f" | left: {', '.join(left)}" if left else ""
        lines.append(f"{who(lane[0].action):<16} {state:<11} {words or 'no check'}{more}")
    return lines


def state_after(action: Action) -> str:
    """The state of an instance after the last of its actions that has a check."""
    return action.end if isinstance(action, Move) else "made"


def words_for(step: Step, said: Said) -> str:
    what = step.action.end if isinstance(step.action, Move) else step.action.type
    reason = f" ({said.reason})" if said.verdict != YES and said.reason else ""
    return f"{what}: {said.verdict}{reason}"


def adopt(call: Call, trial: Trial, done: set[str]) -> None:
    """Writes the folder, in which what is done for sure is marked."""
    trial.write(call.request.to)
    with call.folder.held():
        mark(call.folder, call.folder.steps(), done)
    call.note(call.universe)


def mark(folder: Folder, steps: Sequence[Step], done: set[str]) -> None:
    """Marks steps; what is waited for first, so that what is marked is a part of the plan at each moment."""
    now = time.strftime("%Y-%m-%dT%H:%M:%SZ", time.gmtime())
    hosts = {job.key: job.host for job in job_lines_in(folder.path)}
    for step in steps:
        if step.key in done:
            fresh = folder.path / f".mark.{step.key}"
            write_whole(fresh, f"{step.line}\n\non {hosts[step.key]} :\nadopted {now}\n")
            fresh.replace(folder.path / DONE / step.key)
    sync_folder(folder.path / DONE)
