"""What make and ninja share: a plan with its commands, as it is written into a folder."""

import argparse
import dataclasses
import functools
import hashlib
import json
import re
from collections.abc import Callable, Collection, Iterable, Iterator, Mapping, Sequence
from typing import assert_never

from metis_planner.answers import Answer, Refused
from metis_planner.carry import skeleton
from metis_planner.carry.commands import Commands, Rule, read_commands
from metis_planner.carry.engines import Engine
from metis_planner.carry.folder import STALE, Folder, written
from metis_planner.carry.jobs import JobLine
from metis_planner.carry.origin import BasePlan, Ground, origin_of_new, origin_there
from metis_planner.carry.patterns import subject
from metis_planner.carry.placement import held, read_placement
from metis_planner.carry.possible import PossibleActions
from metis_planner.carry.rollouts import Rollout
from metis_planner.carry.script import write_folder
from metis_planner.carry.steps import Bound, Step, steps_of
from metis_planner.look.sketch import document_of
from metis_planner.text import plans
from metis_planner.text.actions import Action, Bind, Delete, Move, New, Unbind
from metis_planner.text.over_plans import Placement
from metis_planner.text.documents import MOST_BYTES
from metis_planner.text.reading import read_bytes
from metis_planner.text.universes import types_in

NOTHING = ":"  # stands for a host, or a state, that there is not
WITHOUT_A_RULE = "0"
DIGEST_LENGTH = 12
MOST_KINDS = 12
OLD_FORM = re.compile(r"@old[1-9][0-9]*$")
MARKED = "; one with run = '' would only mark such actions as done"
LAX = "; --lax only marks such actions as done"


def nothing() -> None:
    """What goes with a plan that `metis make` writes."""


def add_arguments(parser: argparse.ArgumentParser) -> None:
    parser.add_argument(
        "plan", metavar="PLAN", help="what `metis plan` or `metis rollout` printed; - is standard input"
    )
    parser.add_argument("--commands", metavar="FILE", help="what each step means (TOML)")
    parser.add_argument("--to", metavar="FOLDER", help="made where it is not there; what is done in it stays done")
    help_text = "print a commands file for PLAN, with each step to fill in, and do nothing else"
    parser.add_argument("--skeleton", action="store_true", help=help_text)
    parser.add_argument(
        "--from",
        metavar="OLD",
        dest="olds",
        action="append",
        default=[],
        help="the plan of which PLAN is a rollout, where FOLDER has none",
    )
    parser.add_argument("--waits-alone", action="store_true", help="what goes on from another plan is no rollout")
    parser.add_argument("--placement", metavar="FILE", help="what `metis place` printed for PLAN")
    parser.add_argument(
        "--universe", metavar="FILE", help="what may happen besides what the plan has: a step may be for any of it"
    )
    help_text = "take steps that fit nothing, and actions without a step, which are only marked as done"
    parser.add_argument("--lax", action="store_true", help=help_text)


@dataclasses.dataclass(frozen=True, kw_only=True)
class ExportRequest(Ground):
    """What is to be written into a folder: a plan, its commands, and the files that say more of it."""

    commands: str
    universe: str | None = None
    placement: str | None = None
    is_lax: bool = False
    # Whether `up` calls: it has looked at the commands, which may be for what is gone too, and at what of the plan is done.
    is_up: bool = False

    @classmethod
    def from_arguments(cls, arguments: argparse.Namespace) -> "ExportRequest":
        if not arguments.commands or not arguments.to:
            raise Refused("--commands FILE and --to FOLDER are wanted; --skeleton prints a commands file to begin with")
        return cls(
            plan=arguments.plan,
            to=arguments.to,
            olds=tuple(arguments.olds),
            is_alone=arguments.waits_alone,
            commands=arguments.commands,
            universe=arguments.universe,
            placement=arguments.placement,
            is_lax=arguments.lax,
        )


@dataclasses.dataclass(frozen=True)
class Job:
    """A step with its rule, if that does something, and its line in the file `jobs`."""

    step: Step
    rule: Rule | None
    line: JobLine

    @property
    def words(self) -> str:
        """By which `run` is called."""
        return str(self.line)


@dataclasses.dataclass(frozen=True)
class Export:
    """A plan that was read, with what its steps mean."""

    plan: plans.Plan
    steps: tuple[Step, ...]
    commands: Commands
    hosts: dict[int, str]
    rules: tuple[Rule | None, ...]  # of the steps
    rollouts: tuple[Rollout, ...] = ()
    sources: Mapping[str, str] = dataclasses.field(default_factory=dict)  # of types: what they are called there
    sums: Mapping[str, str] = dataclasses.field(default_factory=dict)  # of types: what tells their thing from an earlier form
    names: Mapping[int, str] = dataclasses.field(default_factory=dict)  # of instances that were made under another name
    done: frozenset[str] = frozenset()  # the keys of what is done
    again: frozenset[str] = frozenset()  # and of what of it is to be done again

    @functools.cached_property
    def plan_text(self) -> str:
        return written(self.plan)

    @functools.cached_property
    def leaves_nothing(self) -> bool:
        """Whether nothing stands at the end, so that a delete takes a part of all away and does not make room for another."""
        return sum(isinstance(step.action, New) - isinstance(step.action, Delete) for step in self.steps) == 0

    @functools.cached_property
    def digest(self) -> str:
        """What tells this export from another one into the same folder."""
        parts = (self.plan_text, self.commands, sorted(self.hosts.items()), self.rollouts, sorted(self.sources.items()))
        more = [part for part in (sorted(self.names.items()), sorted(self.again), sorted(self.sums.items())) if part]
        return hashlib.sha256("\n".join(map(str, (*parts, *more))).encode()).hexdigest()[:DIGEST_LENGTH]

    def host(self, instance: int) -> str:
        return self.hosts.get(instance, NOTHING)

    def jobs(self) -> Iterator[Job]:
        """The steps in the order of the plan."""
        for step, each in zip(self.steps, self.rules):
            rule = None if each is None or each.does_nothing else each
            yield Job(step, rule, self.line_of(step, rule))

    def line_of(self, step: Step, rule: Rule | None) -> JobLine:
        action = step.action
        return JobLine(
            key=step.key,
            rule=str(rule.number) if rule else WITHOUT_A_RULE,
            action=str(action.number),
            host=self.host(action.instance),
            verb=action.verb,
            instance=str(action.instance),
            type=action.type,
            more=self.more_of(step),
            bound=tuple(map(self.as_named, step.bound)),
        )

    def more_of(self, step: Step) -> tuple[str, ...]:
        """What an action has besides its instance, in words of `run`."""
        match step.action:
            case New():
                return ()
            case Delete():
                return (f"{NOTHING}{step.state}",)
            case Move(start=start, end=end):
                return (start, end)
            case Bind(port=port, provider=provider, provider_type=kind) | Unbind(port=port, provider=provider, provider_type=kind):
                return (port, str(provider), kind, self.host(provider))
            case _:
                assert_never(step.action)

    def as_named(self, bound: Bound) -> str:
        """PORT=NAME, by the name under which the provider was made."""
        return f"{bound.port}={self.names.get(bound.instance, bound.name)}"


def run(arguments: argparse.Namespace, engine: Engine) -> Answer:
    """What the word of an engine answers: it writes a plan into its folder, or prints commands for it."""
    if arguments.skeleton:
        return Answer(skeleton_for(arguments.plan, arguments.universe))
    return Answer("", exported(ExportRequest.from_arguments(arguments), engine))


def exported(request: ExportRequest, engine: Engine, noted: Callable[[], None] = nothing) -> list[str]:
    """Writes the plan into its folder, with the file that the engine reads, and with what goes with it; what there is to say."""
    folder = Folder(request.to)
    handed, notes = handed_in(request)
    if folder.has_plan():
        folder.make()
        with folder.held():
            origin = origin_there(folder, handed.plan, handed.steps, request)
            folder.check_hosts(handed.steps, handed.hosts)
            write_folder(folder, *whole(handed, origin, engine), engine.file)
            noted()
    else:
        folder.check_empty()
        origin = origin_of_new(handed.plan, handed.steps, request)
        export, text = whole(handed, origin, engine)
        with folder.made():
            write_folder(folder, export, text, engine.file)
            noted()
    return [*origin.notes, *notes]


def skeleton_for(path: str, universe: str | None) -> str:
    """A commands file for the plan that the words name, and for all that may happen in its universe, if they name that."""
    plan = plans.plan_at(path)
    if not universe:
        return skeleton.text_of(plan, PossibleActions())
    document = document_at(universe)
    possible = PossibleActions(types_in(document, universe))
    comment = json.loads(document).get("comment")
    return skeleton.text_of(plan, possible, comment if isinstance(comment, str) else "")


def whole(handed: Export, origin: BasePlan, engine: Engine) -> tuple[Export, str]:
    """The export with its rollouts, and what an engine reads of it."""
    export = dataclasses.replace(handed, rollouts=origin.rollouts)
    return export, "".join(engine.text_of(export))


def handed_in(request: ExportRequest) -> tuple[Export, list[str]]:
    """What is asked for, before it is known what there is in the folder; and notes."""
    plan = plans.plan_at(request.plan)
    steps = steps_of(plan, request.plan)
    commands = read_commands(request.commands)
    placement = read_placement(request.placement, plan) if request.placement else Placement(plan, {}, {})
    try:
        commands.check_hosts(placement.host_of.values())
        possible = possible_of(steps, request.universe)
        if not request.is_lax and not request.is_up:
            commands.check_fits(possible)
    except Refused as refused:
        raise Refused(f"{request.commands}: {refused}") from refused
    folder = Folder(request.to)
    marks = folder.marks() if folder.has_plan() else {}
    rules, without = rules_of(steps, commands, possible, marks if request.is_up else ())
    if without and not request.is_lax:
        raise Refused(f"{request.commands}: {no_rule(without, '' if request.is_up else LAX)}")
    notes = [f"nothing is done for {kinds_of(without)}: no step of the commands fits"] if without else []
    sources, sums = (told_in(request.universe, key) if request.universe else {} for key in ("source", "sum"))
    again = frozenset(key for key, mark in marks.items() if mark.more == STALE)
    whole = Export(plan, held(placement, steps), commands, placement.host_of, rules, sources=sources, names=folder.names())
    return dataclasses.replace(whole, sums=sums, done=frozenset(marks), again=again), notes


def told_in(path: str, key: str) -> dict[str, str]:
    """What an importer says of types by this key, for those of a universe of which it says that; of standard input none."""
    if path == "-":
        return {}
    document = document_at(path)
    types_in(document, path)  # refuses what is no universe
    types = json.loads(document).get("types", ())
    found = {kind["name"]: kind[key] for kind in types if isinstance(kind.get(key), str)}
    for name, text in found.items():
        if not text.isprintable() or "'" in text:
            raise Refused(f"{path}: the {key} of {name} has characters that no step can be handed")
    return found


def possible_of(steps: Sequence[Step], universe: str | None) -> PossibleActions:
    """What a step may be for: what happens in the plan, and all that may in the universe, if that is named."""
    found = PossibleActions(types_in(document_at(universe), universe) if universe else None)
    for step in steps:
        found.add(step.action)
    return found


def document_at(universe: str) -> bytes:
    """The document of a universe, which may be a sketch."""
    return document_of(universe).encode() if universe.endswith(".sketch") else read_bytes(universe, MOST_BYTES)


def subjects(action: Action, possible: PossibleActions) -> Iterator[str]:
    """The texts with which patterns are compared: of a move into an old form also those of the moves into its state."""
    yield subject(action)
    if not isinstance(action, Move):
        return
    after = OLD_FORM.sub("", action.end)
    if after != action.end:
        moves = sorted(possible.moves.get(action.type, ()))
        yield from (f"{action.type}: {one} -> {other}" for one, other in moves if other == after)


def rules_of(
    steps: Iterable[Step], commands: Commands, possible: PossibleActions, done: Collection[str]
) -> tuple[tuple[Rule | None, ...], dict[str, int]]:
    """The rule of each step; and how often there is none, by what the steps are, for those that are not done."""
    rule_of: dict[str, Rule | None] = {}
    without: dict[str, int] = {}
    rules = []
    for step in steps:
        text = subject(step.action)
        if text not in rule_of:
            found = (commands.patterns.first(each) for each in subjects(step.action, possible))
            place = next((each for each in found if each is not None), None)
            rule_of[text] = None if place is None else commands.rules[place]
        rules.append(rule_of[text])
        if rules[-1] is None and step.key not in done:
            without[text] = without.get(text, 0) + 1
    return tuple(rules), without


def no_rule(without: dict[str, int], more: str = "") -> str:
    """That no step fits some actions."""
    return f"no step fits {kinds_of(without)}{more or MARKED}"


def kinds_of(counts: dict[str, int]) -> str:
    """The first of some kinds of actions, each with how many there are."""
    kinds = [text if count == 1 else f"{text} ({count} times)" for text, count in counts.items()]
    more = f" and {len(kinds) - MOST_KINDS} more kinds" if len(kinds) > MOST_KINDS else ""
    return f"{', '.join(kinds[:MOST_KINDS])}{more}"
