"""Lists over a changed description: of what stands with what it lacks, and from there to the targets."""

import dataclasses
from collections.abc import Collection, Iterable, Mapping, Sequence

from metis_planner.answers import Refused
from metis_planner.carry import halfway
from metis_planner.carry.course import Course
from metis_planner.carry.folder import BEGAN
from metis_planner.carry.forms import CHANGED, REPLACED, Change
from metis_planner.carry.halfway import Half, Halves, Wanting, Went
from metis_planner.carry.named_wishes import check_users, fewer, numbered
from metis_planner.carry.rebase import Bond, Means, Rebased, rebased
from metis_planner.carry.rollouts import Rollout, change_in
from metis_planner.carry.stands import in_forms, in_order, paths_for, renumbered, types_of
from metis_planner.carry.steps import Step, steps_of
from metis_planner.carry.ways import Way
from metis_planner.text.actions import Action, Bind, Unbind, line_of
from metis_planner.text.configurations import Configuration, after

BEGAN_HERE = "what is lacking"


@dataclasses.dataclass
class Forms:
    """The description with old forms of some instances; its pairs from which nothing is taken anew; and how these are avoided."""

    universe: str
    told: Mapping[int, str]  # by instance the name of its state there
    shunned: frozenset[tuple[str, str]]
    avoided: Sequence[str]

    def __post_init__(self) -> None:
        self.types = types_of(self.universe)

    @classmethod
    def of(cls, course: Course, there: Configuration, old: Sequence[Change]) -> "Forms":
        """With the old forms of these. Only what is replaced is shunned: what is changed in place serves on."""
        universe, told = course.merged(there, old)
        replaced = [change for change in old if change.fate == REPLACED]
        shunned = frozenset((change.kind, told[change.instance]) for change in replaced)
        return cls(universe, told, shunned, avoided_in(replaced, told, {kind.name for kind in course.types}))

    def means(self, course: Course, is_completing: bool = False) -> Means:
        """What instances lack on their ways, but nothing in an old form."""
        return Means(course.judge.helpers(self.universe, self.avoided), course.free, is_completing, self.shunned)


@dataclasses.dataclass
class Front:
    """Lists over the description with old forms of what is replaced alone: what is changed in place has its new form there."""

    course: Course
    halves: Halves
    changes: Sequence[Change]
    forms: Forms

    @classmethod
    def of(cls, course: Course, halves: Halves, there: Configuration, changes: Sequence[Change]) -> "Front":
        return cls(course, halves, changes, Forms.of(course, there, [each for each in changes if each.fate == REPLACED]))

    @property
    def changed(self) -> list[Change]:
        return [change for change in self.changes if change.fate == CHANGED]

    @property
    def states(self) -> dict[int, str]:
        """The states of what has another one here than it had."""
        return {**self.forms.told, **{change.instance: change.meant for change in self.changed}}

    def meant(self, there: Configuration) -> Configuration:
        return in_forms(there, self.forms.types, self.states)

    def completed(self, meant: Configuration, paths: Mapping[int, tuple[str, ...]]) -> Rebased:
        """A list of what stands, and of what that lacks."""
        found = rebased(self.forms.types, meant, paths, self.forms.means(self.course, is_completing=True))
        self.course.judge.replayed(self.forms.universe, found.actions)
        self.course.number(found.actions)
        return found

    def first_way(self, held: Configuration, cut: Iterable[Bond]) -> tuple[Way, Rebased]:
        """What is made and bound before an instance has its new form, while it has the old one; and the list of all by then."""
        course, going = self.course, self.halves.going
        old = Forms.of(course, held, [*(each for each in self.changes if each.fate == REPLACED), *self.changed])
        done = self.as_it_stands(old, held)
        actions = (*done, *bonds(Unbind, sorted(cut), after(done, old.types)))
        went = halfway.gone_on(old.types, actions, going, course.rest, old.means(course), Wanting(course.early, self.changed))
        actions = (*actions, *went.actions)
        course.number(actions)
        meant = self.meant(after(actions, old.types))
        base = self.completed(meant, self.paths_behind(actions, went, old, meant))
        actions = (*actions, *lacked_in(base, after(base.actions, self.forms.types), meant))
        course.number(actions)
        plan = course.judge.judged(old.universe, actions, BEGAN_HERE)
        ends = ends_behind(after(plan.actions, old.types), going)
        return Way(old.universe, plan, len(done), logs=course.logs(going), ends=ends), base

    def as_it_stands(self, old: Forms, held: Configuration) -> tuple[Action, ...]:
        """The list of what stands, each in the form that it has."""
        now = in_forms(held, old.types, old.told)
        means = Means(self.course.judge.helpers(old.universe), self.course.free)
        done = rebased(old.types, now, self.course.paths(now), means).actions
        self.course.number(done)
        return done

    def paths_behind(
        self, actions: Iterable[Action], went: Went, old: Forms, meant: Configuration
    ) -> dict[int, tuple[str, ...]]:
        """The paths of what stands behind a first way: of what went on in it as it went, of others as they came."""
        moved = {action.instance for action in went.actions}
        own = {each: path for each, path in self.course.paths(meant).items() if each not in moved}
        return paths_for(actions, old.types, meant) | own

    def last_way(self, base: Rebased, first: Way | None) -> tuple[Way, Mapping[int, str]]:
        """From what stands by then over what is half made to the targets; and why something half made does not go on."""
        course, judge, universe = self.course, self.course.judge, self.forms.universe
        going = {each: half for each, half in self.halves.going.items() if first is None or each in first.ends}
        went = halfway.gone_on(self.forms.types, base.actions, going, course.rest, self.forms.means(course))
        course.number(went.actions)
        begun = in_order((*base.actions, *went.actions))
        actions = self.gone_on(begun)
        plan = judge.judged(universe, renumbered(actions, len(begun), course.free), "the way on")
        rollouts = rollouts_in(steps_of(plan, "the way on"), len(base.actions), len(begun))
        logs = course.logs(going)
        if first:
            logs = {each: {line: began(each, place) for place, line in enumerate(own)} for each, own in logs.items()}
        return Way(universe, plan, len(base.actions), rollouts, logs=logs), went.left

    def gone_on(self, begun: Sequence[Action]) -> tuple[Action, ...]:
        """The program's way on from a list to the targets, by the wishes."""
        aim, stood = self.course.aim, after(begun, self.forms.types)
        more = fewer(stood, self.changed, self.forms.types, aim.targets)
        wish = numbered(aim.wishes, stood, more, self.forms.avoided)
        check_users(stood, self.changes, wish)
        try:
            answer = self.course.judge.reconfigured(self.forms.universe, begun, wish, aim.targets)
        except Refused as refused:
            raise Refused(aim.wishes.placed(str(refused))) from refused
        if list(map(line_of, answer.actions[: len(begun)])) != list(map(line_of, begun)):
            raise Refused("what was planned does not go on from what stands")
        return answer.actions


def avoided_in(old: Iterable[Change], told: Mapping[int, str], known: Collection[str]) -> list[str]:
    """The old forms as pairs, or as types that the description does not have."""
    return list(dict.fromkeys(each.kind if each.kind not in known else f"{each.kind}:{told[each.instance]}" for each in old))


def began(instance: int, place: int) -> str:
    """The name of the log of a step that was begun, while the list has no such step."""
    return f"{BEGAN}{instance}.{place}"


def ends_behind(there: Configuration, going: Mapping[int, Half]) -> dict[int, str]:
    """The ends of those half-made instances that a list does not bring to them, but of no helper."""
    open_ = {each: half for each, half in going.items() if each not in there.instances or there.instances[each].state != half.end}
    return {each: half.end for each, half in open_.items() if not half.is_helper}


def rollouts_in(steps: Sequence[Step], done: int, begun: int) -> tuple[Rollout, ...]:
    """The change behind so many first actions. What is half made goes on in it, before anything goes."""
    if len(steps) == done:
        return ()
    if len(steps) == begun:
        return (Rollout(done, begun, begun),)
    return (dataclasses.replace(change_in(steps, begun), old=done),)


def bonds(made: type[Bind] | type[Unbind], lines: Iterable[Bond], there: Configuration) -> list[Bind | Unbind]:
    """Bindings that are made or let go, as actions."""
    kinds = {each: it.type for each, it in there.instances.items()}
    return [made(own, kinds[own], port, to, kinds[to]) for port, own, to in lines]


def lacked_in(base: Rebased, stood: Configuration, meant: Configuration) -> list[Action]:
    """The actions of a list that make and bind what is lacking in what is meant to stand."""
    wanted, more = set(base.added), set(base.added)
    own = set(meant.instances)
    while more:
        more = {action.provider for action in base.actions if isinstance(action, Bind) and action.instance in wanted} - wanted - own
        wanted |= more
    binds = [bond for bond in sorted(stood.bindings - meant.bindings) if bond[1] in own]
    return [*(action for action in base.actions if action.instance in wanted), *bonds(Bind, binds, stood)]
