"""What is half made: instances that the plan in a folder was still to bring to another state, and how they go on to it.

An instance is half made if it stands, or its making was begun, and the plan in the folder would have moved it further. Its end is
the state in which that plan would have left it. Where the description still has that state, the instance goes on to it, from the
last state on its path that is as the description says. The rest of the plan is followed in its order; what an instance
lacks on its way by the description as it is now is taken from what stands, else from another half-made one, which goes on before,
else made by the program. What was not begun is not made here: that follows the targets alone.
"""

import dataclasses
from collections.abc import Collection, Iterable, Mapping, Sequence
from typing import NamedTuple, assert_never

from metis_planner.carry.forms import REPLACED, Change, by_name, hint_for, is_alike
from metis_planner.carry.folder import Mark
from metis_planner.carry.rebase import Bond, Builder, Means, NoList, bond_of, paths_in
from metis_planner.carry.steps import Step
from metis_planner.text.actions import Action, Bind, Delete, Move, New, Unbind
from metis_planner.text.configurations import Configuration, Standing, after
from metis_planner.text.documents import ComponentType, State

UNNEEDED = "nothing that is asked for needs it any more"
HELPER = "its plan was to delete it again"


class Half(NamedTuple):
    """A half-made instance: the state in which it is, that from which it goes on, and its end."""

    instance: int
    kind: str
    state: str | None  # nothing where its making was begun and is not done
    point: str
    end: str
    is_helper: bool = False  # whether the plan was to delete it again: it goes on only where another one needs it

    @property
    def is_back(self) -> bool:
        """Whether some of its steps are done again."""
        return self.state is not None and self.point != self.state


class Halves(NamedTuple):
    """The half-made instances that go on, why others do not, and the bindings of the former that their states do not require."""

    going: Mapping[int, Half]
    left: Mapping[int, str]
    loose: frozenset[Bond]


class Stopped(NamedTuple):
    """A plan that stopped: what stands of it, and what of it is done; the states to which it would still have brought instances,
    with their types; and those that it was to delete again.
    """

    there: Configuration
    done: Sequence[Action]
    ends: Mapping[int, str]
    kinds: Mapping[int, str]
    helpers: Collection[int]


class Wanting(NamedTuple):
    """Those that go on before anything takes from them anew, and what lacks something that others of them have at their end."""

    early: Collection[int]
    changes: Sequence[Change]


class Went(NamedTuple):
    """How half-made instances go on behind a list of actions: the actions, and why some could not."""

    actions: tuple[Action, ...]
    left: Mapping[int, str]


def ends_in(
    steps: Sequence[Step],
    marks: Mapping[str, Mark],
    begun: Collection[str],
    noted: Mapping[int, str],
    initial: Mapping[str, str],
) -> dict[int, str]:
    """The state to which the plan would still bring each instance that it has made or begun to make; `noted` has earlier ones."""
    made = {step.action.instance for step in steps if isinstance(step.action, New) and step.key in {*marks, *begun}}
    made -= {step.action.instance for step in steps if isinstance(step.action, Delete) and step.key in {*marks, *begun}}
    found = {each: state for each, state in noted.items() if each in made}
    for step in steps:
        action = step.action
        if action.instance in made and step.key not in marks:
            if isinstance(action, New):
                found[action.instance] = initial[action.type]
            if isinstance(action, Move):
                found[action.instance] = action.end
    return found


def reached(states: Mapping[str, State], start: str) -> set[str]:
    """The states to which moves lead from one, which is among them."""
    found: set[str] = set()
    more = [start]
    while more:
        name = more.pop()
        if name in states and name not in found:
            found.add(name)
            more += states[name].next
    return found


def why_no_end(
    kind: str, end: str, had: Mapping[str, Mapping[str, State]], have: Mapping[str, Mapping[str, State]]
) -> str | None:
    """Why the description has no such end; nothing if it has it."""
    if kind not in have:
        return f"the description has no {kind} any more"
    if end in have[kind]:
        return None
    fresh = (state for state in have[kind].values() if state.name not in had.get(kind, {}))
    hint = hint_for(kind, end, had.get(kind, {}).get(end), fresh)
    return f"it was on its way to {end}, and {kind} has no state {end} any more{hint}"


def point_of(path: Sequence[str], end: str, used: set[str], had: Mapping[str, State], have: Mapping[str, State]) -> str | None:
    """The last state on a path that is as it was, from which the end is reached, and in which others find what they take."""
    fit = [name for name in path if name in have and used <= set(have[name].provide) and end in reached(have, name)]
    same = [name for name in fit if is_alike(had.get(name), have[name])]
    # Where no such state is there, the one in which it stands may be changed in place.
    return same[-1] if same else path[-1] if path and path[-1] in fit else None


def halves_in(
    stopped: Stopped, before: Sequence[ComponentType], types: Sequence[ComponentType], left: Mapping[int, str]
) -> Halves:
    """What becomes of each half-made instance by a description; `left` are some that do not go on, and why."""
    there, ends, had, have = stopped.there, stopped.ends, by_name(before), by_name(types)
    paths = paths_in(stopped.done, {kind.name: kind for kind in before})
    reasons = {each: reason for each, reason in left.items() if each in ends}
    going: dict[int, Half] = {}
    loose = loose_in(there, ends, {each: str(it.state) for each, it in there.instances.items()}, had)
    for each, end in sorted(ends.items()):
        kind, standing = stopped.kinds[each], there.instances.get(each)
        reason = reasons.get(each) or why_no_end(kind, end, had, have)
        path = paths.get(each) or tuple(have.get(kind, {}))[:1]
        used = {port for port, own, to in there.bindings - loose if to == each}
        point = None if reason else point_of(path, end, used, had[kind] if standing else have[kind], have[kind])
        if reason or point is None:
            takers = f" in which others find {', '.join(sorted(used))}" if used else ""
            reasons[each] = reason or f"{kind} has no way to {end} from any state{takers} that it came through"
        elif standing is None or (standing.state, point) != (end, end):
            going[each] = Half(each, kind, standing.state if standing else None, point, end, each in stopped.helpers)
    return Halves(going, reasons, loose_in(there, going, {each: half.point for each, half in going.items()}, had))


def loose_in(
    there: Configuration, own: Collection[int], states: Mapping[int, str], had: Mapping[str, Mapping[str, State]]
) -> frozenset[Bond]:
    """The bindings of some instances that their states do not require, or not yet."""
    form = {each: had[there.instances[each].type].get(states[each]) for each in own if each in there.instances}
    return frozenset(bond for bond in there.bindings if (state := form.get(bond[1])) and bond[0] not in state.require)


def cut_in(loose: Iterable[Bond], changes: Iterable[Change], types: Iterable[ComponentType]) -> frozenset[Bond]:
    """Those of these bindings whose provider has not what is taken by the description, or is to go."""
    have = by_name(types)
    gives = {each.instance: set(have[each.kind][each.meant].provide) for each in changes if each.fate != REPLACED}
    return frozenset(bond for bond in loose if bond[0] not in gives.get(bond[2], ()))


@dataclasses.dataclass
class Onward(Builder):
    """The way on of half-made instances over a universe, behind a list of actions, by the rest of the plan that stopped."""

    ends: Mapping[int, str] = dataclasses.field(default_factory=dict)
    leading: Collection[int] = ()  # those that go on by themselves, and not only where they are needed
    rest: Sequence[Action] = ()
    under_way: list[int] = dataclasses.field(default_factory=list)
    seen: set[tuple[int, str]] = dataclasses.field(default_factory=set)
    asked: set[Bond] = dataclasses.field(default_factory=set)  # bindings of the rest to which it has come

    def begin(self, actions: Iterable[Action]) -> None:
        for action in actions:
            self.add(action)

    def carry_on(self) -> None:
        """Follows the rest of the plan, and then brings each instance to its end that is not there yet."""
        for action in self.rest:
            if action.instance not in self.leading:
                continue
            match action:
                case Bind():
                    self.asked.update({bond_of(action)} & self.target.bindings)
                case Unbind():
                    bond = bond_of(action)
                    if bond in self.now.bindings and self.is_spare(bond):
                        self.unbind(bond)
                case Move():
                    self.bring(action.instance, action.end)
                case New() | Delete():
                    pass
                case _:
                    assert_never(action)
        for instance in self.leading:
            self.bring(instance, self.ends[instance])

    def is_at_end(self, instance: int) -> bool:
        return instance in self.now.instances and self.now.instances[instance].state == self.ends.get(instance)

    def is_spare(self, bond: Bond) -> bool:
        """Whether who takes by a binding has enough without it."""
        port, own, to = bond
        return not self.now.provides(to, port) or self.now.served(own, port) > self.now.required(own, port)

    def bring(self, instance: int, state: str) -> None:
        """Brings an instance to a state, if it has not been there, and its end is reached from it."""
        if instance not in self.ends:
            return
        kind = self.types[self.target.instances[instance].type]
        states = {each.name: each for each in kind.states}
        if instance not in self.now.instances:
            self.add(New(instance, kind.name))
        now = str(self.now.instances[instance].state)
        if state == now or (instance, state) in self.seen:
            return
        end = self.ends[instance]
        if state != end and (state not in reached(states, now) or end not in reached(states, state)):
            return
        self.under_way.append(instance)
        try:
            for name in self.way(instance, now, state)[1:]:
                self.step(instance, name)
        except NoList as why:
            raise NoList(str(why), instance if why.instance is None else why.instance) from why
        finally:
            self.under_way.pop()

    def step(self, instance: int, name: str) -> None:
        """Moves an instance, for which nobody may take from it, and it takes what the state requires."""
        state = self.state(self.now.instances[instance].type, name)
        assert state is not None
        self.free(instance)
        for port, count in state.require.items():
            if lack := self.still_lacking(instance, port, count):
                self.pulled(instance, port, lack)
        if lacks := self.lacks(instance, state):
            self.make_helpers(instance, (name,), lacks)
        if lacks := self.lacks(instance, state):
            raise NoList(f"it lacks {', '.join(lacks)}", instance)
        self.free(instance)
        now = self.now.instances[instance]
        self.add(Move(instance, now.type, str(now.state), name))
        self.seen.add((instance, name))

    def lacks(self, instance: int, state: State) -> dict[str, int]:
        found = {port: self.still_lacking(instance, port, count) for port, count in state.require.items()}
        return {port: count for port, count in found.items() if count}

    def free(self, instance: int) -> None:
        """Lets those go that take from an instance: what they have to spare, or have from another one as well."""
        for bond in sorted(each for each in self.now.bindings if each[2] == instance):
            port, own, _ = bond
            if not self.is_spare(bond):
                others = [each for each in self.candidates(own, port) if each != instance] if own in self.ends else []
                if not others:
                    raise NoList(f"{self.now.instances[own].type}#{own} takes {port} from it", instance)
                self.bind((port, own, others[0]))
            self.unbind(bond)

    def had(self, instance: int, port: str) -> list[int]:
        return [to for name, _, to in self.taken.get(instance, ()) if name == port and self.now.provides(to, port)]

    def candidates(self, instance: int, port: str) -> list[int]:
        """Those that provide a port and stay as they are, or that the plan binds here; first the latter."""
        own = set(self.had(instance, port))
        found = [each for each in self.providers(port, instance) if each not in own]
        asked = {each for each in found if (port, instance, each) in self.asked}
        found = [each for each in found if each in asked or each not in self.ends or self.is_at_end(each)]
        return sorted(found, key=lambda each: (each not in asked, each in self.helpers, each))

    def still_lacking(self, instance: int, port: str, count: int) -> int:
        """How many providers an instance lacks when it has taken from those that are there."""
        for each in self.candidates(instance, port)[: max(0, count - len(self.had(instance, port)))]:
            self.bind((port, instance, each))
        return max(0, count - len(self.had(instance, port)))

    def serve(self, changes: Iterable[Change]) -> None:
        """Brings those to their ends that provide what others lack."""
        for change in changes:
            for port, count in change.more.items():
                self.pulled(change.instance, port, count - len(self.candidates(change.instance, port)))

    def pulled(self, instance: int, port: str, count: int) -> None:
        """Brings half-made instances to their ends that provide a port there, as many as are wanted."""
        order = sorted(self.ends, key=lambda each: ((port, instance, each) not in self.target.bindings, each))
        for each in order:
            form = self.state(self.target.instances[each].type, self.ends[each])
            is_free = each != instance and each not in self.under_way and not self.is_at_end(each)
            if count > 0 and is_free and form and port in form.provide:
                self.bring(each, self.ends[each])
                count -= 1


@dataclasses.dataclass
class Onwards:
    """How half-made instances go on: tried until no more of them has to be left, or to go before the others."""

    types: Mapping[str, ComponentType]
    base: Sequence[Action]
    going: Mapping[int, Half]
    rest: Sequence[Action]
    means: Means
    only: Wanting | None
    left: dict[int, str] = dataclasses.field(default_factory=dict)
    early: list[int] = dataclasses.field(default_factory=list)

    def __post_init__(self) -> None:
        self.stood = after(self.base, tuple(self.types.values()))
        shunned = {each for each, it in self.stood.instances.items() if (it.type, it.state) in self.means.shunned}
        binds = (bond_of(it) for it in self.rest if isinstance(it, Bind))
        self.planned = {bond for bond in binds if bond[2] not in shunned}

    def begun(self) -> Onward:
        """The list so far, with the ends of those that are not left."""
        ends = {each: half.end for each, half in self.going.items() if each not in self.left}
        target = Configuration(tuple(self.types.values()))
        target.instances = {**self.stood.instances, **{each: Standing(self.going[each].kind, end) for each, end in ends.items()}}
        target.bindings = self.stood.bindings | {bond for bond in self.planned if bond[1] in ends}
        leading = [each for each in ends if not self.going[each].is_helper]
        found = Onward(self.types, target, {}, self.means, ends=ends, leading=leading, rest=self.rest)
        found.begin(self.base)
        return found

    def went(self, onward: Onward) -> Went:
        for instance in self.early if self.only is None else self.only.early:
            onward.bring(instance, onward.ends.get(instance, ""))
        if self.only is None:
            onward.carry_on()
        else:
            onward.serve(self.only.changes)
        return Went(tuple(onward.actions[len(self.base) :]), self.left)

    def found(self) -> Went:
        while True:
            onward = self.begun()
            try:
                return self.went(onward)
            except NoList as why:
                if why.instance is None or why.instance not in onward.ends:
                    raise
                # What is taken by others on its way may be free before that.
                if why.instance in self.early or self.only is not None:
                    self.left[why.instance] = str(why)
                self.early.append(why.instance)


def gone_on(
    types: Iterable[ComponentType],
    base: Sequence[Action],
    going: Mapping[int, Half],
    rest: Sequence[Action],
    means: Means,
    only: Wanting | None = None,
) -> Went:
    """How half-made instances go on behind a list that leaves them as they stand; some are left where no way is found.

    It may be only some of them, and what provides that which others lack.
    """
    return Onwards({kind.name: kind for kind in types}, base, going, rest, means, only).found()
