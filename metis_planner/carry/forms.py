"""What a changed description means for what stands: which instances are as it says, and which have an old form.

An instance has the form of its state: what that provides and requires. Where the description has changed it, the form that the
instance has is the old one. An old form is kept beside the new description, as a state `STATE@oldN` of the same type, so that
the instance keeps its type, its number and its name; or the whole type is, where the description has none of its name.
"""

import dataclasses
import json
import re
from collections.abc import Iterable, Mapping, Sequence
from typing import Any, NamedTuple, assert_never

from metis_planner.text.actions import Action, Bind, Delete, Move, New, Unbind
from metis_planner.text.configurations import Configuration, Standing
from metis_planner.text.documents import LONGEST_NAME, ComponentType, State, written_state

SAME, CHANGED, REPLACED = "same", "changed", "replaced"
OLD = re.compile(r"(.+)@old[1-9][0-9]*")
# A state that nothing leads to: it only lets a binding be there that the new form does not require any more.
RESIDUE = "@old"
LONGEST_MARK = len("@old999")


class Change(NamedTuple):
    """What a changed description means for an instance: its fate, the state that is meant, and why."""

    instance: int
    kind: str
    state: str  # as it stands
    meant: str  # the state of the description that it is to have
    fate: str
    more: Mapping[str, int]  # ports of which it needs more providers
    less: tuple[str, ...]  # ports that it does not require any more
    why: str = ""
    fewer: tuple[str, ...] = ()  # ports of which it requires fewer providers
    is_other: bool = False  # whether its thing is another one by now, by the sum of its type

    @property
    def who(self) -> str:
        return f"{self.kind}#{self.instance}"


def by_name(types: Iterable[ComponentType]) -> dict[str, dict[str, State]]:
    return {kind.name: {state.name: state for state in kind.states} for kind in types}


def is_alike(one: State | None, other: State) -> bool:
    """Whether two states provide and require the same."""
    return one is not None and set(one.provide) == set(other.provide) and one.require == other.require


def is_same_sum(one: str, other: str) -> bool:
    """Whether two sums tell of the same thing. Their words are compared one by one, and `-` is one that was not known then."""
    words, others = one.split(), other.split()
    return len(words) == len(others) and all(a == b or "-" in (a, b) for a, b in zip(words, others))


class Before(NamedTuple):
    """An instance before a description is compared with it: how it stands, its form, and at which ports others take from it; and
    whether its thing is another one by now.
    """

    instance: int
    standing: Standing
    form: State
    used: frozenset[str]
    is_other: bool = False

    def change(self, meant: str, fate: str, why: str = "") -> Change:
        return Change(self.instance, self.standing.type, str(self.standing.state), meant, fate, {}, (), why)


def change_of(before: Before, there: Configuration, new: Mapping[str, State] | None) -> Change:
    """What becomes of an instance that stands, where its type has these states now."""
    kind, state = before.standing.type, str(before.standing.state)
    if new is None:
        return before.change(state, REPLACED, f"the description has no {kind} any more")
    is_old = OLD.fullmatch(state)
    meant = is_old[1] if is_old and state not in new else state
    form = new.get(meant)
    if form is None:
        hint = hint_for(kind, meant, before.form, new.values())
        return before.change(meant, REPLACED, f"{kind} has no state {meant} any more{hint}")
    lost = sorted(before.used - set(form.provide))
    if lost:
        return before.change(meant, REPLACED, f"{meant} does not provide {', '.join(lost)} any more")
    have = {port: there.served(before.instance, port) for port in form.require}
    more = {port: count - have[port] for port, count in form.require.items() if count > have[port]}
    less = tuple(port for port in before.form.require if port not in form.require)
    fewer = tuple(port for port, count in before.form.require.items() if 0 < form.require.get(port, 0) < count)
    is_same = state == meant and is_alike(before.form, form) and not before.is_other
    found = before.change(meant, SAME if is_same else CHANGED)
    return found._replace(more=more, less=less, fewer=fewer, is_other=before.is_other)


def hint_for(kind: str, state: str, old: State | None, states: Iterable[State]) -> str:
    """Which of these states looks like an old form, if that says anything, and the words by which it is named."""
    alike = [each.name for each in states if is_alike(old, each)]
    if not alike or old is None or not old.provide and not old.require:
        return ""
    return f"; if {alike[0]} is its new name, say so: --renamed {kind}:{state}={alike[0]}"


def others_in(before: Iterable[ComponentType], types: Iterable[ComponentType]) -> set[str]:
    """The types whose sums tell of another thing than before."""
    had = {kind.name: kind.sum for kind in before}
    return {kind.name for kind in types if not is_same_sum(had.get(kind.name, kind.sum), kind.sum)}


def changes_in(
    there: Configuration, types: Sequence[ComponentType], before: Iterable[ComponentType] = ()
) -> list[Change]:
    """What a description means for each instance that stands, in the order of their numbers; `before` is the one of before."""
    after, others = by_name(types), others_in(before, types)
    used: dict[int, set[str]] = {}
    for port, _, to in there.bindings:
        used.setdefault(to, set()).add(port)
    return [
        change_of(
            Before(instance, standing, form, frozenset(used.get(instance, ())), standing.type in others),
            there,
            after.get(standing.type),
        )
        for instance, standing in sorted(there.instances.items())
        if (form := there.state(instance)) is not None
    ]


@dataclasses.dataclass
class Merged:
    """A description with the old forms of some instances while they are put into it."""

    value: dict[str, Any]
    before: Sequence[ComponentType]
    sources: Mapping[str, str]  # what types are called where an importer read of them
    told: dict[int, str] = dataclasses.field(default_factory=dict)  # by instance the name of its state there
    name_of: dict[tuple[str, str], str] = dataclasses.field(default_factory=dict)
    old_types: set[str] = dataclasses.field(default_factory=set)  # those that the description itself does not have

    def __post_init__(self) -> None:
        self.types: dict[str, dict[str, Any]] = {kind["name"]: kind for kind in self.value["types"]}
        self.known, self.had = by_name(self.before), {kind.name: kind for kind in self.before}

    def add(self, change: Change) -> None:
        """Keeps the old form of an instance: its whole type, or a state to which a move leads from the initial one."""
        kind = change.kind
        if kind not in self.types:
            states = [written_state(state) for state in self.had[kind].states]
            source = {"source": self.sources[kind]} if kind in self.sources else {}
            if self.had[kind].sum:
                source["sum"] = self.had[kind].sum
            self.types[kind] = {"name": kind, **source, "initial": states[0]["name"], "states": states}
            self.value["types"].append(self.types[kind])
            self.old_types.add(kind)
        if kind in self.old_types:
            self.told[change.instance] = change.state
            return
        if (kind, change.state) not in self.name_of:
            self.add_state(kind, change.state)
        self.told[change.instance] = self.name_of[kind, change.state]

    def add_state(self, name: str, state: str) -> None:
        kind, form = self.types[name], self.known[name][state]
        own = free_name(state, {each["name"] for each in kind["states"]})
        self.name_of[name, state] = own
        kind["states"].append(written_state(State(own, form.provide, form.require)))
        initial = next(each for each in kind["states"] if each["name"] == kind["initial"])
        initial["next"] = [*initial.get("next", ()), own]

    def text(self) -> str:
        states = (state for kind in self.value["types"] for state in kind["states"])
        if any(isinstance(entry, dict) for state in states for entry in state.get("require", ())):
            self.value["aeolus"] = 2
        return json.dumps(self.value, separators=(",", ":")) + "\n"


def merged(
    document: str,
    before: Sequence[ComponentType],
    old: Iterable[Change],
    residue: Mapping[str, Iterable[str]],
    sources: Mapping[str, str],
) -> tuple[str, dict[int, str]]:
    """The description with the old forms of some instances, whose states are told by instance; and with the ports, by types, that
    no state requires any more, and others are bound at.
    """
    changes = list(old)
    if not changes and not residue:
        return document, {}
    found = Merged(json.loads(document), before, sources)
    for change in changes:
        found.add(change)
    for name, ports in residue.items():
        found.types[name]["states"].append({"name": RESIDUE, "require": list(ports)})
    return found.text(), found.told


def unrequired(there: Configuration, types: Iterable[ComponentType]) -> dict[str, list[str]]:
    """The ports at which something is bound, and which no state of its type requires any more, by types."""
    required = {kind.name: {port for state in kind.states for port in state.require} for kind in types}
    found: dict[str, list[str]] = {}
    for port, own, _ in sorted(there.bindings):
        kind = there.instances[own].type
        if kind in required and port not in required[kind] and port not in found.get(kind, ()):
            found.setdefault(kind, []).append(port)
    return found


def free_name(state: str, taken: set[str]) -> str:
    """A name for an old form: that of the state, if the description does not have it any more."""
    if state not in taken:
        return state
    stem = (found[1] if (found := OLD.fullmatch(state)) else state)[:LONGEST_NAME - LONGEST_MARK]
    return next(name for number in range(1, 1_000) if (name := f"{stem}@old{number}") not in taken)


def in_use(names: Mapping[str, str], types: Iterable[ComponentType]) -> dict[str, str]:
    """The new names of what the description does not have by its old name any more; others were said for an earlier change."""
    known = {text for kind in types for text in (kind.name, *(f"{kind.name}:{state.name}" for state in kind.states))}
    return {old: new for old, new in names.items() if old not in known}


def renamed(actions: Iterable[Action], names: Mapping[str, str]) -> tuple[Action, ...]:
    """Actions by the names that types and states have now: OLD is a type or TYPE:STATE, and what it is called now."""
    found: list[Action] = []
    for action in actions:
        kind = names.get(action.type, action.type)
        match action:
            case New() | Delete():
                found.append(dataclasses.replace(action, type=kind))
            case Bind() | Unbind():
                provider_type = names.get(action.provider_type, action.provider_type)
                found.append(dataclasses.replace(action, type=kind, provider_type=provider_type))
            case Move():
                start, end = (names.get(f"{action.type}:{state}", state) for state in (action.start, action.end))
                found.append(dataclasses.replace(action, type=kind, start=start, end=end))
            case _:
                assert_never(action)
    return tuple(found)


def renamed_types(types: Iterable[ComponentType], names: Mapping[str, str]) -> tuple[ComponentType, ...]:
    """Types by the names that they and their states have now."""
    found = []
    for kind in types:
        new = {state.name: names.get(f"{kind.name}:{state.name}", state.name) for state in kind.states}
        states = (
            dataclasses.replace(state, name=new[state.name], next=tuple(new.get(each, each) for each in state.next))
            for state in kind.states
        )
        found.append(ComponentType(names.get(kind.name, kind.name), tuple(states), kind.sum))
    return tuple(found)
