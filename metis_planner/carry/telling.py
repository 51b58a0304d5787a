"""What is told of a call of `up` before anybody agrees: in lines, in JSON, and by a sum that tells it from any other call."""

import dataclasses
import hashlib
import json
from collections.abc import Callable, Mapping, Sequence
from typing import Any

from metis_planner.carry import halfway
from metis_planner.carry.request import is_named
from metis_planner.carry.ways import GOING, IN_PLACE, NEW, ROLES, Evolution
from metis_planner.look.show import Look, colours_are_wanted, plan_lines
from metis_planner.text import plans

MOST_SHOWN = 60
LENGTH_OF_A_SUM = 16


@dataclasses.dataclass(frozen=True)
class Proposal:
    """What a call would do: what is shown of it, what becomes of which instances, what is done, and how it is begun."""

    lines: tuple[str, ...]
    roles: Mapping[str, Sequence[str]]
    actions: tuple[str, ...]
    act: Callable[[], int]
    again: tuple[str, ...] = ()  # steps that are done again
    changed: tuple[str, ...] = ()  # instances whose steps these are
    losing: tuple[str, ...] = ()  # those that go, and whose delete step does something
    notes: tuple[str, ...] = ()

    @property
    def is_something(self) -> bool:
        return bool(self.actions or self.again)

    @property
    def going(self) -> Sequence[str]:
        return self.roles.get(GOING, ())

    def value(self) -> dict[str, Any]:
        """As JSON has it."""
        return {
            **{role: list(names) for role, names in self.roles.items()},
            "loses data": list(self.losing),
            "actions": list(self.actions),
            "again": list(self.again),
        }

    def sum(self, asked: str, commands: str) -> str:
        """What tells this from anything else that might be done: by what was asked for, and by which commands."""
        text = json.dumps([asked, commands, self.value(), list(self.lines)], sort_keys=True)
        return hashlib.sha256(text.encode("utf-8", "surrogateescape")).hexdigest()[:LENGTH_OF_A_SUM]

    def question(self, place: str) -> str:
        """What a person is asked: how much is done, what is changed in place, and what is lost, by name."""
        count = len(self.actions)
        parts = [f"{count} action{'' if count == 1 else 's'}"] if count else []
        if self.changed:
            parts.append(f"change {', '.join(self.changed)} in place")
        if self.losing:
            parts.append(f"DELETE {', '.join(self.losing)} with all data")
        return f"In {place}: {'; '.join(parts)}?"


def shown(plan: plans.Plan, old: int | None = None) -> list[str]:
    """What will be done, without bindings if it is much; if it goes on from so many actions, what is kept, new and going."""
    hidden = frozenset({"bind", "unbind"}) if len(plan.actions) - (old or 0) > MOST_SHOWN else frozenset()
    return list(plan_lines(plan, Look(hidden, colours_are_wanted("auto"), old)))


def rows_of(found: Evolution, protect: tuple[str, ...]) -> list[str]:
    """A line for each instance: what becomes of it, and why."""
    rows = []
    for role in ROLES:
        for each in found.roles[role]:
            is_safe = role != NEW and is_named(found.who(each), protect)
            rows.append(f"{role:<8} {found.who(each)}{told(found, each, role)}{', protected' if is_safe else ''}")
    return rows


def told(found: Evolution, instance: int, role: str) -> str:
    """The state of an instance, and why it changes, goes on or goes."""
    change = {change.instance: change for change in found.changes}.get(instance)
    half, left = found.halves.going.get(instance), found.halves.left.get(instance)
    state = f" ({change.meant})" if change else ""
    if half and role == GOING:
        return f"{state}: half made, {left or halfway.HELPER}"
    if half:
        back = f", again from {half.point}" if half.is_back else ""
        state = f" ({half.state or 'not yet'} to {half.end}{back})"
    if role == IN_PLACE:
        return f"{state}: {in_place(found, instance)}"
    if left:
        return f"{state}: half made, {left}"
    return f"{state}: {change.why}" if role == GOING and change and change.why else state


def in_place(found: Evolution, instance: int) -> str:
    """Why an instance is changed in place, and who takes from it meanwhile."""
    change = {change.instance: change for change in found.changes}[instance]
    parts = [f"needs {port}" + (f" {count} more" if count > 1 else "") for port, count in change.more.items()]
    parts += [f"needs fewer {port}" for port in change.fewer] + [f"lets {port} go" for port in change.less]
    parts += ["its settings have changed"] if change.is_other else []
    users = ", ".join(found.who(user) for user in sorted(found.users.get(instance, ())))
    meanwhile = f" while {users} take{'' if ', ' in users else 's'} from it" if users else ""
    return f"{', '.join(parts) or 'by its description'}; its steps are done again{meanwhile}"
