"""Lists of actions by which a folder goes on, and what is told of them before anybody agrees."""

from collections.abc import Iterable, Mapping
from typing import NamedTuple

from metis_planner.carry.forms import CHANGED, Change
from metis_planner.carry.halfway import Halves
from metis_planner.carry.rollouts import Rollout
from metis_planner.text import plans
from metis_planner.text.actions import Action
from metis_planner.text.configurations import Configuration

KEPT, ONWARD, IN_PLACE, NEW, GOING = "kept", "goes on", "changed", "new", "going"
ROLES = (KEPT, ONWARD, IN_PLACE, NEW, GOING)


class Way(NamedTuple):
    """A list over a universe, of which so many first actions are done already; and what is to be done again."""

    universe: str
    plan: plans.Plan
    done: int
    rollouts: tuple[Rollout, ...] = ()
    stale: frozenset[tuple[int, str]] = frozenset()  # instances with the states into which they are to be brought again
    passed: frozenset[tuple[int, str]] = frozenset()  # and those with states that have changed since they came through them
    logs: Mapping[int, Mapping[str, str]] = {}  # of half-made instances: what was begun or is done again, with keys of logs
    ends: Mapping[int, str] = {}  # of half-made instances that this list leaves as they are

    @property
    def fresh(self) -> tuple[Action, ...]:
        return self.plan.actions[self.done :]


class Evolution(NamedTuple):
    """How a folder goes over to a changed description, and what is told of that."""

    changes: tuple[Change, ...]
    first: Way | None  # what instances that stay lack
    last: Way
    roles: Mapping[str, tuple[int, ...]]
    names: Mapping[str, str]  # lines that read otherwise now
    type_of: Mapping[int, str]
    users: Mapping[int, frozenset[int]]  # of what stands, who takes from it
    halves: Halves
    end: frozenset[int]  # what stands at the end

    @property
    def fresh(self) -> tuple[Action, ...]:
        """The actions that are still to be done, in both parts."""
        return (*(self.first.fresh if self.first else ()), *self.last.fresh)

    def named(self, role: str) -> list[str]:
        """The instances that have a role."""
        return [self.who(each) for each in self.roles[role]]

    def who(self, instance: int) -> str:
        return f"{self.type_of[instance]}#{instance}"


def roles_in(
    there: Configuration, end: Configuration, changes: Iterable[Change], going_on: Iterable[int]
) -> dict[str, tuple[int, ...]]:
    """What becomes of each instance that stands before, or at the end."""
    before, later = set(there.instances), set(end.instances)
    changed = {change.instance for change in changes if change.fate == CHANGED} & later
    onward = (set(going_on) & later) - changed
    found = {
        KEPT: (before & later) - changed - onward,
        ONWARD: onward,
        IN_PLACE: changed,
        NEW: later - before - onward,
        GOING: before - later,
    }
    return {role: tuple(sorted(instances)) for role, instances in found.items()}
