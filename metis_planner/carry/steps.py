"""A plan as steps to carry out: what each waits for, by which key it is known, and what holds when its turn comes."""

import dataclasses
import re
from collections.abc import Iterable, Iterator
from typing import NamedTuple, NoReturn, assert_never

from metis_planner.answers import Refused
from metis_planner.text import plans
from metis_planner.text.actions import Action, Bind, Delete, Move, New, Unbind, line_of


class Bound(NamedTuple):
    """A provider to which an instance is bound: at which port, its number, and its name."""

    port: str
    instance: int
    name: str

    def name_by(self, number: int) -> str:
        """The name that it would have by another number."""
        return f"{self.name.removesuffix(str(self.instance))}{number}"


@dataclasses.dataclass(frozen=True, slots=True)
class Step:
    """An action with what it waits for, as numbers of actions. Its key is its instance and its place among its actions.

    What was done of a plan that stopped halfway is a plan with other numbers, and a rollout has more actions. The keys
    are the same in all of these.
    """

    action: Action
    key: str
    waits: tuple[int, ...]
    state: str  # of the instance before the action; empty where it has not moved
    bound: tuple[Bound, ...]  # before a move and a delete: the providers to which the instance is bound

    @property
    def line(self) -> str:
        """The action as the plan writes it, without its number."""
        return line_of(self.action)


def name_of(kind: str, instance: int) -> str:
    """A name of an instance that a file, a container or a unit may have; no two instances have the same one."""
    name = re.sub("[/@]", "_", f"{kind}-{instance}")
    return name if name[0].isalnum() else f"x{name}"


def who(action: Action) -> str:
    return f"{action.type}#{action.instance}"


def refuse(action: Action, reason: str) -> NoReturn:
    raise Refused(f"action {action.number}: {reason}, so this is no steadfast run")


class Instance:
    """What the actions so far did to an instance."""

    __slots__ = ("name", "is_there", "last", "entered", "count", "state", "taken", "users", "freed")

    def __init__(self, name: str) -> None:
        self.name = name
        self.is_there = True
        self.last = 0  # the number of its last action
        self.entered = 0  # that of its last `new` or `move`
        self.count = 0  # how many actions it has
        self.state = ""
        self.taken: dict[tuple[str, int], Instance] = {}  # as requirer: the provider of each port
        self.users = 0  # how many bindings lead to it
        self.freed: list[int] = []  # the actions since it entered its state that let a binding to it go


class Simulator:
    """Follows a list of actions. What each waits for follows from the actions alone, as docs/dev/MODEL.md defines it."""

    def __init__(self) -> None:
        self.instances: dict[int, Instance] = {}

    def step(self, action: Action) -> Step:
        """The step of the next action."""
        own = self.made(action) if isinstance(action, New) else self.there(action, action.instance)
        state: str = own.state
        bound: tuple[Bound, ...] = ()
        if isinstance(action, Move | Delete):
            bound = tuple(Bound(port, number, provider.name) for (port, number), provider in own.taken.items())
        waits = {own.last} if own.last else set()
        waits.update(self.done(action, own))
        own.last = action.number
        own.count += 1
        return Step(action, f"{action.instance}.{own.count}", tuple(sorted(waits)), state, bound)

    def made(self, action: Action) -> Instance:
        if action.instance in self.instances:
            refuse(action, f"instance {action.instance} is made a second time")
        return self.instances.setdefault(action.instance, Instance(name_of(action.type, action.instance)))

    def there(self, action: Action, instance: int) -> Instance:
        found = self.instances[instance]
        if not found.is_there:
            refuse(action, f"instance {instance} was deleted")
        return found

    def done(self, action: Action, own: Instance) -> Iterable[int]:
        """Does the action; the numbers of what it waits for, beside the action before it of its own instance."""
        match action:
            case New():
                own.entered = action.number
                return ()
            case Delete():
                return self.delete(action, own)
            case Bind():
                return self.bind(action, own)
            case Unbind():
                self.release(action, own, (action.port, action.provider))
                return ()
            case Move():
                return self.move(action, own)
            case _:
                assert_never(action)

    def move(self, action: Move, own: Instance) -> Iterable[int]:
        if own.state not in ("", action.start):
            refuse(action, f"{who(action)} is in {own.state}, and not in {action.start}")
        freed = self.free(action, own)
        own.entered, own.state = action.number, action.end
        return freed

    def delete(self, action: Delete, own: Instance) -> Iterable[int]:
        freed = self.free(action, own)
        for binding in list(own.taken):
            self.release(action, own, binding)
        own.is_there = False
        return freed

    def bind(self, action: Bind, own: Instance) -> Iterable[int]:
        provider = self.there(action, action.provider)
        binding = (action.port, action.provider)
        if provider is own or binding in own.taken:
            refuse(action, "it binds an instance to itself" if provider is own else "the binding is there already")
        own.taken[binding] = provider
        provider.users += 1
        return (provider.entered,)

    def free(self, action: Action, own: Instance) -> list[int]:
        """The actions that let go of an instance which is to leave its state."""
        if own.users:
            refuse(action, f"{who(action)} still serves another")
        freed, own.freed = own.freed, []
        return freed

    def release(self, action: Action, own: Instance, binding: tuple[str, int]) -> None:
        provider = own.taken.pop(binding, None)
        if provider is None:
            refuse(action, "there is no such binding to let go")
        provider.users -= 1
        provider.freed.append(action.number)


def steps_of(plan: plans.Plan, path: str) -> tuple[Step, ...]:
    """The steps of a plan. What the text says behind `after` has to be what its actions wait for."""
    try:
        return tuple(checked_steps(plan))
    except Refused as refused:
        raise Refused(f"{path}: {refused}") from refused


def checked_steps(plan: plans.Plan) -> Iterator[Step]:
    simulator = Simulator()
    last: dict[int, int] = {}
    for action in plan.actions:
        step = simulator.step(action)
        own = last.get(action.instance)
        others = tuple(number for number in step.waits if number != own)
        if others != action.after:
            says, has = (" ".join(map(str, numbers)) or "nothing" for numbers in (action.after, others))
            raise Refused(
                f"action {action.number} says that it waits for {says}, and has to wait for {has}: "
                "`metis rollout` prints a plan with the right numbers"
            )
        last[action.instance] = action.number
        yield step


def lanes(steps: Iterable[Step]) -> dict[int, list[Step]]:
    """The steps of each instance, in the order in which the instances are made."""
    found: dict[int, list[Step]] = {}
    for step in steps:
        found.setdefault(step.action.instance, []).append(step)
    return found
