"""What the pictures of plans and universes share: what is drawn, how much of it, and an action in its own lane."""

import argparse
import dataclasses
import functools
import os
from collections.abc import Callable, Iterable, Sequence
from typing import assert_never

from metis_planner.answers import Refused
from metis_planner.carry.folder import Folder
from metis_planner.carry.origin import counts_of, rollouts_at
from metis_planner.carry.rollouts import Rollout, roles_in
from metis_planner.carry.steps import Step, steps_of, who
from metis_planner.text import plans
from metis_planner.text.actions import Action, Bind, Delete, Move, New, Unbind
from metis_planner.text.documents import ComponentType
from metis_planner.text.reading import decoded, read_bytes
from metis_planner.text.universes import types_in

MOST_BOXES = 150


@dataclasses.dataclass(frozen=True)
class Port:
    """By which states a port is provided; and which require it, each with how many providers it asks for."""

    providers: list[str] = dataclasses.field(default_factory=list)
    requirers: list[tuple[str, int]] = dataclasses.field(default_factory=list)


def add_arguments(parser: argparse.ArgumentParser) -> None:
    parser.add_argument("file", metavar="FILE", help="a plan, a universe, or a folder; - is standard input")
    help_text = "the plan from which FILE goes on: the barrier is drawn, too, and what is kept, new and going"
    parser.add_argument("--from", metavar="OLD", dest="olds", action="append", default=[], help=help_text)
    parser.add_argument(
        "--instances", action="store_true", help="of a plan draw one box an instance, and who takes what from whom"
    )
    help_text = f"refuse to draw more boxes ({MOST_BOXES})"
    parser.add_argument("--most", type=int, default=MOST_BOXES, metavar="N", help=help_text)


@dataclasses.dataclass(frozen=True)
class Scene:
    """A plan as it is drawn: its steps, the rollouts in it, and in a folder what of it is done and what was begun."""

    steps: Sequence[Step]
    rollouts: Sequence[Rollout] = ()
    done: frozenset[str] | None = None
    begun: frozenset[str] = frozenset()

    @functools.cached_property
    def roles(self) -> dict[int, str]:
        """What becomes of each instance in the last change."""
        return roles_in(self.steps, self.rollouts)

    def name_of(self, action: Action) -> str:
        """An instance, with what becomes of it."""
        role = self.roles.get(action.instance)
        return f"{who(action)}, {role}" if role else who(action)


def scene_of_folder(folder: Folder) -> Scene:
    steps = folder.steps()
    done = folder.settled(steps)
    begun = frozenset(step.key for step in folder.begun(steps, done))
    return Scene(steps, folder.rollouts(len(steps)), frozenset(done), begun)


def scene_of_plan(plan: plans.Plan, arguments: argparse.Namespace) -> Scene:
    steps = steps_of(plan, arguments.file)
    return Scene(steps, rollouts_at(steps, counts_of(plan, arguments.file, arguments.olds), arguments.file))


def drawn(
    arguments: argparse.Namespace,
    of_universe: Callable[[Sequence[ComponentType]], Iterable[str]],
    of_instances: Callable[[Scene], Iterable[str]],
    of_plan: Callable[[Scene], Iterable[str]],
) -> str:
    """The picture of what a file or a folder has, by the one of the three that fits, where it is not too much."""
    if os.path.isdir(arguments.file):
        return drawn_scene(scene_of_folder(Folder(arguments.file)), arguments, of_instances, of_plan)
    data = read_bytes(arguments.file, plans.MOST_BYTES)
    if data.lstrip()[:1] == b"{":
        types = types_in(data, arguments.file)
        check_size(sum(len(kind.states) for kind in types), arguments.most, "states", "draw a part of the universe")
        return "".join(of_universe(types))
    plan = plans.plan_of(decoded(data, arguments.file), arguments.file)
    return drawn_scene(scene_of_plan(plan, arguments), arguments, of_instances, of_plan)


def drawn_scene(
    scene: Scene,
    arguments: argparse.Namespace,
    of_instances: Callable[[Scene], Iterable[str]],
    of_plan: Callable[[Scene], Iterable[str]],
) -> str:
    if arguments.instances:
        instances = sum(isinstance(step.action, New) for step in scene.steps)
        check_size(instances, arguments.most, "instances", "draw a smaller plan")
        return "".join(of_instances(scene))
    check_size(len(scene.steps), arguments.most, "actions", "draw it with --instances")
    return "".join(of_plan(scene))


def check_size(count: int, most: int, what: str, instead: str) -> None:
    if count > most:
        raise Refused(
            f"{count} {what}, and a picture of more than {most} is not read by anybody: {instead}, or with --most {count}"
        )


def short(action: Action) -> str:
    """An action in its own lane."""
    match action:
        case New() | Delete():
            return action.verb
        case Move():
            return f"{action.start} → {action.end}"
        case Bind() | Unbind():
            return f"{action.verb} {action.port}"
        case _:
            assert_never(action)


def ties(steps: Iterable[Step]) -> dict[tuple[int, int], list[str]]:
    """The ports that an instance ever takes from another one, by the numbers of the two."""
    found: dict[tuple[int, int], list[str]] = {}
    for step in steps:
        action = step.action
        if isinstance(action, Bind):
            found.setdefault((action.instance, action.provider), []).append(action.port)
    return found


def crossing(step: Step, steps: Sequence[Step]) -> list[int]:
    """The numbers of the other instances' actions that an action waits for."""
    return [number for number in step.waits if steps[number - 1].action.instance != step.action.instance]


def ports_of(types: Sequence[ComponentType]) -> dict[str, Port]:
    """The ports of a universe. A state is named by the places of its type and of itself."""
    ports: dict[str, Port] = {}
    for place, kind in enumerate(types):
        for number, state in enumerate(kind.states):
            for port in state.provide:
                ports.setdefault(port, Port()).providers.append(f"s{place}_{number}")
            for port, count in state.require.items():
                ports.setdefault(port, Port()).requirers.append((f"s{place}_{number}", count))
    return ports


def moves_of(place: int, kind: ComponentType) -> list[tuple[str, str]]:
    """Which state of the type may follow which."""
    name_of = {state.name: f"s{place}_{number}" for number, state in enumerate(kind.states)}
    return [(name_of[state.name], name_of[each]) for state in kind.states for each in state.next if each in name_of]
