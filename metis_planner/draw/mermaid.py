"""A picture for Mermaid, which many sites draw in Markdown: `metis mermaid plan.txt`."""

from collections.abc import Iterator, Sequence

from metis_planner.carry.rollouts import ends_of
from metis_planner.carry.steps import lanes
from metis_planner.draw import picture
from metis_planner.text.documents import ComponentType

HEAD = "flowchart LR\n"


def subgraph(name: str, label: str) -> str:
    return f'  subgraph {name}["{label}"]\n    direction LR\n'


def plan_lines(scene: picture.Scene) -> Iterator[str]:
    steps = scene.steps
    yield HEAD
    for instance, lane in lanes(steps).items():
        yield subgraph(f"i{instance}", scene.name_of(lane[0].action))
        for step in lane:
            yield f'    a{step.action.number}["{step.action.number} {picture.short(step.action)}"]\n'
        if len(lane) > 1:
            yield f"    {' --> '.join(f'a{step.action.number}' for step in lane)}\n"
        yield "  end\n"
    for step in steps:
        for other in picture.crossing(step, steps):
            yield f"  a{other} -.-> a{step.action.number}\n"
    yield from barrier_lines(scene)


def barrier_lines(scene: picture.Scene) -> Iterator[str]:
    """The rule of a rollout: nothing old goes before all that is new stands."""
    number_of = {step.key: step.action.number for step in scene.steps}
    for place, rollout in enumerate(scene.rollouts):
        yield f'  b{place}(["all that is new stands"])\n'
        yield from (f"  a{number_of[key]} ==> b{place}\n" for key in ends_of(scene.steps[rollout.old : rollout.fresh]))
        for step in scene.steps[rollout.fresh : rollout.end]:
            if all(number <= rollout.fresh for number in step.waits):
                yield f"  b{place} ==> a{step.action.number}\n"


def instance_lines(scene: picture.Scene) -> Iterator[str]:
    steps = scene.steps
    yield HEAD
    for instance, lane in lanes(steps).items():
        yield f'  i{instance}["{scene.name_of(lane[0].action)}"]\n'
    for (instance, provider), ports in picture.ties(steps).items():
        yield f'  i{instance} -->|"{", ".join(ports)}"| i{provider}\n'


def universe_lines(types: Sequence[ComponentType]) -> Iterator[str]:
    yield HEAD
    for place, kind in enumerate(types):
        yield subgraph(f"t{place}", kind.name)
        for number, state in enumerate(kind.states):
            opening, closing = ('["', '"]') if number else ('(["', '"])')
            yield f"    s{place}_{number}{opening}{state.name}{closing}\n"
        yield from (f"    {one} --> {other}\n" for one, other in picture.moves_of(place, kind))
        yield "  end\n"
    for number, (name, port) in enumerate(picture.ports_of(types).items()):
        yield f'  p{number}(("{name}"))\n'
        yield from (f"  {own} --> p{number}\n" for own in port.providers)
        for own, count in port.requirers:
            yield f"  p{number} -.->|× {count}| {own}\n" if count > 1 else f"  p{number} -.-> {own}\n"
