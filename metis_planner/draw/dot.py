"""A picture for Graphviz: `metis dot plan.txt | dot -Tsvg -o plan.svg`.

Of a plan: a lane an instance, its actions from left to right, and dashed arrows to what waits for them. Of a universe:
a box a type with its states, and arrows from the state that provides a port over the port to the states that require
it.
"""

from collections.abc import Iterator, Sequence

from metis_planner.carry.rollouts import ends_of
from metis_planner.carry.steps import Step, lanes, who
from metis_planner.draw import picture
from metis_planner.text.actions import Delete, Move, Verb
from metis_planner.text.documents import ComponentType
from metis_planner.text.roles import GOING, KEPT, NEW

FONT = 'fontname="DejaVu Sans"'
HEAD = f"""\
digraph metis {{
  rankdir=LR newrank=true {FONT} fontsize=11 nodesep=0.12 ranksep=0.35
  node [{FONT} fontsize=10 shape=box style="rounded,filled" fillcolor=white color="#444444" height=0.28 margin="0.08,0.03"]
  edge [{FONT} fontsize=9 color="#444444" arrowsize=0.6]
"""
FILLS: dict[Verb, str] = {"new": "#eeeeee", "delete": "#f4c7b8", "bind": "#d7e8f7", "unbind": "#e9dff2", "move": "#d9efd5"}
# Of an instance in a change: the border of its lane, and how it looks as one box.
BORDERS = {KEPT: "#3c8d2f", NEW: "#1f5fa8", GOING: "#b8431f"}
ROLE_FILLS = {KEPT: FILLS["move"], NEW: FILLS["bind"], GOING: FILLS["delete"]}
INITIAL, PROVIDED, UNPROVIDED, LINK = "#eeeeee", "#d7e8f7", "#f4c7b8", "#1f5fa8"


def quoted(text: str) -> str:
    escaped = text.replace("\\", "\\\\").replace('"', '\\"')
    return f'"{escaped}"'


def cluster(name: str, label: str, role: str = "") -> str:
    look = f'color="{BORDERS[role]}" penwidth=2' if role else 'color="#bbbbbb"'
    return f"  subgraph cluster_{name} {{\n    label={quoted(label)} labeljust=l style=rounded {look}\n"


def fill_of(step: Step, scene: picture.Scene) -> str:
    """How an action looks: by what it does, and in a folder by how far it is."""
    fill = f'fillcolor="{FILLS[step.action.verb]}"'
    if scene.done is None or step.key in scene.done:
        return fill
    if step.key in scene.begun:
        return 'fillcolor="#ffb347" color="#cc5500" penwidth=2'
    return 'fillcolor=white style="rounded,dashed"'


def barrier_lines(scene: picture.Scene) -> Iterator[str]:
    """The rule of a rollout: nothing old goes before all that is new stands."""
    number_of = {step.key: step.action.number for step in scene.steps}
    for place, rollout in enumerate(scene.rollouts):
        fresh, removal = scene.steps[rollout.old : rollout.fresh], scene.steps[rollout.fresh : rollout.end]
        label = quoted("all that is new stands")
        yield f'  b{place} [label={label} shape=plaintext style=filled fillcolor="{LINK}" fontcolor=white]\n'
        yield from (f'  a{number_of[key]} -> b{place} [color="{LINK}" penwidth=1.5]\n' for key in ends_of(fresh))
        for step in removal:
            if all(number <= rollout.fresh for number in step.waits):
                yield f'  b{place} -> a{step.action.number} [color="{LINK}" penwidth=1.5]\n'


def plan_lines(scene: picture.Scene) -> Iterator[str]:
    steps = scene.steps
    yield HEAD
    for instance, lane in lanes(steps).items():
        yield cluster(str(instance), scene.name_of(lane[0].action), scene.roles.get(instance, ""))
        for step in lane:
            label = quoted(f"{step.action.number} {picture.short(step.action)}")
            yield f"    a{step.action.number} [label={label} {fill_of(step, scene)}]\n"
        if len(lane) > 1:
            yield f"    {' -> '.join(f'a{step.action.number}' for step in lane)} [weight=4]\n"
        yield "  }\n"
    for step in steps:
        for other in picture.crossing(step, steps):
            yield f'  a{other} -> a{step.action.number} [style=dashed color="{LINK}"]\n'
    yield from barrier_lines(scene)
    yield "}\n"


def instance_lines(scene: picture.Scene) -> Iterator[str]:
    steps = scene.steps
    yield HEAD
    types = {}
    for instance, lane in lanes(steps).items():
        types[instance] = lane[0].action.type
        label, fill = who(lane[0].action), FILLS["move"]
        state = next((it.end for step in reversed(lane) if isinstance(it := step.action, Move)), "")
        if state:
            label += f": {state}"
        role = scene.roles.get(instance)
        if role:
            label, fill = f"{label}, {role}", ROLE_FILLS[role]
        elif isinstance(lane[-1].action, Delete):
            label, fill = f"{label}, deleted", FILLS["delete"]
        yield f'  i{instance} [label={quoted(label)} fillcolor="{fill}"]\n'
    for (instance, provider), ports in picture.ties(steps).items():
        label = "" if ports == [types[provider]] else f" [label={quoted(', '.join(ports))}]"
        yield f"  i{instance} -> i{provider}{label}\n"
    yield "}\n"


def universe_lines(types: Sequence[ComponentType]) -> Iterator[str]:
    yield HEAD
    for place, kind in enumerate(types):
        yield cluster(str(place), kind.name)
        for number, state in enumerate(kind.states):
            look = f'"{FILLS["move"]}"' if number else f'"{INITIAL}" peripheries=2'
            yield f"    s{place}_{number} [label={quoted(state.name)} fillcolor={look}]\n"
        yield from (f"    {one} -> {other} [weight=4]\n" for one, other in picture.moves_of(place, kind))
        yield "  }\n"
    for number, (name, port) in enumerate(picture.ports_of(types).items()):
        fill = PROVIDED if port.providers else UNPROVIDED
        yield f'  p{number} [label={quoted(name)} shape=ellipse style=filled fillcolor="{fill}"]\n'
        yield from (f'  {own} -> p{number} [color="{LINK}" arrowhead=odot]\n' for own in port.providers)
        for own, count in port.requirers:
            label = f" label={quoted(f'× {count}')}" if count > 1 else ""
            yield f'  p{number} -> {own} [style=dashed color="{LINK}"{label}]\n'
    yield "}\n"
