"""Two forms of a project in one universe: what is the same is there once, and what differs has a second type."""

import dataclasses
from collections.abc import Sequence

from metis_planner.text.documents import ComponentType, Names, one_each
from metis_planner.text.wishes import HEAD

PROJECT = "project"
NEXT = "@next"
EVERYBODY = "rebind all"  # as `metis up` reads it


class BothForms:
    """The types of a project, and beside them those of the next one that are not the same.

    A type of the second that differs from the first's of its name, or requires what such a one provides, stands as
    NAME@next, and so do the ports that it provides. Where whoever waits is bound anew, only what differs stands as NAME@next, and
    it offers the ports of before.
    """

    def __init__(
        self, first: Sequence[ComponentType], second: Sequence[ComponentType], names: Names, is_rebound: bool = False
    ) -> None:
        self.is_rebound = is_rebound
        self.first = first
        self.second = second
        self.names = names
        self.standing = {each.name: each for each in first}
        self.renamed = self.differing()

    def differing(self) -> set[str]:
        """The names of the types that stand twice."""
        requiring: dict[str, list[ComponentType]] = {}
        for each in self.second:
            for state in each.states:
                for port in state.require:
                    requiring.setdefault(port, []).append(each)
        renamed = set() if self.is_rebound else {PROJECT}
        work = [each for each in self.second if each.name in renamed or self.is_other(each)]
        while work:
            component = work.pop()
            renamed.add(component.name)
            for state in () if self.is_rebound else component.states:
                for port in state.provide:
                    others = requiring.get(port, ())
                    work += [each for each in others if each.name in self.standing and each.name not in renamed]
        return renamed

    def is_other(self, component: ComponentType) -> bool:
        """Whether a type is another one than that of its name. That it waits for more or fewer replicas alone makes it none."""
        return component.name in self.standing and in_ones(self.standing[component.name]) != in_ones(component)

    def at_both(self, component: ComponentType) -> ComponentType:
        """A type that stands once, with as many providers as both forms have."""
        later = {each.name: each for each in self.second}.get(component.name)
        if component.name in self.renamed or later is None:
            return component
        states = (
            dataclasses.replace(one, require={port: min(count, other.require[port]) for port, count in one.require.items()})
            for one, other in zip(component.states, later.states)
        )
        return dataclasses.replace(component, states=tuple(states))

    def types(self) -> list[ComponentType]:
        ports = {
            port for each in self.second if each.name in self.renamed for state in each.states for port in state.provide
        }
        port_of = {} if self.is_rebound else {port: self.next_of(port) for port in sorted(ports)}
        fresh = [each for each in self.second if each.name in self.renamed or each.name not in self.standing]
        return [*map(self.at_both, self.first), *(self.moved(each, port_of) for each in fresh)]

    def wishes(self) -> str:
        """The wishes by which what is the same stays, and is bound to what has changed."""
        avoided = sorted(self.renamed & self.standing.keys())
        return "".join(f"{line}\n" for line in (HEAD, *(f"avoid {name}" for name in avoided), EVERYBODY, "end"))

    def next_of(self, name: str) -> str:
        return self.names.of(self.names.text_of.get(name, name) + NEXT)

    def moved(self, component: ComponentType, port_of: dict[str, str]) -> ComponentType:
        name = self.next_of(component.name) if component.name in self.renamed else component.name
        states = tuple(
            dataclasses.replace(
                state,
                provide=tuple(port_of.get(port, port) for port in state.provide),
                require={port_of.get(port, port): count for port, count in state.require.items()},
            )
            for state in component.states
        )
        return dataclasses.replace(component, name=name, states=states)


def in_ones(component: ComponentType) -> ComponentType:
    """A type as if it waited for one provider at each port."""
    states = (dataclasses.replace(state, require=one_each(state.require)) for state in component.states)
    return dataclasses.replace(component, states=tuple(states))
