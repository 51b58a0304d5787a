"""Puts the instances of a plan on hosts, where some stand already: as `metis place` does, and in the text that it prints.

Each instance that stands keeps its host, and its room there from the beginning. The others go on the first host that has room for
them, in the order of the plan. With nothing that stands this is the program's own placement, word by word.
"""

import dataclasses
import re
from collections.abc import Collection, Iterator, Mapping, Sequence

from metis_planner.answers import Refused
from metis_planner.carry.folder import JOBS, NO_HOST, Folder, Mark
from metis_planner.carry.jobs import job_lines_in
from metis_planner.carry.steps import Step
from metis_planner.text import plans
from metis_planner.text.actions import Action, Delete, New

HOST = re.compile(rf"host ({plans.NAME.pattern}) ({plans.NUMBER.pattern})")
SIZE = re.compile(rf"size ({plans.NAME.pattern}) ({plans.NUMBER.pattern})")
DEFAULT_SIZE = 1


@dataclasses.dataclass(frozen=True)
class Hosts:
    """The rooms of hosts, in the order of the text, and the sizes of types; the program has read the text before."""

    rooms: Mapping[str, int]
    sizes: Mapping[str, int]

    @classmethod
    def of(cls, text: str) -> "Hosts":
        lines = text.split("\n")
        hosts = (HOST.fullmatch(line) for line in lines)
        sizes = (SIZE.fullmatch(line) for line in lines)
        return cls({each[1]: int(each[2]) for each in hosts if each}, {each[1]: int(each[2]) for each in sizes if each})

    def size(self, kind: str) -> int:
        return self.sizes.get(kind, DEFAULT_SIZE)


@dataclasses.dataclass
class Seats:
    """Where instances are while a plan is followed. Fixed ones stand on their hosts; those that never are there take no room."""

    hosts: Hosts
    fixed: Mapping[int, str]
    never: Collection[int] = ()
    at: dict[int, str] = dataclasses.field(default_factory=dict)
    sizes: dict[int, int] = dataclasses.field(default_factory=dict)

    def __post_init__(self) -> None:
        self.free = dict(self.hosts.rooms)

    def reserve(self, actions: Sequence[Action]) -> None:
        """Keeps the room of what stands, from the beginning."""
        for action in actions:
            if isinstance(action, New) and action.instance in self.fixed and action.instance not in self.never:
                host = self.fixed[action.instance]
                if host not in self.free:
                    raise Refused(f"{action.type}#{action.instance} stands on host {host}, which is none of the hosts")
                self.free[host] -= self.hosts.size(action.type)
        for host, free in self.free.items():
            if free < 0:
                room = self.hosts.rooms[host]
                raise Refused(f"host {host} has room for {room}, and what stands on it takes {room - free}")

    def seat(self, action: Action) -> None:
        """Puts what an action makes on a host; what it deletes takes no room any more."""
        instance = action.instance
        if isinstance(action, Delete) and instance in self.at:
            self.free[self.at[instance]] += self.sizes[instance]
        if not isinstance(action, New):
            return
        size = 0 if instance in self.never else self.hosts.size(action.type)
        host = self.fixed.get(instance) if instance not in self.never else None
        if host is None:
            host = next((each for each, free in self.free.items() if free >= size), None)
            if host is None:
                most = f"no host has more than {max(self.free.values())} left"
                raise Refused(f"no host has room for {action.type}#{instance}: its size is {size}, and {most}")
            self.free[host] -= size
        self.at[instance], self.sizes[instance] = host, size


def holds_in(seats: Seats, actions: Sequence[Action]) -> Iterator[tuple[int, list[int]]]:
    """Which actions wait for deletions on their hosts, and for which: as few of the first ones as make room for all so far."""
    made = dict.fromkeys(seats.free, 0)
    deletes: dict[str, list[tuple[int, int]]] = {host: [] for host in made}
    for action in actions:
        instance = action.instance
        if not isinstance(action, New | Delete) or instance not in seats.at:
            continue
        host, size = seats.at[instance], seats.sizes[instance]
        if isinstance(action, Delete):
            deletes[host].append((action.number, size))
            continue
        made[host] += size
        fits, numbers = seats.hosts.rooms[host], list[int]()
        for number, freed in deletes[host]:
            if made[host] <= fits:
                break
            numbers.append(number)
            fits += freed
        if numbers:
            yield action.number, numbers


def placement_text(hosts: Hosts, actions: Sequence[Action], fixed: Mapping[int, str], never: Collection[int] = ()) -> str:
    """The placement of a plan, in the text that `metis place` prints."""
    seats = Seats(hosts, fixed, never)
    seats.reserve(actions)
    for action in actions:
        seats.seat(action)
    lines = [f"on {action.instance} {seats.at[action.instance]}" for action in actions if isinstance(action, New)]
    count = len(lines)
    lines += [f"hold {number} after {' '.join(map(str, numbers))}" for number, numbers in holds_in(seats, actions)]
    return "\n".join([*lines, f"placed {count} hosts {len(hosts.rooms)}", ""])


def hosts_of(folder: Folder) -> dict[int, str]:
    """The hosts of all that stands in a folder or was begun there, as its marks tell, and the words of steps that were begun."""
    if not folder.has_plan():
        return {}
    steps, marks = folder.steps(), folder.marks()
    begun = {step.key for step in folder.begun(steps, set(marks))}
    jobs = job_lines_in(folder.path) if begun and (folder.path / JOBS).is_file() else ()
    host_of = {job.key: job.host for job in jobs if job.key in begun}
    found = {step.action.instance: host_of[step.key] for step in steps if step.key in host_of}
    found |= {step.action.instance: marks[step.key].host for step in steps if step.key in marks}
    return {instance: host for instance, host in found.items() if host not in ("", NO_HOST)}


def kept_placement(steps: Sequence[Step], marks: Mapping[str, Mark], actions: Sequence[Action]) -> str | None:
    """The placement of a list whose instances all were made, as marks tell it; nothing if there are no hosts.

    What was only made on the way to it is on none, and gets any: no step of it is ever done.
    """
    host_of = {step.action.instance: marks[step.key].host for step in steps if step.key in marks}
    known = {instance: host for instance, host in host_of.items() if host not in ("", NO_HOST)}
    if not known:
        return None
    made = [action.instance for action in actions if isinstance(action, New)]
    lines = [f"on {instance} {known.get(instance, next(iter(known.values())))}" for instance in made]
    return "\n".join([*lines, f"placed {len(made)} hosts {len(set(known.values()))}", ""])
