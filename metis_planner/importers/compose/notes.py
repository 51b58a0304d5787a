"""Notes on a Compose project: what a plan leaves to its images, and to its hosts."""

import collections
from collections.abc import Iterator, Set

from metis_planner.importers.compose.deployment import Deployment
from metis_planner.importers.compose.input import HEALTHY
from metis_planner.importers.compose.next import NEXT
from metis_planner.text.documents import MOST_OF_A_PORT
from metis_planner.text.notes import Note


def healths(deployment: Deployment) -> Iterator[str]:
    """Notes on services whose health somebody waits for, and whose check has to be in their image."""
    for name in deployment.wanted:
        if HEALTHY in deployment.asked.get(name, ()) and not deployment.service(name).is_checked:
            yield Note.about(name, "", f"{name} has no healthcheck here: it gets healthy if its image has one")


def shared_ports(deployment: Deployment) -> Iterator[str]:
    """Notes on ports of the host that more than one container takes."""
    takers: dict[str, list[str]] = collections.defaultdict(list)
    for name in deployment.wanted:
        for port in deployment.service(name).ports:
            takers[port] += [name] * min(deployment.service(name).replicas, MOST_OF_A_PORT)
    for port, names in sorted(takers.items()):
        if len(names) > 1:
            reason = f"port {port} is taken by {len(names)} containers, of {', '.join(dict.fromkeys(names))}: one host has it once"
            yield Note.about(names[0], port.partition("/")[0], reason)


def on_same_data(first: Deployment, second: Deployment, renamed: Set[str]) -> Iterator[str]:
    """Notes on services of a later form that write to the data of a service that still stands while they start."""
    writers: dict[str, list[str]] = collections.defaultdict(list)
    for name in sorted(first.on):
        for place in first.written(name):
            writers[place].append(name)
    for name in second.wanted:
        for place in sorted(second.written(name)):
            before = [other for other in writers[place] if other != name or name in renamed]
            if before and (name in renamed or name not in first.on):
                shown = name + NEXT if name in renamed else name
                yield f"{shown} writes to {place} while {', '.join(before)}, which writes there too, still stands"
