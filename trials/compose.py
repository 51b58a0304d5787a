#!/usr/bin/env python3
"""Tries plans for Compose projects: python3 -m trials compose [--metis PROGRAM] [--orders N] [--profile P] FILE ..

For each project a universe is made, and the program plans for it, and for taking it down again (`rollout` without
targets). Both plans are gone through in the printed order and in N random ones (200) that keep the waits, and compared
with what the project itself says: a container is created after its networks, volumes and image, started after all
replicas of each service that its `depends_on` names have come as far as that asks, and taken away after all that
depend on it. The project is read anew here, and not by the importer.
"""

import argparse
import collections
import pathlib
import random
import sys
import tempfile

TOP = pathlib.Path(__file__).resolve().parent.parent

from metis_planner.importers import compose
from metis_planner.importers.compose import input
from metis_planner.text import plans
from metis_planner.text.actions import Delete, Move, New
from metis_planner.text.reading import read_text, value_of
from trials.trying import printed, try_files

REACHED = {
    "service_started": ("started", "healthy", "completed"),
    "service_healthy": ("healthy",),
    "service_completed_successfully": ("completed",),
}
THINGS = ("network", "volume", "image")


def wanted_services(project, profiles):
    """The services that are on, as the project has them."""
    return {
        name: told
        for name, told in project["services"].items()
        if not told.get("profiles") or set(told["profiles"]) & set(profiles)
    }


def waits(told):
    depends = told.get("depends_on") or {}
    if isinstance(depends, list):
        return dict.fromkeys(depends, "service_started")
    return {other: each.get("condition", "service_started") for other, each in depends.items()}


def replicas(told):
    return (told.get("deploy") or {}).get("replicas", told.get("scale", 1))


class Host:
    """What stands while the actions of a plan are done, and what they did against the project."""

    def __init__(self, services):
        self.services = services
        self.state = {}  # of each instance: its type, and the state that it is in
        self.faults = []

    def reached(self, service, condition):
        """How many replicas of a service have come as far as a condition asks."""
        whole = {state for name, state in self.state.values() if name.startswith(f"{service}/")}
        if whole & set(REACHED[condition]):
            return replicas(self.services[service])
        return sum(name == service and state in REACHED[condition] for name, state in self.state.values())

    def do(self, action):
        if isinstance(action, New):
            self.state[action.instance] = (action.type, "absent")
        elif isinstance(action, Delete):
            self.take_away(action.instance)
        elif isinstance(action, Move):
            self.state[action.instance] = (action.type, action.end)
            self.check_move(action.type, action.end)

    def check_move(self, name, state):
        told = self.services.get(name)
        if told and state == "created":
            there = {each for each, state in self.state.values() if state == "there"}
            for kind in THINGS:
                for each in of_kind(told, kind):
                    if each not in there:
                        self.faults.append(f"{name} is created before {each} is there")
        if told and state == "started":
            for other, condition in waits(told).items():
                if other in self.services and self.reached(other, condition) < replicas(self.services[other]):
                    self.faults.append(f"{name} is started before {condition} of {other}")
        service, _, milestone = name.partition("/")
        if service in self.services and milestone == state:
            if self.reached(service, "service_started") < replicas(self.services[service]):
                self.faults.append(f"{name} before all replicas are started")

    def take_away(self, instance):
        name, _ = self.state.pop(instance)
        standing = {each for each, state in self.state.values() if each in self.services and state != "absent"}
        for other in standing - {name}:
            told = self.services[other]
            if name in waits(told) or name in [each for kind in THINGS for each in of_kind(told, kind)]:
                self.faults.append(f"{name} is taken away before {other}, which needs it")


def of_kind(told, kind):
    """The networks, volumes or image of a service that are the project's own, as types are named."""
    if kind == "image":
        names = [told["image"]] if "image" in told else []
    elif kind == "network":
        names = told.get("networks") or ([] if told.get("network_mode") else ["default"])
    else:
        listed = told.get("volumes") or []
        short = [each.partition(":")[0] for each in listed if isinstance(each, str)]
        names = [each for each in short if each[:1] not in "./~$"]
        names += [each["source"] for each in listed if isinstance(each, dict) and each["type"] == "volume"]
    return [f"{kind}/{name}".replace(":", "_") for name in names if name not in told.get("external", ())]


def mark_external(project):
    """Notes with each service which of its networks and volumes are not the project's own."""
    external = [
        name
        for table in ("networks", "volumes")
        for name, told in (project.get(table) or {}).items()
        if (told or {}).get("external")
    ]
    for told in project["services"].values():
        told["external"] = external


def check(plan, services, orders, is_up):
    """The faults of the printed order and of random ones, how often each."""
    faults = collections.Counter()
    for seed in [None, *range(orders)]:
        order = plan.actions if seed is None else plans.random_order(plan, random.Random(seed))
        host = Host(services)
        for action in order:
            host.do(action)
        faults.update(host.faults)
        for name, told in services.items():
            wanted = replicas(told) if is_up else 0
            found = sum(each == name and state != "absent" for each, state in host.state.values())
            if found != wanted:
                faults[f"{found} of {name} in the end, in place of {wanted}"] += 1
        if not is_up and host.state:
            faults["something is left"] += 1
    return faults


def try_project(metis, path, arguments):
    """Lines on one project, and whether all was as it says."""
    document = compose.universe([input.read_project(path)], arguments.profile)
    project = value_of(read_text(path), path, input.AS_JSON)
    mark_external(project)
    services = wanted_services(project, arguments.profile)
    with tempfile.TemporaryDirectory() as folder:
        universe, plan = pathlib.Path(folder) / "universe.json", pathlib.Path(folder) / "plan.txt"
        universe.write_text(document)
        plan.write_text(printed(metis, "plan", universe, "project:up"))
        up = plans.read(plan.read_text())
        if not isinstance(up, plans.Plan):
            return [f"{path}: refused, {up.lacks} is not attained"], False
        down = plans.read(printed(metis, "rollout", universe, plan))
    faults = check(up, services, arguments.orders, True) + check(down, services, arguments.orders, False)
    lines = [f"{path}: {count} times {fault}" for fault, count in faults.items()]
    counts = (
        f"{len(up.actions)} actions up, {len(down.actions) - len(up.actions)} down; {arguments.orders + 1} orders each"
    )
    return [*lines, f"{path}: {counts}, {sum(faults.values())} faults"], not faults


def main():
    parser = argparse.ArgumentParser(description=__doc__, formatter_class=argparse.RawDescriptionHelpFormatter)
    parser.add_argument("files", metavar="FILE", nargs="+")
    parser.add_argument("--metis", default=str(TOP / "metis"), metavar="PROGRAM")
    parser.add_argument("--orders", type=int, default=200, metavar="N")
    parser.add_argument("--profile", action="append", default=[], metavar="P")
    arguments = parser.parse_args()
    return try_files(arguments.files, lambda path: try_project(arguments.metis, path, arguments))


if __name__ == "__main__":
    sys.exit(main())
