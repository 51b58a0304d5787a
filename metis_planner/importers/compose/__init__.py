"""A Compose project: its networks, volumes, images and services, and what each service waits for."""

import argparse
import dataclasses
import hashlib
import os
import pathlib
from collections.abc import Iterator, Sequence

from metis_planner.answers import Answer, Refused
from metis_planner.carry.writing import write_whole
from metis_planner.importers.compose.deployment import Deployment
from metis_planner.importers.compose.input import COMPLETED, HEALTHY, Project, read_project, STARTED
from metis_planner.importers.compose.next import NEXT, PROJECT, BothForms
from metis_planner.importers.compose.notes import healths, on_same_data, shared_ports
from metis_planner.text.documents import (
    check_limits,
    ComponentType,
    DIGEST_LENGTH,
    document,
    Names,
    one_each,
    RESERVED,
    State,
    two_states,
)

# A service of one of these names is written `service/NAME`, so that no two types have one name.
TAKEN = (PROJECT, RESERVED, "network", "volume", "image", "service")
REPLACE_DATA = "--replace-data"


class Writer:
    """The component types of a deployment."""

    def __init__(self, deployment: Deployment, names: Names) -> None:
        self.deployment = deployment
        self.names = names
        self.sums: dict[str, str] = {}

    def types(self) -> list[ComponentType]:
        services = [each for name in self.deployment.wanted for each in self.service(name)]
        things: dict[str, Sequence[str]] = {thing: () for name in self.deployment.wanted for thing in self.things(name)}
        given = self.deployment.given
        for image, built_on in self.deployment.images().items():
            things[self.names.of(image)] = [self.names.of(each) for each in built_on if each not in given]
        made = [two_states(thing, "absent", "there", (thing,), one_each(things[thing])) for thing in sorted(things)]
        return [*services, *made, self.whole()]

    def type_name(self, name: str) -> str:
        return self.names.of(f"service/{name}" if name in TAKEN else name)

    def port(self, name: str, milestone: str) -> str:
        return self.names.of(f"{self.type_name(name)}/{milestone}")

    def things(self, name: str) -> list[str]:
        given = self.deployment.given
        return [self.names.of(thing) for thing in self.deployment.things(name) if thing not in given]

    def milestones(self, name: str) -> tuple[list[str], bool]:
        """The milestones that a service comes to, later ones last, and whether these are components of their own."""
        asked = self.deployment.asked.get(name, ())
        later = [each for each in (HEALTHY, COMPLETED) if each in asked]
        return later, bool(later) and (STARTED in asked or len(later) > 1)

    def demand(self, name: str, milestone: str) -> dict[str, int]:
        """What one asks for who waits for a milestone of all replicas of a service."""
        _, is_apart = self.milestones(name)
        is_one = is_apart and milestone != STARTED
        return {self.port(name, milestone): 1 if is_one else self.deployment.service(name).replicas}

    def waits(self, name: str) -> dict[str, int]:
        """What a service asks for before it is started."""
        required: dict[str, int] = {}
        for other, milestone in self.deployment.needs(name).items():
            if other not in self.deployment.given:
                required.update(self.demand(other, milestone))
        return required

    def sum(self, name: str) -> str:
        """What tells the containers of a service from those of another form of it: its settings and image, whether its end is
        awaited, and the same of each service with which it is restarted or made anew.
        """
        work = [name]
        while work:
            each = work[-1]
            before = [other for other in self.deployment.followed(each) if other not in self.sums]
            if before and each not in self.sums:
                self.sums[each] = ""  # whoever follows itself by others is found once
                work += before
                continue
            words = [self.deployment.service(each).sum]
            words += ["once"] * (COMPLETED in self.deployment.asked.get(each, ()))
            words += [self.sum_with(other) for other in self.deployment.followed(each)]
            self.sums[work.pop()] = " ".join(words)
        return self.sums[name]

    def sum_with(self, name: str) -> str:
        """A word that is another one where the containers of this service are."""
        return f"with={name}:{hashlib.sha256(self.sums[name].encode()).hexdigest()[:DIGEST_LENGTH]}"

    def service(self, name: str) -> list[ComponentType]:
        later, is_apart = self.milestones(name)
        me, things = self.type_name(name), one_each(self.things(name))
        running = {**things, **self.waits(name)}
        made_of = dict(things)
        for other in self.deployment.shared(name):
            if other not in self.deployment.given:
                made_of.update(self.demand(other, self.deployment.needs(name)[other]))
        states = [State("absent", next=("created",)), State("created", require=made_of, next=(STARTED, "absent"))]
        if later and not is_apart:
            # Also what has completed goes before what it waited for, as Compose takes a project down.
            states.append(State(STARTED, require=running, next=(later[0], "created")))
            states.append(State(later[0], (self.port(name, later[0]),), running, ("created",)))
        else:
            states.append(State(STARTED, (self.port(name, STARTED),), running, ("created",)))
        types = [ComponentType(me, tuple(states), self.sum(name))]
        if is_apart:
            for milestone in later:
                port = self.port(name, milestone)
                apart = two_states(port, "awaited", milestone, (port,), self.demand(name, STARTED))
                types.append(dataclasses.replace(apart, sum=f"apart {self.sum_with(name)}"))
        return types

    def whole(self) -> ComponentType:
        """The project is up when each of its services has come as far as somebody asks."""
        required: dict[str, int] = {}
        for name in self.deployment.wanted:
            for milestone in self.milestones(name)[0] or [STARTED]:
                required.update(self.demand(name, milestone))
        return two_states(PROJECT, "down", "up", (), required)


class Plan:
    """One project, or two in one universe, with what of them stands."""

    def __init__(
        self,
        projects: Sequence[Project],
        profiles: Sequence[str] = (),
        given: Sequence[str] = (),
        replaces_data: bool = False,
        is_all_awaited: bool = False,
        path: str = "",
        is_rebound: bool = False,
    ) -> None:
        self.path = path if os.path.isabs(path) and path.isprintable() else ""  # of the first one, which other words may look for
        self.deployments = [
            Deployment(project, tuple(profiles) or project.profiles, given, is_all_awaited) for project in projects
        ]
        for name in given:
            if not any(deployment.knows(name) for deployment in self.deployments):
                raise Refused(f"--given {name}: the project has no service, network, volume or image of this name")
        self.kept = [] if replaces_data else self.keep_data()
        self.asked_given = given
        self.given = [*given, *self.kept]
        self.names = Names()
        self.types = [Writer(deployment, self.names).types() for deployment in self.deployments]
        for types in self.types:
            check_limits(types)
        self.both = BothForms(self.types[0], self.types[1], self.names, is_rebound) if len(projects) > 1 else None

    def keep_data(self) -> list[str]:
        """What holds data in a project that another one follows: it is given, so that no plan takes it away."""
        first, *later = self.deployments
        kept = [name for name in first.holding_data() if name not in first.given] if later else []
        for deployment in self.deployments:
            deployment.give(kept)
        return kept

    def document(self) -> str:
        return document(self.comment(), self.both.types() if self.both else self.types[0], self.names)

    def comment(self) -> str:
        named = " and then ".join(
            f"the Compose project {each.project.name or 'without a name'} with {len(each.on)} services"
            for each in self.deployments
        )
        standing = f", where {', '.join(self.given)} stands" if self.given else ""
        targets = f"{PROJECT}:up" + (f" or {PROJECT}{NEXT}:up" if self.both and PROJECT in self.both.renamed else "")
        origin = f" from {self.path}" if self.path else ""
        return f"{named}{standing}, by importers compose{origin}; target: {targets}"

    def notes(self) -> Iterator[str]:
        """What was left open, or to others."""
        for deployment in self.deployments:
            yield from deployment.project.notes
            yield from healths(deployment)
            yield from shared_ports(deployment)
        if self.kept:
            yield f"given, since it holds data: {', '.join(self.kept)}{self.below_kept()}; {REPLACE_DATA} takes it as all else"
        if self.both:
            yield from self.twice()
            yield from on_same_data(self.deployments[0], self.deployments[1], self.renamed)

    def below_kept(self) -> str:
        """The services on which those that hold data stand, and which are given with them."""
        first = self.deployments[0]
        below = sorted((first.on & first.given) - {*self.kept, *self.asked_given})
        return f", and what that depends on: {', '.join(below)}" if below else ""

    @property
    def renamed(self) -> set[str]:
        """The services that stand twice, as they were and in their later form."""
        first, second = (set(each.wanted) for each in self.deployments)
        writer = Writer(self.deployments[0], self.names)
        renamed = self.both.renamed if self.both else set()
        return {name for name in first & second if writer.type_name(name) in renamed}

    def twice(self) -> Iterator[str]:
        """The services that stand twice while one follows the other, with what a host has once."""
        first, second = (deployment.project.services for deployment in self.deployments)
        for name in sorted(self.renamed):
            ports = sorted(set(first[name].ports) & set(second[name].ports))
            has_one_name = first[name].container_name and first[name].container_name == second[name].container_name
            taken = [f"port {port}" for port in ports] + [f"the name {first[name].container_name}"] * bool(has_one_name)
            if taken:
                yield f"{name} and {name}{NEXT} both take {', '.join(taken)}, so they cannot stand on one host at once"


def universe(
    projects: Sequence[Project], profiles: Sequence[str] = (), given: Sequence[str] = (), replaces_data: bool = False
) -> str:
    """The document of a project, or of one and the next one."""
    return Plan(projects, profiles, given, replaces_data).document()


def add_arguments(parser: argparse.ArgumentParser) -> None:
    parser.add_argument(
        "file", metavar="FILE", nargs="?", default="-", help="a project; standard input if none is named"
    )
    parser.add_argument("--next", metavar="FILE", help="a later form of the project, beside it in the same universe")
    help_text = "switches a profile on, in place of those that COMPOSE_PROFILES names"
    parser.add_argument("--profile", action="append", default=[], metavar="NAME", help=help_text)
    parser.add_argument(
        "--given",
        action="append",
        default=[],
        metavar="NAME",
        help="what stands, with all that it needs, and is left alone: SERVICE, network/N, volume/N or image/I",
    )
    parser.add_argument(
        REPLACE_DATA,
        action="store_true",
        help="with --next: volumes, and services that write to these or to folders of the host, are taken as all else",
    )
    help_text = "with --next: what waits for a changed service stays; the wishes of that, for `metis up --wishes`, are written here"
    parser.add_argument("--rebind", metavar="FILE", help=help_text)
    parser.add_argument("--wait", action="store_true", help="await each healthcheck, as `docker compose up --wait` does")


def run(arguments: argparse.Namespace) -> Answer:
    paths = [arguments.file] + ([arguments.next] if arguments.next else [])
    projects = [read_project(path) for path in paths]
    if arguments.rebind and not arguments.next:
        raise Refused("--rebind is for --next")
    words = (arguments.profile, arguments.given, arguments.replace_data, arguments.wait, paths[0], bool(arguments.rebind))
    plan = Plan(projects, *words)
    if plan.both and arguments.rebind:
        write_whole(pathlib.Path(arguments.rebind), plan.both.wishes())
    return Answer(plan.document(), list(dict.fromkeys(plan.notes())))
