"""A Compose project with the services that are switched on, what each needs, and what of it stands."""

import collections
import functools
from collections.abc import Iterable

from metis_planner.answers import Refused, made_of_each
from metis_planner.importers.compose.input import COMPLETED, HEALTHY, Need, Project, Service
from metis_planner.text.documents import MOST_PAIRS

# A service is absent, created and started at least.
FEWEST_PAIRS = 3


def switched_on(project: Project, profiles: Iterable[str]) -> set[str]:
    """The services that are wanted: those without a profile, and those of a profile that is asked for."""
    on = {
        name
        for name, service in project.services.items()
        if not service.profiles or service.profiles & set(profiles) or "*" in profiles
    }
    made_of_each(sorted(on), lambda name: check_service(project, on, project.services[name]))
    check_container_names(project, on)
    return {name for name in on if project.services[name].replicas > 0}


def check_container_names(project: Project, on: Iterable[str]) -> None:
    taken: dict[str, str] = {}
    for name in sorted(on):
        container = project.services[name].container_name
        if container and taken.setdefault(container, name) != name:
            raise Refused(f"service {name}: the name {container} is that of the container of {taken[container]} already")


def check_service(project: Project, on: set[str], service: Service) -> None:
    """Refuses a service with which Compose would fail, or wait for ever."""
    where = f"service {service.name}"
    if service.fault:
        raise Refused(service.fault)
    if service.container_name and service.replicas > 1:
        raise Refused(f"{where}: {service.replicas} replicas cannot all have the name {service.container_name}")
    for other in service.built_on:
        if other not in project.services:
            raise Refused(f"{where}: it is built on {other}, which nobody defines")
    for other, need in service.needs.items():
        if other not in project.services and need.is_required:
            raise Refused(f"{where}: it depends on {other}, which nobody defines")
        if other not in project.services or not need.is_required:
            continue
        if other not in on:
            raise Refused(
                f"{where}: it depends on {other}, which is off; "
                f"--profile {sorted(project.services[other].profiles)[0]} switches it on"
            )
        fault = never_comes(project.services[other], need)
        if fault:
            raise Refused(f"{where}: {fault}")


def never_comes(service: Service, need: Need) -> str | None:
    """Why a service never comes to the milestone that somebody waits for, or None."""
    if need.milestone == HEALTHY and service.is_never_healthy:
        return f"it waits for {service.name} to be healthy, whose healthcheck is off"
    if need.milestone == COMPLETED and service.restarts:
        return f"it waits for {service.name} to complete, which starts again whenever it ends (restart: {service.restarts})"
    return None


class Deployment:
    """The services of a project that are switched on, what each needs, and what already stands."""

    def __init__(
        self, project: Project, profiles: Iterable[str], given: Iterable[str], is_all_awaited: bool = False
    ) -> None:
        self.project = project
        self.is_all_awaited = is_all_awaited  # whether each healthcheck is
        self.on = switched_on(project, profiles)
        self.given: set[str] = set()
        self.give(given)
        if len(self.wanted) * FEWEST_PAIRS > MOST_PAIRS:
            raise Refused(f"{len(self.wanted)} services, and Metis takes at most {MOST_PAIRS} pairs of type and state")

    def give(self, names: Iterable[str]) -> None:
        """Takes more for what stands: those of these names that the project has, with all that they stand on."""
        self.given = self.closed({*self.given, *(name for name in names if self.knows(name))})
        self.wanted = sorted(self.on - self.given)
        self.__dict__.pop("asked", None)

    def holding_data(self) -> list[str]:
        """The project's own volumes, and the services that write to a volume, or to a folder of the host."""
        services = [name for name in sorted(self.on) if self.written(name)]
        volumes = {volume for name in self.on for volume in self.own_volumes(self.service(name).volumes)}
        return [*services, *sorted(volumes)]

    def written(self, name: str) -> set[str]:
        """The places to which a service writes data, its own mounts and those of other services: volumes, and folders of the host."""
        found: set[str] = set()
        seen: set[tuple[str, bool]] = set()
        work = [(name, True)]
        while work:
            each, is_written = work.pop()
            if (each, is_written) in seen or each not in self.project.services:
                continue
            seen.add((each, is_written))
            service = self.service(each)
            found.update(mount.place for mount in service.mounts if is_written and mount.keeps_data)
            work += [(other, is_written and may_write) for other, may_write in service.volumes_from]
        return found

    def own_volumes(self, names: Iterable[str]) -> list[str]:
        return [f"volume/{name}" for name in names if f"volume/{name}" not in self.project.external]

    def service(self, name: str) -> Service:
        return self.project.services[name]

    def things(self, name: str) -> list[str]:
        """The networks, volumes and the image that a service stands on."""
        service = self.service(name)
        things = [f"network/{each}" for each in service.networks] + [f"volume/{each}" for each in service.volumes]
        own = [each for each in things if each not in self.project.external]
        return [*own, *([self.image(name)] if service.image else [])]

    def image(self, name: str) -> str:
        return f"image/{self.service(name).image}"

    def images(self) -> dict[str, dict[str, None]]:
        """For each image that is needed those in which its build goes on."""
        found: dict[str, dict[str, None]] = {}
        work = [name for name in self.wanted if self.service(name).image]
        while work:
            name = work.pop()
            if self.image(name) in self.given:
                continue
            built_on = [other for other in self.service(name).built_on if self.image(other) != self.image(name)]
            known = found.setdefault(self.image(name), {})
            work += [other for other in built_on if self.image(other) not in known]
            known.update((self.image(other), None) for other in built_on)
        return found

    def needs(self, name: str) -> dict[str, str]:
        """The milestone of each service that one waits for. For one that is off, or has no replicas, nobody waits."""
        needs = self.service(name).needs.items()
        return {
            other: need.milestone
            for other, need in sorted(needs)
            if other in self.on and never_comes(self.service(other), need) is None
        }

    def shared(self, name: str) -> list[str]:
        """The services without whose containers that of one cannot be made, since it takes a namespace or volumes of theirs."""
        return [other for other in self.needs(name) if self.service(name).needs[other].is_shared]

    def followed(self, name: str) -> list[str]:
        """The services with which one is restarted or made anew."""
        needs = self.service(name).needs.items()
        return [other for other, need in sorted(needs) if need.is_followed and other in self.on]

    def knows(self, name: str) -> bool:
        """Whether the project has a service, network, volume or image of this name."""
        things = {thing for each in self.on for thing in self.things(each)}
        return name in self.on or name in things or name in self.project.external

    def closed(self, given: set[str]) -> set[str]:
        """What stands, with all that it stands on: a service that stands has what it needs."""
        found: set[str] = set()
        work = sorted(given)
        while work:
            name = work.pop()
            if name not in found:
                found.add(name)
                if name in self.on:
                    work += [*self.things(name), *self.needs(name)]
        return found

    @functools.cached_property
    def asked(self) -> dict[str, set[str]]:
        """For each service its milestones that some other one waits for."""
        asked: dict[str, set[str]] = collections.defaultdict(set)
        for name in self.wanted if self.is_all_awaited else ():
            if self.service(name).is_checked and not self.service(name).is_never_healthy:
                asked[name].add(HEALTHY)
        for name in self.wanted:
            for other, milestone in self.needs(name).items():
                asked[other].add(milestone)
        return asked
