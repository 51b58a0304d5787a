"""Reads a Compose project, as `docker compose config --format json` prints it, or as a file where PyYAML is there."""

import dataclasses
import hashlib
import json
import os
import pathlib
import re
from collections.abc import Iterator, Mapping
from typing import Any, NamedTuple

from metis_planner.answers import Refused, made_of_each
from metis_planner.importers.compose import keys
from metis_planner.importers.compose.dotenv import read_variables
from metis_planner.importers.compose.mounts import Mount, mounts_of
from metis_planner.importers.compose.variables import check_required, Variables
from metis_planner.text.documents import DIGEST_LENGTH
from metis_planner.text.reading import flag, listed, mapping, read_text, text_of, texts_in, value_of

STARTED, HEALTHY, COMPLETED = "started", "healthy", "completed"
MILESTONES = {
    "service_started": STARTED,
    "service_healthy": HEALTHY,
    "service_completed_successfully": COMPLETED,
}
AS_JSON = "`docker compose config --format json` prints a project as JSON"
# What of a project and of a service is looked at; in all else only variables that are required are.
OF_PROJECT = ("name", "services", "networks", "volumes", "secrets", "configs", "include")
OF_SERVICE = (
    "image build provider deploy scale networks network_mode volumes depends_on links volumes_from ipc pid profiles restart "
    "healthcheck container_name ports extends secrets configs"
).split()
# Lists of a service in which nothing may stand twice.
WITHOUT_DOUBLES = "depends_on networks profiles links volumes volumes_from ports".split()
# What of a service is none of its container's; and how a sum begins that is not Compose's own, and says that of no image.
APART = ("build", "pull_policy", "scale", "profiles")
OWN_SUM, NO_IMAGE = "own:", "-"
DEFAULT_NAMES = ("compose.yaml", "compose.yml", "docker-compose.yaml", "docker-compose.yml")
MOST_ENV = 1024 * 1024
ALWAYS = ("always", "unless-stopped")
CHECKS = ("NONE", "CMD", "CMD-SHELL")
PUBLISHED = re.compile(r"(?:(?P<address>\[[^\]]*\]|[^:\[\]]*):)?(?P<host>[0-9]+):[0-9]+(?:/(?P<protocol>[a-z]+))?")
# What a secret and a configuration are made of, one of these.
MADE_OF = {"secrets": ("file", "environment"), "configs": ("file", "environment", "content")}


class Need(NamedTuple):
    """What a service waits for of another one, and whether it cannot do without it."""

    milestone: str
    is_required: bool = True
    is_followed: bool = False  # whether it is to be restarted, or made anew, where the other one is
    is_shared: bool = False  # whether its container can only be made where that of the other one is there


@dataclasses.dataclass(frozen=True)
class Service:
    name: str
    replicas: int
    image: str  # empty where a provider of its own makes the service
    networks: tuple[str, ...]
    mounts: tuple[Mount, ...]
    needs: dict[str, Need]
    profiles: frozenset[str]
    volumes_from: tuple[tuple[str, bool], ...] = ()  # services, and whether their volumes are written to
    built_on: tuple[str, ...] = ()  # the services in whose images its own is built
    is_never_healthy: bool = False
    is_checked: bool = False
    restarts: str = ""  # the word by which it starts again even after it has completed
    ports: tuple[str, ...] = ()  # of the host, each fixed
    container_name: str = ""
    fault: str = ""  # why Compose would not start it, which matters only where it is on
    sum: str = ""  # what tells its containers from those of another form of it

    @property
    def volumes(self) -> tuple[str, ...]:
        return tuple(sorted({each.source for each in self.mounts if each.is_volume}))


@dataclasses.dataclass(frozen=True)
class Project:
    name: str
    services: dict[str, Service]
    external: frozenset[str]  # networks and volumes that are not the project's own, as `network/NAME`
    notes: tuple[str, ...] = ()
    profiles: tuple[str, ...] = ()  # those that the environment switches on


def read_project(path: str) -> Project:
    told = value_of(read_text(path), path, AS_JSON)
    if not isinstance(told, dict) or not mapping(told, "services", path):
        raise Refused(f"{path}: no Compose project, since it has no services")
    if "include" in told:
        raise Refused(f"{path}: it includes other files; `docker compose config` resolves them")
    keys.check_project_keys(told, path)
    environment = environment_beside(path)
    check_required(told, environment)
    variables = Variables(environment)
    project = variables.inside(looked_at(told, path))
    check_name(project, environment, path)
    external = frozenset(external_of(project, path))
    check_made_of(project, path)
    project["name"] = name = name_of(project, environment, path)
    found = made_of_each(sorted(project["services"]), lambda name: service_of(name, project["services"][name], project))
    services = {name: dataclasses.replace(each, sum=own_sum(told["services"][name])) for name, each in found.items()}
    notes = (*variables.notes(), *left_beside(path))
    return Project(name, services, external, notes, profiles_in(environment))


def environment_beside(path: str) -> dict[str, str]:
    """The variables of the file `.env` beside a project, and over them those of this process, as Compose has it."""
    beside = pathlib.Path(path).parent / ".env"
    told = {}
    if path != "-" and beside.is_file():
        told = read_variables(read_text(str(beside), MOST_ENV), str(beside), os.environ)
    return {**told, **os.environ}


def profiles_in(environment: Mapping[str, str]) -> tuple[str, ...]:
    """The profiles that are switched on where no option says which."""
    words = environment.get("COMPOSE_PROFILES", "").split(",")
    return tuple(dict.fromkeys(word.strip() for word in words if word.strip()))


def looked_at(told: dict[str, Any], path: str) -> dict[str, Any]:
    """The parts of a project that are looked at."""
    project = {key: told[key] for key in OF_PROJECT if key in told}
    project["services"] = {
        name: {key: each[key] for key in OF_SERVICE if key in each} if isinstance(each, dict) else each
        for name, each in mapping(told, "services", path).items()
    }
    for name, each in mapping(told, "services", path).items():
        if isinstance(each, dict):
            keys.check_service_keys(each, f"service {name}")
    return project


def check_name(project: dict[str, Any], environment: Mapping[str, str], path: str) -> None:
    """Refuses a name of the project that is none, wherever it comes from."""
    for name in (project.get("name"), environment.get("COMPOSE_PROJECT_NAME")):
        if isinstance(name, str) and name and "$" not in name and not keys.PROJECT_NAME.fullmatch(name):
            raise Refused(f"{path}: no name of a project, which has small letters, digits, - and _: {name}")


def name_of(project: dict[str, Any], environment: Mapping[str, str], path: str) -> str:
    """The name of the project, if it says one, or the environment does."""
    return text_of(project.get("name") or environment.get("COMPOSE_PROJECT_NAME") or "", "name")


def own_sum(told: Mapping[str, Any]) -> str:
    """A sum of what a container has of its service, variables as they stand. Compose's own is `docker compose config --hash`."""
    own = {key: each for key, each in told.items() if key not in APART}
    if isinstance(own.get("deploy"), dict):
        own["deploy"] = {key: each for key, each in own["deploy"].items() if key != "replicas"}
    digest = hashlib.sha256(json.dumps(in_one_order(own), default=str).encode()).hexdigest()
    return f"{OWN_SUM}{digest[:DIGEST_LENGTH]} {NO_IMAGE}"


def with_sums(project: Project, sums: Mapping[str, str]) -> Project:
    """The project with other sums of its services, such as Compose's own."""
    services = {name: dataclasses.replace(each, sum=sums[name]) for name, each in project.services.items()}
    return dataclasses.replace(project, services=services)


def in_one_order(told: Any) -> Any:
    """A value in which it makes no difference in which order the keys of a mapping stand."""
    if isinstance(told, Mapping):
        return sorted(([str(key), in_one_order(each)] for key, each in told.items()), key=lambda pair: str(pair[0]))
    return [in_one_order(each) for each in told] if isinstance(told, list) else told


def external_of(project: dict[str, Any], path: str) -> Iterator[str]:
    """The networks and volumes that are not the project's own. Compose takes nothing else about one of these."""
    for kind in ("network", "volume"):
        for name, each in mapping(project, f"{kind}s", path).items():
            if not isinstance(each, dict) or not is_external(each, f"{kind} {name}"):
                continue
            for key in each:
                if key not in keys.OF_EXTERNAL and not key.startswith(keys.EXTENSION):
                    raise Refused(f"{kind} {name}: it is external, so Compose takes no '{key}' for it")
            yield f"{kind}/{name}"


def check_made_of(project: dict[str, Any], path: str) -> None:
    """Refuses secrets and configurations that are made of nothing, or of two things."""
    for kind, ways in MADE_OF.items():
        for name, each in mapping(project, kind, path).items():
            told = [way for way in ways if isinstance(each, dict) and way in each]
            is_elsewhere = isinstance(each, dict) and ("driver" in each or "external" in each)
            if len(told) > 1 or not (told or is_elsewhere):
                raise Refused(f"{kind[:-1]} {name}: exactly one of {', '.join(ways)} has to be there")


def left_beside(path: str) -> Iterator[str]:
    """A note on a file that Compose would read beside this one, if none were named."""
    file = pathlib.Path(path)
    if file.name in DEFAULT_NAMES:
        stem = file.name.partition(".")[0]
        for ending in ("yaml", "yml"):
            beside = file.with_name(f"{stem}.override.{ending}")
            if beside.is_file():
                yield f"{beside} lies beside it, and is not read; `docker compose config` puts both together"


def is_external(told: dict[str, Any], where: str) -> bool:
    if isinstance(told.get("external"), dict):
        return True
    return flag(told, "external", where, False)


def service_of(name: str, told: Any, project: dict[str, Any]) -> Service:
    where = f"service {name}"
    if not isinstance(told, dict):
        raise Refused(f"{where}: no mapping")
    if "extends" in told:
        raise Refused(f"{where}: it extends another one; `docker compose config` resolves that")
    check_doubles(told, where)
    mounts = tuple(mounts_of(told, where))
    networks = networks_of(told, where)
    fault = lacking(told, networks, mounts, project, where)
    return Service(
        name,
        replicas_of(name, told),
        image_of(name, told, project.get("name") or ""),
        networks,
        mounts,
        needs_of(name, told),
        frozenset(texts_in(told, "profiles", where)),
        tuple(volumes_from(told, where)),
        tuple(sorted(built_on(told, where))),
        is_never_healthy(told, where),
        bool(mapping(told, "healthcheck", where)),
        restarting(told, where),
        tuple(sorted(set(published(told, where)))),
        container_name_of(told, where),
        fault,
    )


def check_doubles(told: dict[str, Any], where: str) -> None:
    for key in WITHOUT_DOUBLES:
        seen: set[str] = set()
        for each in told[key] if isinstance(told.get(key), list) else ():
            word = repr(each)
            if word in seen:
                raise Refused(f"{where}: '{key}' has twice: {each}")
            seen.add(word)


def image_of(name: str, told: dict[str, Any], project: str) -> str:
    """The image of a service; one that is built and has no name is called by the project, if that is known, and the service."""
    image = told.get("image")
    if image is not None and not isinstance(image, str):
        raise Refused(f"service {name}: its image is no text, and wants quotes: {image}")
    built = f"{project}-{name}" if project else name
    return image or ("" if told.get("provider") else built)


def container_name_of(told: dict[str, Any], where: str) -> str:
    name = told.get("container_name")
    if name is None:
        return ""
    if not isinstance(name, str) or ("$" not in name and not keys.CONTAINER_NAME.fullmatch(name)):
        raise Refused(f"{where}: no name of a container: {name}")
    return name


def lacking(
    told: dict[str, Any], networks: tuple[str, ...], mounts: tuple[Mount, ...], project: dict[str, Any], where: str
) -> str:
    """Why Compose would not start a service for what it names or lacks; empty where it would."""
    if told.get("network_mode") and told.get("networks"):
        return f"{where}: it has both 'network_mode' and 'networks', and Compose takes one of them"
    named = [("network", each) for each in networks if each != "default"]
    named += [("volume", each.source) for each in mounts if each.is_volume]
    named += [(kind[:-1], each) for kind in MADE_OF for each in sources(told, kind, where)]
    for kind, each in named:
        if each not in mapping(project, f"{kind}s", "the project"):
            return f"{where}: no {kind} {each} is defined"
    if not any(told.get(key) for key in ("image", "build", "provider")):
        return f"{where}: it has neither an image nor a build"
    return ""


def sources(told: dict[str, Any], key: str, where: str) -> Iterator[str]:
    """The secrets or configurations that a service takes."""
    for each in listed(told, key, where):
        source = each.get("source") if isinstance(each, dict) else each
        yield text_of(source, f"{where}, {key}")


def replicas_of(name: str, told: dict[str, Any]) -> int:
    deploy = mapping(told, "deploy", f"service {name}")
    counts = [each for each in (deploy.get("replicas"), told.get("scale")) if each is not None]
    for each in counts:
        if isinstance(each, bool) or not re.fullmatch(r"[0-9]{1,9}", str(each)):
            raise Refused(f"service {name}: its replicas are no whole number: {each}")
    if len({int(each) for each in counts}) > 1:
        raise Refused(f"service {name}: 'scale' is {counts[1]} and 'deploy.replicas' {counts[0]}, and Compose takes one")
    return int(counts[0]) if counts else 1


def networks_of(told: dict[str, Any], where: str) -> tuple[str, ...]:
    networks = told.get("networks")
    names = [str(each) for each in networks] if isinstance(networks, dict) else texts_in(told, "networks", where)
    if told.get("network_mode"):
        return ()
    return tuple(sorted(set(names or ["default"])))


def volumes_from(told: dict[str, Any], where: str) -> Iterator[tuple[str, bool]]:
    """The services whose volumes a service takes, and whether it writes to them."""
    for each in texts_in(told, "volumes_from", where):
        name, _, mode = each.partition(":")
        if name != "container":
            yield name, mode != "ro"


def needs_of(name: str, told: dict[str, Any]) -> dict[str, Need]:
    """What a service waits for: what it says, and the services that Compose starts first by itself."""
    where = f"service {name}"
    depends = told.get("depends_on")
    if not isinstance(depends, dict):
        depends = {other: {"condition": "service_started"} for other in texts_in(told, "depends_on", where)}
    needs = {}
    for other in depends:
        each = mapping(depends, other, f"{where}, depends_on")
        condition = each.get("condition")
        if condition is None:
            raise Refused(f"{where}, depends_on: {other} has no condition, and Compose wants one")
        if not isinstance(condition, str) or condition not in MILESTONES:
            raise Refused(f"{where}: no condition {condition}, for {other}")
        is_required, is_followed = (flag(each, key, f"{where}, {other}", key == "required") for key in ("required", "restart"))
        needs[str(other)] = Need(MILESTONES[condition], is_required, is_followed)
    for other, is_shared in implied(told, where):
        need = needs.get(other, Need(STARTED))
        needs[other] = need._replace(is_followed=True, is_shared=need.is_shared or is_shared)
    if name in needs:
        raise Refused(f"{where}: it depends on itself")
    return needs


def implied(told: dict[str, Any], where: str) -> Iterator[tuple[str, bool]]:
    """The services that one needs by its links, the volumes or the namespaces that it takes from them; and whether by more than
    links, so that its container is made of theirs.
    """
    for link in texts_in(told, "links", where):
        yield link.partition(":")[0], False
    yield from ((other, True) for other, _ in volumes_from(told, where))
    for key in ("network_mode", "ipc", "pid"):
        kind, _, other = text_of(told.get(key) or "", f"{where}, {key}").partition(":")
        if kind == "service":
            yield other, True


def built_on(told: dict[str, Any], where: str) -> Iterator[str]:
    """The services in whose images a build goes on, by `additional_contexts`."""
    if not isinstance(told.get("build"), dict):
        return
    contexts = told["build"].get("additional_contexts")
    if isinstance(contexts, dict):
        places = [text_of(each, f"{where}, additional_contexts") for each in contexts.values()]
    else:
        given = texts_in(told["build"], "additional_contexts", f"{where}, build")
        places = [each.partition("=")[2] for each in given]
    for place in places:
        kind, _, other = place.partition(":")
        if kind == "service":
            yield other


def is_never_healthy(told: dict[str, Any], where: str) -> bool:
    """Whether nobody checks its health: its own check is off, and so is that of its image."""
    check = mapping(told, "healthcheck", where)
    test = check.get("test")
    if isinstance(test, list) and test and test[0] not in CHECKS:
        raise Refused(f"{where}: the test of its healthcheck has to begin with one of {', '.join(CHECKS)}: {test[0]}")
    is_none = test == "NONE" or (isinstance(test, list) and test[:1] == ["NONE"])
    return is_none or flag(check, "disable", f"{where}, healthcheck", False)


def restarting(told: dict[str, Any], where: str) -> str:
    policy = mapping(mapping(told, "deploy", where), "restart_policy", f"{where}, deploy")
    if policy.get("condition") == "any":
        return "any"
    restart = told.get("restart")
    return restart if "condition" not in policy and isinstance(restart, str) and restart in ALWAYS else ""


def published(told: dict[str, Any], where: str) -> Iterator[str]:
    """The ports of the host that a service takes, each with its address and protocol; those that the host chooses are none."""
    for port in listed(told, "ports", where):
        if isinstance(port, dict):
            host = text_of(port.get("published") or "", f"{where}, ports")
            if re.fullmatch(r"[0-9]{1,5}", host):
                address, protocol = (text_of(port.get(key) or "", f"{where}, ports") for key in ("host_ip", "protocol"))
                yield in_full(address, host, protocol)
        else:
            found = PUBLISHED.fullmatch(text_of(port, f"{where}, ports"))
            if found:
                yield in_full(found["address"] or "", found["host"], found["protocol"] or "")


def in_full(address: str, host: str, protocol: str) -> str:
    return f"{address + ':' if address else ''}{host}{'' if protocol in ('', 'tcp') else '/' + protocol}"
