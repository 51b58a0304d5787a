"""A Compose project as `up` takes it: its universe, with Compose's own hash of each service, and the commands of its steps.

Compose is called where the file lies, as by hand, so that it finds the files beside it. What it is told by variables stays with
the folder, in the commands file there.
"""

import json
import os
import pathlib
import subprocess
import tempfile
import tomllib
from collections.abc import Iterable, Mapping, Sequence
from typing import Any, NamedTuple

from metis_planner.answers import Refused
from metis_planner.carry.skeleton import UNFILLED, quoted, whole_text
from metis_planner.importers import compose as importer
from metis_planner.importers.compose.input import DEFAULT_NAMES, NO_IMAGE, read_project, with_sums
from metis_planner.text.terminal import say

ENDINGS = (".yaml", ".yml")
TARGET, FOLDER, COMMANDS, CONTAINERS = "project:up", ".metis", "commands.toml", "containers"
PLACE, NAME, HASHES, WAIT = "PROJECT", "COMPOSE_PROJECT_NAME", "HASHES", "WAIT"
# What Compose and Docker are told by variables, and what of it names files.
OF_DOCKER = ("DOCKER_HOST", "DOCKER_CONTEXT", "DOCKER_CONFIG", "DOCKER_CERT_PATH", "DOCKER_TLS_VERIFY")
PROFILES, FILES = "COMPOSE_PROFILES", {"COMPOSE_FILE": os.pathsep, "COMPOSE_ENV_FILES": ","}
LONGEST_ANSWER = 2_000


class Project(NamedTuple):
    """A project as Compose reads it now."""

    path: str
    name: str
    document: str
    commands: str  # a commands file
    kept: Mapping[str, str]  # the variables that Compose is called with

    @property
    def folder(self) -> str:
        return os.path.dirname(self.path)

    @property
    def is_whole(self) -> bool:
        """Whether each image was there when it was read: else its identity is not known."""
        sums = (kind.get("sum", "") for kind in json.loads(self.document)["types"])
        return not any(NO_IMAGE in each.split() for each in sums)

    def again(self) -> "Project":
        return project_at(self.path, self.kept, WAIT in self.kept)

    def check_kept(self, before: Mapping[str, str], to: str) -> None:
        """Refuses to go on in a folder that is of another project, or at another daemon."""
        for key in (NAME, PLACE, "DOCKER_HOST", "DOCKER_CONTEXT"):
            had, has = before.get(key, ""), self.kept.get(key, "")
            if before and had != has:
                raise Refused(f"{to} is of another project or daemon: {key} was {had or 'not set'}, and is {has or 'not set'}")

    def check_fresh(self, to: str) -> None:
        """Refuses to bring a project up beside itself."""
        there = containers(self)
        if there:
            names = ", ".join(each.name for each in there)
            raise Refused(
                f"the project {self.name} runs already, and {to} knows nothing of it ({names}): "
                f"`metis adopt {self.path}` takes it over"
            )


def is_project(path: str) -> bool:
    return path.endswith(ENDINGS)


def asked(words: Sequence[str], folder: str, kept: Mapping[str, str]) -> "subprocess.CompletedProcess[str]":
    try:
        return subprocess.run(
            ["docker", *words], cwd=folder, env={**os.environ, **kept}, stdin=subprocess.DEVNULL, capture_output=True,
            encoding="utf-8", errors="surrogateescape", check=False,
        )
    except OSError as fault:
        raise Refused(f"docker: {fault.strerror}") from fault


def said(words: Sequence[str], folder: str, kept: Mapping[str, str]) -> str:
    """What docker answers in a folder."""
    done = asked(words, folder, kept)
    if done.returncode and words[0] == "compose" and asked(["compose", "version"], folder, kept).returncode:
        raise Refused("there is no `docker compose` here: install Docker Compose 2.22 or later")
    if done.returncode:
        last = (done.stderr.strip().splitlines() or [f"status {done.returncode}"])[-1]
        raise Refused(f"docker {' '.join(words)}: {last[:LONGEST_ANSWER]}")
    return done.stdout


def kept_in(to: str) -> dict[str, str]:
    """The variables with which Compose was called when the folder was written."""
    path = pathlib.Path(to) / COMMANDS
    if not path.is_file():
        return {}
    known = {*OF_DOCKER, PROFILES, *FILES, PLACE, NAME, WAIT}
    try:
        told = tomllib.loads(path.read_text(encoding="utf-8"))
    except (OSError, ValueError) as fault:
        raise Refused(f"{path}: {fault}") from fault
    env = told.get("env")
    if not isinstance(env, dict):
        raise Refused(f"{path}: it has no [env], which says of what project it is")
    return {key: str(value) for key, value in env.items() if key in known}


def variables(path: str, before: Mapping[str, str]) -> dict[str, str]:
    """With what Compose is called: by the environment, and by what was so before and is not set now."""
    kept = {key: os.environ[key] for key in (PROFILES, *OF_DOCKER) if os.environ.get(key)}
    for key, mark in FILES.items():
        if os.environ.get(key):
            kept[key] = mark.join(os.path.abspath(each) for each in os.environ[key].split(mark))
    if os.path.basename(path) not in DEFAULT_NAMES:
        kept["COMPOSE_FILE"] = path
    for key in (PROFILES, *FILES):
        if key in before and key not in os.environ and key not in kept:
            kept[key] = before[key]
            say(f"{key} is {before[key]}, as before")
    return kept


def project_at(path: str, before: Mapping[str, str] = {}, is_all_awaited: bool = False) -> Project:
    """The project as Compose reads it now; with each healthcheck awaited, if that was said once."""
    path = os.path.abspath(path)
    if not os.path.isfile(path):
        raise Refused(f"{path}: there is no such file")
    folder, kept = os.path.dirname(path), variables(path, before)
    is_all_awaited = is_all_awaited or WAIT in before
    told: dict[str, Any] = json.loads(said(["compose", "config", "--format", "json"], folder, kept))
    rows = said(["compose", "config", "--hash", "*"], folder, kept).splitlines()
    hashes = dict(row.split() for row in rows if len(row.split()) == 2)
    name = told["name"]
    # Steps call Compose with names of services, and it would take such a one for an option.
    options = [service for service in told["services"] if service.startswith("-")]
    if options:
        raise Refused(f"{path}: the name of service {options[0]} begins with a dash")
    images = {service: each.get("image") or f"{name}-{service}" for service, each in told["services"].items()}
    sums = {service: f"{hashes[service]} {identity(image, kept)}" for service, image in images.items()}
    with tempfile.TemporaryDirectory(prefix="metis-compose-") as texts:
        resolved = pathlib.Path(texts) / "project.json"
        resolved.write_text(json.dumps(told))
        plan = importer.Plan([with_sums(read_project(str(resolved)), sums)], ["*"], is_all_awaited=is_all_awaited)
    for note in dict.fromkeys(plan.notes()):
        say(note)
    kept |= {PLACE: folder, NAME: name, **({WAIT: "yes"} if is_all_awaited else {})}
    of_each = {HASHES: " ".join(f"{service}={each}" for service, each in sorted(hashes.items()))}
    return Project(path, name, plan.document(), commands_of({**kept, **of_each}), kept)


def identity(image: str, kept: Mapping[str, str]) -> str:
    """What tells an image from another one under the same name; nothing where it is not there yet."""
    words = ["docker", "image", "inspect", "-f", "{{.Id}}", "--", image]
    done = subprocess.run(words, env={**os.environ, **kept}, stdin=subprocess.DEVNULL, capture_output=True, text=True, check=False)
    return done.stdout.strip().removeprefix("sha256:")[:12] if done.returncode == 0 else NO_IMAGE


def commands_of(told: Mapping[str, str]) -> str:
    """The commands of a project's steps, with the variables with which Compose is called, and the hashes as they were planned."""
    lines = "\n".join(f"{key} = {quoted(value)}" for key, value in sorted(told.items()))
    return whole_text("compose").replace(f"{PLACE} = {UNFILLED}", lines)


class Container(NamedTuple):
    """A container by its labels, and its name."""

    service: str
    number: int
    name: str


def containers(project: Project) -> list[Container]:
    """Its containers that are there."""
    label = "com.docker.compose"
    form = f'{{{{.Label "{label}.service"}}}} {{{{.Label "{label}.container-number"}}}} {{{{.Names}}}}'
    words = ["ps", "--all", "--filter", f"label={label}.project={project.name}", "--filter", f"label={label}.oneoff=False"]
    rows = (line.split(" ") for line in said([*words, "--format", form], project.folder, project.kept).splitlines())
    return sorted(Container(service, int(number), name) for service, number, name in rows)


def taken(project: Project, made: Iterable[tuple[str, str]]) -> tuple[dict[str, str], list[Container]]:
    """Which container each instance has that a plan makes, by METIS_NAME as the steps write it down; and those that none has."""
    sources = {kind["name"]: kind.get("source", kind["name"]) for kind in json.loads(project.document)["types"]}
    free, found = containers(project), {}
    for kind, name in made:
        service = sources[kind].removeprefix("service/")
        own = next((each for each in free if each.service == service and "/" not in kind.removeprefix("service/")), None)
        if own:
            free.remove(own)
            found[name] = f"{own.service} {own.number}\n"
    return found, free
