"""What `metis up` was asked for: by its words, else by metis.toml in this folder; and what of it stays with the folder."""

import argparse
import dataclasses
import hashlib
import json
import os
from collections.abc import Mapping
from typing import Any

from metis_planner.answers import Refused
from metis_planner.carry.ahead import REQUEST, Wanted, is_asked_again, kept_request, request_text, text_of_wishes
from metis_planner.carry.compose import COMMANDS, FOLDER, TARGET, Project, is_project, kept_in, project_at
from metis_planner.carry.configuration import CONFIGURATION, checked_jobs, configured, is_of
from metis_planner.carry.engines import DEFAULT, ENGINES
from metis_planner.carry.folder import Folder, sum_of
from metis_planner.carry.named_wishes import EVERYBODY, Wishes
from metis_planner.carry.writing import write_whole
from metis_planner.text import plans

DEFAULT_JOBS = 8
# Behind what was asked for: the plan in the folder is the one of what is lacking.
FIRST = " first"
ALL = "all"


def is_named(name: str, names: tuple[str, ...]) -> bool:
    """Whether an instance is among these, which are instances, types, or all."""
    return name in names or name.rpartition("#")[0] in names or ALL in names


@dataclasses.dataclass(frozen=True)
class Agreed:
    """What was agreed to before anybody is asked: all but what loses data; which of these; which protected ones may change."""

    is_agreed: bool = False
    deletes: tuple[str, ...] = ()
    changes: tuple[str, ...] = ()


@dataclasses.dataclass(frozen=True)
class Request:
    """What is to stand, and how it is brought there."""

    universe: str
    targets: tuple[str, ...]
    commands: str
    to: str
    hosts: str | None = None
    engine: str = DEFAULT
    jobs: int = DEFAULT_JOBS
    wishes: str | None = None
    lines: tuple[str, ...] = ()  # wishes that were said by --wish
    protect: tuple[str, ...] | None = None  # by metis.toml, if that speaks of the folder
    renamed: Mapping[str, str] = dataclasses.field(default_factory=dict)
    agreed: Agreed = Agreed()
    is_again: bool = False
    is_lean: bool = False  # for a first plan
    project: Project | None = None  # of Compose, where its file stands for the universe

    @property
    def wanted(self) -> Wanted:
        return Wanted(self.universe, self.targets, self.wishes)

    def wishes_said(self) -> Wishes:
        # In a Compose project no step tells anybody where it finds another one, so anything may be bound anew.
        own = (EVERYBODY,) if self.project else ()
        return Wishes(text_of_wishes(self.wanted), str(self.wishes), (*own, *self.lines))


def request_of(arguments: argparse.Namespace) -> Request:
    """What was asked for, by the words and else by metis.toml."""
    found = configured()
    universe = arguments.universe or found.get("universe")
    targets = tuple(arguments.targets or found.get("targets", ()))
    commands, to = arguments.commands or found.get("commands"), arguments.to or found.get("to")
    project = None
    if universe and is_project(str(universe)) and not commands:
        targets, to = targets or (TARGET,), to or os.path.join(os.path.dirname(str(universe)), FOLDER)
        project, commands = compose_project(str(universe), str(to), arguments.wait), os.path.join(str(to), COMMANDS)
    elif arguments.wait:
        raise Refused("--wait is for a Compose file")
    given = {"a universe": universe, "a target": targets, "--commands": commands, "--to": to}
    lacking = [name for name, value in given.items() if not value]
    if lacking:
        verb = "is" if len(lacking) == 1 else "are"
        raise Refused(f"{' and '.join(lacking)} {verb} not said, and {CONFIGURATION} does not say so")
    engine = arguments.engine or found.get("engine", DEFAULT)
    if engine not in ENGINES:
        raise Refused(f"no engine {plans.shown(engine)}; there are {', '.join(ENGINES)}")
    return Request(
        universe=str(universe),
        targets=targets,
        commands=str(commands),
        to=str(to),
        hosts=arguments.hosts or found.get("hosts"),
        engine=engine,
        jobs=checked_jobs(arguments.jobs, "-j") or int(found.get("jobs", DEFAULT_JOBS)),
        wishes=arguments.wishes or found.get("wishes"),
        lines=tuple(arguments.wish),
        protect=tuple(found["protect"]) if "protect" in found and is_of(found, str(to)) else None,
        renamed=new_names(found, arguments.renamed),
        agreed=Agreed(arguments.yes, tuple(arguments.delete), tuple(arguments.change)),
        is_again=arguments.again,
        is_lean=arguments.lean or found.get("lean", False),
        project=project,
    )


def compose_project(path: str, to: str, is_all_awaited: bool) -> Project:
    """A Compose project that is to be carried out in a folder, which is none of another project."""
    before = kept_in(to)
    project = project_at(path, before, is_all_awaited)
    project.check_kept(before, to)
    if not Folder(to).has_plan():
        project.check_fresh(to)
    return project


def new_names(found: Mapping[str, Any], said: list[str]) -> dict[str, str]:
    """What types, and states as TYPE:STATE, are called now, by their old names."""
    names = dict(found.get("renamed", {}))
    for each in said:
        old, _, new = each.partition("=")
        if not new:
            raise Refused(f"--renamed {each}: it is OLD=NEW for a type, or TYPE:OLD=NEW for a state")
        names[old] = new
    return names


def protected(folder: Folder, said: tuple[str, ...] | None) -> tuple[str, ...]:
    """What must not be deleted: what metis.toml says, and what the folder has kept of an earlier one."""
    kept = kept_request(folder).get("protect")
    return tuple(dict.fromkeys((*(said or ()), *(map(str, kept) if isinstance(kept, list) else ()))))


def asked_sum(request: Request, universe: str) -> str:
    """What tells what was asked for from anything else."""
    parts = [universe, text_of_wishes(request.wanted), request.lines, request.targets]
    return hashlib.sha256(repr(parts).encode("utf-8", "surrogateescape")).hexdigest()


def keep_request(request: Request, folder: Folder, universe: str, part: str = "", expected: str = "") -> None:
    """Notes for what the plan in the folder is, and what goes with the folder wherever it is called from."""
    value = json.loads(request_text(request.wanted, request.commands, folder))
    value |= {"asked": asked_sum(request, universe) + part, "engine": request.engine, "jobs": request.jobs}
    value["protect"] = list(protected(folder, None) if request.protect is None else request.protect)
    value["sum"] = expected
    write_whole(folder.path / REQUEST, json.dumps(value) + "\n")


def is_begun(request: Request, folder: Folder, universe: str, part: str = "") -> bool:
    """Whether the plan in the folder was made for the same, or is the first part of what was planned for it."""
    kept = kept_request(folder)
    if "asked" not in kept:
        return not part and not request.lines and is_asked_again(folder, request.wanted, universe)
    return kept["asked"] == asked_sum(request, universe) + part and kept.get("plan") == sum_of(folder.text().encode())
