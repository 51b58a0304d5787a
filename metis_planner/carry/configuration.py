"""What metis.toml in this folder says: the words of `metis up`, and in which folder a plan is carried out."""

import argparse
import os
import pathlib
import tomllib
from typing import Any

from metis_planner.answers import Refused
from metis_planner.carry.folder import PLAN, Folder
from metis_planner.text import plans
from metis_planner.text.reading import read_text

CONFIGURATION = "metis.toml"
MOST_JOBS = 10_000
KEYS: dict[str, type] = {
    **dict.fromkeys(("universe", "commands", "to", "hosts", "wishes", "engine"), str),
    **dict.fromkeys(("targets", "protect"), list),
    "renamed": dict,
    "jobs": int,
    "lean": bool,
}


def configured() -> dict[str, Any]:
    """What metis.toml in this folder says."""
    if not os.path.isfile(CONFIGURATION):
        return {}
    try:
        found = tomllib.loads(read_text(CONFIGURATION))
    except tomllib.TOMLDecodeError as fault:
        raise Refused(f"{CONFIGURATION}: {fault}") from fault
    for key, value in found.items():
        if key not in KEYS:
            raise Refused(f"{CONFIGURATION}: nothing is known of {plans.shown(key)}; there are {', '.join(sorted(KEYS))}")
        entries = value if isinstance(value, list) else list(value.values()) if isinstance(value, dict) else []
        is_kind = isinstance(value, KEYS[key]) and isinstance(value, bool) == (KEYS[key] is bool)
        if not is_kind or not all(isinstance(each, str) for each in entries):
            raise Refused(f"{CONFIGURATION}: {key} is of another kind")
    if "jobs" in found:
        checked_jobs(found["jobs"], f"{CONFIGURATION}: jobs")
    return found


def checked_jobs(jobs: int | None, name: str) -> int | None:
    """How many steps may be done at the same time, if that was said."""
    if jobs is not None and not 1 <= jobs <= MOST_JOBS:
        raise Refused(f"{name} is not from 1 to {MOST_JOBS}")
    return jobs


def is_of(found: dict[str, Any], folder: str) -> bool:
    """Whether this metis.toml speaks of a folder: it names that one, or none."""
    return "to" not in found or pathlib.Path(found["to"]).resolve() == pathlib.Path(folder).resolve()


def add_folder(parser: argparse.ArgumentParser, help_text: str | None = None) -> None:
    more = f"; without it the one that {CONFIGURATION} names"
    parser.add_argument("folder", metavar="FOLDER", nargs="?", help=f"{help_text or 'where a plan is carried out'}{more}")


def folder_of(arguments: argparse.Namespace) -> Folder:
    """The folder that was named, else that of metis.toml."""
    path = arguments.folder or configured().get("to")
    if not path:
        raise Refused(f"no folder is named, and {CONFIGURATION} does not name one")
    folder = Folder(path)
    if not folder.has_plan():
        raise Refused(f"{path}: no folder of Metis: it has no {PLAN}")
    return folder
