"""What a service of a Compose project mounts: named volumes, and folders and files of the host."""

import os.path
import re
from collections.abc import Iterator
from typing import Any, NamedTuple

from metis_planner.answers import Refused
from metis_planner.text.reading import flag, listed, text_of

# Sources of a short volume that are of the host: a path, or a variable for one.
OF_HOST = re.compile(r"[./~$\\]|[A-Za-z]:[\\/]")
DRIVE = re.compile(r"[A-Za-z]:[\\/]")
KINDS = ("bind", "volume", "tmpfs", "cluster", "npipe", "image")
# What of the host keeps no data of a service, whoever may write to it: sockets, and what the host has of itself.
WITHOUT_DATA = re.compile(
    r"(?:.*[.]sock|/(?:dev|proc|sys|run|var/run|lib/modules|etc/localtime|etc/timezone|usr/share/zoneinfo)(?:/.*)?)"
)


class Mount(NamedTuple):
    """A named volume, or a place of the host, and whether the service may write to it."""

    source: str
    is_volume: bool
    is_written: bool

    @property
    def place(self) -> str:
        """The data as a note names it."""
        return f"volume/{self.source}" if self.is_volume else self.source

    @property
    def keeps_data(self) -> bool:
        return self.is_written and (self.is_volume or not WITHOUT_DATA.fullmatch(self.source))


def mounts_of(told: dict[str, Any], where: str) -> Iterator[Mount]:
    """What a service mounts. A volume without a name is no one's to make."""
    where = f"{where}, volumes"
    for each in listed(told, "volumes", where.removesuffix(", volumes")):
        found = long_mount(each, where) if isinstance(each, dict) else short_mount(text_of(each, where))
        if found is not None:
            yield found


def long_mount(told: dict[str, Any], where: str) -> Mount | None:
    kind = told.get("type")
    if kind not in KINDS:
        raise Refused(f"{where}: the type of one is none of {', '.join(KINDS)}: {kind}")
    source = told.get("source")
    if not source or kind not in ("bind", "volume"):
        return None
    name = text_of(source, where)
    is_written = not flag(told, "read_only", where, False)
    return Mount(name if kind == "volume" else os.path.normpath(name), kind == "volume", is_written)


def short_mount(text: str) -> Mount | None:
    """What `SOURCE:TARGET:MODE` mounts; where there is no target, the one word is that of a volume without a name."""
    drive = text[:2] if DRIVE.match(text) else ""
    source, colon, behind = text.removeprefix(drive).partition(":")
    if not colon and not drive:
        return None
    is_written = "ro" not in behind.rpartition(":")[2].split(",")
    if OF_HOST.match(text):
        return Mount(os.path.normpath(drive + source), False, is_written) if colon else None
    return Mount(source, True, is_written)
