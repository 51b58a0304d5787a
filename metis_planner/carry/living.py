"""What goes on of a step over which nobody watches any more, since its script was killed: `run` writes down its process group."""

import contextlib
import pathlib
from collections.abc import Iterator
from typing import NamedTuple

from metis_planner.answers import Refused

GROUP = ".group"
PROCESSES = pathlib.Path("/proc")


class Process(NamedTuple):
    """A process that has not ended: its number, its group, and when it began."""

    number: str
    group: str
    began: str


def process_at(path: pathlib.Path) -> Process | None:
    """The process of which /proc says this."""
    try:
        words = (path / "stat").read_text("utf-8", "replace").rpartition(") ")[2].split()
    except OSError:
        return None
    return Process(path.name, words[2], words[19]) if words and words[0] not in "ZX" else None


def where_is(folder: pathlib.Path) -> tuple[str, str, str]:
    """Where a number of a process means something: the boot, the namespace, and the folder, which is another one for a copy."""
    boot = (PROCESSES / "sys/kernel/random/boot_id").read_text().strip()
    space, place = (path.stat() for path in (PROCESSES / "self/ns/pid", folder))
    return boot, f"{space.st_dev}:{space.st_ino}", f"{place.st_dev}:{place.st_ino}"


def writes_to(process: Process, log: pathlib.Path) -> bool:
    for number in (1, 2):
        with contextlib.suppress(OSError):
            if log.samefile(PROCESSES / process.number / "fd" / str(number)):
                return True
    return False


def living(folder: pathlib.Path, log_folder: str) -> Iterator[tuple[str, str]]:
    """The keys of steps that go on without a lock, with their groups, as `run` finds them before it begins a step again."""
    noted = sorted((folder / log_folder).glob(f"*{GROUP}"))
    if not noted:
        return
    try:
        here = where_is(folder)
        processes = [found for path in PROCESSES.glob("[0-9]*") if (found := process_at(path))]
    except OSError:
        return
    for path in noted:
        *place, group, began = [*path.read_text("utf-8", "replace").split(), "", "", "", "", ""][:5]
        log = path.with_name(path.name.removesuffix(GROUP))
        for process in processes if tuple(place) == here else ():
            is_first = (process.number, process.began) == (group, began)
            if is_first or process.group == group and writes_to(process, log):
                yield log.name, group
                break


def check_ended(folder: pathlib.Path, log_folder: str) -> None:
    """Refuses while a step goes on whose script was killed: what is written meanwhile would be undone, or done beside it."""
    for key, group in living(folder, log_folder):
        raise Refused(
            f"{folder}: the step {key} goes on, though its script was killed: wait until it has ended, or end its process group by "
            f"kill -- -{group}"
        )
