"""A folder is one's own: where somebody else may write, he could have put any command into the place of ours."""

import os
import pathlib

from metis_planner.answers import Refused

RUN = "run"
OTHERS_WRITE = 0o022


def check_own(folder: pathlib.Path) -> None:
    """Refuses a folder, or a `run` in it, that belongs to somebody else or that others may write."""
    for path in (folder, folder / RUN):
        try:
            found = path.stat()
        except FileNotFoundError:
            continue
        except OSError as fault:
            raise Refused(f"{path}: {fault.strerror}") from fault
        if found.st_uid != os.geteuid():
            raise Refused(f"{path}: it belongs to somebody else, who could have put any command there")
        if found.st_mode & OTHERS_WRITE:
            raise Refused(f"{path}: others may write it, who could have put any command there; if nobody did, chmod go-w")


def make_own(folder: pathlib.Path) -> None:
    """An empty folder of one's own is closed to others, before anything is in it."""
    if any(folder.iterdir()) or folder.stat().st_uid != os.geteuid():
        return
    folder.chmod(0o700)
