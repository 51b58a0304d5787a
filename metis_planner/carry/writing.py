"""Writes files so that they are there as a whole, or as they were before."""

import os
import pathlib

from metis_planner.answers import Refused


def write_whole(path: pathlib.Path, text: str) -> None:
    """Writes a file so that it is there as a whole, or as it was before. A path in the text may have bytes that are no UTF-8."""
    fresh = path.with_name(f"{path.name}.new")
    try:
        with open(fresh, "w", encoding="utf-8", errors="surrogateescape") as file:
            file.write(text)
            file.flush()
            os.fsync(file.fileno())
        fresh.replace(path)
        sync_folder(path.parent)
    except OSError as fault:
        fresh.unlink(missing_ok=True)
        raise Refused(f"{path}: {fault.strerror}") from fault


def sync_folder(path: pathlib.Path) -> None:
    """Lets the names in a folder reach the disk, so that a loss of power takes none of them away."""
    number = os.open(path, os.O_RDONLY | os.O_DIRECTORY)
    try:
        os.fsync(number)
    finally:
        os.close(number)
