"""The built program, for tests that want its answers: the proved one, or the one that `./metis` keeps."""

import os
import pathlib

TOP = pathlib.Path(__file__).resolve().parents[1]
PROVED = TOP / "crates" / "metis" / "out" / "metis"


def built() -> pathlib.Path | None:
    """Where the program is, if it was built."""
    kept = pathlib.Path(os.environ.get("XDG_CACHE_HOME") or pathlib.Path.home() / ".cache", "metis-build", "unproved")
    found = sorted(kept.glob("*/metis"), key=lambda path: path.stat().st_mtime)
    return PROVED if PROVED.is_file() else found[-1] if found else None


def command(folder: pathlib.Path) -> pathlib.Path | None:
    """A command in a folder that calls the program as the front does."""
    program = built()
    if program is None:
        return None
    path = folder / "real"
    path.write_text(f'#!/bin/sh\n[ "$1" != --plain ] || shift\nexec \'{program}\' "$@"\n')
    path.chmod(0o755)
    return path
