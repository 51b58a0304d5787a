"""Says which version this is, by which kit its program was proved, and whether what is run here is that program."""

import argparse
import pathlib
import shutil
import subprocess

from metis_planner.answers import Answer
from metis_planner.program import TOP

# The package has the version and what its program was proved by in a file beside its pages.
OF_THE_PACKAGE = pathlib.Path("share/doc/metis-planner/PROVED")


def package_file() -> pathlib.Path | None:
    """What the package says of its program, if this is a package: its modules lie in lib/metis-planner."""
    found = TOP.parent.parent / OF_THE_PACKAGE
    return found if found.is_file() else None


def version() -> str:
    for path in (TOP / "VERSION", TOP / "metis_planner" / "VERSION"):
        if path.is_file():
            return path.read_text().strip()
    return "unknown"


def kit() -> str:
    """The kit that is on the path, if one is."""
    if shutil.which("rt") is None:
        return "no kit is on the path"
    said = subprocess.run(["rt", "version"], capture_output=True, text=True, check=False).stdout.split()
    return f"the kit here is {said[0]}" if said else "the kit here does not name itself"


def is_proved_here() -> bool:
    """Whether the checkout has a proved program that is not older than its sources."""
    program = TOP / "crates" / "metis" / "out" / "metis"
    if not program.is_file():
        return False
    made = program.stat().st_mtime
    sources = [TOP / "crates.txt", *(TOP / "crates").glob("*/src/**/*"), *(TOP / "crates").glob("*/specs/**/*")]
    return all(path.stat().st_mtime <= made for path in sources if path.is_file())


def lines() -> list[str]:
    found = package_file()
    if found is not None:
        return [f"metis {version()}", *found.read_text().splitlines()]
    proved = "the program is proved" if is_proved_here() else "the program is not proved here yet: tools/build.py proves it"
    return [f"metis {version()}", proved, kit()]


def add_arguments(parser: argparse.ArgumentParser) -> None:
    del parser


def run(arguments: argparse.Namespace) -> Answer:
    del arguments
    return Answer("".join(f"{line}\n" for line in lines()))
