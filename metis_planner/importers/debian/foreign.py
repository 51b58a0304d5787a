"""Packages of other architectures that stand: they are not looked at, but for those of a name that is installed."""

from collections.abc import Iterator

from metis_planner.importers.debian.choices import Choices
from metis_planner.importers.debian.installation import Installation
from metis_planner.importers.debian.packages import named

SAME = "same"


def notes(choices: Choices) -> Iterator[str]:
    found = [f"{name}:{each['Architecture']}" for name in sorted(choices.foreign) for each in choices.foreign[name]]
    if found:
        yield f"standing for other architectures, and not looked at: {named(found)}"


def faults(installation: Installation) -> Iterator[str]:
    """What cannot be installed beside a package of its name for another architecture: in lockstep alone, or not at all."""
    choices = installation.choices
    for name in sorted(installation.chosen.keys() & choices.foreign.keys()):
        ours = choices.index.packages[name]
        for theirs in choices.foreign[name]:
            shown = f"{name}:{theirs['Architecture']}"
            if ours.get("Multi-Arch") != SAME or theirs.get("Multi-Arch") != SAME:
                yield f"{shown} stands, and {name} cannot stand beside it"
            elif ours.get("Version") != theirs.get("Version"):
                versions = f"{theirs.get('Version')} and not {ours.get('Version')}"
                yield f"{shown} stands in version {versions}, and dpkg takes {name} only in the same version"
