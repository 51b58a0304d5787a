"""A folder that is taken for the root of a system: its links lead to places below it, and never out of it."""

import os
import pathlib
from collections.abc import Sequence

from metis_planner.answers import Refused

MOST_LINKS = 40


class RootFolder:
    """Reads names, links and files below a folder, as a process would whose root it is."""

    def __init__(self, folder: str | pathlib.Path = "/") -> None:
        self.folder = pathlib.Path(folder)
        if not self.folder.is_dir():
            raise Refused(f"{folder}: no folder")

    def real(self, path: str) -> str | None:
        """The place without links to which a path leads, both from the root; None where links lead round in a circle.

        It need not be there.
        """
        waiting = [each for each in reversed(path.split("/"))]
        found: list[str] = []
        links = 0
        while waiting:
            part = waiting.pop()
            if part == "..":
                found = found[:-1]
            elif part not in ("", "."):
                target = self.link_at([*found, part])
                if target is None:
                    found.append(part)
                    continue
                links += 1
                if links > MOST_LINKS:
                    return None
                if target.startswith("/"):
                    found = []
                waiting += reversed(target.split("/"))
        return "/".join(found)

    def link_at(self, parts: Sequence[str]) -> str | None:
        """What a link at a place says, or None where there is none."""
        try:
            return os.readlink(self.folder.joinpath(*parts))
        except (OSError, ValueError):
            return None

    def link(self, path: str) -> str | None:
        """What the link that stands at a path says, or None: the folders above it may be links, too."""
        folder, _, name = path.rpartition("/")
        real = self.real(folder)
        return None if real is None else self.link_at([*filter(None, real.split("/")), name])

    def names(self, path: str) -> list[str]:
        """The names in a folder, sorted; none where it cannot be read."""
        real = self.real(path)
        try:
            return [] if real is None else sorted(os.listdir(self.folder / real))
        except OSError:
            return []

    def file(self, path: str) -> pathlib.Path | None:
        """The regular file to which a path leads, or None."""
        real = self.real(path)
        if real is None:
            return None
        place = self.folder / real
        return place if place.is_file() else None
