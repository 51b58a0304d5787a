"""The set of packages that apt itself chooses for a request, asked by python3-apt."""

import importlib
import pathlib
import tempfile
from collections.abc import Iterator, Sequence
from typing import Any

from metis_planner.answers import Refused
from metis_planner.importers.debian.choices import Choices
from metis_planner.importers.debian.control import FIELDS
from metis_planner.importers.debian.installation import Installation
from metis_planner.importers.debian.packages import named, NEEDS, Pool

OPTION = "--as-apt"
# What apt wants of a record, besides the fields that are looked at.
FILLER = "Maintainer: Nobody <nobody@localhost>\nDescription: none\n"


class OfApt(Installation):
    """An installation of just the packages that apt chose: nothing more is looked for, and what is not met is told."""

    def __init__(self, choices: Choices, names: Sequence[str]) -> None:
        super().__init__(choices, names)

    def choose(self, requested: Sequence[str], with_recommends: bool) -> None:
        for name in requested:
            self.add(name)
        for name in requested:
            for options in self.options_of(name, *NEEDS):
                if not self.is_met(options):
                    self.missing[options.wanted] = name
            for other, options in self.choices.leaning_on.get(name, ()):
                if other not in self.chosen and not self.is_met(options):
                    self.broken[other] = options.wanted


def chosen_by_apt(choices: Choices, names: Sequence[str], status: str | None, with_recommends: bool) -> list[str]:
    """The packages that apt would install or upgrade where a status file says what stands, or where the base stands."""
    try:
        apt: Any = importlib.import_module("apt_pkg")
    except ImportError:
        raise Refused(f"{OPTION} needs python3-apt (apt-get install python3-apt), which this Python lacks") from None
    with tempfile.TemporaryDirectory() as folder:
        path = status
        if path is None:
            path = str(pathlib.Path(folder) / "status")
            pathlib.Path(path).write_text(status_of(choices.given), errors="replace")
        try:
            return sorted(asked(apt, names, path, with_recommends))
        except apt.Error as fault:
            raise Refused(f"apt: {' '.join(str(fault).split())}") from fault


def asked(apt: Any, names: Sequence[str], status: str, with_recommends: bool) -> Iterator[str]:
    """Asks as `apt-get install` does: each name with what it needs, and then whether something is in the way."""
    apt.init_config()
    for key, value in (("Dir::State::status", status), ("Dir::Cache::pkgcache", ""), ("Dir::Cache::srcpkgcache", "")):
        apt.config.set(key, value)
    apt.config.set("APT::Install-Recommends", "true" if with_recommends else "false")
    apt.init_system()
    cache = apt.Cache(None)
    depends = apt.DepCache(cache)
    resolver = apt.ProblemResolver(depends)
    for auto in (False, True):
        for name in names:
            if name not in cache:
                raise Refused(f"apt knows no package {name}")
            resolver.clear(cache[name])
            resolver.protect(cache[name])
            depends.mark_install(cache[name], auto)
    if depends.broken_count:
        resolver.resolve(True)
    removed = [each.get_fullname(True) for each in cache.packages if depends.marked_delete(each)]
    if removed:
        raise Refused(f"apt would remove {named(removed)}, and a plan removes nothing")
    native = apt.config.find("APT::Architecture")
    for each in cache.packages:
        if depends.marked_install(each) or depends.marked_upgrade(each) or depends.marked_reinstall(each):
            if each.architecture != native:
                raise Refused(f"apt would install {each.get_fullname(True)}, for another architecture")
            yield each.name


def status_of(given: Pool) -> str:
    """A status file in which the given packages stand."""
    stanzas = []
    for name, fields in sorted(given.packages.items()):
        told = {"Status": "install ok installed", **fields, "Package": name}
        stanzas.append("".join(f"{key}: {told[key]}\n" for key in sorted(FIELDS) if key in told) + FILLER)
    return "\n".join(stanzas)
