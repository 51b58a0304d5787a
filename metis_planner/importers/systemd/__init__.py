"""A target of systemd: the units that it pulls in, each of which starts after those that it is ordered behind."""

import argparse
import collections
from collections.abc import Iterable, Iterator

from metis_planner.answers import Answer, Refused
from metis_planner.importers.systemd import names as unit_names
from metis_planner.importers.systemd.defaults import with_defaults
from metis_planner.importers.systemd.live import LiveUnits, OPTION
from metis_planner.importers.systemd.names import is_name, kind_of
from metis_planner.importers.systemd.units import FOLDERS, Folders, Unit
from metis_planner.text.documents import ComponentType, document, Names, one_each, two_states

BOOT = "boot"
MOST_NAMED = 6
MOST_UNITS = 2_000
PULLS = ("Requires", "BindsTo", "Wants", "Upholds")
HARD_PULLS = ("Requires", "BindsTo")
# A target comes after these of its units; those that it only asks to stand already count too.
OF_TARGETS = (*PULLS, "Requisite")
# Units of these kinds are made at boot, of the kernel's or the machine's own tables; where no file has one it is given.
MADE_AT_BOOT = ("device", "slice", "scope", "mount", "swap", "automount")
# What each machine with systemd has, which units of one's own may name without bringing it.
OWN_OF_SYSTEMD = (
    "basic.target sysinit.target sockets.target timers.target paths.target slices.target swap.target local-fs.target "
    "local-fs-pre.target remote-fs.target remote-fs-pre.target network.target network-pre.target network-online.target "
    "nss-lookup.target nss-user-lookup.target time-set.target time-sync.target multi-user.target graphical.target default.target "
    "rescue.target emergency.target shutdown.target umount.target final.target getty.target cryptsetup.target initrd.target "
    "systemd-journald.service systemd-journald.socket systemd-journald-dev-log.socket systemd-udevd.service "
    "systemd-tmpfiles-setup.service systemd-sysusers.service dbus.socket dbus.service"
).split()


class Pulled:
    """All units that one pulls in, and those that are not there."""

    def __init__(self, folders: Folders | LiveUnits, target: str, given: Iterable[str] = ()) -> None:
        self.folders = folders
        self.target = target
        self.given = frozenset(given)
        self.units: dict[str, Unit] = {}
        self.absent: set[str] = set()
        work = collections.deque([target])
        while work:
            name = work.popleft()
            if name in self.units or name in self.absent:
                continue
            unit = folders.load(name)
            if unit is None:
                self.absent.add(name)
                continue
            if len(self.units) > MOST_UNITS:
                raise Refused(f"{target} pulls in more than {MOST_UNITS} units")
            unit = self.units[name] = self.whole(unit)
            work += [other for key in PULLS for other in unit[key]]
        self.absent = {name for name in self.absent if not self.is_given(name)}

    def is_given(self, name: str) -> bool:
        return kind_of(name) in MADE_AT_BOOT or name in self.given

    def whole(self, unit: Unit) -> Unit:
        """A unit with what systemd adds, where each name is that of a unit itself. Of one that is loaded all is said."""
        if isinstance(self.folders, LiveUnits):
            return unit
        whole = with_defaults(unit)
        for path in dict.fromkeys(whole["RequiresMountsFor"]):
            self.add_mounts(whole, path)
        own = {
            key: list(map(self.folders.own_name, whole[key])) for key in (*OF_TARGETS, "After", "Before", "Conflicts")
        }
        return Unit(unit.name, {**whole.settings, **own})

    def add_mounts(self, unit: Unit, path: str) -> None:
        """Orders a unit after the mounts that a path lies on; those that a file has are pulled in."""
        assert isinstance(self.folders, Folders)
        path = unit_names.with_specifiers(path, unit.name) or ""
        for mount in unit_names.mounts_above(path):
            if mount != unit.name and self.folders.load(mount) is not None:
                unit.settings["After"].append(mount)
                unit.settings["Requires"].append(mount)

    def failing(self) -> dict[str, str]:
        """The units that cannot start, each with a unit that it requires and that is not there or cannot start."""
        requiring: dict[str, list[str]] = collections.defaultdict(list)
        for name, unit in self.units.items():
            for key in HARD_PULLS:
                for other in unit[key]:
                    requiring[other].append(name)
        failing: dict[str, str] = {}
        work = collections.deque(sorted(self.absent))
        while work:
            other = work.popleft()
            for name in requiring[other]:
                if name not in failing:
                    failing[name] = other
                    work.append(name)
        return failing

    def never_met(self) -> Iterator[tuple[str, str]]:
        """The units that ask for another one to stand already, which nothing here starts."""
        for name, unit in sorted(self.units.items()):
            for other in unit["Requisite"]:
                if other not in self.units and not self.is_given(other):
                    yield name, other

    def orders(self) -> dict[str, set[str]]:
        """For each unit those after which it starts."""
        after: dict[str, set[str]] = {name: set() for name in self.units}
        for name, unit in self.units.items():
            for other in unit["After"]:
                if other in self.units and other != name:
                    after[name].add(other)
            for other in unit["Before"]:
                if other in self.units and other != name:
                    after[other].add(name)
        for name, unit in self.units.items():
            if unit.kind == "target" and unit.has_defaults:
                after[name] |= {
                    other for key in OF_TARGETS for other in unit[key] if self.is_before(other, name, after)
                }
        return after

    def is_before(self, other: str, target: str, after: dict[str, set[str]]) -> bool:
        """Whether a target starts after a unit that it pulls in, since nothing says otherwise."""
        unit = self.units.get(other)
        return unit is not None and other != target and unit.has_defaults and target not in after[other]

    def leave_out(self, names: Iterable[str]) -> None:
        """Takes away these units, and those that nothing else pulls in."""
        names, reached, work = set(names), set[str](), [self.target]
        while work:
            name = work.pop()
            if name in self.units and name not in names and name not in reached:
                reached.add(name)
                work += [other for key in PULLS for other in self.units[name][key]]
        self.units = {name: unit for name, unit in self.units.items() if name in reached}


def universe(folders: Folders, target: str, given: Iterable[str] = ()) -> tuple[str, list[str]]:
    """The document of a target, and notes on what is left out."""
    if not is_name(target) or unit_names.is_template(target):
        raise Refused(f"no name of a unit: {target}")
    name = folders.own_name(target)
    if folders.load(name) is None:
        path = folders.first(name)
        if path is None:
            raise Refused(f"no unit {target} in {', '.join('/' + each for each in FOLDERS)}")
        if folders.is_masked(path):
            raise Refused(f"{target} is masked, so it is never started")
        if name in folders.circular:
            raise Refused(f"{target}: a link that leads back to itself")
        raise Refused(f"{target}: /{path} leads to no file that can be read")
    return universe_of(Pulled(folders, name, given), target)


def live_universe(target: str) -> tuple[str, list[str]]:
    """The same for a target of the machine at hand, as its systemd has it."""
    if not is_name(target) or unit_names.is_template(target):
        raise Refused(f"no name of a unit: {target}")
    units = LiveUnits()
    if units.load(target) is None:
        raise Refused(f"{target}: systemd has no such unit, or it is masked or without a file")
    return universe_of(Pulled(units, units.own_name(target)), target)


def universe_of(pulled: Pulled, target: str) -> tuple[str, list[str]]:
    """The document of what a target pulls in, and notes on what is left out."""
    name = pulled.target
    failing = pulled.failing()
    notes = [f"{each} requires {other}, which is not there or cannot start" for each, other in sorted(failing.items())]
    if name not in failing:
        notes = [f"{note}: left out" for note in notes]
        pulled.leave_out(failing)
    notes += left_out(pulled, failing)
    metis_names = Names()
    types = types_of(pulled, failing, metis_names)
    comment = (
        f"{target} with the {len(pulled.units) - 1} units that it pulls in, by importers systemd; target: {BOOT}:up"
    )
    return document(comment, types, metis_names), notes


def left_out(pulled: Pulled, failing: dict[str, str]) -> Iterator[str]:
    wanted = sorted(pulled.absent - set(failing.values()))
    if wanted:
        more = ", .." if len(wanted) > MOST_NAMED else ""
        yield f"wanted, and not there: {', '.join(wanted[:MOST_NAMED])}{more}"
    yield from (note for note in dict.fromkeys(pulled.folders.notes))
    for name, other in pulled.never_met():
        yield f"{name} asks for {other} to stand already, and nothing here starts that: it will fail"
    conflicts = sorted(
        f"{name} with {other}"
        for name, unit in pulled.units.items()
        for other in set(unit["Conflicts"])
        if other in pulled.units and other != name
    )
    if conflicts:
        more = f" and {len(conflicts) - MOST_NAMED} more" if len(conflicts) > MOST_NAMED else ""
        yield f"conflicts between these units, which cannot be said: {', '.join(conflicts[:MOST_NAMED])}{more}"


def types_of(pulled: Pulled, failing: dict[str, str], names: Names) -> list[ComponentType]:
    orders = pulled.orders()
    types = []
    for name in sorted(pulled.units):
        # A unit that cannot start requires a port that nobody provides, and whoever needs it requires it.
        required = sorted(orders[name] | ({failing[name]} if name in failing else set()))
        port = names.of(name)
        types.append(two_states(port, "inactive", "active", (port,), one_each(map(names.of, required))))
    types.append(two_states(BOOT, "down", "up", (), one_each(names.of(name) for name in sorted(pulled.units))))
    return types


def add_arguments(parser: argparse.ArgumentParser) -> None:
    parser.add_argument("target", metavar="TARGET", help="a unit, such as multi-user.target")
    help_text = "a unit that the machine has besides, so that what requires it can start"
    parser.add_argument("--given", action="append", default=[], metavar="UNIT", help=help_text)
    where = parser.add_mutually_exclusive_group()
    where.add_argument("--root", default="/", metavar="FOLDER", help="the root below which the unit files lie")
    where.add_argument(
        OPTION, action="store_true", help="what the systemd of this machine says of its units, in place of their files"
    )


def run(arguments: argparse.Namespace) -> Answer:
    if arguments.live:
        return Answer(*live_universe(arguments.target))
    return Answer(*universe(Folders(arguments.root), arguments.target, arguments.given))
