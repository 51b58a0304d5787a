"""The units of the machine at hand, as its systemd has them loaded: no file is read, and no default is added here."""

import subprocess
from collections.abc import Iterable, Iterator, Mapping

from metis_planner.answers import Refused
from metis_planner.importers.systemd.names import is_name
from metis_planner.importers.systemd.units import Unit

OPTION = "--live"
# What is asked of each unit. The orders are whole there: a unit is after those that say to be before it, too.
LISTS = ("Names", "Requires", "Requisite", "BindsTo", "Wants", "Upholds", "Conflicts", "After")
WORDS = ("Id", "LoadState", "FragmentPath")
MOST_SHOWN = 64 * 1024 * 1024
LOADED = "loaded"


def shown(names: Iterable[str]) -> Iterator[Mapping[str, str]]:
    """What `systemctl show` prints of units, by key."""
    keys = ",".join((*WORDS, *LISTS))
    command = ["systemctl", "show", "--no-pager", f"--property={keys}", "--", *names]
    try:
        done = subprocess.run(command, stdout=subprocess.PIPE, stderr=subprocess.PIPE, check=False)
    except OSError as fault:
        raise Refused(f"systemctl is not there ({fault.strerror}); --root FOLDER reads unit files") from fault
    if done.returncode:
        reason = " ".join(done.stderr.decode("utf-8", "replace").split())
        raise Refused(f"systemctl show: {reason or f'it ended with status {done.returncode}'}")
    if len(done.stdout) > MOST_SHOWN:
        raise Refused(f"systemctl show: more than {MOST_SHOWN} bytes")
    for block in done.stdout.decode("utf-8", "replace").split("\n\n"):
        found = dict(line.split("=", 1) for line in block.split("\n") if "=" in line)
        if found.get("Id"):
            yield found


class LiveUnits:
    """Units by name: all that are loaded at first, and others when they are asked for."""

    def __init__(self) -> None:
        self.notes: list[str] = []
        self.own: dict[str, str] = {}
        self.loaded: dict[str, Unit | None] = {}
        self.take(shown(["*"]))

    def take(self, told: Iterable[Mapping[str, str]]) -> None:
        for each in told:
            name = each["Id"]
            self.own.update(dict.fromkeys(each.get("Names", "").split(), name))
            # What systemd made itself, of the kernel's or the machine's own tables, has no file.
            is_of_file = each.get("LoadState") == LOADED and bool(each.get("FragmentPath"))
            self.loaded[name] = unit_of(name, each) if is_of_file else None

    def own_name(self, name: str) -> str:
        return self.own.get(name, name)

    def load(self, name: str) -> Unit | None:
        """The unit of a name; None where systemd finds none, or it is masked, or it was not made of a file."""
        name = self.own_name(name)
        if name not in self.loaded:
            self.loaded[name] = None
            if is_name(name):
                self.take(shown([name]))
        return self.loaded[self.own_name(name)]


def unit_of(name: str, told: Mapping[str, str]) -> Unit:
    settings = {key: [word for word in told.get(key, "").split() if is_name(word)] for key in LISTS}
    # All that systemd adds stands there already.
    return Unit(name, {**settings, "DefaultDependencies": ["no"]})
