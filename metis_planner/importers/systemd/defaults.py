"""What systemd adds to a unit by itself: orders and requirements that stand in no file (systemd 252)."""

import collections
from collections.abc import Iterable

from metis_planner.importers.systemd import names
from metis_planner.importers.systemd.names import parts_of
from metis_planner.importers.systemd.units import OF_PATHS, OF_SOCKETS, Unit, is_true

RUN_PROGRAMS = ("service", "mount", "swap")
IN_SLICES = (*RUN_PROGRAMS, "socket")
SET_OF_TRIGGER = {"socket": "sockets.target", "timer": "timers.target", "path": "paths.target"}
FOLDERS_OF_SERVICE = {
    "RuntimeDirectory": "/run",
    "StateDirectory": "/var/lib",
    "CacheDirectory": "/var/cache",
    "LogsDirectory": "/var/log",
    "ConfigurationDirectory": "/etc",
}
WRITTEN_FOLDERS = ("StateDirectory", "CacheDirectory", "LogsDirectory")
NETWORK_FILE_SYSTEMS = frozenset(
    "afs ceph cifs davfs gfs gfs2 glusterfs lustre ncp ncpfs nfs nfs4 ocfs2 orangefs pvfs2 smb3 smbfs sshfs".split()
)
# Mounts that stand before systemd and after it, and the option that says so of others.
OUTSIDE = ("/", "/usr", "/etc")
OF_INITRD = "x-initrd.mount"
BELOW_OUTSIDE = ("/run/initramfs", "/proc", "/sys", "/dev")
BOTH_WAYS = ("tty", "socket", "fd")
TO_JOURNAL = ("journal", "kmsg", "syslog")
QUOTAS = frozenset(("usrquota", "grpquota", "quota", "usrjquota", "grpjquota"))


class Settings:
    """The settings of a unit while more are added."""

    def __init__(self, unit: Unit) -> None:
        self.unit = unit
        self.added: dict[str, list[str]] = collections.defaultdict(list, {key: list(words) for key, words in unit.settings.items()})

    def add(self, *names: str, of: Iterable[str]) -> None:
        """Adds these units to each of these settings: `add("After", "Requires", of=["a.service"])`."""
        for name in names:
            self.added[name] += of


def with_defaults(unit: Unit) -> Unit:
    """A unit with what systemd adds, but for the order of targets and for mounts, which other units decide."""
    settings = Settings(unit)
    for other in triggered_by(unit):
        settings.add("Before", of=[other])
    if unit.kind == "service":
        add_for_service(unit, settings)
    if unit.kind in RUN_PROGRAMS or (unit.kind == "socket" and any(unit[key] for key in OF_SOCKETS if "Exec" in key)):
        add_for_programs(unit, settings)
    add_paths(unit, settings)
    add_slices(unit, settings)
    if unit.has_defaults:
        add_defaults(unit, settings)
    return Unit(unit.name, settings.added)


def triggered_by(unit: Unit) -> list[str]:
    """The unit that a socket, a timer, a path or an automount starts later on, and before which it comes."""
    stem = unit.name.rpartition(".")[0]
    if unit.kind == "automount":
        return [f"{stem}.mount"]
    if unit.kind not in SET_OF_TRIGGER or (unit.kind == "socket" and is_true(unit["Accept"], False)):
        return []
    named = unit["Service"] if unit.kind == "socket" else unit["Unit"]
    return named[-1:] or [f"{stem}.service"]


def add_for_service(unit: Unit, settings: Settings) -> None:
    settings.add("Wants", "After", of=unit["Sockets"])
    if unit.last("Type") == "dbus" or (unit["BusName"] and not unit["Type"]):
        settings.add("Requires", "After", of=["dbus.socket"])


def add_for_programs(unit: Unit, settings: Settings) -> None:
    """What comes before the programs of a unit: where their words go, and their own folders."""
    is_dynamic = unit.kind == "service" and is_true(unit["DynamicUser"], False)
    if is_dynamic or is_true(unit["PrivateTmp"], False):
        settings.add("Wants", "After", of=["tmp.mount"])
        settings.add("RequiresMountsFor", of=["/var/tmp"])
        settings.add("After", of=["systemd-tmpfiles-setup.service"])
    for key, folder in FOLDERS_OF_SERVICE.items():
        settings.add("RequiresMountsFor", of=[f"{folder}/{each.partition(':')[0]}" for each in unit[key]])
    if any(unit[key] for key in WRITTEN_FOLDERS):
        settings.add("After", of=["systemd-remount-fs.service"])
    for key in ("WorkingDirectory", "RootDirectory", "RootImage"):
        settings.add("RequiresMountsFor", of=absolute(unit[key][-1:], unit.name))
    if unit["RootImage"]:
        settings.add("After", of=["systemd-udevd.service"])
    if unit["LogNamespace"]:
        sockets = [f"systemd-journald{part}@{unit.last('LogNamespace')}.socket" for part in ("", "-varlink")]
        settings.add("After", "Requires", of=sockets)
    elif any(word.startswith(TO_JOURNAL) for word in outputs_of(unit)):
        settings.add("After", of=["systemd-journald.socket"])


def outputs_of(unit: Unit) -> tuple[str, str]:
    """Where the words of a unit's programs go: to the journal, unless it says otherwise or its input goes both ways."""
    output, error = unit.last("StandardOutput"), unit.last("StandardError")
    if output in ("", "inherit") and not unit.last("StandardInput").startswith(BOTH_WAYS):
        output = "journal"
    return output, error


def add_paths(unit: Unit, settings: Settings) -> None:
    """The paths that a unit needs mounted, by what it listens at, watches, keeps or is mounted on."""
    paths: list[str] = []
    if unit.kind == "socket":
        paths = [word for key in OF_SOCKETS if "Listen" in key for word in unit[key]]
    elif unit.kind == "path":
        paths = [word for key in OF_PATHS for word in unit[key]]
    elif unit.kind == "timer" and is_true(unit["Persistent"], False):
        paths = ["/var/lib/systemd/timers"]
    elif unit.kind == "automount":
        paths = [above(place_of(unit))]
    elif unit.kind == "mount":
        paths = [above(place_of(unit)), *source_of(unit)]
    elif unit.kind == "swap":
        paths = unit["What"][-1:]
    settings.add("RequiresMountsFor", of=absolute(paths, unit.name))


def absolute(paths: Iterable[str], name: str) -> list[str]:
    """Those of these paths of a unit that begin at the root, with what their specifiers stand for."""
    settled = (names.with_specifiers(path, name) for path in paths)
    return [path.replace("%", "%%") for path in settled if path is not None and path.startswith("/")]


def source_of(unit: Unit) -> list[str]:
    """What a mount mounts, where that is a path whose own mounts it needs: not if it comes over the network."""
    is_of_path = {"bind", "rbind", "loop"} & {*options_of(unit), unit.last("Type")}
    return unit["What"][-1:] if is_of_path or not is_remote(unit) else []


def above(path: str) -> str:
    """The folder above a path; nothing is above the root."""
    return path.rstrip("/").rpartition("/")[0] or ("/" if path != "/" else "")


def place_of(unit: Unit) -> str:
    """Where a mount or an automount lies: what it says, or what its name says."""
    stem = unit.name.rpartition(".")[0]
    return unit.last("Where") or ("/" if stem == "-" else "/" + names.unescaped(stem))


def options_of(unit: Unit) -> set[str]:
    return {option.partition("=")[0] for word in unit["Options"] for option in word.split(",")}


def add_slices(unit: Unit, settings: Settings) -> None:
    """The slice in which a unit runs, and the one in which a slice lies."""
    prefix, instance, _ = parts_of(unit.name)
    if unit.kind == "slice":
        stem = unit.name.rpartition(".")[0]
        parent = stem.rpartition("-")[0] or "-"
        settings.add("Requires", "After", of=[f"{parent}.slice"] if stem != "-" else [])
    elif unit.kind in IN_SLICES:
        inner = f"system-{names.escaped(prefix)}.slice" if instance is not None else "system.slice"
        settings.add("Requires", "After", of=unit["Slice"][-1:] or [inner])


def add_defaults(unit: Unit, settings: Settings) -> None:
    """What stands unless a unit says `DefaultDependencies=no`."""
    if unit.kind == "service":
        settings.add("Requires", "After", of=["sysinit.target"])
        settings.add("After", of=["basic.target"])
    elif unit.kind in SET_OF_TRIGGER:
        settings.add("Requires", "After", of=["sysinit.target"])
        settings.add("Before", of=[SET_OF_TRIGGER[unit.kind]])
        if unit["OnCalendar"]:
            settings.add("After", of=["time-set.target", "time-sync.target"])
    elif unit.kind == "mount":
        add_for_mount(unit, settings)
    elif unit.kind == "automount":
        settings.add("After", of=["local-fs-pre.target"])
        settings.add("Before", of=["local-fs.target"])
    elif unit.kind == "swap":
        settings.add("Before", of=["swap.target"])
    if unit.name != "-.slice":
        settings.add("Before", of=["shutdown.target"])


def add_for_mount(unit: Unit, settings: Settings) -> None:
    """A mount comes among those of this machine or of the network, unless it stands outside of what systemd does."""
    place, options = place_of(unit), options_of(unit)
    is_below = any(f"{place}/".startswith(f"{each}/") for each in BELOW_OUTSIDE)
    if place in OUTSIDE or is_below or OF_INITRD in options:
        return
    where = "remote-fs" if is_remote(unit) else "local-fs"
    settings.add("After", of=[f"{where}-pre.target"])
    if not is_left_alone(unit):
        settings.add("Before", of=[f"{where}.target"])
    if is_remote(unit):
        settings.add("After", of=["network.target", "network-online.target"])
        settings.add("Wants", of=["network-online.target"])
    elif QUOTAS & options and "bind" not in options:
        settings.add("Wants", "Before", of=["systemd-quotacheck.service", "quotaon.service"])
    if unit.last("Type") == "tmpfs":
        settings.add("After", of=["swap.target"])


def is_remote(unit: Unit) -> bool:
    return "_netdev" in options_of(unit) or unit.last("Type").removeprefix("fuse.") in NETWORK_FILE_SYSTEMS


def is_left_alone(unit: Unit) -> bool:
    """Whether nobody waits for a mount: the last word of `nofail` and `fail` counts."""
    words = [option for word in unit["Options"] for option in word.split(",") if option in ("nofail", "fail")]
    return words[-1:] == ["nofail"]
