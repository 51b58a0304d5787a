#!/usr/bin/env python3
"""Compares the units and orders of targets with those of systemd itself:

    python3 -m trials systemd [--folder FOLDER]
    python3 -m trials systemd --here TARGET ..

The first form makes two roots of Debian's packages, a server and a desktop of more than 90 packages with units each, in
which `systemctl preset-all` has enabled what Debian enables, and compares multi-user.target and graphical.target in
both; and then the corner cases of try_systemd_cases.py, each in a root with systemd alone. The packages are fetched with
`apt-get download` into FOLDER, or a temporary one. The rights of root are needed, for `unshare` and `chroot`. The second
form compares targets of this machine.

systemd is asked by `systemd --test`, which starts nothing, as a user without rights, and without its generators. What it
would start, but for units without a file that it makes at boot, has to be what the importer found, and the orders of
these units have to be the same. Two differences are known, and seen by what systemd itself says of the units; they are
printed as such. It starts a wanted unit though one that this requires is not there, and it drops one of two units that
conflict.
"""

import argparse
import dataclasses
import os
import pathlib
import re
import shutil
import subprocess
import sys
import tempfile

TOP = pathlib.Path(__file__).resolve().parent.parent

from metis_planner.importers.systemd import Pulled
from metis_planner.importers.systemd.units import Folders
from trials import systemd_cases, systemd_mounts
from trials.systemd_roots import COMMON, DESKTOP, RUNNING, SERVER

PROGRAM = "/lib/systemd/systemd"
NOBODY = 65534
TARGETS = ("multi-user.target", "graphical.target")
FOLDER_OF = {"etc": "etc/systemd/system", "run": "run/systemd/system", "lib": "lib/systemd/system"}
LEAST_WITH_UNITS = 90
FETCHED_AT_ONCE = 20


class Failed(Exception):
    """What could not be tried."""


def run_in(root, *words):
    """Runs systemd in a root, or on this machine for none, as a user without rights; what it printed."""
    as_nobody = ["setpriv", f"--reuid={NOBODY}", f"--regid={NOBODY}", "--clear-groups"]
    nowhere = dict.fromkeys(("HOME", "XDG_CONFIG_HOME", "SYSTEMD_GENERATOR_PATH"), "/nonexistent")
    command = [PROGRAM, "--test", "--system", *words]
    if root is not None:
        mounts = 'mount --bind /proc "$1/proc" && mount --rbind /sys "$1/sys" && root=$1 && shift && exec chroot'
        command = [
            "unshare",
            "-m",
            "sh",
            "-c",
            f'{mounts} --userspec={NOBODY}:{NOBODY} "$root" "$@"',
            "sh",
            root,
            *command,
        ]
    elif os.geteuid() == 0:
        command = [*as_nobody, *command]
    environment = {**os.environ, **nowhere}
    done = subprocess.run(
        command, env=environment, stdout=subprocess.PIPE, stderr=subprocess.PIPE, text=True, check=False, timeout=120
    )
    if done.returncode:
        raise Failed(f"systemd ended with status {done.returncode}: {done.stderr.strip()[-300:]}")
    return done.stdout


@dataclasses.dataclass(frozen=True)
class Told:
    """What systemd says of the units that it loaded: those that it would start, and what their files come to."""

    started: frozenset[str]
    settings: dict[str, dict[str, set[str]]]

    def of(self, name, key):
        return self.settings.get(name, {}).get(key, set())

    def lacks_what_it_requires(self, name, seen=frozenset()):
        """Whether a unit requires one that is not there, or one that does."""
        for other in (self.of(name, "Requires") | self.of(name, "BindsTo")) - seen:
            if "loaded" not in self.of(other, "Unit Load State") or self.lacks_what_it_requires(other, seen | {name}):
                return True
        return False

    def conflicts(self, name):
        """Whether a unit conflicts with one that is started."""
        return bool((self.of(name, "Conflicts") | self.of(name, "ConflictedBy")) & self.started)


def told_by_systemd(root, target):
    settings, started = {}, set()
    for part in re.split(r"^\t?-> Unit ", run_in(root, f"--unit={target}"), flags=re.MULTILINE)[1:]:
        own = settings[part.partition(":\n")[0]] = {}
        for key, word in re.findall(r"^\t\t([A-Z][A-Za-z ]+): (\S+)", part, re.MULTILINE):
            own.setdefault(key, set()).add(word)
        started |= set(re.findall(r"Action: (\S+) -> start", part))
    if not started:
        raise Failed(f"systemd would start nothing for {target}")
    return Told(frozenset(started), settings)


def compare(root, target):
    """How systemd and the importer differ: what is not known, what is, a line each, and a line that counts what is the same."""
    told = told_by_systemd(root, target)
    folders = Folders(root or "/")
    pulled = Pulled(folders, folders.own_name(target))
    pulled.leave_out(pulled.failing())
    ours = pulled.orders()
    theirs = {name for name in told.started if name in ours or not pulled.is_given(name)}
    lines, known, same = [], [], 0
    for name in sorted(ours.keys() - theirs):
        (known if told.conflicts(name) else lines).append(f"only here: {name}")
    for name in sorted(theirs - ours.keys()):
        (known if told.lacks_what_it_requires(name) else lines).append(f"only systemd: {name}")
    for name in sorted(ours.keys() & theirs):
        after = {each for each in told.of(name, "After") if each in ours and each in told.started}
        mine = {each for each in ours[name] if each in theirs}
        same += len(after & mine)
        lines += [
            f"only {'systemd' if each in after else 'here'}: {name} after {each}" for each in sorted(after ^ mine)
        ]
    count = (
        f"{len(ours.keys() & theirs)} units and {same} orders the same, {len(lines)} things not, {len(known)} as known"
    )
    return lines, known, count


def report(title, root, target):
    """Prints how a comparison came out; whether all was the same."""
    try:
        lines, known, count = compare(root, target)
    except (Failed, subprocess.TimeoutExpired) as fault:
        lines, known, count = [str(fault)], [], "not compared"
    for line in [*lines, *(f"known: {line}" for line in known)]:
        print(f"  {line}")
    print(f"{title}: {count}", flush=True)
    return not lines


def fetch(folder, names):
    """Fetches the packages that this machine's index has, each once; the files."""
    told = subprocess.run(["apt-cache", "pkgnames"], stdout=subprocess.PIPE, text=True, check=True).stdout.split()
    known = set(told)
    there = {path.name.partition("_")[0] for path in folder.glob("*.deb")}
    wanted = [name for name in dict.fromkeys(names) if name in known and name not in there]
    for at in range(0, len(wanted), FETCHED_AT_ONCE):
        command = ["apt-get", "download", *wanted[at : at + FETCHED_AT_ONCE]]
        subprocess.run(command, cwd=folder, stderr=subprocess.DEVNULL, stdout=subprocess.DEVNULL, check=False)
    return [path for path in sorted(folder.glob("*.deb")) if path.name.partition("_")[0] in set(names)]


def unpack(package, root, is_whole):
    """Unpacks a package, or only what systemd reads of it; whether it has units."""
    listed = subprocess.Popen(["dpkg-deb", "--fsys-tarfile", package], stdout=subprocess.PIPE)
    wanted = [] if is_whole else ["--wildcards", "./lib/systemd/*", "./usr/lib/systemd/*", "./etc/systemd/*"]
    done = subprocess.run(
        ["tar", "-x", "-v", "-C", root, *wanted],
        stdin=listed.stdout,
        stdout=subprocess.PIPE,
        stderr=subprocess.DEVNULL,
        text=True,
        check=False,
    )
    listed.wait()
    return "/systemd/system/" in done.stdout


def lay_base(root, running):
    """A root in which systemd can be asked."""
    for name in ("proc", "sys", "dev", "etc", "tmp", "run/systemd/system"):
        (root / name).mkdir(parents=True, exist_ok=True)
    for package in running:
        unpack(package, root, True)
    (root / "dev" / "null").touch()
    for name in ("tmp", "run", "run/systemd"):
        (root / name).chmod(0o1777)


def make_root(root, running, packages):
    """A root of packages, in which what they bring is enabled as Debian does; how many of them have units.

    systemctl cannot enable what is masked, says so, and goes on.
    """
    lay_base(root, running)
    count = sum(unpack(package, root, False) for package in packages)
    subprocess.run(
        ["systemctl", f"--root={root}", "preset-all"], stdout=subprocess.DEVNULL, stderr=subprocess.DEVNULL, check=False
    )
    return count


def lay_case(root, text):
    """Writes the files and links of a corner case below a root."""
    files, file = {}, None
    for line in text.strip("\n").split("\n"):
        link = re.fullmatch(r"(\S+) -> (\S+)", line)
        head = re.fullmatch(r"((?:etc|run|lib|/)\S*):", line)
        if link:
            place_of(root, link[1]).symlink_to(link[2])
        elif head:
            file = files[place_of(root, head[1])] = []
        else:
            file.append(line + "\n")
    for path, lines in files.items():
        whole = "".join(lines)
        if path.name.endswith(".service") and path.name != "empty.service" and "ExecStart=" not in whole:
            whole += "[Service]\nExecStart=/bin/true\n"
        whole = whole if whole or path.name == "empty.service" else "[Unit]\n"
        path.write_bytes(whole.encode("utf-8", "surrogateescape"))


def place_of(root, name):
    folder, _, rest = name.partition("/")
    path = root / rest if folder == "" else root / FOLDER_OF[folder] / rest
    path.parent.mkdir(parents=True, exist_ok=True)
    return path


def try_roots(folder, running):
    """Compares both targets in both roots."""
    is_good = True
    for title, names in (("server", SERVER), ("desktop", DESKTOP)):
        packages = fetch(folder, [*COMMON, *names])
        with tempfile.TemporaryDirectory() as place:
            root = pathlib.Path(place) / "root"
            root.mkdir(mode=0o755)
            pathlib.Path(place).chmod(0o755)
            count = make_root(root, running, packages)
            print(f"{title}: {count} packages with units")
            is_good &= count >= LEAST_WITH_UNITS
            for target in TARGETS:
                is_good &= report(f"{title}, {target}", root, target)
    return is_good


def try_cases(running):
    """Compares the corner cases, each in a root with systemd alone."""
    is_good = True
    with tempfile.TemporaryDirectory() as place:
        pathlib.Path(place).chmod(0o755)
        base = pathlib.Path(place) / "base"
        base.mkdir(mode=0o755)
        lay_base(base, running)
        for title, text in (systemd_cases.CASES | systemd_mounts.CASES).items():
            root = pathlib.Path(place) / "case"
            subprocess.run(["cp", "-a", "--reflink=auto", "-l", base, root], check=True)
            lay_case(root, text)
            is_good &= report(title, root, "case.target")
            shutil.rmtree(root)
    return is_good


def main():
    parser = argparse.ArgumentParser(description=__doc__, formatter_class=argparse.RawDescriptionHelpFormatter)
    parser.add_argument("--folder", metavar="FOLDER")
    parser.add_argument("--here", action="store_true")
    parser.add_argument("--cases", action="store_true", help="the corner cases alone")
    parser.add_argument("targets", metavar="TARGET", nargs="*")
    arguments = parser.parse_args()
    if arguments.here:
        return 0 if all([report(target, None, target) for target in arguments.targets or TARGETS]) else 1
    with tempfile.TemporaryDirectory() as temporary:
        folder = pathlib.Path(arguments.folder or temporary)
        folder.mkdir(parents=True, exist_ok=True)
        running = fetch(folder, RUNNING)
        is_good = try_cases(running)
        if not arguments.cases:
            is_good &= try_roots(folder, running)
    return 0 if is_good else 1


if __name__ == "__main__":
    sys.exit(main())
