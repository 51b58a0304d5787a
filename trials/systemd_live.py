#!/usr/bin/env python3
"""Compares `--live` with the unit files of a system that runs: python3 -m trials systemd_live [--folder FOLDER] TARGET ..

systemd is started as the first process of namespaces of its own, in a root of Debian's packages that try_systemd's trial
fetches, without its generators. `systemctl` is asked there by a script that enters these namespaces. For each target
(basic.target, if none is named) the units and orders that it says have to be those that the importer reads of the files below
the root. The rights of root are needed, and hierarchies of control groups.
"""

import argparse
import os
import pathlib
import shutil
import subprocess
import sys
import tempfile
import time

from metis_planner.answers import Refused
from metis_planner.importers.systemd import Pulled
from metis_planner.importers.systemd.live import LiveUnits
from metis_planner.importers.systemd.units import Folders
from trials.systemd import fetch, lay_base
from trials.systemd_roots import RUNNING

MORE = "util-linux libsmartcols1 libtinfo6 bash coreutils libgmp10 libattr1".split()
BOOT = """
mount --bind "$1" "$1"
mount -t proc proc "$1/proc"
mount --rbind /sys "$1/sys"
mount -t tmpfs tmpfs "$1/run"
mount --bind /dev "$1/dev"
exec chroot "$1" /usr/bin/env -i container=metis SYSTEMD_GENERATOR_PATH=/nonexistent PATH=/usr/bin:/bin:/sbin:/usr/sbin /lib/systemd/systemd --system --unit=basic.target
"""
NAMESPACES = ("--mount", "--pid", "--ipc", "--uts")
MOST_SECONDS = 60


def started(root: pathlib.Path) -> "subprocess.Popen[bytes]":
    """systemd as the first process of its own namespaces; what is returned is the process that made them."""
    command = ["unshare", *NAMESPACES, "--fork", "--kill-child", "--propagation", "private", "sh", "-e", "-c", BOOT, "sh", root]
    return subprocess.Popen(command, stdin=subprocess.DEVNULL, stdout=subprocess.DEVNULL, stderr=subprocess.DEVNULL)


def child_of(process: "subprocess.Popen[bytes]") -> str:
    told = pathlib.Path(f"/proc/{process.pid}/task/{process.pid}/children").read_text().split()
    return told[0] if told else ""


def lay_systemctl(folder: pathlib.Path, root: pathlib.Path, pid: str) -> None:
    """A command `systemctl` that asks the systemd in these namespaces."""
    script = folder / "systemctl"
    script.write_text(f'#!/bin/sh\nexec nsenter --target {pid} --mount --pid chroot "{root}" systemctl "$@"\n')
    script.chmod(0o755)
    os.environ["PATH"] = f"{folder}:{os.environ['PATH']}"


def wait_until_it_answers() -> None:
    for _ in range(MOST_SECONDS):
        done = subprocess.run(["systemctl", "show", "basic.target", "--property=ActiveState"], capture_output=True, check=False)
        if done.returncode == 0:
            return
        time.sleep(1)
    raise Refused(f"systemd does not answer after {MOST_SECONDS} s: {done.stderr.decode()}")


def compare(root: pathlib.Path, target: str) -> tuple[list[str], str]:
    """How what is loaded and what the files say differ, a line each, and a line that counts what is the same."""
    live, files = LiveUnits(), Folders(root)
    loaded, read = Pulled(live, live.own_name(target)), Pulled(files, files.own_name(target))
    for pulled in (loaded, read):
        pulled.leave_out(pulled.failing())
    theirs, ours = loaded.orders(), read.orders()
    lines = [f"only loaded: {name}" for name in sorted(theirs.keys() - ours.keys())]
    lines += [f"only in files: {name}" for name in sorted(ours.keys() - theirs.keys())]
    same = 0
    for name in sorted(ours.keys() & theirs.keys()):
        both = theirs.keys() & ours.keys()
        after, mine = theirs[name] & both, ours[name] & both
        same += len(after & mine)
        lines += [f"only {'loaded' if each in after else 'in files'}: {name} after {each}" for each in sorted(after ^ mine)]
    return lines, f"{len(ours.keys() & theirs.keys())} units and {same} orders the same, {len(lines)} things not"


def main() -> int:
    parser = argparse.ArgumentParser(description=__doc__, formatter_class=argparse.RawDescriptionHelpFormatter)
    parser.add_argument("--folder", metavar="FOLDER")
    parser.add_argument("targets", metavar="TARGET", nargs="*")
    arguments = parser.parse_args()
    is_good = True
    with tempfile.TemporaryDirectory() as place:
        folder = pathlib.Path(arguments.folder or place)
        folder.mkdir(parents=True, exist_ok=True)
        root = pathlib.Path(place) / "root"
        root.mkdir(mode=0o755)
        lay_base(root, fetch(folder, [*RUNNING, *MORE]))
        process = started(root)
        try:
            time.sleep(1)
            lay_systemctl(pathlib.Path(place), root, child_of(process))
            wait_until_it_answers()
            for target in arguments.targets or ["basic.target"]:
                lines, count = compare(root, target)
                print("\n".join([*(f"  {line}" for line in lines), f"{target}: {count}"]), flush=True)
                is_good &= not lines
        except Refused as fault:
            print(fault)
            is_good = False
        finally:
            process.kill()
            process.wait()
            shutil.rmtree(root, ignore_errors=True)
    return 0 if is_good else 1


if __name__ == "__main__":
    sys.exit(main())
