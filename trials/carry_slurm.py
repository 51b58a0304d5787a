#!/usr/bin/env python3
"""Carries plans out by Slurm on this machine, and compares what is done with what make does: python3 -m trials carry_slurm

It wants root and Debian's slurm-wlm, and starts munged, slurmctld and slurmd in a folder of its own. A plan of two instances and
that of examples/blog.json come up, fail and are resumed, and go. The last line says that all was as with make.
"""

import contextlib
import os
import pathlib
import shutil
import socket
import subprocess
import sys
import tempfile
import time
from collections.abc import Iterator

from trials.trial import TOP, Failed, expect

DAEMONS = ("munged", "slurmctld", "slurmd")
CONFIGURATION = """\
ClusterName=trial
SlurmctldHost={host}
SlurmUser=root
AuthType=auth/munge
StateSaveLocation={top}/state
SlurmdSpoolDir={top}/spool
SlurmctldPidFile={top}/controller.pid
SlurmdPidFile={top}/daemon.pid
SlurmctldLogFile={top}/controller.log
SlurmdLogFile={top}/daemon.log
ProctrackType=proctrack/linuxproc
TaskPlugin=task/none
SelectType=select/cons_tres
SelectTypeParameters=CR_Core
SchedulerParameters=batch_sched_delay=0,sched_interval=2,sched_min_interval=100000
JobAcctGatherType=jobacct_gather/none
SlurmdParameters=config_overrides
ReturnToService=2
NodeName={host} CPUs=8 State=UNKNOWN
PartitionName=all Nodes=ALL Default=YES MaxTime=INFINITE State=UP OverSubscribe=FORCE:8
"""
COMMANDS = """
[[step]]
when = "*: new"
run = 'mkdir -p {top}/stands/$METIS_NAME'
[[step]]
when = "{failing}"
run = 'test -e {top}/mended && touch {top}/stands/$METIS_NAME/$METIS_TO'
[[step]]
when = "*: * -> *"
run = 'touch {top}/stands/$METIS_NAME/$METIS_TO'
[[step]]
when = "*: bind *"
run = ""
[[step]]
when = "*: unbind *"
run = ""
[[step]]
when = "*: delete"
run = 'rm -r {top}/stands/$METIS_NAME'
"""
CASES = (
    ("web", TOP / "examples" / "web.json", "Web:run", "Db: off -> on"),
    ("blog", TOP / "examples" / "blog.json", "haproxy:run", "mysql: inst -> run"),
)


def metis(*words: object) -> subprocess.CompletedProcess[str]:
    return subprocess.run([TOP / "metis", *map(str, words)], capture_output=True, text=True, check=False)


@contextlib.contextmanager
def cluster(top: pathlib.Path) -> Iterator[None]:
    """Slurm on this machine, for a while."""
    for name in ("state", "spool"):
        (top / name).mkdir()
    path = top / "slurm.conf"
    path.write_text(CONFIGURATION.format(top=top, host=socket.gethostname()))
    os.environ["SLURM_CONF"] = str(path)
    pathlib.Path("/run/munge").mkdir(exist_ok=True)
    shutil.chown("/run/munge", "munge")
    quiet = {"stdout": subprocess.DEVNULL, "stderr": subprocess.DEVNULL}
    jobs = [subprocess.Popen(["runuser", "-u", "munge", "--", "munged", "--foreground", "--force"], **quiet)]
    try:
        time.sleep(1)
        jobs += [subprocess.Popen([name, "-D"], **quiet) for name in DAEMONS[1:]]
        until = time.time() + 30
        while "idle" not in subprocess.run(["sinfo", "-h"], capture_output=True, text=True, check=False).stdout:
            expect(time.time() < until, "Slurm does not come up")
            time.sleep(0.5)
        yield
    finally:
        for job in reversed(jobs):
            job.terminate()
            job.wait()


def carried_out(engine: str, folder: pathlib.Path, case: tuple[str, pathlib.Path, str, str], commands: pathlib.Path) -> list[str]:
    """Brings a case up by an engine, with a step that fails at first, and takes it down; what was done after each part."""
    _, universe, target, _ = case
    mended = folder.parent / "mended"
    mended.unlink(missing_ok=True)
    up = ["up", universe, target, "--commands", commands, "--to", folder, "--engine", engine, "--yes"]
    failed = metis(*up)
    expect(failed.returncode == 1 and "failed" in metis("status", folder).stdout, failed.stderr)
    mended.touch()
    resumed = metis(*up)
    expect(resumed.returncode == 0, resumed.stderr)
    found = [metis("done", folder).stdout]
    down = metis("down", folder, "--engine", engine, "--yes")
    expect(down.returncode == 0, down.stderr)
    expect(not any((folder.parent / "stands").iterdir()), "something is left")
    return [*found, metis("done", folder).stdout]


def main() -> int:
    missing = [name for name in (*DAEMONS, "sbatch", "make") if shutil.which(name) is None]
    if missing or os.geteuid():
        print(f"not run: {', '.join(missing) or 'root'} is wanted", file=sys.stderr)
        return 2
    with tempfile.TemporaryDirectory(prefix="metis-slurm-") as name:
        top = pathlib.Path(name)
        try:
            with cluster(top):
                for case in CASES:
                    commands = top / "commands.toml"
                    commands.write_text(COMMANDS.format(top=top, failing=case[3]))
                    by_slurm = carried_out("slurm", top / f"{case[0]}-slurm", case, commands)
                    by_make = carried_out("make", top / f"{case[0]}-make", case, commands)
                    expect(by_slurm == by_make, (by_slurm, by_make))
                    print(f"{case[0]}: failed, resumed and taken down by Slurm as by make", flush=True)
        except Failed as failed:
            print(f"FAILED: {failed}")
            return 1
    print("all was as with make")
    return 0


if __name__ == "__main__":
    sys.exit(main())
