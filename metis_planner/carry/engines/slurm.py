"""A folder with a script `submit`: it hands each action that is not done to Slurm as a job, which waits for the jobs of the actions
that it waits for. The folder has to be one that all nodes see.
"""

import argparse
import pathlib
import shlex
from collections.abc import Iterator

from metis_planner.answers import Answer
from metis_planner.carry import export
from metis_planner.carry.engines import Engine
from metis_planner.carry.export import Export, add_arguments
from metis_planner.carry.rollouts import again_before, barrier_of, ends_of
from metis_planner.text.actions import Delete, Unbind, in_words

__all__ = ["ENGINE", "add_arguments", "run"]

FILE = "submit"

HEAD = """\
#!/bin/sh
# {actions} actions. Made by `metis slurm`: change the commands, and make it anew.
#
#   sh submit     submits what is not done yet, and waits for it; what is done has a file in done/
#
# A job whose action failed takes those that wait for it with it: they are cancelled, and submitted again at the next call.
set -eu
case $0 in */*) CDPATH='' cd -- "${{0%/*}}" ;; esac
export METIS_EXPORT={digest}
submit() {{ # NAME JOBS WORD ..
  name=$1 jobs=$2
  shift 2
  # Jobs are named by :ID each, so that no job is an empty word.
  sbatch --parsable ${{METIS_SBATCH-}} --job-name="$name" --chdir="$PWD" --output="log/slurm.%j" \\
    ${{jobs:+--dependency="afterok$jobs" --kill-on-invalid-dep=yes}} --wrap="$*"
}}
"""
TAIL = """\
# A last job waits for the others. If one failed it is cancelled, of which sbatch says nothing: the marks say it.
sbatch --wait --quiet ${{METIS_SBATCH-}} --job-name=metis-all --output=/dev/null \\
  ${{last:+--dependency="afterok$last" --kill-on-invalid-dep=yes}} --wrap=true || :
for each in $paths; do
  [ -e "$each" ] || {{ printf '%s\n' "not all is done: metis status $PWD" >&2; exit 1; }}
done
"""


def run(arguments: argparse.Namespace) -> Answer:
    return export.run(arguments, ENGINE)


def script(found: Export) -> Iterator[str]:
    yield HEAD.format(actions=len(found.steps), digest=found.digest)
    number_of = {step.key: step.action.number for step in found.steps}
    fresh_ends = [
        [number_of[key] for key in ends_of(found.steps[each.old : each.fresh])] for each in found.rollouts
    ]
    behind = again_before(found.steps, found.again)
    for job in found.jobs():
        number, barrier = job.step.action.number, barrier_of(job.step, found.rollouts)
        waits = sorted({*job.step.waits, *(fresh_ends[barrier] if barrier is not None else ())})
        again = behind[number]
        if isinstance(job.step.action, Unbind | Delete) and job.step.key not in found.done:
            again = frozenset(number_of[key] for key in found.again)
        jobs = "".join([*(f"${{j{other}-}}" for other in waits), *(f"${{a{other}-}}" for other in sorted(again - {number}))])
        name = shlex.quote(in_words(job.step.action))
        yield f"[ -e done/{job.step.key} ] || j{number}=:$(submit {name} \"{jobs}\" ./run -q {job.words})\n"
        if job.step.key in found.again:
            before = f"${{j{number}-}}" + "".join(f"${{a{other}-}}" for other in sorted(behind[number]))
            yield f"[ -e again/{job.step.key} ] || a{number}=:$(submit {name} \"{before}\" ./run -q -a {job.words})\n"
    ends = "".join(f"${{j{number_of[key]}-}}" for key in ends_of(found.steps))
    ends += "".join(f"${{a{number_of[key]}-}}" for key in sorted(found.again))
    paths = [*(f"done/{key}" for key in ends_of(found.steps)), *(f"again/{key}" for key in sorted(found.again))]
    yield f"last={ends}\npaths='{' '.join(paths)}'\n"
    yield TAIL.format()


def command(folder: str, jobs: int) -> list[str]:
    """How many run at once Slurm says."""
    return ["sh", str(pathlib.Path(folder).absolute() / FILE)]


ENGINE = Engine(file=FILE, text_of=script, command=command)
