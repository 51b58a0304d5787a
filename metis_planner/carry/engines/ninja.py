"""A folder with a build.ninja: `ninja -C FOLDER` carries the plan out, and goes on where it stopped."""

import argparse
import re
from collections.abc import Iterator

from metis_planner.answers import Answer
from metis_planner.carry import export
from metis_planner.carry.commands import Rule
from metis_planner.carry.engines import Engine
from metis_planner.carry.engines.make import marks, marks_before
from metis_planner.carry.export import Export, Job, add_arguments
from metis_planner.carry.rollouts import ends_of
from metis_planner.carry.steps import Step
from metis_planner.text.actions import in_words

__all__ = ["ENGINE", "add_arguments", "run"]

HEAD = """\
# {actions} actions. Made by `metis ninja`: change the commands, and make it anew.
#
#   ninja         carries the plan out, or goes on where it stopped; what is done has a file in done/
#   ninja -k 0    where actions fail, goes on with all that does not wait for them
#   ninja -n -v   shows what is left to do, and does nothing
#
# Behind || stands what an action waits for. `generator` says that what is done stays done, whatever ninja knows of it.
ninja_required_version = 1.5
builddir = lock

rule do
  command = METIS_EXPORT={digest} ./run -q $words
  description = $what
  generator = 1
"""


def run(arguments: argparse.Namespace) -> Answer:
    return export.run(arguments, ENGINE)


def ninja_file(found: Export) -> Iterator[str]:
    yield HEAD.format(actions=len(found.steps), digest=found.digest)
    jobs = list(found.jobs())
    for pool in sorted({pool_of(found, job.step, job.rule) for job in jobs if job.rule and job.rule.lock}):
        yield f"pool {pool}\n  depth = 1\n"
    for place, rollout in enumerate(found.rollouts, 1):
        yield f"build fresh-{place}: phony ||{marks(ends_of(found.steps[rollout.old : rollout.fresh]))}\n"
    for job in jobs:
        waits = marks_before(found, job.step)
        yield f"build done/{job.step.key}: do{' ||' if waits else ''}{waits}\n"
        yield from words_of(found, job)
        if job.step.key in found.again:
            yield f"build again/{job.step.key}: do || done/{job.step.key}\n"
            yield from words_of(found, job, "-a ", "again: ")


def words_of(found: Export, job: Job, flag: str = "", how: str = "") -> Iterator[str]:
    yield f"  words = {flag}{job.words}\n"
    yield f"  what = {how}{in_words(job.step.action)}\n"
    if job.rule and job.rule.lock:
        yield f"  pool = {pool_of(found, job.step, job.rule)}\n"


def pool_of(found: Export, step: Step, rule: Rule) -> str:
    """The pool of those that are done one at a time. `run` sees to that too, but here none takes a place while it waits."""
    host = re.sub(r"[^A-Za-z0-9]", "_", found.host(step.action.instance))
    return f"{rule.lock}.{host}"


def command(folder: str, jobs: int) -> list[str]:
    return ["ninja", f"-j{jobs}", "-C", folder]


ENGINE = Engine(file="build.ninja", text_of=ninja_file, command=command)
