"""A folder with a Makefile: `make -C FOLDER -j8` carries the plan out, and goes on where it stopped."""

import argparse
from collections.abc import Iterator

from metis_planner.answers import Answer, Refused
from metis_planner.carry import export
from metis_planner.carry.engines import Engine
from metis_planner.carry.export import Export, add_arguments
from metis_planner.carry.rollouts import barrier_of, ends_of, longest_chain
from metis_planner.carry.steps import Step
from metis_planner.text.actions import Delete, New, Unbind, in_words

__all__ = ["ENGINE", "add_arguments", "run"]

# GNU make goes along a chain by recursion, and anew after each action (metis_planner/carry/README.md has figures).
MOST_IN_A_ROW = 10_000

HEAD = """\
# {actions} actions of {instances} instances. Made by `metis make`: change the commands, and make it anew.
#
#   make -j8      carries the plan out, or goes on where it stopped; what is done has a file in done/
#   make -k -j8   where an action fails, goes on with all that does not wait for it
#   make -n       shows what is left to do, and does nothing
#
# `metis status .` says how far it is, also while it runs. Above each goal stands what it does, and after each bar what it waits
# for. What is done is not done again, however old it is.
export METIS_EXPORT := {digest}
MAKEFLAGS += --no-builtin-rules --no-builtin-variables
.SUFFIXES:
ifneq ($(filter 3.%,$(MAKE_VERSION)),)
$(error this wants GNU make 4)
endif
flags := $(firstword -$(MAKEFLAGS))
ifneq ($(findstring i,$(flags)),)
$(error an action that fails must not be taken for done: use make -k)
endif

.PHONY: all
"""


def run(arguments: argparse.Namespace) -> Answer:
    return export.run(arguments, ENGINE)


def makefile(found: Export) -> Iterator[str]:
    row = longest_chain(found.steps, found.rollouts)
    if row > MOST_IN_A_ROW:
        raise Refused(f"{row} actions wait one for the other, and make is good for {MOST_IN_A_ROW}: use ninja")
    instances = sum(isinstance(step.action, New) for step in found.steps)
    yield HEAD.format(actions=len(found.steps), instances=instances, digest=found.digest)
    again = "".join(f" again/{key}" for key in sorted(found.again))
    yield f"all: |{marks(ends_of(found.steps))}{again}\nMakefile: ;\n\n"
    for place, rollout in enumerate(found.rollouts, 1):
        old, fresh = found.steps[: rollout.old], found.steps[rollout.old : rollout.fresh]
        yield f"# Of what {rollout.old} actions leave nothing goes before all that is new stands.\n"
        yield f".PHONY: old-{place} fresh-{place}\n"
        yield f"old-{place}: |{marks(ends_of(old))}\nfresh-{place}: |{marks(ends_of(fresh))}\n\n"
    for job in found.jobs():
        waits = marks_before(found, job.step)
        if job.step.key in found.again:
            yield f"# again: {in_words(job.step.action)}\n"
            yield f"again/{job.step.key}: | done/{job.step.key}\n\t@./run -a {job.words}\n"
        yield f"# {job.step.action.number} {in_words(job.step.action)}\n"
        yield f"done/{job.step.key}:{' |' if waits else ''}{waits}\n\t@./run {job.words}\n"


def marks_before(found: Export, step: Step) -> str:
    """What a step waits for. What it stands on is done again before, if it is to be, and all of that before anything goes."""
    keys = [found.steps[number - 1].key for number in step.waits]
    waits = marks(keys) + "".join(f" again/{key}" for key in keys if key in found.again)
    if isinstance(step.action, Unbind | Delete) and step.key not in found.done:
        waits += "".join(f" again/{key}" for key in sorted(found.again.difference(keys)))
    barrier = barrier_of(step, found.rollouts)
    return waits if barrier is None else f"{waits} fresh-{barrier + 1}"


def marks(keys: Iterator[str] | list[str]) -> str:
    return "".join(f" done/{key}" for key in keys)


def command(folder: str, jobs: int) -> list[str]:
    return ["make", "-s", f"-j{jobs}", "-C", folder]


ENGINE = Engine(file="Makefile", text_of=makefile, command=command)
