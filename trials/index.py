#!/usr/bin/env python3
"""Asks for a plan for each package of this machine's index:

    python3 -m trials index [--metis PROGRAM] [--jobs N] [--every K] [--installed | --status FILE]

A universe is made of each package that does not stand (of each K-th one), and the program plans for it. What stands is the
base system, or what a status file says. What would stand in the end is gone through, by the fields of all packages that are
installed and of those that lean on one that is upgraded: no dependence may be unmet, and nothing may be there with what it
conflicts with or breaks. The last lines count what came of it, with the names of the first packages of each cause for which
no plan was made. The status is 1 if a plan leaves something that is not whole.
"""

import argparse
import collections
import multiprocessing
import pathlib
import subprocess
import sys

TOP = pathlib.Path(__file__).resolve().parent.parent

from metis_planner.answers import Refused
from metis_planner.importers import debian
from metis_planner.importers.debian.control import alternatives, relation
from metis_planner.importers.debian.installation import Installation
from metis_planner.importers.debian.packages import BARS, NEEDS, STATUS, Pool

MOST_NAMED = 60
BROKEN = "a plan that leaves something that is not whole"
PLAN, DOUBLES, CONFLICT = "a plan", "a plan with doubles", "refused, since packages conflict"


def outcome(choices, metis, name):
    """What came of a package, and how many pairs its universe has."""
    try:
        document, notes = debian.universe(choices, debian.Request([name]))
    except Refused as refused:
        return cause_of(str(refused)), 0
    pairs = document.count('"name":') - document.count('"initial":')
    if not any(note.endswith(debian.MISSING) for note in notes) and not is_whole(
        choices, Installation(choices, [name])
    ):
        return BROKEN, pairs
    command = [metis, "plan", "-", debian.target(name)]
    done = subprocess.run(command, input=document, stdout=subprocess.PIPE, text=True, check=False)
    if done.returncode == 0:
        has_doubles = not done.stdout.split("\n", 2)[1].endswith(" dups 0")
        return (DOUBLES if has_doubles else PLAN), pairs
    if done.returncode == 1 and any(note.endswith(debian.MISSING) for note in notes):
        return "a dependence that nothing provides", pairs
    if done.returncode == 1:
        return "refused though all is there", pairs
    return f"status {done.returncode}: {done.stdout.strip()}", pairs


def is_whole(choices, installation):
    """Whether all that an installation touches has what it depends on in the end, and nothing that it conflicts with."""
    index, given = choices.index.packages, choices.given.packages
    end = Pool({**given, **{name: index[name] for name in installation.chosen}}, choices.index.architectures[-1])
    upgraded = [name for name in installation.chosen if name in given]
    touched = {*installation.chosen, *(other for name in upgraded for other, _ in choices.leaning_on.get(name, ()))}
    for name in touched:
        for part in end.sound_parts(name, *NEEDS):
            if not any(end.meeting(wanted) for wanted in alternatives(part)):
                return False
    for name in touched | given.keys():
        for part in end.sound_parts(name, *BARS):
            if any(other != name for other in end.meeting(relation(part))):
                return False
    return True


def cause_of(words):
    """The kind of a refusal."""
    if "pairs of type and state" in words:
        return "past the limit of pairs"
    if debian.CONFLICT in words:
        return CONFLICT
    return "a cycle of Pre-Depends" if "Pre-Depends" in words else words


def work(task):
    choices, metis = SHARED
    return task, *outcome(choices, metis, task)


SHARED = None


def main():
    global SHARED
    parser = argparse.ArgumentParser(description=__doc__, formatter_class=argparse.RawDescriptionHelpFormatter)
    parser.add_argument("--metis", default=str(TOP / "metis"), metavar="PROGRAM")
    parser.add_argument("--jobs", type=int, default=1, metavar="N")
    parser.add_argument("--every", type=int, default=1, metavar="K")
    parser.add_argument("--installed", dest="status", action="store_const", const=str(STATUS))
    parser.add_argument("--status", metavar="FILE")
    arguments = parser.parse_args()
    choices = debian.choices_of(status_path=arguments.status)
    SHARED = choices, arguments.metis
    names = [name for name in sorted(choices.index.packages) if not choices.stands(name)][:: arguments.every]
    causes, largest = collections.defaultdict(list), (0, "")
    with multiprocessing.get_context("fork").Pool(arguments.jobs) as pool:
        for name, cause, pairs in pool.imap_unordered(work, names, chunksize=50):
            causes[cause].append(name)
            largest = max(largest, (pairs, name))
    print(f"{len(choices.index.packages)} packages in the index, {len(choices.given.packages)} of them given")
    for cause, found in sorted(causes.items(), key=lambda each: -len(each[1])):
        named = "" if cause == PLAN else ": " + ", ".join(sorted(found)[:MOST_NAMED])
        print(f"{len(found)} of {len(names)}: {cause}{named}")
    print(f"the largest universe with a plan has {largest[0]} pairs, for {largest[1]}")
    return 1 if BROKEN in causes else 0


if __name__ == "__main__":
    sys.exit(main())
