#!/usr/bin/env python3
"""Carries out drawn upgrades with the real dpkg: python3 -m trials upgrades [--metis PROGRAM] [--seed S] [--cases N]

Small indexes are drawn, with dependences, alternatives, versions, names that are provided, Breaks and Conflicts, and machines
on which earlier versions of some of the packages stand, each whole in itself. For a request on each the program plans, and
dpkg does what the plan says, in the printed order and in a random one, as in try_dpkg.py: so `apt-get check` has to find no
dependence unmet in the end. What the importer refuses is counted. The rights of root are needed.
"""

import argparse
import pathlib
import random
import sys
import tempfile

TOP = pathlib.Path(__file__).resolve().parent.parent

from metis_planner.answers import Refused
from metis_planner.importers import debian
from metis_planner.importers.debian.choices import Choices
from metis_planner.importers.debian.control import alternatives, relation
from metis_planner.importers.debian.installation import Installation
from metis_planner.importers.debian.order import InstallOrder
from metis_planner.importers.debian.packages import BARS, NEEDS, Pool
from metis_planner.text import plans
from trials.dpkg import Failed, Packages, carry_out, plan_of

MOST_PACKAGES = 8
STANDING, LATER = "1", "2"


def drawn_relation(draw, names, version):
    return draw.choice(names) + draw.choice(["", "", f" (= {version})", f" (>= {version})"])


def drawn_record(draw, name, names, version):
    """The record of a package that says something of others."""
    fields = {"Package": name, "Version": version, "Architecture": "amd64"}
    if draw.random() < 0.7:
        parts = [
            " | ".join(drawn_relation(draw, names, version) for _ in range(draw.choice([1, 1, 2])))
            for _ in range(draw.randint(1, 2))
        ]
        fields["Depends"] = ", ".join(parts)
    if draw.random() < 0.1:
        fields["Pre-Depends"] = drawn_relation(draw, names, version)
    if draw.random() < 0.25:
        fields["Breaks"] = f"{draw.choice(names)} (<< {version})"
    if draw.random() < 0.12:
        fields["Conflicts"] = f"{draw.choice(names)} (<< {version})"
    if draw.random() < 0.2:
        fields["Provides"] = draw.choice(["first", "second"])
    return fields


def is_whole(pool, name):
    """Whether a package has what it depends on, and nothing that it does not go together with."""
    for part in pool.parts(name, *NEEDS):
        if not any(pool.meeting(wanted) for wanted in alternatives(part)):
            return False
    return not any(other != name for part in pool.parts(name, *BARS) for other in pool.meeting(relation(part)))


def drawn_machine(draw, names):
    """Earlier versions of some of the packages, without those that would not be whole."""
    standing = {name: drawn_record(draw, name, names, STANDING) for name in names if draw.random() < 0.7}
    while True:
        pool = Pool(standing, "amd64")
        broken = next((name for name in standing if not is_whole(pool, name)), None)
        if broken is None:
            return pool
        del standing[broken]


def drawn_case(draw):
    """An index, a machine, and a package that is asked for."""
    names = [f"p{number}" for number in range(draw.randint(3, MOST_PACKAGES))]
    index = Pool({name: drawn_record(draw, name, names, LATER) for name in names}, "amd64")
    return Choices(index, drawn_machine(draw, names)), draw.choice(names)


def try_case(metis, choices, name, draw):
    """What came of a case: 'carried out', 'refused', or what dpkg or the program said."""
    try:
        document, _ = debian.universe(choices, debian.Request([name]))
    except Refused:
        return "refused"
    installation = Installation(choices, [name])
    if installation.missing:
        return "refused"
    order = InstallOrder(installation)
    try:
        plan = plan_of(metis, document, name)
        with tempfile.TemporaryDirectory() as folder:
            packages = Packages(pathlib.Path(folder), choices.index)
            for actions in (plan.actions, plans.random_order(plan, draw)):
                carry_out(actions, order, packages)
    except (Failed, plans.NoText) as fault:
        return str(fault)
    return "carried out"


def main():
    parser = argparse.ArgumentParser(description=__doc__, formatter_class=argparse.RawDescriptionHelpFormatter)
    parser.add_argument("--metis", default=str(TOP / "metis"), metavar="PROGRAM")
    parser.add_argument("--seed", type=int, default=1, metavar="S")
    parser.add_argument("--cases", type=int, default=100, metavar="N")
    arguments = parser.parse_args()
    draw = random.Random(arguments.seed)
    counts = {"carried out": 0, "refused": 0}
    faults = 0
    for number in range(arguments.cases):
        choices, name = drawn_case(draw)
        came = try_case(arguments.metis, choices, name, draw)
        if came in counts:
            counts[came] += 1
        else:
            faults += 1
            print(f"case {number} of seed {arguments.seed}, {name}: {came}", flush=True)
    print(f"{counts['carried out']} carried out and whole, {counts['refused']} refused, {faults} faults")
    return 0 if faults == 0 and counts["carried out"] else 1


if __name__ == "__main__":
    sys.exit(main())
