#!/usr/bin/env python3
"""Packages that stand and are not whole, beside the real dpkg and apt: python3 -m trials package_states [--metis PROGRAM]

Small indexes and machines are made, with a package in each of the states that dpkg has, alone and among others. For each
`apt-get -s install` says what it would do, and the importer has to come to the same: the packages that are installed, or a
refusal where apt refuses or would remove something, for which a plan has no word. Three differences are known, and counted: a
removal that failed half way is refused here, where apt ends it; a whole package that lacks something gets a note here, where
apt refuses all; and one that is installed again in a version that needs more is taken here, where apt does not look for what
it needs. Then dpkg does what the plan says, in a
root of its own in which the machine stands, in the printed order and in a random one: each call has to succeed, and in the
end all that dpkg knows has to be installed, with no dependence unmet. dpkg, apt and the rights of root are needed.
"""

import argparse
import pathlib
import random
import sys
import tempfile
from collections.abc import Iterator
from typing import NamedTuple

from metis_planner.answers import Refused
from metis_planner.importers import debian
from metis_planner.importers.debian.choices import Choices
from metis_planner.importers.debian.control import stanzas
from metis_planner.importers.debian.installation import Installation
from metis_planner.importers.debian.order import InstallOrder
from metis_planner.importers.debian.packages import packages_of, Pool, standing_of
from metis_planner.importers.debian.set_up import broken_packages
from metis_planner.text import plans
from trials.apt_root import AptRoot
from trials.dpkg import carry_out, Failed, Packages, plan_of

TOP = pathlib.Path(__file__).resolve().parent.parent
STATES = ("unpacked", "half-configured", "triggers-pending", "triggers-awaited", "half-installed", "installed", "config-files")
FIX, KNOWN = "--fix-broken", "known"
MORE = {"triggers-pending": "Triggers-Pending: some\n", "triggers-awaited": "Triggers-Awaited: waited\n"}


def record(name: str, version: str = "1", status: str = "", **fields: str) -> str:
    """A stanza; the names of fields have `_` in place of `-`."""
    rows = [f"Package: {name}", f"Version: {version}", f"Architecture: {fields.pop('Architecture', 'amd64')}"]
    rows += ["Maintainer: Nobody <nobody@localhost>", "Description: empty"]
    rows += [f"Status: {status}"] if status else [f"Filename: ./{name}_{version}.deb", "Size: 1", f"SHA256: {'0' * 64}"]
    return "\n".join([*rows, *(f"{key.replace('_', '-')}: {value}" for key, value in fields.items())]) + "\n"


def standing(name: str, state: str, version: str = "1", flag: str = "ok", **fields: str) -> str:
    """What stands in a state; what waits for triggers waits for a package of which they are pending."""
    whole = record(name, version, f"install {flag} {state}", **fields) + MORE.get(state, "")
    return whole + ("\n" + standing("waited", "triggers-pending") if state == "triggers-awaited" else "")


class Case(NamedTuple):
    title: str
    index: list[str]
    status: list[str]
    asked: list[str]


def cases() -> Iterator[Case]:
    """For each state: alone, with later versions, needed, needing, in conflict, and with what it needs away."""
    for state in STATES:
        for flag in ("ok",) if state == "config-files" else ("ok", "reinstreq"):
            here = f"{state} {flag}"

            def old(**fields: str) -> str:
                return standing("old", state, "2", flag, **fields)

            yield Case(f"{here}, and no version of it", [record("a")], [old()], ["a"])
            for version in "123":
                yield Case(f"{here}, and version {version}", [record("a"), record("old", version)], [old()], ["a"])
            there = [record("old", "2"), record("dep")]
            yield Case(f"{here}, needed", [record("a", Depends="old"), *there], [old()], ["a"])
            yield Case(f"{here}, in conflict", [record("a", Conflicts="old"), *there], [old()], ["a"])
            yield Case(f"{here}, broken by a later one", [record("a", Breaks="old (<< 3)"), record("old", "3")], [old()], ["a"])
            lib = [record("a", Depends="lib (>= 2)"), record("lib", "2")]
            under = [old(Depends="lib (= 1)"), standing("lib", "installed")]
            yield Case(f"{here}, over what is upgraded", lib, under, ["a"])
            yield Case(f"{here}, upgraded with it", [*lib, record("old", "3", Depends="lib (= 2)")], under, ["a"])
            yield Case(f"{here}, lacks something", [record("a"), *there], [old(Depends="dep")], ["a"])
            yield Case(f"{here}, gets what it lacks", [record("a"), *there], [old(Depends="dep")], ["dep", "a"])
            yield Case(f"{here}, asked for", there, [old()], ["old"])
            yield Case(f"{here}, asked for later", [record("old", "3", Depends="dep"), record("dep")], [old()], ["old"])
    two = [standing("p", "unpacked", Depends="q"), standing("q", "half-configured", Depends="p")]
    yield Case("two that need each other", [record("a", Depends="p"), record("p"), record("q")], two, ["a"])
    yield Case("two that need each other and something", [record("dep")], [two[0], standing("q", "unpacked", Depends="p, dep")], ["dep"])
    cycle = [record("a", Depends="b"), record("b", Depends="a, old"), record("old")]
    yield Case("a cycle that needs it", cycle, [standing("old", "unpacked")], ["a"])
    yield Case("a hold, to be installed again", [record("a"), record("old")], [record("old", "1", "hold reinstreq half-installed")], ["a"])
    yield Case("one to be removed", [record("a", Conflicts="old")], [record("old", "1", "deinstall ok half-configured")], ["a"])


def choices_of(case: Case) -> Choices:
    index, status = "\n".join(case.index), "\n".join(case.status)
    standing = standing_of(stanzas(status), "amd64")
    return Choices(Pool(packages_of(stanzas(index), "amd64"), "amd64"), Pool(standing.packages, "amd64"), standing)


class Ours(NamedTuple):
    """What the importer comes to: the packages that it installs, or None; the document, or why there is none; and notes."""

    chosen: set[str] | None
    told: str
    notes: list[str]


def ours(case: Case, choices: Choices) -> Ours:
    try:
        document, notes = debian.universe(choices, debian.Request(case.asked))
    except Refused as refused:
        return Ours(set() if "given already" in str(refused) else None, str(refused), [])
    if any(debian.MISSING in note for note in notes):
        return Ours(None, notes[0], notes)
    wanted = [name for name in case.asked if not choices.stands(name)]
    return Ours(set(Installation(choices, [*wanted, *broken_packages(choices)]).chosen), document, notes)


def carried_out(case: Case, choices: Choices, document: str, metis: str) -> str:
    """What dpkg could not do, or nothing."""
    wanted = [name for name in case.asked if not choices.stands(name)]
    order = InstallOrder(Installation(choices, [*wanted, *broken_packages(choices)]))
    try:
        plan = plan_of(metis, document, *case.asked)
        with tempfile.TemporaryDirectory() as folder:
            packages = Packages(pathlib.Path(folder), choices.index)
            for actions in (plan.actions, plans.random_order(plan, random.Random(case.title))):
                carry_out(actions, order, packages, "\n".join(case.status))
    except (Failed, plans.NoText) as fault:
        return str(fault)
    return ""


def try_case(case: Case, metis: str) -> str:
    """What is wrong with a case, or KNOWN, or nothing."""
    choices = choices_of(case)
    found = ours(case, choices)
    with tempfile.TemporaryDirectory() as folder:
        theirs = AptRoot(pathlib.Path(folder), "\n".join(case.index)).ask("\n".join(case.status), *case.asked)
    is_lacking = any("lacking what they depend on" in note for note in found.notes)
    if found.chosen is None:
        if theirs.installed is None or theirs.removed:
            return ""
        return KNOWN if "failed half way" in found.told else f"refused here: {found.told}; apt: {sorted(theirs.installed)}"
    if theirs.installed is None or theirs.removed:
        removed = f"apt removes {sorted(theirs.removed)}, and says {theirs.said[-200:]}"
        if FIX not in theirs.said or not (is_lacking or broken_packages(choices)):
            return f"taken here; {removed}"
        return KNOWN if is_lacking else carried_out(case, choices, found.told, metis) or KNOWN
    # What apt installs again in the version that stands it does not print.
    again = {*broken_packages(choices), *choices.half_removed}
    if found.chosen - again != set(theirs.installed) - again:
        return f"{sorted(found.chosen)} here, {sorted(theirs.installed)} for apt"
    return carried_out(case, choices, found.told, metis) if found.told.startswith("{") else ""


def main() -> int:
    parser = argparse.ArgumentParser(description=__doc__, formatter_class=argparse.RawDescriptionHelpFormatter)
    parser.add_argument("--metis", default=str(TOP / "metis"), metavar="PROGRAM")
    arguments = parser.parse_args()
    found = {case.title: try_case(case, arguments.metis) for case in cases()}
    faults = {title: fault for title, fault in found.items() if fault and fault != KNOWN}
    for title, fault in faults.items():
        print(f"{title}: {fault}", flush=True)
    known = sum(fault == KNOWN for fault in found.values())
    print(f"{len(found)} states of packages, {known} known differences, {len(faults)} otherwise than for apt and dpkg")
    return 1 if faults or not found else 0


if __name__ == "__main__":
    sys.exit(main())
