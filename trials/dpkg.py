#!/usr/bin/env python3
"""Carries out plans with the real dpkg, and compares universes with apt:

    python3 -m trials dpkg [--metis PROGRAM] [--orders N] [--installed | --status FILE] [--recommends] [--apt] [--draw N] PACKAGE ..

For each package of this machine's index a universe is made, the program (the script `metis` of this repository, if none
is named) plans for it, and dpkg does what the plan says, in the printed order and in N random ones (1) that keep its
waits. It does so in a root of its own, a temporary folder, in which the base system stands as installed, or with
--installed all that stands on this machine, or on one whose file `status` is named, and with empty packages that have the real control fields: so dpkg looks at
each Depends, Pre-Depends, Conflicts and Breaks with its version as it would for the real ones. In the end every package
that dpkg knows has to be installed, those of the universe in the versions of the index, and `apt-get check` has to find
no dependence of the root that is not met. dpkg and apt have to be there, and the rights of root, since dpkg asks for them.

What a move is: a package outside cycles is unpacked and configured; of one in a cycle, its files are unpacked by one
move, and its set-up is the other; dpkg is handed the set-ups of a cycle together, at the last of them.

With --recommends what is recommended is installed, too. With --apt the packages of each universe, upgrades included, are
also compared with those that `apt-get -s install` would install where the same stands, with or without recommendations. With --draw N packages are drawn besides: those N of the
index that could be installed or upgraded whose names have the smallest sha256. The last lines count how many plans were
carried out, and how many sets are the same. The status is 0 if all plans that were made were carried out and left no
dependence unmet, whatever apt does.
"""

import argparse
import hashlib
import json
import pathlib
import random
import re
import shutil
import subprocess
import sys
import tempfile

TOP = pathlib.Path(__file__).resolve().parent.parent

from metis_planner.answers import Refused
from metis_planner.importers import debian
from metis_planner.importers.debian import conditions
from metis_planner.importers.debian.installation import Installation
from metis_planner.importers.debian.order import InstallOrder
from metis_planner.importers.debian.packages import named, STATUS
from metis_planner.importers.debian.set_up import SetUp
from metis_planner.text import plans
from metis_planner.text.actions import Move
from metis_planner.text.documents import Names

# Those by which apt also knows two records for the same version.
KEPT = "Source Version Architecture Multi-Arch Installed-Size Depends Pre-Depends Provides Conflicts Breaks Replaces".split()
LAST_OF_A_FAULT = 400


class Failed(Exception):
    """What dpkg refused, or left undone."""


def control(name, fields, more=""):
    kept = "".join(f"{key}: {fields[key]}\n" for key in KEPT if key in fields)
    return f"Package: {name}\n{more}{kept}Maintainer: Nobody <nobody@localhost>\nDescription: empty\n"


class Packages:
    """Empty packages with the real control fields, made when they are first asked for."""

    def __init__(self, folder, index):
        self.folder = folder
        self.index = index

    def path(self, name):
        path = self.folder / f"{name}.deb"
        if not path.exists():
            tree = self.folder / "tree"
            (tree / "DEBIAN").mkdir(parents=True)
            (tree / "DEBIAN" / "control").write_text(control(name, self.index.packages[name]))
            subprocess.run(["dpkg-deb", "-Znone", "--build", tree, path], check=True, stdout=subprocess.DEVNULL)
            shutil.rmtree(tree)
        return path


class Root:
    """A folder that dpkg takes for the root of a system, on which the given packages stand, or what a status file says."""

    def __init__(self, folder, given, status=None):
        self.folder = folder
        self.calls = 0
        database = folder / "var" / "lib" / "dpkg"
        for each in ("info", "updates"):
            (database / each).mkdir(parents=True)
        (database / "available").touch()
        for name, fields in given.packages.items():
            is_same = fields.get("Multi-Arch") == "same"
            listed = f"{name}:{fields['Architecture']}" if is_same else name
            (database / "info" / f"{listed}.list").write_text("/.\n")
        self.status = database / "status"
        self.status.write_text(status_of(given) if status is None else status)

    def dpkg(self, *words):
        options = ["--force-unsafe-io", "--auto-deconfigure"]
        command = ["dpkg", f"--root={self.folder}", *options, *words]
        done = subprocess.run(command, stdout=subprocess.PIPE, stderr=subprocess.STDOUT, text=True, check=False)
        self.calls += 1
        if done.returncode:
            told = " ".join(done.stdout.split())
            raise Failed(f"{' '.join(map(str, words))}: {told[-LAST_OF_A_FAULT:]}")

    def check(self, index, names):
        """Everything that dpkg knows is installed, and so are these packages, in the versions of the index."""
        installed = {}
        for stanza in self.status.read_text().split("\n\n"):
            fields = dict(re.findall(r"^(Package|Status|Version): (.*)$", stanza, re.MULTILINE))
            if fields and fields["Status"].split()[-1] in conditions.ABSENT:
                continue
            if fields and not fields["Status"].endswith(" ok installed"):
                raise Failed(f"{fields['Package']} is left: {fields['Status']}")
            if fields:
                installed[fields["Package"]] = fields["Version"]
        for name in names:
            if installed.get(name) != index.packages[name]["Version"]:
                raise Failed(f"{name} is there as {installed.get(name)}")
        self.check_dependences()

    def check_dependences(self):
        """No dependence of any package is unmet, and nothing that conflicts stands together, as apt sees it."""
        told = apt_of(self.status, "-o", "Dir::State::lists=/nonexistent", "check")
        if told.returncode:
            raise Failed(f"apt-get check: {' '.join(told.stderr.split())[-LAST_OF_A_FAULT:]}")


def apt_of(status, *words):
    """What apt-get answers where a status file says what stands."""
    command = ["apt-get", "-o", f"Dir::State::status={status}", "-o", "Dir::Cache::pkgcache=", *words]
    return subprocess.run(command, stdout=subprocess.PIPE, stderr=subprocess.PIPE, text=True, check=False)


class Steps:
    """What dpkg has to do for the moves of a plan."""

    def __init__(self, order):
        names = Names()
        self.circles = order.circles
        self.breaking = order.breaking
        self.set_up = {debian.port_of(names, name): name for name in order.installation.chosen}
        self.files = {debian.port_of(names, name, debian.FILES): name for name in order.circles}
        self.waiting = {}
        first = SetUp(order).names[:1]
        self.first = debian.port_of(names, first[0], debian.SET_UP) if first else None

    def do(self, component, root, packages):
        """Does what the one move up of a component of this type means; parts and circles are only words."""
        if component == self.first:
            # What awaited triggers of another package dpkg takes for set up when it is called once more.
            root.dpkg("--configure", "--pending")
            root.dpkg("--configure", "--pending")
        elif component in self.files:
            root.dpkg("--unpack", packages.path(self.files[component]))
        elif self.set_up.get(component) in self.circles:
            self.configure(self.set_up[component], root)
        elif component in self.set_up:
            self.install(self.set_up[component], root, packages)

    def install(self, package, root, packages):
        """Unpacks and configures a package. Where dpkg takes back a set-up for it, it is not to try that again already."""
        if package in self.breaking:
            root.dpkg("--unpack", packages.path(package))
            root.dpkg("--configure", package)
        else:
            root.dpkg("--install", packages.path(package))

    def configure(self, package, root):
        group = tuple(self.circles[package])
        self.waiting.setdefault(group, []).append(package)
        if len(self.waiting[group]) == len(group):
            root.dpkg("--configure", *self.waiting[group])


def carry_out(actions, order, packages, status=None):
    """Does actions in this order, on a machine that is given or as a status file says; how many times dpkg was called."""
    installation = order.installation
    with tempfile.TemporaryDirectory() as folder:
        root = Root(pathlib.Path(folder), installation.choices.given, status)
        steps = Steps(order)
        for action in actions:
            if isinstance(action, Move):
                steps.do(action.type, root, packages)
        root.check(installation.choices.index, installation.chosen)
        return root.calls


def plan_of(metis, document, *names):
    targets = json.loads(document)["comment"].rpartition("targets: ")[2].split() if len(names) > 1 else [debian.target(names[0])]
    command = [metis, "plan", "-", *targets]
    done = subprocess.run(command, input=document, stdout=subprocess.PIPE, text=True, check=False)
    found = plans.read(done.stdout)
    if not isinstance(found, plans.Plan):
        raise Failed(f"refused: {found.lacks} is not attained")
    return found


def try_package(name, arguments, choices, packages):
    """A line on how dpkg took the plans for a package, and whether it was well; None where no document was made."""
    try:
        document, _ = debian.universe(choices, debian.Request([name], with_recommends=arguments.recommends))
    except Refused as refused:
        return f"{name}: no document: {refused}", None
    order = InstallOrder(Installation(choices, [name], arguments.recommends))
    try:
        plan = plan_of(arguments.metis, document, name)
        calls = [carry_out(plan.actions, order, packages)]
        for seed in range(arguments.orders):
            calls.append(carry_out(plans.random_order(plan, random.Random(seed)), order, packages))
    except (Failed, plans.NoText) as fault:
        return f"{name}: {fault}", False
    chosen = order.installation.chosen
    upgraded = sum(each in choices.given.packages for each in chosen)
    return (
        f"{name}: {len(chosen)} packages, {upgraded} of them upgraded, {len(order.circles)} in cycles; "
        f"{len(plan.actions)} actions; {len(calls)} orders, {calls[0]} calls of dpkg each: installed"
    ), len(set(calls)) == 1


def status_of(given):
    """A status file in which the given packages stand."""
    stanzas = (control(name, fields, status_line(fields)) for name, fields in sorted(given.packages.items()))
    return "\n".join(stanzas)


def status_line(fields):
    essential = "Essential: yes\n" if fields.get("Essential") == "yes" else ""
    return f"Status: {fields.get('Status', 'install ok installed')}\n{essential}"


def apt_set(name, status, with_recommends):
    """The packages that apt would install, upgrade or remove; None where it would not install this one."""
    done = apt_of(status, "-s", "install", f"--{'' if with_recommends else 'no-'}install-recommends", name)
    if done.returncode:
        return None
    removed = {f"{each} removed" for each in words_behind("Remv", done.stdout)}
    return set(words_behind("Inst", done.stdout)) | removed


def words_behind(verb, text):
    return [found[1].split(":")[0] for found in re.finditer(rf"^{verb} (\S+)", text, re.MULTILINE)]


def some(names):
    return named(sorted(names))


def compare(name, choices, status, with_recommends):
    """A line on what is installed or upgraded here and by apt, and whether both are the same."""
    installation = Installation(choices, [name], with_recommends)
    ours = set(installation.chosen)
    faults = [*debian.faults(installation), *(f"nothing provides {each}" for each in installation.missing)]
    theirs = apt_set(name, status, with_recommends)
    if theirs is None or faults:
        here, there = faults[0] if faults else "possible", "not possible" if theirs is None else "possible"
        removed = some(each for each in theirs or () if each.endswith(" removed"))
        more = f", with {removed}" if removed else ""
        return f"{name}: here {here}; for apt {there}{more}", theirs is None and bool(faults)
    if ours == theirs:
        return f"{name}: {len(ours)} packages, the same as apt's", True
    only = [f"only {who}: {some(names)}" for who, names in (("here", ours - theirs), ("apt", theirs - ours)) if names]
    return f"{name}: {len(ours)} packages, {len(theirs)} for apt; {'; '.join(only)}", False


def drawn(choices, count):
    """The packages that could be installed or upgraded, by the smallest digests of their names."""
    names = [name for name in choices.index.packages if not choices.stands(name)]
    return sorted(names, key=lambda name: hashlib.sha256(name.encode()).hexdigest())[:count]


def parser_of_words():
    parser = argparse.ArgumentParser(description=__doc__, formatter_class=argparse.RawDescriptionHelpFormatter)
    parser.add_argument("--metis", default=str(TOP / "metis"), metavar="PROGRAM")
    parser.add_argument("packages", metavar="PACKAGE", nargs="*")
    parser.add_argument("--orders", type=int, default=1, metavar="N")
    parser.add_argument("--draw", type=int, default=0, metavar="N")
    parser.add_argument("--apt", action="store_true")
    parser.add_argument("--installed", dest="status", action="store_const", const=str(STATUS))
    parser.add_argument("--status", metavar="FILE")
    parser.add_argument("--recommends", action="store_true")
    return parser


def main():
    arguments = parser_of_words().parse_args()
    choices = debian.choices_of(status_path=arguments.status)
    names = [*arguments.packages, *drawn(choices, arguments.draw)]
    unknown = [name for name in names if name not in choices.index.packages]
    if unknown or not names:
        print(f"not in the index: {some(unknown)}" if unknown else "no package is named or drawn", file=sys.stderr)
        return 2
    done, refused, same = 0, 0, 0
    with tempfile.TemporaryDirectory() as folder:
        packages = Packages(pathlib.Path(folder), choices.index)
        status = arguments.status
        if status is None:
            status = pathlib.Path(folder) / "status"
            status.write_text(status_of(choices.given))
        for name in names:
            line, is_good = try_package(name, arguments, choices, packages)
            print(line, flush=True)
            done += is_good is True
            refused += is_good is None
            if arguments.apt and not choices.stands(name):
                line, is_same = compare(name, choices, status, arguments.recommends)
                print(f"  {line}", flush=True)
                same += is_same
    print(f"{done} of {len(names)} carried out and whole, {refused} refused")
    if arguments.apt:
        print(f"{same} of {len(names)} sets as apt has them")
    return 0 if done + refused == len(names) else 1


if __name__ == "__main__":
    sys.exit(main())
