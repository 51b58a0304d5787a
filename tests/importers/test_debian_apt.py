"""With --as-apt the set of packages is that which apt itself chooses, where python3-apt and lists of packages are there."""

import json
import re
import subprocess
import sys
import unittest
import unittest.mock

from metis_planner.answers import Refused
from metis_planner.importers import debian
from metis_planner.importers.debian import as_apt
from tests.importers.test_control import PYTHON_WITH_APT
from tests.importers.test_debian import choices, installed, package
from tests.test_words import TOP

# One for which apt takes another way than the first by name, and one with a cycle.
NAMES = ("r-cran-misc3d", "lvm2")


def has_lists():
    try:
        told = subprocess.run(["apt-cache", "show", *NAMES], capture_output=True, check=False)
    except OSError:
        return False
    return told.returncode == 0


def chosen(*words):
    """The packages of a document that Debian's Python makes."""
    command = [PYTHON_WITH_APT, "-m", "metis_planner", "import", "debian", "--as-apt", *words]
    done = subprocess.run(command, cwd=TOP, capture_output=True, text=True, check=False)
    if done.returncode:
        raise AssertionError(done.stderr)
    return {each["name"] for each in json.loads(done.stdout)["types"] if "/" not in each["name"]}


def by_apt(name, recommends):
    words = ["apt-get", "-s", "install", f"--{'' if recommends else 'no-'}install-recommends", name]
    told = subprocess.run(words, capture_output=True, text=True, check=True).stdout
    return {found.replace("+", "_").split(":")[0] for found in re.findall(r"^Inst (\S+)", told, re.MULTILINE)}


@unittest.skipUnless(PYTHON_WITH_APT, "python3-apt is not there")
@unittest.skipUnless(has_lists(), "apt has no lists of packages (apt-get update)")
class AsAptTest(unittest.TestCase):
    def test_the_sets_are_those_of_apt(self):
        for name in NAMES:
            expected = by_apt(name, False)
            if expected:  # else it stands here already
                self.assertEqual(chosen("--installed", name), expected, name)

    def test_with_recommendations(self):
        expected = by_apt("redis-server", True)
        if expected:
            self.assertEqual(chosen("--installed", "--recommends", "redis-server"), expected)


class WithoutAptTest(unittest.TestCase):
    def test_it_is_named(self):
        with unittest.mock.patch.dict(sys.modules, {"apt_pkg": None}):
            with self.assertRaisesRegex(Refused, "^--as-apt needs python3-apt [(]apt-get install python3-apt[)]"):
                debian.universe(choices(package("a")), debian.Request(["a"], as_apt=True))

    def test_an_index_of_ones_own_is_not_apts(self):
        import argparse

        words = argparse.ArgumentParser()
        debian.add_arguments(words)
        with self.assertRaisesRegex(Refused, "^--as-apt asks the apt of this machine"):
            debian.run(words.parse_args(["--as-apt", "--index", "/nowhere", "a"]))


class OfAptTest(unittest.TestCase):
    """What apt chose is taken as it is, and looked over."""

    def test_nothing_more_is_chosen(self):
        stanzas = package("a", Depends="x | y, z"), package("x"), package("y"), package("z")
        found = as_apt.OfApt(choices(*stanzas), ["a", "y"])
        self.assertEqual(list(found.chosen), ["a", "y"])
        self.assertEqual(found.needs("a", "Depends"), ["y", "z"])
        self.assertEqual(found.missing, {"z": "a"})

    def test_what_stands_is_looked_at(self):
        given = [installed("lib"), installed("tool", Depends="lib (= 1)")]
        found = as_apt.OfApt(choices(package("lib", "2"), package("tool", "2"), installed=given), ["lib"])
        self.assertEqual(list(debian.faults(found)), ["tool, which is given, would lose lib/exactly-1, on which it depends"])
