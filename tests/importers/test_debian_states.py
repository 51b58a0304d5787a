"""Packages that stand and are not whole, or for another architecture, beside what apt and dpkg do with them.

What apt answers is in the names of the tests; `python3 -m trials package_states` asks the real apt and dpkg.
"""

import unittest

from metis_planner.answers import Refused
from metis_planner.importers import debian
from tests.importers.test_debian import imported, installed, package, refusal, simple

BY_APT = "`apt-get --fix-broken install` sets that right; --allow-conflicts makes a document all the same"


def standing(name, status, version="1", **fields):
    return package(name, version, Status=f"install {status}", **fields)


def behind(found, name):
    """What the last state of a package requires."""
    return [word for word in found[name][1].split() if word.startswith("-")]


class UnsetTest(unittest.TestCase):
    def test_it_is_set_up_first(self):
        for status in ("unpacked", "half-configured", "triggers-pending", "triggers-awaited"):
            found, notes = imported("a", package("a", Depends="b"), package("b"), stands=[standing("old", f"ok {status}")])
            expected = {
                "a": ["absent > installed", "installed +a -b -old/set-up > absent"],
                "b": ["absent > installed", "installed +b -old/set-up > absent"],
                "old/set-up": ["due > done", "done +old/set-up > due"],
            }
            self.assertEqual(found, expected)
            self.assertEqual(notes, [f"standing, and not set up, so that comes first: old ({status})"])

    def test_all_of_them_in_one_go(self):
        given = [standing("p", "ok unpacked", Depends="q"), standing("q", "ok half-configured", Depends="p"), installed("r")]
        found, notes = imported("a", package("a"), stands=given)
        self.assertEqual(found["a"], ["absent > installed", "installed +a -p/set-up > absent"])
        self.assertEqual(found["p/set-up"], ["due > done", "done +p/set-up > due"])
        self.assertEqual(notes, ["standing, and not set up, so that comes first: p (unpacked), q (half-configured)"])

    def test_it_meets_a_dependence_and_is_no_new_package(self):
        stanzas = package("a", Depends="old"), package("old")
        found, _ = imported("a", *stanzas, stands=[standing("old", "ok unpacked")])
        self.assertEqual(found["a"], ["absent > installed", "installed +a -old/set-up > absent"])
        self.assertNotIn("old", found)

    def test_what_it_depends_on_is_not_taken_from_under_it(self):
        given = [installed("lib"), standing("old", "ok half-configured", Depends="lib (= 1)")]
        stanzas = package("a", Depends="lib (>= 2)"), package("lib", "2")
        self.assertRegex(refusal("a", *stanzas, stands=given), "^old, which is given, would lose lib/exactly-1")
        found, notes = imported("a", *stanzas, package("old", "2", Depends="lib (= 2)"), stands=given)
        self.assertEqual(found["a/request"][1], "met +a -a/alone -old > open")
        self.assertEqual(notes, ["upgraded too, so that what stands stays whole: old"])

    def test_what_conflicts_with_it_is_refused(self):
        reason = "a and old conflict, and dpkg will not have both; --allow-conflicts makes a document all the same"
        for status in ("ok unpacked", "ok half-configured", "ok triggers-pending"):
            self.assertEqual(refusal("a", package("a", Conflicts="old"), stands=[standing("old", status)]), reason)
            given = [standing("old", status, Breaks="a")]
            self.assertEqual(refusal("a", package("a"), stands=given), reason)

    def test_where_it_lacks_something_the_request_is_refused(self):
        given = [standing("old", "ok unpacked", Depends="dep")]
        reason = f"old (unpacked) stands, and cannot be set up, since it lacks dep, on which it depends; {BY_APT}"
        self.assertEqual(refusal("a", package("a"), package("dep"), stands=given), reason)

    def test_unless_the_request_brings_it(self):
        given = [standing("old", "ok unpacked", Depends="dep")]
        stanzas = package("dep", Depends="lib"), package("lib"), package("a")
        found, _ = imported("dep a", *stanzas, stands=given)
        self.assertEqual(behind(found, "lib"), [])
        self.assertEqual(behind(found, "dep"), ["-lib"])
        self.assertEqual(behind(found, "old/set-up"), ["-dep/alone"])
        self.assertEqual(behind(found, "a"), ["-old/set-up"])
        self.assertEqual(found["dep/request"][1], "met +dep +a -dep/alone -a/alone -old/set-up > open")

    def test_a_circle_with_what_it_lacks_is_refused(self):
        given = [standing("old", "ok unpacked", Depends="dep")]
        reason = f"old (unpacked) is not set up, and needs dep, which depends on it; {BY_APT}"
        self.assertEqual(refusal("dep", package("dep", Depends="old"), stands=given), reason)

    def test_files_in_a_cycle_come_behind_it_too(self):
        stanzas = package("a", Depends="b"), package("b", Depends="a")
        found, _ = imported("a", *stanzas, stands=[standing("old", "ok unpacked")])
        self.assertEqual(behind(found, "a/files"), ["-old/set-up"])
        self.assertEqual(behind(found, "b/files"), ["-old/set-up"])

    def test_it_may_be_asked_for_itself(self):
        found, notes = imported("old", package("old"), stands=[standing("old", "ok unpacked")])
        self.assertEqual(found, {"old/set-up": ["due > done", "done +old/set-up +old > due"]})
        self.assertEqual(notes, ["standing, and not set up, so that comes first: old (unpacked)"])

    def test_an_upgrade_needs_no_set_up_before_it(self):
        found, notes = imported("old", package("old", "2"), stands=[standing("old", "ok half-configured")])
        self.assertEqual((found, notes), (simple("old"), []))

    def test_one_that_is_to_be_removed_stands_all_the_same(self):
        given = [package("old", Status="deinstall ok half-configured")]
        self.assertRegex(refusal("a", package("a", Conflicts="old"), stands=given), "^a and old conflict")


class LackingTest(unittest.TestCase):
    def test_a_whole_package_that_lacks_something_is_named(self):
        given = [installed("old", Depends="dep, lib"), installed("lib")]
        found, notes = imported("a", package("a"), package("dep"), stands=given)
        self.assertEqual(found, simple("a"))
        self.assertEqual(notes, ["standing, and lacking what they depend on: old (dep); `apt-get --fix-broken install` sets that right"])
        _, notes = imported("dep", package("dep"), stands=given)
        self.assertEqual(notes, [])


class BrokenTest(unittest.TestCase):
    def test_it_is_installed_again(self):
        for status in ("reinstreq installed", "reinstreq half-installed", "reinstreq half-configured"):
            for version in "12":
                found, notes = imported("a", package("a"), package("old", version), stands=[standing("old", status)])
                self.assertEqual(found["a/request"][1], "met +a -a/alone -old > open")
                words = "reinstreq" + status.removeprefix("reinstreq")
                self.assertEqual(notes, [f"installed again, since nothing else sets them right: old ({words})"])

    def test_who_needs_it_comes_behind_it(self):
        given = [standing("old", "reinstreq half-installed")]
        found, _ = imported("a", package("a", Depends="old"), package("old"), stands=given)
        self.assertEqual(found, {**simple("a", "old"), **simple("old")})

    def test_where_no_version_of_it_is_there_the_request_is_refused(self):
        reason = "old (reinstreq half-installed) stands: it has to be installed again, and the index has no version of it for that"
        given = [standing("old", "reinstreq half-installed", "2")]
        self.assertEqual(refusal("a", package("a"), stands=given), reason)
        self.assertEqual(refusal("a", package("a"), package("old", "1"), stands=given), reason)

    def test_so_it_is_where_it_is_held(self):
        given = [package("old", Status="hold reinstreq half-installed")]
        found, _ = imported("a", package("a"), package("old"), stands=given)
        self.assertIn("old", found)

    def test_a_removal_that_failed_is_refused(self):
        reason = "old (half-installed) stands: a removal that failed half way; `dpkg --remove old` ends it first"
        given = [standing("old", "ok half-installed")]
        self.assertEqual(refusal("a", package("a"), package("old"), stands=given), reason)
        self.assertEqual(refusal("a", package("a", Conflicts="old"), package("old"), stands=given), reason)

    def test_unless_the_package_is_needed_again(self):
        given = [standing("old", "ok half-installed")]
        found, notes = imported("a", package("a", Depends="old"), package("old"), stands=given)
        self.assertEqual((found, notes), ({**simple("a", "old"), **simple("old")}, []))

    def test_beside_one_that_is_asked_for_and_not_set_up(self):
        given = [standing("old", "reinstreq half-installed"), standing("new", "ok unpacked")]
        found, _ = imported("new", package("new"), package("old"), stands=given)
        self.assertEqual(found["new/request"], ["open > met", "met +new -old -new/set-up > open"])
        self.assertEqual(found["new/set-up"], ["due > done", "done +new/set-up > due"])
        self.assertEqual(behind(found, "old"), ["-new/set-up"])

    def test_what_is_gone_is_gone(self):
        given = [package("old", Status="deinstall ok config-files"), package("not", Status="unknown ok not-installed")]
        found, notes = imported("a", package("a", Conflicts="old, not"), stands=given)
        self.assertEqual((found, notes), (simple("a"), []))


class AnyTest(unittest.TestCase):
    """What `:any` asks for, as apt has it."""

    def test_only_what_is_allowed_to_meets_it(self):
        for fields, meets in (({}, False), ({"Multi_Arch": "foreign"}, False), ({"Multi_Arch": "allowed"}, True)):
            found, notes = imported("a", package("a", Depends="perl:any"), package("perl", **fields))
            self.assertEqual("perl" in found, meets, fields)
            self.assertEqual(bool(notes), not meets)

    def test_a_name_that_is_provided(self):
        for provides, fields, meets in (
            ("x", {"Multi_Arch": "allowed"}, True),
            ("x", {}, False),
            ("x:any", {}, True),
        ):
            found, _ = imported("a", package("a", Depends="x:any"), package("b", Provides=provides, **fields))
            self.assertEqual("b" in found, meets, (provides, fields))
        found, _ = imported("a", package("a", Depends="x"), package("b", Provides="x:any"))
        self.assertNotIn("b", found)

    def test_what_stands_meets_it_by_the_same_rule(self):
        found, _ = imported("a", package("a", Depends="b:any"), stands=[installed("b")])
        self.assertEqual(found, simple("a", "b/any"))
        found, _ = imported("a", package("a", Depends="b:any"), stands=[installed("b", Multi_Arch="allowed")])
        self.assertEqual(found, simple("a"))


class NowhereTest(unittest.TestCase):
    """A first way that leads to a package that is nowhere is passed over, as apt does."""

    def test_an_alternative(self):
        stanzas = package("a", Depends="x | y"), package("x", Depends="nowhere"), package("y")
        found, notes = imported("a", *stanzas)
        self.assertEqual((found, notes), ({**simple("a", "y"), **simple("y")}, []))

    def test_further_down_and_in_a_circle(self):
        stanzas = (
            package("a", Depends="x | y"),
            package("x", Depends="p | q"),
            package("p", Depends="q, r"),
            package("q", Depends="p"),
            package("r", Depends="lib (>= 2)"),
            package("lib"),
            package("y"),
        )
        found, notes = imported("a", *stanzas)
        self.assertEqual((found, notes), ({**simple("a", "y"), **simple("y")}, []))

    def test_what_has_another_way_is_taken(self):
        stanzas = package("a", Depends="x | y"), package("x", Depends="nowhere | z, x2"), package("z"), package("y")
        found, _ = imported("a", *stanzas, package("x2", Depends="x"))
        self.assertEqual(sorted(found)[:2], ["a", "x"])

    def test_where_no_way_leads_anywhere_it_is_the_first(self):
        found, notes = imported("a", package("a", Depends="x | y"), package("x", Depends="n"), package("y", Depends="m"))
        self.assertEqual(found, {**simple("a", "x"), **simple("x", "n")})
        self.assertEqual(notes, ["x depends on n, which nothing provides: there will be no plan"])


class ForeignTest(unittest.TestCase):
    THERE = installed("lib", Architecture="i386", Multi_Arch="same"), installed("tool", Architecture="i386")

    def test_they_are_named(self):
        found, notes = imported("a", package("a"), stands=[installed("lib"), *self.THERE])
        self.assertEqual(found, simple("a"))
        self.assertEqual(notes, ["standing for other architectures, and not looked at: lib:i386, tool:i386"])

    def test_a_lockstep_is_refused(self):
        reason = "lib:i386 stands in version 1 and not 2, and dpkg takes lib only in the same version"
        given = [installed("lib", Multi_Arch="same"), *self.THERE]
        self.assertRegex(refusal("lib", package("lib", "2", Multi_Arch="same"), stands=given), f"^{reason}; ")
        self.assertRegex(refusal("lib", package("lib", "2", Multi_Arch="same"), stands=self.THERE), f"^{reason}; ")
        found, _ = imported("lib", package("lib", "1", Multi_Arch="same"), stands=self.THERE)
        self.assertEqual(found, simple("lib"))

    def test_what_cannot_stand_beside_itself_is_refused(self):
        reason = "tool:i386 stands, and tool cannot stand beside it"
        self.assertRegex(refusal("tool", package("tool", "2"), stands=self.THERE), f"^{reason}; ")
        found, notes = imported("tool", package("tool", "2"), stands=self.THERE, allows_conflicts=True)
        self.assertEqual((found, notes[0]), (simple("tool"), reason))


class WordsTest(unittest.TestCase):
    def test_a_machine_is_named_once(self):
        import contextlib, io, sys, unittest.mock
        from metis_planner import cli

        words = ["metis", "import", "debian", "--installed", "--status", "/nowhere", "a"]
        said = io.StringIO()
        with unittest.mock.patch.object(sys, "argv", words), contextlib.redirect_stderr(said):
            with self.assertRaises(SystemExit) as end:
                cli.main()
        self.assertEqual(end.exception.code, 2)
        self.assertIn("argument --status: not allowed with argument --installed", said.getvalue())

    def test_a_machine_on_which_dpkg_was_interrupted(self):
        import pathlib, tempfile, unittest.mock

        with tempfile.TemporaryDirectory() as folder:
            (pathlib.Path(folder) / "updates").mkdir()
            with unittest.mock.patch("metis_planner.importers.debian.STATUS", pathlib.Path(folder) / "status"):
                debian.check_interrupted()
                (pathlib.Path(folder) / "updates/0003").touch()
                with self.assertRaisesRegex(Refused, "^dpkg was interrupted on this machine; `dpkg --configure -a`"):
                    debian.check_interrupted()
