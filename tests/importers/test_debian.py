import json
import pathlib
import tempfile
import unittest

from metis_planner.answers import Refused
from metis_planner.importers import debian
from tests.importers.shapes import shape

BASE = """
Package: libc6
Version: 2.36
Architecture: amd64
Priority: optional

Package: dpkg
Version: 1.21
Architecture: amd64
Essential: yes
Depends: libc6
Provides: dpkg-base

Package: init
Version: 1
Architecture: all
Priority: important
"""


def package(name, version="1", **fields):
    """A stanza; the names of fields are written with `_` in place of `-`."""
    rows = [f"Package: {name}", f"Version: {version}", f"Architecture: {fields.pop('Architecture', 'amd64')}"]
    return "\n".join([*rows, *(f"{key.replace('_', '-')}: {value}" for key, value in fields.items())]) + "\n"


def choices(*stanzas, installed=None):
    with tempfile.TemporaryDirectory() as folder:
        index, status = pathlib.Path(folder) / "Packages", pathlib.Path(folder) / "status"
        index.write_text("\n".join([BASE, *stanzas]))
        if installed is None:
            return debian.choices_of(str(index))
        status.write_text("\n".join(installed))
        return debian.choices_of(str(index), str(status))


def installed(name, version="1", **fields):
    return package(name, version, Status="install ok installed", **fields)


def imported(names, *stanzas, stands=None, **options):
    """The shape of the universe of these packages, and the notes."""
    request = debian.Request(names.split(), **options)
    document, notes = debian.universe(choices(*stanzas, installed=stands), request)
    return shape(document), notes


def refusal(names, *stanzas, **options):
    """The reason for which there is no document."""
    try:
        imported(names, *stanzas, **options)
    except Refused as refused:
        return str(refused)
    raise AssertionError("a document was made")


def simple(name, *needs):
    """The type of a package outside cycles."""
    required = "".join(f" -{need}" for need in needs)
    return {name: ["absent > installed", f"installed +{name}{required} > absent"]}


class PlainTest(unittest.TestCase):
    def test_what_is_needed_but_for_the_base(self):
        found, notes = imported(
            "a",
            package("a", Pre_Depends="libc6 (>= 2.30)", Depends="b (>= 1), dpkg-base, c, b"),
            package("b", Depends="libc6, init"),
            package("c", Depends="b", Recommends="d"),
            package("d"),
        )
        self.assertEqual(found, {**simple("a", "b", "c"), **simple("b"), **simple("c", "b")})
        self.assertEqual(notes, [])

    def test_what_is_pre_depended_on_is_needed_too(self):
        found, _ = imported("a", package("a", Pre_Depends="b", Depends="c"), package("b"), package("c"))
        self.assertEqual(found, {**simple("a", "b", "c"), **simple("b"), **simple("c")})

    def test_several_packages(self):
        found, _ = imported("a b", package("a", Depends="c"), package("b", Depends="c"), package("c"), package("d"))
        self.assertEqual(found, {**simple("a", "c"), **simple("b", "c"), **simple("c")})

    def test_a_plus_becomes_an_underscore(self):
        found, _ = imported("g++", package("g++", Depends="libstdc++6:amd64"), package("libstdc++6"))
        self.assertEqual(found, {**simple("g__", "libstdc__6"), **simple("libstdc__6")})

    def test_other_architectures_are_not_there(self):
        found, notes = imported(
            "a",
            package("a", Depends="b:i386 | c, d:any"),
            package("b", Architecture="i386"),
            package("c"),
            package("d", Multi_Arch="allowed"),
        )
        self.assertEqual(found, {**simple("a", "c", "d"), **simple("c"), **simple("d")})
        self.assertEqual(notes, [])

    def test_what_it_provides_itself_is_not_needed(self):
        found, _ = imported("a", package("a", Provides="x", Depends="x, a"), package("b", Provides="x"))
        self.assertEqual(found, simple("a"))

    def test_more_than_128_needs_are_cut_into_parts(self):
        others = [f"n{number:03}" for number in range(130)]
        found, _ = imported("a", package("a", Depends=", ".join(others)), *map(package, others))
        self.assertEqual(found["a"], ["absent > installed", "installed +a -a/part-1 -a/part-2 > absent"])
        self.assertEqual(found["a/part-2"], ["absent > there", "there +a/part-2 -n128 -n129 > absent"])
        self.assertEqual(len(found), 133)


class AlternativesTest(unittest.TestCase):
    def test_the_first_that_is_there(self):
        found, _ = imported("a", package("a", Depends="x | b | c"), package("b"), package("c"))
        self.assertEqual(found, {**simple("a", "b"), **simple("b")})

    def test_one_that_is_needed_anyway(self):
        found, _ = imported(
            "a", package("a", Depends="b | c, d"), package("b"), package("c"), package("d", Depends="c")
        )
        self.assertEqual(found, {**simple("a", "c", "d"), **simple("c"), **simple("d", "c")})

    def test_one_that_an_earlier_choice_brought(self):
        found, _ = imported("a", package("a", Depends="b | c, d | b"), package("b"), package("c"), package("d"))
        self.assertEqual(found, {**simple("a", "b"), **simple("b")})

    def test_one_that_is_given(self):
        found, _ = imported("a", package("a", Depends="b | init"), package("b"))
        self.assertEqual(found, simple("a"))

    def test_a_name_that_others_provide_is_the_first_of_them(self):
        found, _ = imported("a", package("a", Depends="x"), package("c", Provides="x"), package("b", Provides="x, y"))
        self.assertEqual(found, {**simple("a", "b"), **simple("b")})

    def test_the_package_of_the_name_comes_before_those_that_provide_it(self):
        found, _ = imported("a", package("a", Depends="x"), package("b", Provides="x"), package("x"))
        self.assertEqual(found, {**simple("a", "x"), **simple("x")})

    def test_versions_decide(self):
        found, _ = imported(
            "a",
            package("a", Depends="b (>= 2) | c (<< 2), x (= 3)"),
            package("b", "1.9"),
            package("c", "2~rc1"),
            package("d", Provides="x"),
            package("e", Provides="x (= 3)"),
        )
        self.assertEqual(found, {**simple("a", "c", "e"), **simple("c"), **simple("e")})

    def test_one_that_conflicts_is_passed_over(self):
        found, _ = imported(
            "a", package("a", Depends="d, b | c"), package("b"), package("c"), package("d", Conflicts="b")
        )
        self.assertEqual(found, {**simple("a", "d", "c"), **simple("c"), **simple("d")})
        found, _ = imported(
            "a",
            package("a", Depends="d, b | c"),
            package("b", Breaks="x (<< 3)"),
            package("c"),
            package("d", Provides="x (= 2)"),
        )
        self.assertEqual(found, {**simple("a", "d", "c"), **simple("c"), **simple("d")})

    def test_one_that_the_given_conflict_with_is_passed_over(self):
        given = [installed("old", Conflicts="b"), installed("other", "2")]
        found, _ = imported(
            "a",
            package("a", Depends="b | c, d | e"),
            package("b"),
            package("c"),
            package("d", Breaks="other"),
            package("e"),
            stands=given,
        )
        self.assertEqual(found, {**simple("a", "c", "e"), **simple("c"), **simple("e")})

    def test_where_all_conflict_it_is_the_first_that_is_refused(self):
        stanzas = package("a", Conflicts="b, c", Depends="b | c"), package("b"), package("c")
        self.assertEqual(
            refusal("a", *stanzas),
            "a and b conflict, and dpkg will not have both; --allow-conflicts makes a document all the same",
        )
        found, notes = imported("a", *stanzas, allows_conflicts=True)
        self.assertEqual(found, {**simple("a", "b"), **simple("b")})
        self.assertEqual(notes, [f"a and b {debian.CONFLICT}"])

    def test_one_that_stands_in_an_earlier_version_comes_before_a_new_one(self):
        stanzas = package("a", Depends="b | c (>= 2)"), package("b"), package("c", "2")
        found, _ = imported("a", *stanzas, stands=[installed("c", "1")])
        self.assertEqual(found, {**simple("a", "c"), **simple("c")})

    def test_a_package_whose_record_is_bad_is_passed_over(self):
        found, _ = imported("a", package("a", Depends="b | c"), package("b", Depends="x y"), package("c"))
        self.assertEqual(found, {**simple("a", "c"), **simple("c")})


class ConflictTest(unittest.TestCase):
    def test_with_what_is_given(self):
        given = [installed("x", Provides="b"), installed("y", Breaks="c (<< 2)"), installed("a", Conflicts="d")]
        stanzas = package("a", "2", Depends="c, d", Conflicts="b, a"), package("c"), package("d")
        self.assertEqual(
            refusal("a", *stanzas, stands=given),
            "a and x conflict, and dpkg will not have both (and 1 more); --allow-conflicts makes a document all the same",
        )
        _, notes = imported("a", *stanzas, stands=given, allows_conflicts=True)
        # The earlier version of a itself goes when the later one comes.
        self.assertEqual(notes, [f"a and x {debian.CONFLICT}", f"c and y {debian.CONFLICT}"])

    def test_between_two_that_are_asked_for(self):
        reason = refusal("a b", package("a"), package("b", Breaks="a"))
        self.assertTrue(reason.startswith("a and b conflict"), reason)

    def test_what_one_provides_and_conflicts_with_is_no_conflict(self):
        _, notes = imported("a", package("a", Depends="b"), package("b", Provides="x", Conflicts="x"))
        self.assertEqual(notes, [])


class MissingTest(unittest.TestCase):
    def test_it_stays_as_a_port_that_nothing_provides(self):
        found, notes = imported("a", package("a", Depends="x | y, b"), package("b"))
        self.assertEqual(found, {**simple("a", "x", "b"), **simple("b")})
        self.assertEqual(notes, ["a depends on x, which nothing provides: there will be no plan"])

    def test_another_version_is_not_there_either(self):
        found, notes = imported("a", package("a", Depends="b (>= 2:5~), c"), package("b"), package("c", Depends="b"))
        self.assertEqual(found, {**simple("a", "b/from-2_5_", "c"), **simple("b"), **simple("c", "b")})
        self.assertEqual(notes, ["a depends on b/from-2:5~, which nothing provides: there will be no plan"])

    def test_another_architecture_is_not_there_either(self):
        found, _ = imported("a", package("a", Depends="b:i386 (<< 2), c"), package("b"), package("c", Depends="b"))
        self.assertEqual(found["a"], simple("a", "b/i386/below-2", "c")["a"])


TWO = (
    package("a", Depends="b, c"),
    package("b", Depends="a, d"),
    package("c"),
    package("d"),
    package("e", Depends="a"),
)


class CycleTest(unittest.TestCase):
    def test_two_that_depend_on_each_other(self):
        found, _ = imported("e", *TWO)
        expected = {
            "a/files": ["absent > unpacked", "unpacked +a/unpacked > absent"],
            "a": ["absent > installed", "installed +a/configured -a/unpacked -b/unpacked -c > absent"],
            "b/files": ["absent > unpacked", "unpacked +b/unpacked > absent"],
            "b": ["absent > installed", "installed +b/configured -b/unpacked -a/unpacked -d > absent"],
            **simple("c"),
            **simple("d"),
            **simple("e", "a"),
            "a/circle": ["open > settled", "settled +a +b -a/configured -b/configured > open"],
        }
        self.assertEqual(found, expected)

    def test_the_strict_rule_knows_no_cycles(self):
        found, _ = imported("e", *TWO, is_strict=True)
        expected = [simple("a", "b", "c"), simple("b", "a", "d"), simple("c"), simple("d"), simple("e", "a")]
        self.assertEqual(found, {key: value for each in expected for key, value in each.items()})

    def test_files_wait_for_what_is_pre_depended_on(self):
        found, _ = imported("a", package("a", Pre_Depends="c", Depends="b"), package("b", Depends="a"), package("c"))
        self.assertEqual(found["a/files"], ["absent > unpacked", "unpacked +a/unpacked -c > absent"])
        self.assertEqual(found["a"][1], "installed +a/configured -a/unpacked -c -b/unpacked > absent")

    def test_a_cycle_through_what_is_given_is_none(self):
        found, _ = imported("a", package("a", Depends="b"), package("b", Depends="a"), stands=[installed("b")])
        self.assertEqual(found, simple("a"))

    def test_pre_depends_in_a_cycle(self):
        both = package("a", Pre_Depends="b"), package("b", Pre_Depends="a")
        one = package("a", Pre_Depends="b"), package("b", Depends="c"), package("c", Depends="a")
        for stanzas, members in ((both, "a, b"), (one, "a, b, c")):
            with self.assertRaises(Refused) as caught:
                imported("a", *stanzas)
            reason = f"a cycle of Pre-Depends: a pre-depends on b, which needs a first; the cycle is {members}"
            self.assertEqual(str(caught.exception), reason)


class TargetsTest(unittest.TestCase):
    def targets(self, names, is_strict=False):
        document, _ = debian.universe(choices(*TWO), debian.Request(names.split(), is_strict))
        return json.loads(document)["comment"].partition("targets: ")[2]

    def test_one_for_each_package(self):
        self.assertEqual(self.targets("e c"), "port:e port:c")

    def test_one_for_a_cycle(self):
        self.assertEqual(self.targets("b a e"), "port:b port:e")
        self.assertEqual(self.targets("b a", is_strict=True), "port:b port:a")


class InstalledTest(unittest.TestCase):
    def test_what_stands_is_given_in_place_of_the_base(self):
        found, _ = imported(
            "a",
            package("a", Depends="b, init, libc6"),
            package("b"),
            stands=[installed("b"), installed("libc6", "2.36")],
        )
        self.assertEqual(found, {**simple("a", "init"), **simple("init")})

    def test_a_version_that_does_not_do_is_replaced(self):
        found, _ = imported("a", package("a", Depends="b (>= 2)"), package("b", "2"), stands=[installed("b", "1")])
        self.assertEqual(found, {**simple("a", "b"), **simple("b")})

    def test_what_was_removed_does_not_stand(self):
        removed = package("b", Status="deinstall ok config-files")
        found, _ = imported("a", package("a", Depends="b"), package("b"), stands=[removed])
        self.assertEqual(found, {**simple("a", "b"), **simple("b")})

    def test_a_package_of_another_origin_stands(self):
        found, _ = imported("a", package("a", Depends="b (>= 2)"), package("b", "1"), stands=[installed("b", "3")])
        self.assertEqual(found, simple("a"))

    def test_nothing_is_taken_back_to_an_earlier_version(self):
        found, notes = imported(
            "a", package("a", Depends="x"), package("b", "1", Provides="x"), stands=[installed("b", "2")]
        )
        self.assertEqual(found, simple("a", "x"))
        self.assertEqual(notes, ["a depends on x, which nothing provides: there will be no plan"])

    def test_what_is_asked_for_and_stands_is_left_out(self):
        found, notes = imported("a b", package("a"), package("b"), stands=[installed("b")])
        self.assertEqual(found, simple("a"))
        self.assertEqual(notes, ["b is given, and left out"])

    def test_a_later_version_of_what_stands_is_asked_for(self):
        found, _ = imported("b", package("b", "2"), stands=[installed("b", "1")])
        self.assertEqual(found, simple("b"))


class UpgradeTest(unittest.TestCase):
    """What stands stays whole when a part of it is upgraded."""

    def test_who_depends_on_the_version_that_goes_joins(self):
        given = [installed("lib"), installed("tool", Depends="lib (= 1)"), installed("other", Depends="lib")]
        stanzas = package("a", Depends="lib (>= 2)"), package("lib", "2"), package("tool", "2", Depends="lib (= 2)")
        found, notes = imported("a", *stanzas, package("other", "2"), stands=given)
        expected = {
            "a": ["absent > installed", "installed +a/alone -lib > absent"],
            **simple("lib"),
            **simple("tool", "lib"),
            "a/request": ["open > met", "met +a -a/alone -tool > open"],
        }
        self.assertEqual(found, expected)
        self.assertEqual(notes, ["upgraded too, so that what stands stays whole: tool"])

    def test_who_is_broken_by_the_new_version_is_noted(self):
        given = [installed("e"), installed("d", Depends="e (= 1)")]
        stanzas = package("e", "2", Breaks="d (<< 2)"), package("d", "2", Depends="e (= 2)")
        _, notes = imported("e", *stanzas, stands=given)
        self.assertEqual(notes, ["upgraded too, so that what stands stays whole: d"])

    def test_who_depends_on_a_name_that_goes_joins(self):
        given = [installed("lib", Provides="api (= 1)"), installed("tool", Depends="api (= 1)")]
        stanzas = package("lib", "2", Provides="api (= 2)"), package("tool", "2", Depends="api (= 2)")
        found, _ = imported("lib", *stanzas, stands=given)
        self.assertEqual(sorted(found), ["lib", "lib/request", "tool"])

    def test_it_goes_on_until_nothing_changes(self):
        given = [installed("a"), installed("b", Depends="a (= 1)"), installed("c", Depends="b (= 1)"), installed("d")]
        stanzas = (
            package("a", "2"),
            package("b", "2", Depends="a (= 2)"),
            package("c", "2", Depends="b (= 2), d (>= 2)"),
        )
        found, _ = imported("a", *stanzas, package("d", "2"), stands=given)
        self.assertEqual(found["a/request"][1], "met +a -a/alone -b -c -d > open")
        self.assertEqual(found["c"], simple("c", "b", "d")["c"])

    def test_what_a_chosen_package_leans_on_may_be_lost_to_another(self):
        given = [installed("lib", Provides="x"), installed("y")]
        stanzas = (
            package("a", Depends="x"),
            package("b", Depends="lib (>= 2)"),
            package("lib", "2"),
            package("y", "2", Provides="x"),
        )
        found, _ = imported("a b", *stanzas, stands=given)
        self.assertEqual(found["a"], simple("a", "y")["a"])

    def test_where_no_upgrade_helps_another_package_does(self):
        given = [installed("lib", Provides="x"), installed("tool", Depends="x")]
        found, _ = imported("lib", package("lib", "2"), package("y", Provides="x"), stands=given)
        self.assertEqual(sorted(found), ["lib", "lib/request", "y"])

    def test_who_would_lose_a_dependence_is_named(self):
        given = [installed("lib"), installed("tool", Depends="lib (= 1)")]
        reason = "tool, which is given, would lose lib/exactly-1, on which it depends; --allow-conflicts makes a document all the same"
        self.assertEqual(refusal("lib", package("lib", "2"), stands=given), reason)
        held = [given[0], package("tool", Depends="lib (= 1)", Status="hold ok installed")]
        self.assertEqual(refusal("lib", package("lib", "2"), package("tool", "2"), stands=held), reason)
        found, notes = imported("lib", package("lib", "2"), stands=given, allows_conflicts=True)
        self.assertEqual(found, simple("lib"))
        self.assertEqual(notes, ["tool, which is given, would lose lib/exactly-1, on which it depends"])

    def test_what_is_broken_by_a_new_package_is_upgraded_before_it(self):
        given = [installed("old"), installed("rest", Conflicts="a (<< 9)")]
        stanzas = package("a", Breaks="old (<< 2)"), package("old", "2"), package("rest", "2")
        found, notes = imported("a", *stanzas, stands=given)
        self.assertEqual(found, {**simple("a", "rest", "old"), **simple("old"), **simple("rest")})
        self.assertEqual(notes, ["upgraded too, so that what stands stays whole: rest, old"])

    def test_what_is_broken_and_needs_what_breaks_it_is_unpacked_first(self):
        given = [installed("old")]
        for field in ("Breaks", "Conflicts"):
            stanzas = package("a", **{field: "old (<< 2)"}), package("old", "2", Depends="a")
            found, _ = imported("a", *stanzas, stands=given)
            self.assertEqual(found["a/files"][1], "unpacked +a/unpacked -old/unpacked > absent")
            self.assertEqual(found["old/files"][1], "unpacked +old/unpacked > absent")
            self.assertEqual(found["a/circle"][1], "settled +a +old -a/configured -old/configured > open")

    def test_what_is_broken_and_pre_depends_on_what_breaks_it_is_set_back_meanwhile(self):
        stanzas = package("a", Breaks="old (<< 2)"), package("old", "2", Pre_Depends="b"), package("b", Depends="a")
        found, _ = imported("a", *stanzas, stands=[installed("old")])
        self.assertEqual(found["a"], ["absent > installed", "installed +a/alone > absent"])
        self.assertEqual(found["old"], simple("old", "b")["old"])
        self.assertEqual(found["b"], simple("b", "a/alone")["b"])

    def test_a_third_one_that_pre_depends_on_what_breaks(self):
        stanzas = package("a", Breaks="old (<< 2)"), package("old", "2", Depends="b"), package("b", Pre_Depends="a")
        found, _ = imported("a", *stanzas, stands=[installed("old")])
        self.assertEqual(found["a"], ["absent > installed", "installed +a/alone > absent"])
        self.assertEqual(found["old"], simple("old", "b")["old"])

    def test_two_that_conflict_with_each_other_until_they_are_upgraded(self):
        given = [installed("a"), installed("b")]
        stanzas = package("a", "2", Conflicts="b (<< 2)"), package("b", "2", Conflicts="a (<< 2)")
        reason = "a cycle of Conflicts: a conflicts with b until that is upgraded, and the other way round; the cycle is a, b"
        self.assertEqual(refusal("a", *stanzas, stands=given), reason)

    def test_two_that_break_each_other(self):
        given = [installed("a"), installed("b")]
        stanzas = package("a", "2", Breaks="b (<< 2)"), package("b", "2", Breaks="a (<< 2)")
        found, _ = imported("a b", *stanzas, stands=given)
        self.assertEqual(found, {**simple("a", "b"), **simple("b")})

    def test_an_upgrade_that_does_not_help_is_a_conflict(self):
        given = [installed("old")]
        stanzas = package("a", Breaks="old (<< 3)"), package("old", "2")
        self.assertTrue(refusal("a", *stanzas, stands=given).startswith("a and old conflict"))

    def test_the_same_source_is_upgraded_together(self):
        given = [installed("one"), installed("two"), installed("three")]
        stanzas = (
            package("one", "2", Source="s"),
            package("two", "2", Source="s"),
            package("three", "2", Source="s (3)"),
        )
        found, _ = imported("one", *stanzas, stands=given)
        self.assertEqual(sorted(found), ["one", "one/request", "two"])

    def test_what_is_held_stays(self):
        held = package("lib", Status="hold ok installed")
        found, notes = imported("a", package("a", Depends="lib (>= 2)"), package("lib", "2"), stands=[held])
        self.assertEqual(notes, ["a depends on lib/from-2, which nothing provides: there will be no plan"])
        self.assertEqual(found, simple("a", "lib/from-2"))

    def test_one_target_for_all_that_is_asked_for(self):
        given = [installed("lib"), installed("tool", Depends="lib (= 1)")]
        stanzas = package("lib", "2"), package("tool", "2", Depends="lib (= 2)"), package("a")
        document, _ = debian.universe(choices(*stanzas, installed=given), debian.Request(["lib", "a"]))
        self.assertEqual(json.loads(document)["comment"].partition("targets: ")[2], "port:lib")
        self.assertEqual(shape(document)["lib/request"][1], "met +lib +a -lib/alone -a/alone -tool > open")


class RecommendsTest(unittest.TestCase):
    def test_they_are_followed_on_request(self):
        stanzas = (
            package("a", Recommends="b | c, libc6"),
            package("b", Depends="d", Recommends="e"),
            package("d"),
            package("e"),
        )
        found, _ = imported("a", *stanzas, with_recommends=True)
        self.assertEqual(found["a/request"], ["open > met", "met +a -a/alone -b -d -e > open"])
        self.assertEqual(found["b"], simple("b", "d")["b"])
        found, _ = imported("a", *stanzas)
        self.assertEqual(found, simple("a"))

    def test_what_cannot_be_had_or_conflicts_is_left_out(self):
        stanzas = (
            package("a", Recommends="b, c, x"),
            package("b", Depends="d"),
            package("d", Conflicts="a"),
            package("c", Depends="y"),
        )
        found, notes = imported("a", *stanzas, with_recommends=True)
        self.assertEqual((found, notes), (simple("a"), ["recommended, and left out: b, c, x"]))

    def test_what_the_version_that_stands_does_without(self):
        given = [installed("a", Recommends="b")]
        stanzas = package("a", "2", Recommends="b, c"), package("b"), package("c")
        found, _ = imported("a", *stanzas, stands=given, with_recommends=True)
        self.assertEqual(sorted(found), ["a", "a/request", "c"])


class IndexTest(unittest.TestCase):
    def test_the_highest_version_counts(self):
        stanzas = (
            package("a", "1.9", Depends="x"),
            package("a", "1.10", Depends="b"),
            package("a", "1.10~rc1"),
            package("b"),
        )
        found, _ = imported("a", *stanzas)
        self.assertEqual(found, {**simple("a", "b"), **simple("b")})
        found, _ = imported("a", package("a", "x:1"), package("a", "1"), package("a", "y:9"))
        self.assertEqual(found, simple("a"))

    def test_a_bad_record_of_the_base_hurts_no_request(self):
        found, notes = imported("a", package("a"), package("base", Priority="required", Depends="x y"))
        self.assertEqual(found, simple("a"))
        reason = "base, which is given, has a record that cannot be read, and is left as it is: no relation to a package: 'x y'"
        self.assertEqual(notes, [reason])


class RefusedTest(unittest.TestCase):
    def refused(self, names, *stanzas):
        with self.assertRaises(Refused) as caught:
            imported(names, *stanzas)
        return str(caught.exception)

    def test_no_such_package(self):
        self.assertEqual(self.refused("nginz"), "no package nginz in the index (apt-get update renews it)")

    def test_a_name_that_only_others_provide(self):
        reason = "no package x in the index; it is a name that others provide: a, b"
        self.assertEqual(self.refused("x", package("b", Provides="x"), package("a", Provides="x")), reason)

    def test_all_is_given(self):
        self.assertEqual(self.refused("dpkg"), "dpkg: given already, so nothing is left to install")

    def test_a_bad_record_is_named_where_it_is_needed(self):
        bad = package("a", Depends="b c"), package("d", "1:2:"), package("e", "x:1"), package("f", "9" * 5000 + ":1")
        reason = "package a: no relation to a package: 'b c'"
        self.assertEqual(self.refused("a", *bad), reason)
        self.assertEqual(self.refused("g", *bad, package("g", Depends="a")), reason)
        self.assertEqual(self.refused("e", *bad), "package e: no version: 'x:1'")
        self.assertRegex(self.refused("f", *bad), "^package f: no version: '9+[.][.]'$")
        found, notes = imported("h", *bad, package("h"))
        self.assertEqual((found, notes), (simple("h"), []))

    def test_a_name_that_is_none(self):
        self.assertEqual(
            self.refused("a/files", package("a/files")), "package a/files: no name of a package: 'a/files'"
        )

    def test_too_many_packages(self):
        others = [f"n{number:04}" for number in range(1001)]
        chain = [package(one, Depends=other) for one, other in zip(others, [*others[1:], "libc6"])]
        reason = "the universe has 2002 pairs of type and state, and Metis takes at most 2000"
        self.assertEqual(self.refused("n0000", *chain), reason)

    def test_no_such_file(self):
        with self.assertRaisesRegex(Refused, "^/nowhere/Packages: No such file or directory$"):
            debian.choices_of("/nowhere/Packages")
