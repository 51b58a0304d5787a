"""What comes before what where a machine has earlier versions, beside what dpkg takes (`python3 -m trials upgrades`)."""

import unittest

from tests.importers.test_debian import imported, installed, package, simple


class BarredTest(unittest.TestCase):
    def test_what_breaks_it_in_the_version_that_stands_is_upgraded_first(self):
        for field in ("Breaks", "Conflicts"):
            given = [installed("rest", **{field: "a (<< 9)"})]
            found, notes = imported("a", package("a"), package("rest", "2"), stands=given)
            self.assertEqual(found, {**simple("a", "rest"), **simple("rest")}, field)
            self.assertEqual(notes, ["upgraded too, so that what stands stays whole: rest"], field)

    def test_of_several_with_one_relation_each(self):
        given = [installed("r1", Breaks="a"), installed("r2", Breaks="a"), installed("r3", Breaks="a, b")]
        stanzas = package("a"), package("r1", "2"), package("r2", "2"), package("r3", "2")
        found, _ = imported("a", *stanzas, stands=given)
        self.assertEqual(found["a"], simple("a", "r1", "r2", "r3")["a"])

    def test_a_package_that_bars_a_name_which_it_provides_itself(self):
        stanzas = (
            package("a", Depends="p, q"),
            package("p", Provides="x", Conflicts="x"),
            package("q", Depends="c | d"),
            package("c", Provides="x"),
            package("d"),
        )
        found, _ = imported("a", *stanzas)
        self.assertEqual(found["q"], simple("q", "d")["q"])

    def test_two_that_bar_the_name_that_both_provide(self):
        stanzas = (
            package("a", Depends="p, c | d"),
            package("p", Provides="x", Conflicts="x"),
            package("c", Provides="x", Conflicts="x"),
            package("d"),
        )
        found, _ = imported("a", *stanzas)
        self.assertEqual(found["a"], simple("a", "p", "d")["a"])


class CompanionsTest(unittest.TestCase):
    def test_those_of_a_recommended_package_come_too(self):
        given = [installed("lib", Source="s"), installed("other")]
        stanzas = package("a", Recommends="b"), package("b", "2", Source="s"), package("lib", "2", Source="s"), package("other", "2")
        found, _ = imported("a", *stanzas, stands=given, with_recommends=True)
        self.assertEqual(found["a/request"][1], "met +a -a/alone -b -lib > open")

    def test_one_that_would_not_be_whole_does_not(self):
        given = [installed("lib", Source="s")]
        stanzas = package("a", Source="s (2)"), package("lib", "2", Source="s", Depends="nowhere")
        found, _ = imported("a", *stanzas, stands=given)
        self.assertEqual(found, simple("a"))

    def test_what_was_tried_is_taken_back_whole(self):
        stanzas = (
            package("a", Recommends="b, c"),
            package("b", Depends="e, nowhere", Conflicts="c"),
            package("c", Depends="f"),
            package("e", Conflicts="f"),
            package("f"),
        )
        found, notes = imported("a", *stanzas, with_recommends=True)
        self.assertEqual(found["a/request"][1], "met +a -a/alone -c -f > open")
        self.assertEqual(notes, ["recommended, and left out: b"])
