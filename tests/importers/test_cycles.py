import unittest

from metis_planner.importers.cycles import cycles


class CyclesTest(unittest.TestCase):
    def test_no_cycle(self):
        self.assertEqual(cycles({"a": ["b", "c"], "b": ["c"], "c": []}), {})

    def test_an_edge_to_itself_is_none(self):
        self.assertEqual(cycles({"a": ["a"]}), {})

    def test_two_cycles_and_what_leads_there(self):
        found = cycles({"a": ["b"], "b": ["c", "d"], "c": ["b"], "d": ["e"], "e": ["f"], "f": ["d"], "g": ["a"]})
        self.assertEqual(found, {"b": ["b", "c"], "c": ["b", "c"], **dict.fromkeys("def", ["d", "e", "f"])})

    def test_cycles_that_share_a_node_are_one(self):
        self.assertEqual(cycles({"a": ["b", "c"], "b": ["a"], "c": ["a"]}), dict.fromkeys("abc", ["a", "b", "c"]))

    def test_edges_to_nowhere_are_left_out(self):
        self.assertEqual(cycles({"a": ["z", "b"], "b": ["a"]}), dict.fromkeys("ab", ["a", "b"]))

    def test_a_long_cycle_needs_no_recursion(self):
        length = 5000
        found = cycles({number: [(number + 1) % length] for number in range(length)})
        self.assertEqual(found[0], list(range(length)))
