"""Which steps are done again, where something of a plan is lost: also what was deleted since, if one of them needs it."""

import unittest

from metis_planner.carry.taking_back import with_followers
from tests.carry.shapes import CROSSED, REBOUND, WEB, steps_of


class FollowersTest(unittest.TestCase):
    def again(self, text, *numbers, done=None):
        steps = steps_of(text)
        keys = {step.key for step in steps[:done]}
        return [step.action.number for step in with_followers(steps, keys, set(numbers))]

    def test_what_waited_for_it(self):
        self.assertEqual(self.again(WEB, 3), [3, 4, 5])
        self.assertEqual(self.again(WEB, 3, done=4), [3, 4])

    def test_what_only_lets_a_deleted_one_go_is_done_again_without_it(self):
        self.assertEqual(self.again(REBOUND, 7), [7, 8, 9, 10])

    def test_what_is_bound_to_a_deleted_one_needs_it_from_the_beginning(self):
        self.assertEqual(self.again(REBOUND, 5), [2, 3, 4, 5, 8, 9, 10])
        self.assertEqual(self.again(REBOUND, 5, done=8), [5, 8])
        # B moves on while it takes x from the second A.
        self.assertEqual(self.again(CROSSED, 13), [9, 10, 11, 12, 13, 14, 15])
