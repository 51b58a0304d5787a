import unittest

from metis_planner.answers import Refused
from metis_planner.carry.rollouts import Rollout, barrier_of, change_in, longest_chain, roles_in, rollout_in, sign_of_a_rollout
from tests.carry.shapes import CROSSED, REBOUND, ROLLED, TAKEN_DOWN, WEB, WIDENED, plan_text, steps_of

# Two that are bound to each other, a new one beside them, and the removal, which begins with a scaffold: 3 holds both.
CYCLE = (
    *("new 0 A", "new 1 A", "bind p 0 1 after 2", "bind p 1 0 after 1"),
    *("new 2 A",),
    *("new 3 A", "bind p 0 3 after 6", "bind p 1 3 after 6", "unbind p 0 1", "unbind p 1 0"),
    *("delete 0 after 10", "delete 1 after 9", "delete 3 after 11 12"),
)


# The same two, which go, beside one that is kept: of the scaffold that holds both all is deleted in the removal.
CHANGED_CYCLE = (*CYCLE[:4], "new 4 B", *CYCLE[5:8], "unbind p 0 1", "unbind p 1 0", "delete 0 after 10", "delete 1 after 9", "delete 3 after 11 12")


class RolloutTest(unittest.TestCase):
    def test_the_fresh_ones_end_where_something_old_acts(self):
        self.assertEqual(rollout_in(steps_of(ROLLED), 5), Rollout(5, 10, 12))
        self.assertEqual(rollout_in(steps_of(TAKEN_DOWN), 5), Rollout(5, 5, 7))

    def test_a_binding_that_nothing_requires_is_let_go_first(self):
        lines = ("new 0 A", "new 1 B", "bind p 0 1 after 2", "new 2 A", "unbind p 0 1", "delete 0", "delete 1 after 5")
        self.assertEqual(rollout_in(steps_of(plan_text(*lines)), 3), Rollout(3, 4, 7))

    def test_a_scaffold_is_part_of_the_removal_also_where_it_comes_first(self):
        self.assertEqual(rollout_in(steps_of(plan_text(*CYCLE)), 4), Rollout(4, 5, 13))

    def test_a_change_may_have_a_scaffold_too(self):
        steps = steps_of(plan_text(*CHANGED_CYCLE))
        self.assertEqual(change_in(steps, 5), Rollout(5, 8, 13))

    def test_a_fresh_double_that_is_deleted_before_the_removal_is_fresh(self):
        lines = ("new 0 A", "new 1 A", "new 2 B", "delete 2", "move 1 a b", "delete 0")
        self.assertEqual(rollout_in(steps_of(plan_text(*lines)), 1), Rollout(1, 5, 6))

    def test_what_takes_the_old_away_before_the_new_is_there_is_no_rollout(self):
        for lines in (
            ("new 0 A", "delete 0", "new 1 A"),
            ("new 0 A", "new 2 B", "new 1 A", "delete 0", "delete 2"),
            ("new 0 A", "new 1 A", "delete 0", "move 1 a b"),
        ):
            with self.subTest(lines=lines), self.assertRaisesRegex(Refused, "no rollout of the 1 actions before"):
                rollout_in(steps_of(plan_text(*lines)), 1)

    def test_the_whole_removal_waits_and_nothing_else(self):
        for text, rollout, removal in (
            (ROLLED, Rollout(5, 10, 12), [11, 12]),
            (plan_text(*CYCLE), Rollout(4, 5, 13), [*range(6, 14)]),
        ):
            waiting = [step.action.number for step in steps_of(text) if barrier_of(step, [rollout]) == 0]
            self.assertEqual(waiting, removal)
        self.assertEqual({barrier_of(step, [Rollout(5, 5, 7)]) for step in steps_of(TAKEN_DOWN)}, {None})

    def test_a_rollout_is_recognized_by_what_goes_with_all_that_it_was_bound_to(self):
        for text in (
            WEB,
            CROSSED,
            TAKEN_DOWN,
            plan_text("new 0 A", "new 1 B", "bind p 0 1 after 2", "unbind p 0 1", "delete 1 after 4"),
        ):
            self.assertIsNone(sign_of_a_rollout(steps_of(text)))
        self.assertEqual(sign_of_a_rollout(steps_of(ROLLED)).action.number, 11)
        self.assertEqual(sign_of_a_rollout(steps_of(plan_text(*CYCLE))).action.number, 11)

    def test_a_reconfiguration_removes_from_the_first_that_what_was_there_lets_go(self):
        self.assertEqual(change_in(steps_of(WIDENED), 5), Rollout(5, 8, 8))
        self.assertEqual(change_in(steps_of(REBOUND), 5), Rollout(5, 8, 10))
        self.assertEqual(change_in(steps_of(ROLLED), 5), Rollout(5, 10, 12))
        self.assertEqual(roles_in(steps_of(REBOUND), [Rollout(5, 8, 10)]), {0: "kept", 2: "new", 1: "going"})
        waiting = [step.action.number for step in steps_of(REBOUND) if barrier_of(step, [Rollout(5, 8, 10)]) == 0]
        self.assertEqual(waiting, [9, 10])
        lines = ("new 0 A", "new 1 A", "new 2 A", "delete 0", "new 3 A")
        with self.assertRaisesRegex(Refused, "action 5 is of A#3, which is new and stays"):
            change_in(steps_of(plan_text(*lines)), 2)

    def test_the_longest_chain_goes_over_the_barrier(self):
        self.assertEqual(longest_chain(steps_of(WEB), ()), 4)
        self.assertEqual(longest_chain(steps_of(ROLLED), ()), 6)
        self.assertEqual(longest_chain(steps_of(ROLLED), [Rollout(5, 10, 12)]), 6)
        lines = ("new 0 A", *("new 1 A", "move 1 a b", "move 1 b c"), "delete 0")
        self.assertEqual(
            [longest_chain(steps_of(plan_text(*lines)), rollouts) for rollouts in ((), [Rollout(1, 4, 5)])], [3, 4]
        )


if __name__ == "__main__":
    unittest.main()
