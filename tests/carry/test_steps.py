import pathlib
import tempfile
import unittest

from metis_planner.answers import Refused
from metis_planner.carry import placement, steps
from metis_planner.text import plans, reading
from tests.carry.shapes import CROSSED, PLACED, plan_text, steps_of

BOUND = ("new 0 A", "new 1 B", "bind p 0 1 after 2")


class StepsTest(unittest.TestCase):
    def test_waits_are_those_of_the_text_and_the_own_order(self):
        waits = {step.action.number: step.waits for step in steps_of(CROSSED)}
        expected = {1: (), 2: (1,), 3: (), 4: (3,), 5: (2, 4), 6: (5,), 7: (6,), 8: (7,), 9: (), 10: (9,), 11: (4, 10)}
        self.assertEqual(waits, {**expected, 12: (8, 11), 13: (12,), 14: (13,), 15: (10, 14)})

    def test_a_delete_lets_all_that_it_took_go_once(self):
        lines = ("bind q 0 1 after 2", "delete 0", "delete 1 after 5")
        self.assertEqual(
            [step.waits for step in steps_of(plan_text(*BOUND, *lines))], [(), (), (1, 2), (2, 3), (4,), (2, 5)]
        )

    def test_what_was_let_go_before_a_move_is_not_waited_for_behind_it(self):
        lines = ("unbind p 0 1", "move 1 b c after 4", "move 1 c d")
        self.assertEqual([step.waits for step in steps_of(plan_text(*BOUND, *lines))][-2:], [(2, 4), (5,)])

    def test_keys_are_an_instance_and_a_place(self):
        keys = [step.key for step in steps_of(CROSSED)]
        self.assertEqual(" ".join(keys), "0.1 0.2 1.1 1.2 0.3 0.4 0.5 0.6 2.1 2.2 1.3 1.4 1.5 1.6 2.3")

    def test_what_holds_before_a_move_and_a_delete(self):
        found = {step.action.number: (step.state, step.bound) for step in steps_of(CROSSED)}
        self.assertEqual(found[2], ("", ()))
        self.assertEqual(found[6], ("a1", (("y", 1, "B-1"),)))
        self.assertEqual(found[8], ("a3", ()))
        self.assertEqual(found[15], ("a1", ()))

    def test_other_numbers_behind_after_are_refused(self):
        for before, behind in (("after 8", "after 7"), (" after 8", ""), ("7 move 0 a2 a3", "7 move 0 a2 a3 after 4")):
            with self.assertRaisesRegex(Refused, "plan: action .* has to wait for"):
                steps_of(CROSSED.replace(before, behind, 1))

    def test_what_is_not_steadfast_is_refused(self):
        for lines, reason in (
            ((*BOUND, "move 1 a b"), "action 4: B#1 still serves another"),
            ((*BOUND, "delete 1"), "action 4: B#1 still serves another"),
            ((*BOUND, "unbind q 0 1"), "action 4: there is no such binding to let go"),
            ((*BOUND, "bind p 0 1 after 2"), "action 4: the binding is there already"),
            (("new 0 A", "bind p 0 0"), "action 2: it binds an instance to itself"),
            (("new 0 A", "new 0 A"), "action 2: instance 0 is made a second time"),
            (("new 0 A", "delete 0", "move 0 a b"), "action 3: instance 0 was deleted"),
            (("new 0 A", "delete 0", "new 0 A"), "action 3: instance 0 is made a second time"),
            (("new 0 A", "new 1 B", "delete 1", "bind p 0 1 after 2"), "action 4: instance 1 was deleted"),
            (("new 0 A", "move 0 a b", "move 0 a c"), "action 3: A#0 is in b, and not in a"),
        ):
            with self.subTest(reason=reason), self.assertRaises(Refused) as caught:
                steps_of(plan_text(*lines))
            self.assertEqual(str(caught.exception), f"plan: {reason}, so this is no steadfast run")

    def test_names_are_safe_and_differ(self):
        self.assertEqual(steps.name_of("image/nginx_1.26", 5), "image_nginx_1.26-5")
        self.assertEqual(steps.name_of("../-rf", 1), "x.._-rf-1")
        self.assertNotEqual(steps.name_of("a/b", 1), steps.name_of("a_b", 2))


class InputTest(unittest.TestCase):
    def setUp(self):
        folder = tempfile.TemporaryDirectory()
        self.addCleanup(folder.cleanup)
        self.path = pathlib.Path(folder.name) / "text"

    def test_a_placement(self):
        plan = plans.read(CROSSED)
        self.path.write_text(PLACED)
        found = placement.read_placement(str(self.path), plan)
        held = placement.held(found, steps_of(CROSSED))
        self.assertEqual((found.host_of[2], held[8].waits, held[9].waits), ("right", (4, 6), (9,)))
        for text, reason in (
            (PLACED.replace("on 2 right\n", ""), "line 3: not 'on 2 HOST', as the plan makes its instances"),
            (PLACED.replace("hold 9", "hold 3"), "line 4: action 3 cannot wait for a later one"),
            (PLACED.replace("hold 9", "hold 16"), "line 4: the plan has no action 16"),
            (PLACED.replace("on 1", "at 1"), "line 2: not 'on 1 HOST', as the plan makes its instances"),
            (PLACED.replace("left", "$(left)"), "line 1: not 'on 0 HOST', as the plan makes its instances"),
            (PLACED.replace("placed 3", "placed 99"), "line 5: not 'placed 3 hosts H'"),
            ("noroom 6 size 1 free 0\n", "not what `metis place` prints for this plan"),
            ("", "not what `metis place` prints for this plan"),
        ):
            self.path.write_text(text)
            with self.subTest(text=text), self.assertRaises(Refused) as caught:
                placement.read_placement(str(self.path), plan)
            self.assertEqual(str(caught.exception), f"{self.path}: {reason}")

    def test_what_is_no_plan_is_refused_with_its_file(self):
        for data, reason in (
            (b"metis refusal 1\nlacks A:a\npairs 0\nend\n", "no plan, but a text that says that A:a is not attained"),
            (b"metis plan 2\n", "line 1: no plan, refusal or explanation, but 'metis plan 2'"),
            (b"\xff\n", "no UTF-8 text"),
        ):
            self.path.write_bytes(data)
            with self.subTest(data=data), self.assertRaises(Refused) as caught:
                plans.plan_at(str(self.path))
            self.assertEqual(str(caught.exception), f"{self.path}: {reason}")
        with self.assertRaisesRegex(Refused, "text: more than 1 bytes"):
            reading.read_text(str(self.path), 1)
        with self.assertRaisesRegex(Refused, "Is a directory"):
            reading.read_text(str(self.path.parent))


if __name__ == "__main__":
    unittest.main()
