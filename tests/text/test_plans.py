import random
import unittest

from metis_planner.text import plans
from metis_planner.text.actions import Bind, Delete, Move, New

PLAN = """metis plan 1
instances 2 actions 6 dups 1
1 new 0 Web
2 new 1 Db
3 move 1 off on
4 bind sql 0 1 after 3
5 unbind sql 0 1
6 delete 1 after 5
dup 1 Db:on cycle 0.2 1.end
end
"""
REFUSAL = "metis refusal 1\nlacks port:sql\npairs 2\nDb:off\nWeb:off\nend\n"
EXPLANATION = """metis why 1
lacks port:http from Web:run Web:slow
lines 4
Web:run needs sql from none
Web:slow comes from Web:off Web:on
Web:off starts needing disk and comes from none
Web:on needs from from Db:from
end
"""


class ReadTest(unittest.TestCase):
    def test_a_plan(self):
        plan = plans.read(PLAN)
        self.assertEqual(plan.actions[0], New(0, "Web", number=1))
        self.assertEqual(plan.actions[3], Bind(0, "Web", "sql", 1, "Db", number=4, after=(3,)))
        self.assertEqual((plan.actions[3].instance, plan.actions[3].provider), (0, 1))
        self.assertEqual(plan.actions[5], Delete(1, "Db", number=6, after=(5,)))
        self.assertEqual(plan.dups, (plans.Dup("Db:on", ("0.2", "1.end")),))

    def test_places_are_fixed(self):
        plan = plans.read("metis plan 1\ninstances 1 actions 2 dups 0\n1 new 0 A\n2 move 0 after 1\nend\n")
        self.assertEqual(plan.actions[1], Move(0, "A", "after", "1", number=2, after=()))

    def test_a_refusal(self):
        self.assertEqual(plans.read(REFUSAL), plans.Refusal("port:sql", ("Db:off", "Web:off")))

    def test_an_explanation(self):
        expected = plans.Explanation(
            "port:http",
            ("Web:run", "Web:slow"),
            (
                plans.Reason("Web:run", "sql", False, False, ()),
                plans.Reason("Web:slow", None, False, True, ("Web:off", "Web:on")),
                plans.Reason("Web:off", "disk", True, True, ()),
                plans.Reason("Web:on", "from", False, False, ("Db:from",)),
            ),
        )
        self.assertEqual(plans.read(EXPLANATION), expected)
        self.assertIsNone(plans.read("metis why 1\nlacks A:a\nlines 0\nend\n").providers)

    def test_faults(self):
        head = "metis plan 1\ninstances 1 actions 1 dups 0\n"
        for text, reason in {
            "": "line 1: no plan, refusal or explanation, but ''",
            "bad word 1\n": "line 1: no plan, refusal or explanation, but 'bad word 1'",
            "metis plan 1\nend": "line 2: the text ends inside a line",
            "metis plan 1\n": "line 2: the text ends before it",
            "metis plan 1\ninstances 1\n": "line 2: not 'instances I actions A dups D'",
            "metis plan 1\ninstances 01 actions 1 dups 0\n": "line 2: no number: '01'",
            head: "line 3: the text ends before it",
            head + "2 new 0 A\nend\n": "line 3: not the number 1",
            head + "1 make 0 A\nend\n": "line 3: no action",
            head + "1 new 0\nend\n": "line 3: not the form of 'new'",
            head + "1 new 0 A after\nend\n": "line 3: not the form of 'new'",
            head + "1 new 0 A after 1\nend\n": "line 3: an action waits for earlier ones alone",
            head + "1 new 0 A after 1 1\nend\n": "line 3: an action waits for earlier ones alone",
            head + "1 move 0 a b\nend\n": "line 3: no line before made instance 0",
            head.replace("1 dups", "4294967296 dups"): "line 2: no number: '4294967296'",
            head.replace("1 dups", "9" * 5000 + " dups"): f"line 2: no number: '{'9' * 80}..'",
            PLAN.replace("delete 1 after 5", "delete 1 after 5 4"): "line 8: the numbers behind 'after' do not ascend",
            head + "1 new 0 A\nstop\n": "line 4: not the line 'end'",
            head + "1 new 0 A\nend\nend\n": "line 5: the text goes on behind its end",
            head.replace("1 actions", "2 actions") + "1 new 0 A\nend\n": "line 2: not the number of instances that are made",
            PLAN.replace("Db:on", "Db"): "line 9: no pair: 'Db'",
            PLAN.replace("0.2", "0.2\x1b[2J"): "line 9: no event: '0.2\\x1b[2J'",
            PLAN.replace("dup 1", "dup 2"): "line 9: not 'dup 1 TYPE:STATE cycle' and two or more events",
            REFUSAL.replace("lacks", "has"): "line 2: not 'lacks TARGET'",
            REFUSAL.replace("pairs 2", "pairs 3"): "line 7: the text ends before it",
            REFUSAL.replace("Db:off", "Db"): "line 4: no pair: 'Db'",
            EXPLANATION.replace("needs sql from none", "lacks sql"): "line 4: no reason",
            EXPLANATION.replace("Web:off Web:on", "Web"): "line 5: no pair: 'Web'",
            EXPLANATION.replace(" from Db:from", ""): "line 7: no reason",
            EXPLANATION.replace("needs sql", "needs s:l"): "line 4: no name: 's:l'",
            EXPLANATION.replace("needing disk", "needing $disk"): "line 6: no name: '$disk'",
        }.items():
            with self.assertRaises(plans.NoText, msg=text) as caught:
                plans.read(text)
            self.assertEqual(str(caught.exception), reason)

    def test_what_is_no_name_is_refused_wherever_a_name_stands(self):
        longest = "x" * 64
        for word in ("x;touch${IFS}y", "$(info)", "a\tb", "a:b", "\u00e9", f"{longest}x", "a*", "", "a\x1b[2J"):
            for line, before in ((3, "Web\n"), (5, "off"), (5, "on\n"), (6, "sql")):
                text = PLAN.replace(before, word + "\n" * before.count("\n"), 1)
                with self.subTest(word=word, line=line), self.assertRaises(plans.NoText) as caught:
                    plans.read(text)
                self.assertEqual(str(caught.exception), f"line {line}: no name: {plans.shown(word)}")
            for text, line in ((REFUSAL, 4), (EXPLANATION, 5)):
                with self.subTest(word=word, text=text), self.assertRaisesRegex(plans.NoText, f"line {line}: no "):
                    plans.read(text.replace("\nDb:off", f"\nDb:{word}").replace("\nWeb:slow", f"\nWeb:{word}"))
        self.assertEqual(plans.read(PLAN.replace("Web", longest)).actions[0].type, longest)

    def test_what_is_shown_of_a_word_is_short_and_harmless(self):
        self.assertEqual(plans.shown("a\x1b[2J\x9b\u202e"), "'a\\x1b[2J\\x9b\\u202e'")
        self.assertEqual(len(plans.shown("x" * 100_000)), plans.LONGEST_SHOWN + 4)


class OrderTest(unittest.TestCase):
    def test_it_keeps_the_waits_and_each_instances_own_order(self):
        plan = plans.read(
            "metis plan 1\ninstances 3 actions 6 dups 0\n1 new 0 A\n2 new 1 B\n3 move 1 off on\n"
            "4 new 2 B\n5 move 2 off on after 3\n6 move 0 off on after 5\nend\n"
        )
        found = set()
        for seed in range(200):
            order = [action.number for action in plans.random_order(plan, random.Random(seed))]
            self.assertEqual(sorted(order), [1, 2, 3, 4, 5, 6])
            for earlier, later in ((2, 3), (4, 5), (1, 6), (3, 5), (5, 6)):
                self.assertLess(order.index(earlier), order.index(later))
            found.add(tuple(order))
        # 6 is last, and 5 the one before it but for 1. Where 5 is fifth, 1, 2, 3 and 4 stand in any order with 2 before 3:
        # 12. Where 1 is fifth and 5 fourth, so do 2, 3 and 4: 3.
        self.assertEqual(len(found), 15)
