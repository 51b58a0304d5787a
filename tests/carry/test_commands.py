import json
import pathlib
import tempfile
import unittest

from metis_planner.answers import Refused
from metis_planner.carry import commands, export
from metis_planner.carry.patterns import Patterns
from metis_planner.carry.possible import PossibleActions
from metis_planner.text import universes
from tests.carry.shapes import CROSSED, steps_of

STEP = '[[step]]\nwhen = "A: new"\n'
RULES = """
[[step]]
when = "A: bind y from B"
run = "one"
[[step]]
when = "A: *1 -> *"
run = "two"
[[step]]
when = "*: bind *"
run = "three"
[[step]]
when = "*: new"
run = ""
[[step]]
when = "A: unbind y"
run = "five"
"""
UNIVERSE = {
    "aeolus": 2,
    "types": [
        {
            "name": "A",
            "initial": "a",
            "states": [{"name": "b", "require": [{"port": "p", "count": 2}, "q"]}, {"name": "a", "next": ["b", "b"]}],
        },
        {"name": "B", "initial": "b", "states": [{"name": "b", "provide": ["p", "p"]}]},
    ],
}


def read(text):
    with tempfile.TemporaryDirectory() as folder:
        path = pathlib.Path(folder) / "c.toml"
        path.write_text(text)
        return commands.read_commands(str(path))


class CommandsTest(unittest.TestCase):
    def test_the_first_that_fits_counts(self):
        rules, without = export.rules_of(steps_of(CROSSED), read(RULES), PossibleActions(), ())
        self.assertEqual(
            [rule and rule.number for rule in rules],
            [4, None, 4, None, 1, 2, None, 5, 4, None, 3, None, None, None, None],
        )
        self.assertEqual(without["A: a0 -> a1"], 2)
        self.assertIn("A: a0 -> a1 (2 times), B: b0 -> b1, A: a2 -> a3", export.kinds_of(without))

    def test_only_some_kinds_are_named(self):
        self.assertTrue(
            export.kinds_of({f"T{number}: new": 1 for number in range(15)}).endswith("T11: new and 3 more kinds")
        )

    def test_a_star_stands_for_a_part_of_one_name(self):
        for when, text, fits in (
            ("image/*: new", "image/a/b: new", True),
            ("*: new", "a: delete", False),
            ("*: a -> *", "T: a -> b", True),
            ("a: bind *", "a: bind p from q", True),
            ("a: bind p", "a: bind p from q", True),
            ("a: bind p", "a: bind pp from q", False),
            ("a: bind from", "a: bind from from from", True),
            ("a: bind p from r*", "a: bind p from q", False),
            ("a.b: new", "axb: new", False),
            ("*.b: new", "a.xb: new", False),
            ("*a*b*: new", "xaxxbx: new", True),
            ("*a*b*: new", "xbxxax: new", False),
            ("*: *a -> **", "T: aba -> c", True),
            ("a*: new", "b/a: new", False),
            (f"{'a*' * 30}b: new", f"{'a' * 64}: new", False),
        ):
            with self.subTest(when=when):
                self.assertEqual(Patterns([when]).first(text), 0 if fits else None)

    def test_of_two_without_a_star_the_first_counts_too(self):
        for whens in (("A: bind p from B", "A: bind p"), ("A: bind p", "A: bind p from B"), ("*: bind *", "A: bind p")):
            self.assertEqual(Patterns(whens).first("A: bind p from B"), 0)

    def test_faults_are_named(self):
        for text, reason in (
            ("x = 1", "the file: nothing is known of 'x'; there are env, hosts, instance, inventory, shell, step, timeout"),
            ("timeout = -1", "the file: timeout is not from 0 to 1000000"),
            ("timeout = true", "the file: timeout is no whole number"),
            ("step = 1", "the file: step is no list"),
            ("step = [1]", "step 1 is no table"),
            (STEP, "step 1 has neither run nor playbook"),
            (STEP + "run = 1", "step 1: run is no text"),
            (STEP + 'run = "a\\u0000"', "step 1: run has a byte that no script has"),
            (STEP + 'run = "a"\nlock = "a b"', "step 1: lock is no word of letters, digits and _"),
            (
                STEP + 'run = "a"\nretry = 1',
                "step 1: nothing is known of 'retry'; there are check, keeps, lock, pause, playbook, retries, run, timeout, when",
            ),
            (STEP + 'run = "a"\nretries = 1001', "step 1: retries is not from 0 to 1000"),
            (2 * (STEP + 'run = "a"\n'), "step 2: step 1 is for A: new already"),
            ('[[step]]\nwhen = "A: make"\nrun = ""', None),
            ('[[step]]\nwhen = "A: a b -> c"\nrun = ""', None),
            ('[[step]]\nwhen = "*"\nrun = ""', None),
            ('[[step]]\nwhen = "A: move b"\nrun = ""', None),
            ('[env]\nMETIS_X = "a"', "env: 'METIS_X' is no name for a variable of yours"),
            ('[env]\n"X;Y" = "a"', "env: 'X;Y' is no name for a variable of yours"),
            ("[env]\nX = 1", "env: X is no text"),
            ('[hosts."a b"]\n', "hosts: 'a b' is no table with the name of a host"),
            ("[hosts.a]\nvia = []", "host a: via is no list of words"),
            ('[hosts.a]\nvia = "ssh a"', "host a: via is no list of words"),
            ('[hosts.a]\nvia = ["a\\nb"]', "host a: via has a word with a character that is not printed"),
            ('[hosts.a]\naddress = "a b"', "host a: address is no word"),
            ("[hosts.a]\nport = 1", "host a: nothing is known of 'port'; there are address, via"),
            ('shell = "sh"', "shell is no list of words"),
        ):
            with self.subTest(text=text), self.assertRaises(Refused) as caught:
                read(text)
            if reason:
                self.assertEqual(str(caught.exception).split("c.toml: ")[1], reason)
            else:
                self.assertIn("step 1: ", str(caught.exception))
                self.assertIn(" is no 'TYPE: new', ", str(caught.exception))

    def test_what_is_no_script_and_no_toml_is_refused(self):
        for text, reason in (
            (STEP + 'run = "if"', "step 1 \\(A: new\\): "),
            (STEP + 'run = "}"', "step 1"),
            ("= 1", "Invalid"),
        ):
            with self.subTest(text=text), self.assertRaisesRegex(Refused, f"c.toml: {reason}"):
                read(text)

    def test_the_file_of_a_step_has_a_short_name(self):
        rule = read(f'[[step]]\nwhen = "{"x" * 300}: new"\nrun = "a"\n').rules[0]
        self.assertLess(len(rule.slug), 80)


class UniverseTest(unittest.TestCase):
    def test_a_misspelt_step_is_found(self):
        whole = PossibleActions(universes.types_in(json.dumps(UNIVERSE).encode(), "u"))
        for when, fits in (
            ("A: a -> b", True),
            ("A: b -> a", False),
            ("A: bind p", True),
            ("A: bind p from B", True),
            ("A: unbind p from *", True),
            ("A: bind q", False),
            ("B: bind p", False),
            ("B: delete", True),
            ("C: new", False),
            ("*: c -> *", False),
            ("A*: *a -> *", True),
            ("*: bind * from A", False),
            ("*: bind p* from *B", True),
            ("*: new", True),
        ):
            found = read(f'[[step]]\nwhen = "{when}"\nrun = "true"\n')
            with self.subTest(when=when):
                if fits:
                    found.patterns.check_fits(whole)
                else:
                    with self.assertRaises(Refused) as caught:
                        found.patterns.check_fits(whole)
                    self.assertTrue(str(caught.exception).startswith(f"step 1 ({when}) fits nothing in the universe"))

    def test_what_was_meant_is_named(self):
        whole = PossibleActions(universes.types_in(json.dumps(UNIVERSE).encode(), "u"))
        for when, meant in (("A: a -> bb", "A: a -> b"), ("AA: new", "A: new"), ("A: bind pp", "A: bind p")):
            with self.subTest(when=when), self.assertRaises(Refused) as caught:
                read(f'[[step]]\nwhen = "{when}"\nrun = "true"\n').patterns.check_fits(whole)
            self.assertTrue(str(caught.exception).endswith(f"fits nothing in the universe; did you mean {meant}?"))

    def test_without_a_universe_the_names_are_those_of_the_plan(self):
        of_plan = PossibleActions()
        for step in steps_of(CROSSED):
            of_plan.add(step.action)
        for when, fits in (
            ("A: delete", True),
            ("*: unbind *", True),
            ("A: a1 -> a0", True),
            ("A: a1 -> a9", False),
            ("C: new", False),
            ("A: bind z", False),
            ("A: bind y from C", False),
        ):
            found = read(f'[[step]]\nwhen = "{when}"\nrun = "true"\n')
            with self.subTest(when=when):
                if fits:
                    found.patterns.check_fits(of_plan)
                else:
                    self.assertRaisesRegex(Refused, "fits nothing in the plan", found.patterns.check_fits, of_plan)

    def test_types_have_their_initial_state_first(self):
        one, other = universes.types_in(json.dumps(UNIVERSE).encode(), "u")
        self.assertEqual([state.name for state in one.states], ["a", "b"])
        self.assertEqual(
            (one.states[0].next, one.states[1].require, other.states[0].provide), (("b",), {"p": 2, "q": 1}, ("p",))
        )

    def test_what_is_no_universe_is_refused(self):
        wrong = json.dumps(UNIVERSE)
        for text in (
            "{}",
            "{",
            "[]",
            '{"types": [1]}',
            wrong.replace('"B"', '"B\\u001b"'),
            wrong.replace('"initial": "a"', '"initial": 1'),
        ):
            with self.subTest(text=text), self.assertRaisesRegex(Refused, r"^u:1:\d+: .*\(bad universe U\d"):
                universes.types_in(text.encode(), "u")
        with self.assertRaisesRegex(Refused, "more than 4194304 bytes"):
            universes.types_in(b" " * 4_194_305, "u")


if __name__ == "__main__":
    unittest.main()
