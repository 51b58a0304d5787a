import contextlib
import fcntl
import io
import json
import os
import pathlib
import pty
import re
import struct
import subprocess
import sys
import tempfile
import termios
import unittest

from metis_planner.look import show
from metis_planner.text import plans
from tests.carry.shapes import CROSSED, REBOUND, WEB
from tests.test_words import TOP, run
from tests.text.test_plans import EXPLANATION, PLAN, REFUSAL

TWO = "metis plan 1\ninstances 2 actions 3 dups 0\n1 new 0 Web\n2 new 1 Db\n3 move 1 off on\nend\n"
TIMES = "1 at 0 to 7\n2 at 0 to 0\n3 at 5 to 5\nfinish 12\nchain 2 3\n"


def on_a_terminal(columns, *words, text=""):
    """The lines that a command prints on a terminal of so many columns."""
    parent, child = pty.openpty()
    fcntl.ioctl(child, termios.TIOCSWINSZ, struct.pack("HHHH", 24, columns, 0, 0))
    environment = {name: each for name, each in os.environ.items() if name not in ("COLUMNS", "LINES")}
    command = [sys.executable, "-m", "metis_planner", *words]
    with subprocess.Popen(command, cwd=TOP, stdin=subprocess.PIPE, stdout=child, env=environment) as process:
        os.close(child)
        process.stdin.write(text.encode())
        process.stdin.close()
        found = b""
        with contextlib.suppress(OSError), io.FileIO(parent) as file:
            while data := file.read(65536):
                found += data
    return found.decode().replace("\r\n", "\n").splitlines()


class ShowTest(unittest.TestCase):
    def shown(self, text):
        status, shown, fault = run("-m", "metis_planner", "show", text=text)
        self.assertEqual((status, fault), (0, ""))
        return [" ".join(line.split()) for line in shown.split("\n")[:-1]]

    def test_a_plan(self):
        expected = [
            "1 make Web#0",
            "2 make Db#1",
            "3 Db#1: off -> on",
            "4 Web#0 takes sql from Db#1 after 3",
            "5 Web#0 lets sql of Db#1 go",
            "6 delete Db#1 after 5",
            "Db#1 is one more Db for on. Without it these would wait for each other:",
            "1. 0.2 waits for 2",
            "2. 1.end waits for 1 again",
        ]
        self.assertEqual(self.shown(PLAN), expected)

    def test_a_double_with_its_circle_in_words(self):
        """Worked out by hand from the life lines of the plan: 0.2 is the second step of instance 0, and so on."""
        status, shown, _ = run("-m", "metis_planner", "show", text=CROSSED)
        self.assertEqual((status, "would wait for the next" in shown), (0, False))
        lines = [line.strip() for line in shown.splitlines()]
        at = lines.index("A#2 is one more A for a1. Without it these would wait for each other:")
        self.assertEqual(lines[at + 1], "1. A#0: a1 -> a2 waits for 2")
        self.assertTrue(lines[-1].endswith("waits for 1 again, in its own order"))

    def test_only_what_is_named(self):
        for pattern, numbers, others in (("Db*", [2, 3], 3), ("Web#0", [1, 4, 5], 2), ("Db", [2, 3], 3), ("*", [1, 2, 3, 4, 5], 0)):
            status, shown, _ = run("-m", "metis_planner", "show", "--only", pattern, text=WEB)
            lines = shown.splitlines()
            self.assertEqual([int(line.split()[0]) for line in lines if "other instances" not in line], numbers, pattern)
            self.assertEqual(f"and {others} of other instances" in shown, others > 0)
        status, shown, _ = run("-m", "metis_planner", "show", "--only", "Db*", "--only", "Web*", text=WEB)
        self.assertEqual(len(shown.splitlines()), 5)

    def test_what_may_go_on_at_once(self):
        status, shown, _ = run("-m", "metis_planner", "show", "--stage", text=WEB)
        expected = [
            "stage 1: 1 make Web#0; 2 make Db#1",
            "stage 2: 3 Db#1: off -> on",
            "stage 3: 4 Web#0 takes sql from Db#1",
            "stage 4: 5 Web#0: off -> run",
        ]
        self.assertEqual(shown.splitlines(), expected)

    def test_on_a_terminal_no_line_is_wider_than_it_and_the_first_says_how_much_there_is(self):
        name = "Deployment-of-a-workflow-controller-with-a-long-name"
        lines = [f"{n + 1} new {n} {name}" for n in range(30)]
        lines += [f"{n + 31} bind some-port-of-it {n} 29" for n in range(20)]
        lines += [f"51 delete 29 after {', '.join(map(str, range(31, 51)))}".replace(", ", " ")]
        text = f"metis plan 1\ninstances 30 actions 51 dups 0\n{chr(10).join(lines)}\nend\n"
        plan = plans.read(text)
        for columns in (40, 60, 80, 120, 200):
            look = show.Look()
            look.columns = columns
            for look.by_stage in (False, True):
                found = list(show.plan_lines(plan, look))
                self.assertLessEqual(max(map(len, found)), columns)
                self.assertEqual(found[0], "30 instances, 51 actions, 3 stages")
        wide = list(show.plan_lines(plan, show.Look()))
        self.assertGreater(max(map(len, wide)), 80)
        self.assertEqual(len(wide), 51)
        for text in show.first_of("after 1, 2, 3, 4, 5, 6", 19), show.first_of("after 1, 2, 3", 99):
            self.assertIn(text, ("after 1, 2 and 4 more", "after 1 and 5 more", "after 1, 2, 3"))

    def test_it_is_as_wide_as_the_terminal(self):
        name = "Deployment-of-a-workflow-controller-with-a-long-name"
        lines = "".join(f"{n + 1} new {n} {name}\n" for n in range(9))
        text = f"metis plan 1\ninstances 9 actions 9 dups 0\n{lines}end\n"
        for columns, widest in ((40, 40), (120, len(f"   1  make {name}#0"))):
            shown = [re.sub(r"\x1b\[[0-9;]*m", "", line) for line in on_a_terminal(columns, "show", "-", text=text)]
            self.assertEqual((len(shown), shown[0]), (10, "9 instances, 9 actions, 1 stage"))
            self.assertNotIn("after", "".join(shown))
            self.assertEqual(max(map(len, shown)), widest)

    def test_on_a_terminal_what_is_kept_and_what_is_doubled_is_no_wider_than_it(self):
        name = "Deployment-of-a-workflow"
        old = [f"{n + 1} new {n} {name}" for n in range(12)]
        text = f"metis plan 1\ninstances 12 actions 13 dups 0\n{chr(10).join(old)}\n13 delete 11\nend\n"
        for columns in (40, 60, 80):
            look = show.Look(old=12)
            look.columns = columns
            found = list(show.plan_lines(plans.read(text), look))
            self.assertLessEqual(max(map(len, found)), columns)
            words = [line.replace(",", " ").split() for line in found[1:]]
            for n in range(11):
                self.assertEqual(sum(f"{name}#{n}" in line for line in words), 1, found)
            look.old = None
            found = list(show.plan_lines(plans.read(CROSSED.replace("A:a1", f"A:a{1:040}").replace("a1", f"a{1:040}")), look))
            self.assertLessEqual(max(map(len, found)), columns)
            self.assertIn("Without it these would wait for each other:", " ".join(" ".join(found).split()))

    def test_a_refusal(self):
        expected = ["port:sql is not attained; these 2 pairs are:", "Db:off", "Web:off"]
        self.assertEqual(self.shown(REFUSAL), expected)

    def test_an_explanation(self):
        expected = [
            "port:http, provided by Web:run and Web:slow alone, is not attained, since",
            "Web:run needs sql, which nothing provides",
            "Web:slow is reached from Web:off or Web:on alone",
            "Web:off is where its type starts, but needs disk; else it is reached from nowhere",
            "Web:on needs from, provided by Db:from alone",
        ]
        self.assertEqual(self.shown(EXPLANATION), expected)

    def test_json(self):
        status, shown, _ = run("-m", "metis_planner", "show", "--json", text=PLAN)
        value = json.loads(shown)
        self.assertEqual((status, value["kind"], len(value["actions"])), (0, "plan", 6))
        bind = {
            "number": 4,
            "action": "bind",
            "instance": 0,
            "type": "Web",
            "port": "sql",
            "provider": 1,
            "provider_type": "Db",
            "after": [3],
        }
        self.assertEqual(value["actions"][3], bind)
        move = {"number": 3, "action": "move", "instance": 1, "type": "Db", "from": "off", "to": "on", "after": []}
        self.assertEqual(value["actions"][2], move)
        self.assertEqual(value["dups"], [{"pair": "Db:on", "cycle": ["0.2", "1.end"]}])
        _, shown, _ = run("-m", "metis_planner", "show", "--json", text=REFUSAL)
        self.assertEqual(json.loads(shown), {"kind": "refusal", "lacks": "port:sql", "pairs": ["Db:off", "Web:off"]})
        _, shown, _ = run("-m", "metis_planner", "show", "--json", text=EXPLANATION)
        expected = {
            "kind": "explanation",
            "lacks": "port:http",
            "providers": ["Web:run", "Web:slow"],
            "lines": [
                {"pair": "Web:run", "starts": False, "needs": "sql", "provided_by": []},
                {"pair": "Web:slow", "starts": False, "comes_from": ["Web:off", "Web:on"]},
                {"pair": "Web:off", "starts": True, "needs": "disk", "comes_from": []},
                {"pair": "Web:on", "starts": False, "needs": "from", "provided_by": ["Db:from"]},
            ],
        }
        self.assertEqual(json.loads(shown), expected)

    def test_bad_input_gets_one_line_and_status_1(self):
        self.assertEqual(
            run("-m", "metis_planner", "show", text="good standing 1\n"),
            (1, "", "metis: line 1: no plan, refusal or explanation, but 'good standing 1'\n"),
        )
        status, shown, line = run("-m", "metis_planner", "show", "/nowhere/plan.txt")
        self.assertEqual((status, shown, line.count("\n")), (1, "", 1))

    def test_a_byte_that_no_text_has(self):
        text = PLAN.replace("Web", "W\x1b[31m")
        self.assertEqual(run("-m", "metis_planner", "show", text=text), (1, "", "metis: -: line 3: a byte that no text of Metis has\n"))


class ChangeTest(unittest.TestCase):
    """A plan that goes on from another one."""

    def shown(self, text, *words):
        with tempfile.TemporaryDirectory() as folder:
            path = pathlib.Path(folder) / "old.txt"
            path.write_text(WEB)
            return run("-m", "metis_planner", "show", "--from", str(path), *words, text=text)

    def test_what_is_kept_new_and_going(self):
        expected = [
            "kept   Web#0 (run)",
            "new    Db#2 (on)",
            "going  Db#1 (on)",
            "the first 5 actions are done, and 5 are left",
            "   6  new    make Db#2",
            "   7  new    Db#2: off -> on",
            "   8  kept   Web#0 takes sql from Db#2  after 7",
            "   9  kept   Web#0 lets sql of Db#1 go",
            "  10  going  delete Db#1                after 9",
        ]
        self.assertEqual(self.shown(REBOUND), (0, "".join(f"{line}\n" for line in expected), ""))

    def test_nothing_that_is_left(self):
        self.assertEqual(self.shown(WEB)[1], "kept   Web#0 (run), Db#1 (on)\nnothing is left to do\n")

    def test_json(self):
        value = json.loads(self.shown(REBOUND, "--json")[1])
        self.assertEqual((value["done"], len(value["actions"])), (5, 10))
        self.assertEqual([row["role"] for row in value["instances"]], ["kept", "going", "new"])

    def test_answers_to_wishes(self):
        for line, words in (
            ("absent 7", "a wish names instance 7, which does not stand"),
            ("kept 0 on 1", "instance 0 is to stay, and instance 1, on which that depends, goes"),
            ("unavoidable Web:run", "no new instance reaches Web:run without what is to be avoided"),
            ("unmet 0 sql", "instance 0 is to take sql from another, and none can be had"),
            ("needs 300", "300 targets are missing, and at most 256 are planned for at a time"),
            ("bad wishes twice 3", "wishes: line 3 has a wrong twice"),
            ("bad wishes short", "wishes: it ends before the line `end`"),
        ):
            self.assertEqual(run("-m", "metis_planner", "show", text=f"{line}\n"), (0, f"{words}\n", ""))

    def test_what_does_not_go_on_from_it(self):
        self.assertIn("it does not begin with the 5 actions of", self.shown(PLAN)[2])
        self.assertEqual(self.shown(REFUSAL)[2], "metis: --from OLD is for a plan, and this is none\n")


class OverAPlanTest(unittest.TestCase):
    def shown(self, text, *words, plan=TWO):
        with tempfile.TemporaryDirectory() as folder:
            path = pathlib.Path(folder) / "plan.txt"
            path.write_text(plan)
            return run("-m", "metis_planner", "show", "--plan", str(path), *words, text=text)

    def lines(self, text, plan=TWO):
        status, shown, fault = self.shown(text, plan=plan)
        self.assertEqual((status, fault), (0, ""))
        return [" ".join(line.split()) for line in shown.split("\n")[:-1]]

    def refused(self, text, plan=TWO):
        status, shown, line = self.shown(text, plan=plan)
        self.assertEqual((status, shown), (1, ""))
        return line

    def test_times(self):
        expected = [
            "1 make Web#0 at 0 to 7",
            "2 make Db#1 at 0 chain",
            "3 Db#1: off -> on at 5 chain",
            "all is done at 12, which the actions of the chain take one after the other",
        ]
        self.assertEqual(self.lines(TIMES), expected)

    def test_times_as_json(self):
        value = json.loads(self.shown(TIMES, "--json")[1])
        self.assertEqual((value["kind"], value["finish"], value["chain"]), ("schedule", 12, [2, 3]))
        expected = {"number": 1, "action": "new", "instance": 0, "type": "Web", "after": [], "earliest": 0, "latest": 7}
        self.assertEqual(value["actions"][0], expected)

    def test_no_action_takes_no_time(self):
        empty = "metis plan 1\ninstances 0 actions 0 dups 0\nend\n"
        self.assertEqual(len(self.lines("finish 0\nchain\n", plan=empty)), 1)

    def test_hosts(self):
        text = "on 0 left\non 1 right\nhold 3 after 1 2\nplaced 2 hosts 2\n"
        self.assertEqual(self.lines(text), ["Web#0 on left", "Db#1 on right", "3 Db#1: off -> on waits for room, after 1, 2"])
        value = json.loads(self.shown(text, "--json")[1])
        self.assertEqual(value["instances"][1], {"instance": 1, "type": "Db", "host": "right"})
        self.assertEqual(value["holds"], [{"action": 3, "after": [1, 2]}])

    def test_no_room(self):
        expected = "no host has room for Db#1, of size 4, which action 2 makes; the most that is free is 3"
        self.assertEqual(self.lines("noroom 2 size 4 free 3\n"), [expected])

    def test_the_plan_has_to_be_named(self):
        for text in (TIMES, "on 0 left\n", "noroom 2 size 4 free 3\n"):
            reason = "metis: its numbers are those of a plan: name it, --plan PLAN\n"
            self.assertEqual(run("-m", "metis_planner", "show", text=text), (1, "", reason))
        self.assertTrue(self.refused(TIMES, plan=REFUSAL).endswith("plan.txt: no plan, but a text that says that port:sql is not attained\n"))

    def test_a_text_of_another_plan(self):
        for text, reason in (
            ("1 at 0 to 7\n", "line 1: 1 lines, where the plan has 3 actions, and two lines follow them"),
            (TIMES.replace("2 at", "4 at"), "line 2: not '2 at E to L'"),
            (TIMES.replace("finish", "ends"), "line 4: not 'finish T'"),
            (TIMES.replace("chain 2", "chain 9"), "line 5: the plan has no action 9"),
            (TIMES.replace("chain 2", "chain x"), "line 5: not 'chain' and the numbers of actions"),
            (TIMES.replace("at 5", "at " + "5" * 5000), "line 3: not '3 at E to L'"),
            (TIMES[:-1], "line 5: the text ends inside a line"),
            ("on 1 left\n", "line 1: not 'on 0 HOST', as the plan makes its instances"),
            ("on 0 left\non 1 left\nhold 4 after 1\nplaced 2 hosts 1\n", "line 3: the plan has no action 4"),
            ("on 0 left\non 1 left\nhold\nplaced 2 hosts 1\n", "line 3: not 'hold K after' and the numbers of actions"),
            ("on 0 left\non 1 left\nplaced 3 hosts 1\n", "line 3: not 'placed 2 hosts H'"),
            ("on 0 left\n", "line 1: not 'placed 2 hosts H'"),
            ("noroom 7 size 1 free 0\n", "line 1: the plan has no action 7"),
            ("noroom 1 size 1\n", "line 1: not 'noroom K size S free F' alone"),
        ):
            self.assertEqual(self.refused(text), f"metis: {reason}\n", text)

    def test_two_texts_cannot_both_be_standard_input(self):
        line = "metis: standard input cannot be both texts\n"
        self.assertEqual(run("-m", "metis_planner", "show", "--plan", "-", text=TIMES), (1, "", line))
