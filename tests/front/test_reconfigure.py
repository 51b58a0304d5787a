"""What the front says of the lines by which `reconfigure` refuses: which file and line, what is near, and what to do."""

import os
import pathlib
import tempfile
import unittest
from unittest import mock

from metis_planner import front
from tests.stand_in import Answer, stand_in

WEB = """{"aeolus":1,"types":[
{"name":"Db","initial":"off","states":[{"name":"off","next":["on"]},{"name":"on","provide":["sql"]}]},
{"name":"Web","initial":"off","states":[{"name":"off","next":["run"]},{"name":"run","provide":["http"],"require":["sql"]}]},
{"name":"Lb","initial":"off","states":[{"name":"off","next":["on"]},{"name":"on","require":["http"]}]}]}
"""
# 0 balances over 1, which takes from 2; 3 was there and is deleted.
PLAN = """metis plan 1
instances 4 actions 10 dups 0
1 new 3 Db
2 delete 3
3 new 0 Lb
4 new 1 Web
5 new 2 Db
6 move 2 off on
7 bind sql 1 2 after 6
8 move 1 off run
9 bind http 0 1 after 8
10 move 0 off on
end
"""


def wishes(*lines):
    return "".join(f"{line}\n" for line in ("metis wishes 1", *lines, "end"))


class SaidTest(unittest.TestCase):
    def setUp(self):
        folder = tempfile.TemporaryDirectory()
        self.addCleanup(folder.cleanup)
        self.folder = pathlib.Path(folder.name)
        self.addCleanup(os.chdir, os.getcwd())
        os.chdir(self.folder)

    def said(self, text, line, status, *targets, plan=PLAN):
        """What is said where the program answers this line to this text of wishes."""
        files = {"web.json": WEB, "plan.txt": plan, "wishes.txt": text}
        for name, content in files.items():
            pathlib.Path(name).write_text(content)
        program = stand_in(self.folder, [Answer(["reconfigure", WEB, plan, text, *targets], f"{line}\n", status)])
        with mock.patch.dict(os.environ, {"METIS_COMMAND": str(program)}):
            return front.sentences(status, ["reconfigure", *files, *targets])

    def test_an_instance_that_does_not_stand(self):
        there = "what stands after it: Lb#0, Web#1, Db#2"
        self.assertEqual(
            self.said(wishes("keep 0", "retire 7"), "absent 7", 1), ["wishes.txt:3: retire 7: plan.txt makes no instance 7", there]
        )
        self.assertEqual(
            self.said(wishes("keep 3"), "absent 3", 1), ["wishes.txt:2: keep 3: step 2 of plan.txt deletes Db#3", there]
        )

    def test_a_wish_for_what_stands_on_what_goes(self):
        self.assertEqual(
            self.said(wishes("retire 2", "keep 1"), "kept 1 on 2", 1),
            [
                "wishes.txt:3: keep 1: Web#1 stands on Db#2, which goes by line 2, retire 2",
                "to let Web#1 be bound to another one in its place, say: rebind 1 in place of keep 1",
            ],
        )
        self.assertEqual(
            self.said(wishes("keep 0", "avoid Db:on"), "kept 0 on 2", 1),
            [
                "wishes.txt:2: keep 0: Lb#0 stands on Db#2, which goes by line 3, avoid Db:on",
                "to let Web#1 be bound to another one in its place, say: rebind 1",
            ],
        )
        self.assertEqual(
            self.said(wishes("rebind 2", "avoid Db"), "kept 2 on 2", 1),
            ["wishes.txt:2: rebind 2: Db#2 is to stay, and goes by line 3, avoid Db", "take one of the two lines out"],
        )

    def test_a_target_that_is_avoided_or_needs_what_is(self):
        self.assertEqual(
            self.said(wishes("avoid Db:off", "avoid Web:run"), "unavoidable Web:run", 1, "Web:run"),
            [
                "wishes.txt:3: avoid Web:run: Web:run is a target, and nothing that stays serves it",
                "take the line or the target out",
            ],
        )
        self.assertEqual(
            self.said(wishes("keep all", "avoid Db"), "unavoidable Web:run", 1, "Web:run"),
            [
                "wishes.txt:3: Web:run cannot be attained without what is avoided (avoid Db), and nothing that stays serves it",
                "metis plan web.json Web:run shows what it is made of",
            ],
        )

    def test_a_port_that_nobody_else_provides(self):
        self.assertEqual(
            self.said(wishes("avoid Db", "rebind 1"), "unmet 1 sql", 1, "Web:run"),
            [
                "wishes.txt:3: rebind 1: Web#1 has to take sql from another, since Db#2 goes, and none can be had",
                "Db:on would provide it, which line 2 avoids",
            ],
        )

    def test_more_than_can_be_planned_for(self):
        said = self.said(wishes(), "needs 300", 1)
        self.assertEqual(said, ["300 targets are missing, and at most 256 are planned for at a time: ask for fewer, and then for the rest"])

    def test_the_refusals_of_the_plan_and_of_the_targets_are_as_ever(self):
        plan = PLAN.replace("9 bind http 0 1 after 8\n10 move 0 off on\n", "9 move 0 off on\n10 bind http 0 1 after 8\n")
        said = self.said(wishes(), "bad 9 A9 0 http", 1, plan=plan)
        self.assertEqual(said, ["step 9, Lb#0: off -> on, would leave Lb#0 with 0 of 1 http"])
        refusal = "metis refusal 1\nlacks Web:run\npairs 0\nend"
        self.assertEqual(self.said(wishes(), refusal, 1, "Web:run")[0], "Web:run cannot be attained, so there is no plan")

    def test_faults_of_the_text(self):
        forms = "keep Z, keep all, rebind Z, retire Z, avoid TYPE:STATE or avoid TYPE"
        for lines, line, said in (
            (("keep 00",), "bad wishes line 2", f"wishes.txt:2: no wish, which is {forms}: keep 00"),
            (("keep 0", "retire all"), "bad wishes line 3", f"wishes.txt:3: no wish, which is {forms}: retire all"),
            (("end", "keep 0"), "bad wishes line 3", "wishes.txt:3: the text goes on behind 'end': keep 0"),
            (("keep 4294967296",), "bad wishes number 2", "wishes.txt:2: has a number that is too large or not in order: keep 4294967296"),
            (("avoid Wbe",), "bad wishes name 2", "wishes.txt:2: no type Wbe in web.json, did you mean Web?: avoid Wbe"),
            (("avoid Web:rnu",), "bad wishes name 2", "wishes.txt:2: no state rnu of Web, which has off, run; did you mean Web:run?: avoid Web:rnu"),
            (("keep 0", "retire 0"), "bad wishes twice 3", "wishes.txt:3: line 2 says keep 0 already: retire 0"),
            (("avoid Db", "keep all", "avoid Db"), "bad wishes twice 4", "wishes.txt:4: line 2 says avoid Db already: avoid Db"),
            (("keep all", "keep all"), "bad wishes twice 3", "wishes.txt:3: line 2 says keep all already: keep all"),
        ):
            with self.subTest(lines=lines):
                self.assertEqual(self.said(wishes(*lines), line, 3), [said])

    def test_other_texts_in_its_place(self):
        for text, said in (
            ("", ["wishes.txt is empty, and the wishes stand here: a text without a wish is the lines 'metis wishes 1' and 'end'"]),
            ("metis wishes 1\nkeep 0\n", ["wishes.txt was cut off: it ends before the line 'end'. Did the command that wrote it fail?"]),
            (PLAN, ["wishes.txt is a plan, and the wishes stand here", "usage: metis reconfigure UNIVERSE PLAN WISHES [TARGET ..]"]),
        ):
            with self.subTest(text=text):
                self.assertEqual(self.said(text, "bad wishes short", 3), said)

    def test_what_is_too_long_or_cannot_be_read(self):
        text = wishes(*(f"keep {number}" for number in range(9_000)))
        self.assertEqual(
            self.said(text, "too long 4", 3), [f"wishes.txt has {len(text)} bytes, more than is read of wishes (docs/FORMATS.md has the limits)"]
        )
        with mock.patch.dict(os.environ, {"METIS_COMMAND": str(stand_in(self.folder, []))}):
            words = ["reconfigure", "web.json", "plan.txt", "wishs.txt"]
            stand_in(self.folder, [Answer(["reconfigure", WEB, PLAN, "wishs.txt"], "read fault 4\n", 4)])
            self.assertEqual(front.sentences(4, words), ["no such file: wishs.txt; did you mean wishes.txt?"])


if __name__ == "__main__":
    unittest.main()
