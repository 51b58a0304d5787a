"""`up` over a folder: from nothing, once more, and from what stands there to something else, with wishes and without."""

import functools
import json
import os
import pathlib
import subprocess
from unittest import mock

from tests.carry.shapes import LINE, WEB, WHENS, FolderCase, call, plan_text
from tests.stand_in import Answer, asked, stand_in

UNIVERSE = """{"aeolus":1,"types":[
{"name":"Db","initial":"off","states":[{"name":"off","next":["on"]},{"name":"on","provide":["sql"]}]},
{"name":"Web","initial":"off","states":[{"name":"off","next":["run"]},{"name":"run","require":["sql"]}]}]}
"""
# The same, where a server needs a cache as well, and where it needs nothing.
CACHE = '{"name":"Cache","initial":"off","states":[{"name":"off","next":["on"]},{"name":"on","provide":["cache"]}]}'
CACHED = UNIVERSE.replace('"require":["sql"]', '"require":["sql","cache"]').replace("]}]}\n", f"]}},\n{CACHE}]}}\n")
NO_WISHES = "metis wishes 1\nend\n"
ANEW = "metis wishes 1\nrebind 0\nretire 1\nend\n"
STAYS = "metis wishes 1\nretire 1\nkeep 0\nend\n"
EMPTY = "metis plan 1\ninstances 0 actions 0 dups 0\nend\n"
# What stands when WEB is done, by a list of what stands; and how the program goes on from that.
LINES = ("new 1 Db", "move 1 off on", "new 0 Web", "bind sql 0 1", "move 0 off run")
STANDS = plan_text(*LINES)
WIDENED = ("new 2 Web", "bind sql 2 1", "move 2 off run")
REBOUND = ("new 2 Db", "move 2 off on", "bind sql 0 2", "unbind sql 0 1", "delete 1")
LESS = ("delete 0",)
# What is half made where the move of Db fails, and the rest of that plan.
HALF = ("new 0 Web", "new 1 Db", "move 1 off on")


def goes_on(wishes, lines, more, *targets, universe=UNIVERSE):
    """The program's answer: that a list goes on so."""
    return Answer(["reconfigure", universe, plan_text(*lines), wishes, *targets], with_waits(plan_text(*lines, *more)))


def with_waits(text):
    """The same list with its waits, which in these lists are those of bindings and of what they led to."""
    lines = text.split("\n")
    entered, freed, found = {}, {}, lines[:2]
    for line in lines[2:-2]:
        number, verb, *words = line.split(" ")
        waits = []
        if verb in ("new", "move"):
            entered[words[0]] = number
        if verb == "bind":
            waits = [entered[words[2]]]
        if verb == "unbind":
            freed[words[2]] = number
        if verb == "delete" and words[0] in freed:
            waits = [freed[words[0]]]
        found.append(line + "".join(f" after {each}" for each in waits))
    return "\n".join([*found, "end", ""])


ANSWERS = [
    Answer(["plan", UNIVERSE, "Web:run"], WEB),
    Answer(["plan", UNIVERSE, "Db:on"], plan_text("new 0 Db", "move 0 off on")),
    goes_on(NO_WISHES, LINES, WIDENED, "Web:run", "Web:run"),
    goes_on(NO_WISHES, LINES, LESS, "Db:on"),
    goes_on(ANEW, LINES, REBOUND, "Web:run"),
    goes_on("metis wishes 1\nrebind 0\nend\n", LINES, (), "Web:run"),
    goes_on("metis wishes 1\nretire 1\nrebind 0\nend\n", LINES, REBOUND, "Web:run"),
    Answer(["reconfigure", UNIVERSE, STANDS, STAYS, "Web:run"], "kept 0 on 1\n", 1),
    Answer(["plan", UNIVERSE], EMPTY),
    Answer(["reconfigure", UNIVERSE, STANDS, "metis wishes 1\nkeep\nend\n", "Web:run"], "bad wishes line 2\n", 3),
    Answer(["reconfigure", UNIVERSE, EMPTY, ANEW, "Web:run"], "absent 0\n", 1),
    goes_on(NO_WISHES, ("new 0 Web", *HALF[1:]), ("delete 0",), "Db:on"),
]


class UpCase(FolderCase):
    """Calls of `up` with a program that has these answers, and that judges each list of actions by its rules."""

    answers = ANSWERS

    def setUp(self):
        super().setUp()
        self.universe = self.top / "web.json"
        self.universe.write_text(UNIVERSE)
        (self.top / "wishes").write_text(ANEW)
        program = stand_in(self.top, self.answers, judged=("replay", "waits"))
        # What make says of its progress is not for whoever reads the tests.
        quiet = mock.Mock(run=functools.partial(subprocess.run, stdout=subprocess.DEVNULL, stderr=subprocess.DEVNULL))
        for patch in (
            mock.patch.dict(os.environ, {"METIS_COMMAND": str(program)}),
            mock.patch("metis_planner.carry.exporting.subprocess", quiet),
        ):
            patch.start()
            self.addCleanup(patch.stop)

    def up(self, *targets, more=("--yes",), commands=None):
        (self.top / "c.toml").write_text(commands or self.commands())
        words = ["--commands", self.top / "c.toml", "--to", self.folder, "-j", "1", *more]
        return call("up", self.universe, *targets, *words)

    def stands(self, *targets, more=("--yes",), **options):
        """Brings it up, and takes care that all is done."""
        status, shown, said = self.up(*targets, more=more, **options)
        self.assertEqual(status, 0, said)
        self.assertEqual(self.left(), [])
        return shown, said

    def left(self):
        done = json.loads(call("status", self.folder, "--json")[1])["actions"]
        return [row["what"] for row in done if row["stage"] != "done"]

    def asked_of(self, word):
        return [words for words in asked(self.top) if words[0] == word]

    def did(self):
        """What the steps did, by name and verb, since the last look."""
        found = [" ".join(line.split()[1:3]) for line in self.trace()]
        (self.top / "trace").unlink(missing_ok=True)
        return found


class UpTest(UpCase):
    def test_from_nothing_and_once_more(self):
        self.stands("Web:run")
        self.stands("Web:run")
        self.assertEqual(self.numbers(), [1, 2, 3, 4, 5])
        self.assertEqual([words[0] for words in asked(self.top)], ["plan"])

    def test_one_more_beside_what_stands(self):
        self.stands("Web:run")
        self.did()
        shown, _ = self.stands("Web:run", "Web:run")
        self.assertEqual(
            shown.splitlines(),
            [
                "kept     Web#0 (run)",
                "kept     Db#1 (on)",
                "new      Web#2",
                "  make Web#2",
                "  Web#2 takes sql from Db#1",
                "  Web#2: off -> run",
            ],
        )
        self.assertEqual(self.did(), ["Web-2 new", "Web-2 bind", "Web-2 move"])
        self.assertEqual((self.folder / "rollouts").read_text(), "5 8 8\n")
        self.assertEqual((self.folder / "universe.json").read_text(), UNIVERSE)
        # The same once more is what stands, and the program is not asked.
        count = len(asked(self.top))
        self.stands("Web:run", "Web:run")
        self.assertEqual((len(asked(self.top)), self.did()), (count, []))

    def test_by_wishes_what_goes_is_left_until_the_new_stands(self):
        self.stands("Web:run")
        self.did()
        fails = self.commands(LINE + '[ "$METIS_VERB" != unbind ]\n')
        more = ["--yes", "--wishes", self.top / "wishes", "--delete", "Db#1"]
        self.assertEqual(self.up("Web:run", more=more, commands=fails)[0], 1)
        self.assertEqual(self.did(), ["Db-2 new", "Db-2 move", "Web-0 bind", "Web-0 unbind"])
        self.assertEqual((self.folder / "rollouts").read_text(), "5 8 10\n")
        self.assertIn("done/1.3: | done/1.2 done/0.5 fresh-1\n", (self.folder / "Makefile").read_text())
        self.assertEqual(json.loads((self.folder / "request.json").read_text())["wishes"], ANEW)
        # The same call goes on from there, and is not planned anew.
        count = len(self.asked_of("reconfigure"))
        shown, _ = self.stands("Web:run", more=more)
        self.assertEqual(shown.splitlines()[0], "8 actions are done, 2 are left of what was begun")
        self.assertEqual((len(self.asked_of("reconfigure")), self.did()), (count, ["Web-0 unbind", "Db-1 delete"]))

    def test_at_rest_the_list_has_nothing_that_is_gone(self):
        self.stands("Web:run")
        self.stands("Web:run", more=["--yes", "--wishes", self.top / "wishes", "--delete", "Db"])
        self.assertNotIn("Db#1", json.dumps(self.left()) + (self.folder / "plan.txt").read_text())
        self.assertEqual([line.split(" ")[1:3] for line in (self.folder / "plan.txt").read_text().split("\n")[2:4]], [["new", "2"], ["move", "2"]])
        self.assertEqual(len(self.marks()), 5)
        # What was there before is kept, and read as before; who is gone is never made again.
        self.assertIn("delete 1", (self.folder / "past" / "2" / "plan.txt").read_text())
        self.assertEqual(call("log", self.folder / "past" / "2", "Db#1")[0], 0)
        self.did()
        self.assertEqual(call("retry", self.folder, "Db#2")[0], 0)
        self.make()
        self.assertEqual(self.did(), ["Db-2 move", "Web-0 bind", "Web-0 move"])

    def test_a_plan_that_another_command_wrote_into_the_folder_is_none_of_its_own(self):
        self.stands("Web:run")
        self.exported(with_waits(plan_text(*("new 0 Web", "new 1 Db", "move 1 off on", "bind sql 0 1", "move 0 off run"), "new 2 Db")))
        self.up("Web:run")
        self.assertEqual([words[0] for words in asked(self.top)][:1], ["plan"])
        self.assertTrue(self.asked_of("replay"))

    def test_nothing_is_done_before_somebody_agrees(self):
        self.stands("Web:run")
        self.did()
        before = (self.folder / "plan.txt").read_text()
        status, shown, said = self.up("Web:run", more=["--wishes", self.top / "wishes"])
        self.assertEqual((status, said), (1, f"In {self.folder}: 5 actions; DELETE Db#1 with all data? [y/N] metis: nothing was done\n"))
        self.assertIn("going    Db#1 (on)", shown)
        self.assertEqual(((self.folder / "plan.txt").read_text(), self.did()), (before, []))

    def test_what_is_refused_is_said_with_the_names_that_were_given(self):
        self.stands("Web:run")
        wishes = self.top / "wishes"
        kept = "keep 0: Web#0 stands on Db#1, which goes by line 2, retire 1; to let Web#0 be bound to another one in its place, say: rebind 0 in place of keep 0"
        for text, line in (
            (STAYS, f"{wishes}:3: {kept}"),
            ("metis wishes 1\nkeep\nend\n", f"{wishes}:2: no wish, which is keep Z, keep all, rebind Z, retire Z, avoid TYPE:STATE or avoid TYPE: keep"),
            ("rebind 0\n", f"{wishes}: wishes begin with the line 'metis wishes 1', and end with the line 'end'"),
        ):
            wishes.write_text(text)
            status, shown, said = self.up("Web:run", more=["--yes", "--wishes", wishes])
            self.assertEqual((status, shown, said), (1, "", f"metis: {line}\n"))
        self.folder = self.top / "other"
        wishes.write_text(ANEW)
        said = self.up("Web:run", more=["--yes", "--wishes", wishes])[2]
        self.assertEqual(said, f"metis: {wishes}:2: rebind 0: the plan of what stands in {self.folder} makes no instance 0; nothing stands after it\n")

    def test_wishes_by_names(self):
        self.stands("Web:run")
        self.did()
        for lines, reason in (
            (["retire Db#7"], "retire Db#7: instance 7 is not there; there are Db#1"),
            (["retire Db#0"], "retire Db#0: instance 0 is a Web; there are Db#1"),
            (["rebind Cache"], "rebind Cache: no Cache stands"),
        ):
            words = [word for line in lines for word in ("--wish", line)]
            self.assertEqual(self.up("Web:run", more=["--yes", *words])[2], f"metis: {reason}\n")
        # `all` is each that takes from what goes, and that no other line names.
        self.stands("Web:run", more=["--yes", "--wish", "retire Db", "--wish", "rebind all", "--delete", "Db#1"])
        self.assertEqual(self.asked_of("reconfigure")[-1][3], "metis wishes 1\nretire 1\nrebind 0\nend\n")

    def test_words_of_a_folder(self):
        self.stands("Web:run")
        self.did()
        words = {"universe": self.universe, "targets": ["Web:run"], "commands": self.top / "c.toml"}
        words |= {"to": self.folder, "wishes": self.top / "wishes"}
        lines = [f"{key} = {json.dumps(value if isinstance(value, list) else str(value))}\n" for key, value in words.items()]
        self.addCleanup(os.chdir, pathlib.Path.cwd())
        os.chdir(self.top)
        (self.top / "metis.toml").write_text("".join(lines))
        self.assertEqual(call("up", "--yes", "--delete", "all", "-j", "1")[0], 0)
        self.assertEqual(self.did(), ["Db-2 new", "Db-2 move", "Web-0 bind", "Web-0 unbind", "Db-1 delete"])
        # The other words find the folder there, too.
        for word in (["status"], ["verify"], ["log", "Db#2"], ["done"]):
            self.assertEqual(call(*word)[0], 0, word)
        (self.top / "metis.toml").unlink()
        self.assertEqual(call("status")[2], "metis: no folder is named, and metis.toml does not name one\n")
        self.assertEqual(call("status", "nowhere")[2], "metis: nowhere: no folder of Metis: it has no plan.txt\n")


class AgreedTest(UpCase):
    """What --yes does not agree to, and what nobody may agree to."""

    def less(self, *more, **options):
        return self.up("Db:on", more=more, **options)

    def test_yes_deletes_nothing_that_is_not_named(self):
        self.stands("Web:run")
        self.did()
        reason = "Web#0 would be deleted with all data, and --yes does not agree to that: --delete Web#0"
        self.assertEqual(self.less("--yes")[::2], (1, f"metis: {reason}\n"))
        self.assertEqual(self.less("--yes", "--delete", "Db")[0], 1)
        self.assertEqual(self.did(), [])
        self.assertEqual(self.less("--yes", "--delete", "Web")[0], 0)
        self.assertEqual(self.did(), ["Web-0 delete"])

    def test_what_loses_nothing_goes(self):
        self.stands("Web:run")
        keeps = self.commands().replace('when = "*: delete"\nrun = ', 'when = "Db: delete"\nrun = ')
        self.assertEqual(self.less("--yes", commands=keeps + '[[step]]\nwhen = "*: delete"\nrun = ""\n')[0], 0)

    def test_what_is_protected_stays_whatever_was_agreed_to(self):
        self.addCleanup(os.chdir, pathlib.Path.cwd())
        os.chdir(self.top)
        protect = self.top / "metis.toml"
        protect.write_text('protect = ["Web"]\n')
        self.stands("Web:run")
        self.did()
        # It goes with the folder: also from elsewhere, and `down` keeps to it.
        protect.unlink()
        for words in (["--yes", "--delete", "all"], ["--delete", "Web#0"]):
            status, _, said = self.less(*words)
            self.assertEqual((status, "`protect` keeps it" in said, said.count("\n")), (1, True, 1), said)
        status, _, said = call("down", self.folder, "--yes")
        self.assertEqual((status, "protect" in said), (1, True), said)
        self.assertEqual(self.did(), [])
        # A call of `up` lifts it, and what is deleted by then has to be named all the same.
        protect.write_text("protect = []\n")
        self.assertEqual(self.less("--yes", "--delete", "all")[0], 1)
        self.stands("Web:run")
        self.assertEqual(self.less("--yes")[0], 1)
        self.assertEqual(self.less("--yes", "--delete", "Web#0")[0], 0)

    def test_what_nobody_knows_cannot_be_protected(self):
        self.addCleanup(os.chdir, pathlib.Path.cwd())
        os.chdir(self.top)
        (self.top / "metis.toml").write_text('protect = ["Wbe"]\n')
        self.assertEqual(self.up("Web:run")[::2], (1, "metis: metis.toml: protect names 'Wbe', which is no type and no instance here\n"))


class DryTest(UpCase):
    def test_a_dry_run_changes_nothing_and_says_what_would_be_done(self):
        status, shown, _ = self.up("Web:run", more=["--dry-run"])
        self.assertEqual((status, self.folder.exists()), (2, False))
        self.assertRegex(shown.splitlines()[-1], r"^sum [0-9a-f]{16}$")
        self.stands("Web:run")
        self.did()
        before = sorted((path, path.read_bytes()) for path in self.folder.rglob("*") if path.is_file())
        self.assertEqual(self.up("Web:run", more=["--dry-run"])[0], 0)
        status, shown, _ = self.up("Db:on", more=["--dry-run", "--json"])
        found = json.loads(shown)
        self.assertEqual((status, found["going"], found["loses data"]), (2, ["Web#0"], ["Web#0"]))
        self.assertEqual(found["actions"], ["delete Web#0"])
        self.assertEqual(self.up("Nothing:on", more=["--dry-run"])[0], 1)
        self.assertEqual(self.did(), [])
        self.assertEqual(before, sorted((path, path.read_bytes()) for path in self.folder.rglob("*") if path.is_file()))

    def test_what_was_looked_at_is_done_or_nothing(self):
        self.stands("Web:run")
        own = json.loads(self.up("Db:on", more=["--dry-run", "--json"])[1])["sum"]
        self.did()
        agreed = ["--yes", "--delete", "Web", "--expect", own]
        # Something else, by other targets or by other commands.
        for targets, commands in ((["Web:run", "Web:run"], None), (["Db:on"], self.commands(LINE + "true\n"))):
            status, _, said = self.up(*targets, more=agreed, commands=commands)
            self.assertEqual((status, f"than what --expect {own} stands for" in said), (1, True), said)
        self.assertEqual(self.did(), [])
        fails = self.commands(LINE + '[ "$METIS_VERB" != delete ] || [ -e "$TOP/may" ]\n')
        own = json.loads(self.up("Db:on", more=["--dry-run", "--json"], commands=fails)[1])["sum"]
        agreed[-1] = own
        self.assertEqual(self.up("Db:on", more=agreed, commands=fails)[0], 1)
        # Where it stopped, the same call goes on; and where all is done, it does nothing.
        (self.top / "may").touch()
        self.stands("Db:on", more=agreed, commands=fails)
        self.stands("Db:on", more=agreed, commands=fails)
        self.assertEqual(self.did(), ["Web-0 delete", "Web-0 delete"])


class CommandsTest(UpCase):
    def test_a_changed_command_is_told_and_done_again_on_demand(self):
        self.stands("Web:run")
        self.did()
        other = self.commands().replace(f"when = \"{WHENS[-1]}\"\nrun = '''\n", f"when = \"{WHENS[-1]}\"\nrun = '''\n: new\n")
        _, said = self.stands("Web:run", commands=other)
        self.assertIn("Web#0: off -> run: its command or description has changed since it was done: --again does it again", said)
        self.assertEqual(self.did(), [])
        self.stands("Web:run", more=["--yes", "--again"], commands=other)
        # Providers before those that take from them.
        self.assertEqual(self.did(), ["Db-1 move", "Web-0 move"])
        _, said = self.stands("Web:run", more=["--yes", "--again"], commands=other)
        self.assertEqual(self.did(), [])
        self.assertNotIn("--again", said)

    def test_commands_are_looked_at_before_anybody_is_asked(self):
        for text, reason in (
            (self.commands().replace("*: * -> *", "*: off -> *"), None),
            (self.commands() + '[[step]]\nwhen = "Wbe: off -> run"\nrun = ""\n', "step 6 (Wbe: off -> run) fits nothing in the universe"),
            (self.commands().replace("*: * -> *", "Db: * -> *"), "no step fits Web: off -> run"),
        ):
            status, _, said = self.up("Web:run", more=["--yes", "--dry-run"], commands=text)
            self.assertEqual((status, reason is None or reason in said), (2 if reason is None else 1, True), said)
        self.stands("Web:run")
        for targets in (["Web:run"], ["Db:on"]):
            text = self.commands() + '[[step]]\nwhen = "Wbe: off -> run"\nrun = ""\n'
            self.assertIn("fits nothing", self.up(*targets, commands=text)[2])
        # What the folder had may have steps still.
        self.universe.write_text(UNIVERSE.replace('"Db"', '"Data"'))
        text = self.commands() + '[[step]]\nwhen = "Db: new"\nrun = ""\n'
        self.assertNotIn("fits nothing", self.up("Web:run", commands=text)[2])

    def test_an_instance_has_variables_of_its_own(self):
        named = self.commands(LINE + 'echo "${DIR-}" >>"$TOP/dirs"\n') + '[instance."Db#1"]\nDIR = "/it\'s here"\n'
        self.stands("Web:run", commands=named)
        self.assertEqual([line for line in (self.top / "dirs").read_text().split("\n") if line], ["/it's here"] * 2)
        wrong = named.replace('"Db#1"', '"Dbb#1"')
        self.assertIn("instance Dbb#1: there is no type Dbb; did you mean Db?", self.up("Web:run", commands=wrong)[2])
