"""Services that run already are taken over: nothing is started and nothing ended, and what is marked is a part of the plan."""

import json
import shutil

from tests.carry.shapes import call
from tests.carry.test_changed import ChangedCase

# A service is a file of its own name with the state in it; a check looks at the very instance, and at its state.
SERVICES = """
[env]
TOP = "{top}"
TRACE = "{top}/trace"
[[step]]
when = "*: new"
run = ''
[[step]]
when = "*: * -> *"
run = '''
echo "$METIS_ACTION $METIS_NAME $METIS_VERB" >>"$TRACE"
echo "$METIS_TO" >"$TOP/world/${{NAME-$METIS_NAME}}"
'''
check = 'grep -qx "$METIS_TO" "$TOP/world/${{NAME-$METIS_NAME}}"'
[[step]]
when = "*: bind *"
run = ''
[[step]]
when = "*: unbind *"
run = ''
[[step]]
when = "*: delete"
run = 'echo "$METIS_ACTION $METIS_NAME delete" >>"$TRACE"; rm -f "$TOP/world/$METIS_NAME"'
"""


class AdoptTest(ChangedCase):
    def setUp(self):
        super().setUp()
        self.world = self.top / "world"
        self.world.mkdir()
        self.text = SERVICES.format(top=self.top)
        self.stands("lb:on", commands=self.text)
        self.did()
        # What was known of it is lost.
        shutil.rmtree(self.folder)

    def adopt(self, *more, commands=None):
        (self.top / "c.toml").write_text(commands or self.text)
        words = ["--commands", self.top / "c.toml", "--to", self.folder, "--yes", *more]
        return call("adopt", self.universe, "lb:on", *words)

    def up(self, *targets, more=("--yes",), commands=None):
        return super().up(*targets, more=more, commands=commands or self.text)

    def states(self):
        return {path.name: path.read_text().strip() for path in self.world.iterdir()}

    def test_all_that_runs_is_marked_and_the_next_up_does_nothing(self):
        before = self.states()
        status, shown, said = self.adopt()
        self.assertEqual((status, shown.count(" yes"), self.trace()), (0, 5, []), said)
        self.assertEqual(call("verify", self.folder)[0], 0)
        self.stands("lb:on")
        self.assertEqual((self.did(), self.states()), ([], before))
        # It goes on as a folder of its own: a changed description, too.
        self.change("disk: off > on(+room)", "db: off > made > on(-room +sql)", "web: off > on(-sql -room +http)", "lb: off > on(-http +site)")
        self.stands("lb:on")
        self.assertEqual(self.did(), ["web-3 move"])

    def test_where_a_part_is_down_nothing_is_made_twice_and_nothing_deleted(self):
        (self.world / "web-3").unlink()
        status, shown, _ = self.adopt()
        self.assertEqual(status, 1)
        self.assertIn("left: make web#3, web#3 takes sql from db#2, web#3: off -> on", shown)
        # The balancer says yes, and stands on what is down: it is not marked, and done again behind that.
        self.assertIn("left: make lb#0, lb#0 takes http from web#3, lb#0: off -> on", shown)
        self.assertEqual(sorted(self.marks()), ["1.1", "1.2", "2.1", "2.2", "2.3", "2.4"])
        self.stands("lb:on")
        self.assertEqual(self.did(), ["web-3 move", "lb-0 move"])
        self.assertEqual(self.states(), {"disk-1": "on", "db-2": "on", "web-3": "on", "lb-0": "on"})

    def test_a_step_without_a_command_is_done_behind_what_is(self):
        # Nobody can ask whether the last state is there, and nothing is done for it.
        whole = "[[step]]\nwhen = \"lb: off -> on\"\nrun = ''\n"
        text = self.text.replace("[[step]]", f"{whole}[[step]]", 1)
        status, shown, said = self.adopt(commands=text)
        self.assertEqual((status, self.trace()), (0, []), f"{shown}{said}")
        shutil.rmtree(self.folder)
        (self.world / "web-3").unlink()
        status, shown, _ = self.adopt(commands=text)
        self.assertEqual(status, 1)
        self.assertIn("left: make web#3, web#3 takes sql from db#2, web#3: off -> on", shown)
        self.assertIn("left: lb#0 takes http from web#3, lb#0: off -> on", shown)

    def test_numbers_that_run_are_found(self):
        for old, new in (("web-3", "web-7"), ("disk-1", "disk-4")):
            (self.world / old).rename(self.world / new)
        (self.world / "db-9").write_text("made\n")
        status, _, said = self.adopt("--look", "12")
        self.assertEqual((status, self.trace()), (0, []), said)
        self.assertIn("instance 3 of the plan is 7 here", said)
        self.stands("lb:on")
        self.assertEqual(self.did(), [])
        self.assertEqual(sorted(line.split(" ")[2] for line in (self.folder / "plan.txt").read_text().split("\n") if " new " in line), ["0", "2", "4", "7"])

    def test_which_is_which_is_never_guessed(self):
        shutil.copy(self.world / "web-3", self.world / "web-8")
        for word in ("web=3,8", "web=x", "db=2,2", "web"):
            self.assertEqual(self.adopt("--number", word)[0], 1)
        status, _, said = self.adopt("--look", "12")
        self.assertEqual((status, self.folder.exists()), (1, False))
        self.assertIn("web: 1 wanted, found #3, #8. Say it by --number TYPE=N,..", said)
        status, _, said = self.adopt("--look", "12", "--number", "web=8")
        self.assertEqual(status, 0, said)

    def test_a_check_that_says_yes_of_what_there_is_not_is_no_evidence(self):
        blind = self.text.replace('check = \'grep', 'check = \'[ "$METIS_TYPE" = disk ] || grep')
        status, shown, _ = self.adopt(commands=blind)
        self.assertEqual((status, "it says yes also for disk#900001, which there is not; --trust disk" in shown), (0, True), shown)
        shutil.rmtree(self.folder)
        (self.world / "db-2").unlink()
        self.assertEqual(self.adopt(commands=blind)[0], 1)
        self.assertEqual([key for key in self.marks() if key.startswith("1.")], [])

    def test_of_what_nobody_knows_nothing_is_written(self):
        flicker = self.text.replace("check = 'grep", "check = '[ $METIS_NAME != web-3 ] || mkdir $TOP/seen 2>/dev/null || exit 1; grep")
        status, _, said = self.adopt(commands=flicker)
        self.assertEqual((status, "nobody knows, so nothing was written" in said, self.folder.exists()), (1, True, False), said)

    def test_a_service_that_never_had_a_name_of_ours(self):
        (self.world / "db-2").rename(self.world / "postgresql")
        self.assertEqual(self.adopt()[0], 1)
        shutil.rmtree(self.folder)
        named = self.text + '[instance."db#2"]\nNAME = "postgresql"\n'
        self.assertEqual(self.adopt(commands=named)[0], 0)
        self.assertEqual(json.loads(call("verify", self.folder, "--json")[1])[2]["verdict"], "ok")
        self.stands("lb:on", commands=named)
        self.assertEqual(self.did(), [])

    def test_on_hosts(self):
        hosts = self.top / "hosts"
        hosts.write_text("metis hosts 1\nhost left 9\nhost right 9\nend\n")
        text = self.text + '[hosts.left]\n[hosts.right]\nvia = ["env", "SIDE=right"]\n'
        here = text.replace("check = '", "check = '[ \"${{SIDE-left}}\" = \"$(cat $TOP/side.$METIS_NAME 2>/dev/null || echo left)\" ] && ".replace("{{", "{").replace("}}", "}"))
        (self.top / "side.web-3").write_text("right\n")
        self.assertEqual(self.adopt("--hosts", hosts, commands=here)[0], 1)
        shutil.rmtree(self.folder)
        status, shown, said = self.adopt("--hosts", hosts, "--on", "web#3=right", commands=here)
        self.assertEqual(status, 0, shown + said)
        self.assertIn("on right", (self.folder / "done" / "3.1").read_text())
        self.stands("lb:on", more=["--yes", "--hosts", hosts], commands=here)
        self.assertEqual(self.did(), [])
