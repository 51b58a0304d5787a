import fcntl
import os
import pathlib
import shutil
import signal
import subprocess
import sys
import unittest
from unittest import mock

from metis_planner.answers import Refused
from tests.carry.shapes import CROSSED, HELD, LINE, PLACED, ROLLED, TAKEN_DOWN, WEB, FolderCase, call, plan_text, steps_of
from tests.effort import FOREVER, is_running, wait_until

TOP = pathlib.Path(__file__).resolve().parents[2]
FAILS = LINE + 'if [ "$METIS_ACTION" = 4 ]; then printf "this is \\033[2J\\302\\233why é\\n"; exit 7; fi\n'


class CarriedOutTest(FolderCase):
    def test_each_action_is_done_once_and_in_order(self):
        self.exported(CROSSED)
        self.assertEqual(self.make("-j8")[0], 0)
        self.assertEqual(self.make("-j8")[0], 0)
        numbers = self.numbers()
        self.assertEqual(sorted(numbers), list(range(1, 16)))
        self.assertLess(numbers.index(8), numbers.index(12))
        self.assertIn("6 A-0 move  [y=B-1]   ", self.trace())
        self.assertIn("11 B-1 bind A-2 []   ", self.trace())

    @unittest.skipUnless(shutil.which("ninja"), "no ninja")
    def test_ninja_goes_on_where_make_stopped(self):
        self.exported(CROSSED)
        self.make("done/0.6")
        before = len(self.trace())
        self.exported(CROSSED, "ninja")
        words = ["ninja", "-C", self.folder]
        done = subprocess.run(words, check=False, capture_output=True, text=True)
        self.assertEqual((done.returncode, done.stdout.count("\n[")), (0, 7))
        self.assertEqual((before, len(self.trace())), (8, 15))
        self.assertEqual(self.make("-q")[0], 0)
        self.exported(CROSSED, "ninja", commands=self.commands("true\n"))
        done = subprocess.run(words, check=False, capture_output=True, text=True)
        self.assertIn("no work to do", done.stdout)

    def test_the_file_of_another_engine_stays_only_where_it_says_the_same(self):
        self.exported(WEB)
        self.exported(WEB, "ninja")
        self.assertTrue((self.folder / "Makefile").exists())
        self.exported(WEB, "ninja", commands=self.commands("true\n"))
        self.assertFalse((self.folder / "Makefile").exists())

    def test_an_action_without_a_command_is_only_marked(self):
        said = self.exported(WEB, commands='[[step]]\nwhen = "Web: * -> *"\nrun = "true"\n', more=["--lax"])
        self.assertIn(
            "nothing is done for Web: new, Db: new, Db: off -> on, Web: bind sql from Db: no step of the commands fits\n",
            said,
        )
        self.assertEqual(self.make()[0], 0)
        self.assertRegex((self.folder / "done" / "0.2").read_text(), r"^bind sql 0 1\n[0-9.]+ [0-9.]+\non : :\nby :\n$")
        self.assertIn(
            "no step fits Web: new, Db: new", self.refused(WEB, commands='[env]\nX = ""\n', more=[])
        )

    def test_a_dry_run_does_nothing_and_errors_are_not_ignored(self):
        self.exported(CROSSED, commands='[[step]]\nwhen = "*: * -> *"\nrun = "exit 1"\n', more=["--lax"])
        for words in (["-n"], ["-q"], ["-i"], ["-ik"], ["--ignore-errors"], ["-n", "-j4"]):
            self.make(*words)
            self.assertEqual(self.marks(), [], words)
        self.assertEqual(self.make("-n")[1].count("./run "), 15)
        self.assertIn("use make -k", self.make("-i")[2])
        self.assertIn("this wants GNU make 4", self.make("MAKE_VERSION=3.81")[2])

    def test_a_failure_stops_what_waits_for_it_and_nothing_else(self):
        self.exported(CROSSED, commands=self.commands(FAILS))
        status, _, said = self.make("-k", "-j4")
        self.assertEqual((status, self.marks()), (2, ["0.1", "0.2", "1.1", "2.1", "2.2"]))
        self.assertRegex(said, "B#1: b0 -> b1: failed with status 7 after [0-9]+ s; the end of log/1.2:\n")
        self.assertIn("  | this is ?[2J?why é\n", said)
        self.exported(CROSSED)
        self.assertEqual((self.make("-j4")[0], len(self.marks()), len(self.trace())), (0, 15, 16))
        self.assertIn("METIS_AGAIN='yes'", (self.folder / "log" / "1.2.sh").read_text())
        self.assertIn("METIS_AGAIN=''", (self.folder / "log" / "1.3.sh").read_text())

    def test_a_mark_says_what_was_done_and_when(self):
        self.exported(WEB)
        self.make()
        line, times, host, script, rest = (self.folder / "done" / "0.2").read_text().split("\n")
        self.assertEqual((line, host, rest), ("bind sql 0 1", "on : :", ""))
        # By which script it was done: another one has another sum, and what the same one did has the same.
        self.assertRegex(script, r"^by [0-9a-f]{12}$")
        marks = {step.action.verb: (self.folder / "done" / step.key).read_text().split("\n")[3] for step in steps_of(WEB)}
        self.assertEqual(len(set(marks.values())), 1)
        self.assertRegex(times, r"^[0-9]{10,}\.[0-9]{3} [0-9]{10,}\.[0-9]{3}$")
        self.assertEqual(subprocess.run(["sh", "-eu", self.folder / "log" / "0.2.sh"], check=False).returncode, 0)
        self.assertEqual(self.numbers().count(4), 2)
        # What is done is not done again, whatever is called, and whatever the times of the marks are.
        words = ["./run", "0.2", "3", "4", ":", "bind", "0", "Web", "sql", "1", "Db", ":"]
        self.assertEqual(subprocess.run(words, cwd=self.folder, check=False).returncode, 0)
        self.assertEqual(self.numbers().count(4), 2)
        os.utime(self.folder / "done" / "1.1", (2_000_000_000, 2_000_000_000))
        self.assertEqual(self.make("-q")[0], 0)

    def test_it_is_tried_again_as_often_as_it_may_be(self):
        body = 'echo again >>"$TRACE"\n[ "$(grep -c again "$TRACE")" -ge 3 ]\n'
        self.exported(plan_text("new 0 A"), commands=self.commands(body, retries=1, pause=0))
        self.assertEqual((self.make()[0], len(self.trace())), (2, 2))
        self.exported(plan_text("new 0 A"), commands=self.commands(body, retries=1, pause=0))
        self.assertEqual((self.make()[0], len(self.trace())), (0, 3))

    def test_a_limit_ends_all_that_a_step_started(self):
        body = f'sleep {FOREVER} & echo $! >>"$TRACE"; sleep {FOREVER}\n'
        self.exported(plan_text("new 0 A"), commands=self.commands(body, timeout=3))
        status, _, said = self.make()
        self.assertEqual((status, self.marks()), (2, []))
        self.assertIn("failed with status 124", said)
        self.assertIn("it took more than its 3 s", said)
        self.assertFalse(is_running(self.numbers()[0]))

    def test_steps_with_a_lock_are_done_one_at_a_time(self):
        body = '[ ! -e "$TOP/now" ]; touch "$TOP/now"; sleep 0.05; rm "$TOP/now"\n'
        self.exported(
            plan_text(*(f"new {number} A" for number in range(4))), commands=self.commands(body, lock='"apt"')
        )
        self.assertEqual(self.make("-j4")[0], 0)

    def test_odd_values_and_input(self):
        body = 'cat >>"$TRACE"\necho "$ODD" >>"$TRACE"\nread -r word || echo no input >>"$TRACE"\n'
        self.exported(plan_text("new 0 A"), commands=self.commands(body))
        self.assertEqual(self.make()[0], 0)
        self.assertEqual(self.trace(), ["it's $HOME `x` \"\\ é", "no input"])

    def test_a_step_may_call_make_for_itself(self):
        # A rule that is built into make, which the folder's own Makefile switches off.
        body = 'cd "$TOP"\necho built >a.sh\nmake -s a\ncat a >>"$TRACE"\n'
        self.exported(plan_text("new 0 A"), commands=self.commands(body))
        self.assertEqual((self.make("-j2")[0], self.trace()), (0, ["built"]))

    def test_hosts(self):
        (self.top / "placed").write_text(PLACED.replace("hold 9 after 4 6\n", ""))
        self.exported(CROSSED, more=["--placement", self.top / "placed"])
        self.assertEqual(self.make("-j4")[0], 0)
        self.assertIn("4 B-1 move  [] left 127.0.1.1 ", self.trace())
        self.assertIn("10 A-2 move  [] right right right", self.trace())

    def test_hosts_with_the_names_of_the_shells_own_words(self):
        (self.top / "placed").write_text("on 0 esac\non 1 in\nplaced 2 hosts 2\n")
        hosts = '[hosts.esac]\naddress = "127.0.1.1"\n[hosts.in]\nvia = ["env", "VIA=in"]\n'
        self.exported(WEB, commands=f"{self.commands()}{hosts}", more=["--placement", self.top / "placed"])
        self.assertEqual(self.make()[0], 0)
        self.assertIn("4 Web-0 bind Db-1 [] esac 127.0.1.1 ", self.trace())
        self.assertIn("3 Db-1 move  [] in in in", self.trace())

    def test_what_a_placement_holds_is_waited_for(self):
        (self.top / "placed").write_text(PLACED.replace("after 4 6", "after 8"))
        self.exported(CROSSED, more=["--placement", self.top / "placed"])
        self.make("done/2.1")
        self.assertEqual(self.marks(), ["0.1", "0.2", "0.3", "0.4", "0.5", "0.6", "1.1", "1.2", "2.1"])


class FolderTest(FolderCase):
    def test_two_at_once_do_nothing_twice(self):
        self.exported(plan_text("new 0 A"), commands=self.commands(LINE + HELD))
        self.hold()
        words = ["make", "-s", "-C", self.folder]
        two = [subprocess.Popen(words, stderr=subprocess.PIPE, stdout=subprocess.DEVNULL, text=True) for _ in range(2)]
        # Were it done twice, neither of them would end, and the trace would have both.
        wait_until(lambda: len(self.trace()) > 1 or self.trace() and any(one.poll() is not None for one in two))
        self.let_go()
        said = sorted(one.communicate()[1] for one in two)
        self.assertEqual((len(self.trace()), sorted(one.returncode for one in two)), (1, [0, 2]))
        self.assertIn("make A#0: somebody else is doing it\n", said[1])

    def test_a_server_that_a_step_starts_keeps_no_lock(self):
        # What is in the group of its step ends with a step that fails, and a server is in a group of its own.
        body = (
            f'if [ -z "$METIS_AGAIN" ]; then setsid sleep {FOREVER} >/dev/null 2>&1 & echo $! >>"$TRACE"\n'
            "until [ \"$(cat /proc/$!/comm)\" = sleep ]; do sleep 0.05; done; exit 1; fi\n"
        )
        self.exported(plan_text("new 0 A"), commands=self.commands(body, lock='"apt"'))
        self.assertEqual([self.make()[0], self.make()[0]], [2, 0])
        self.exported(plan_text("new 0 A"))
        os.kill(self.numbers()[0], signal.SIGKILL)

    def test_a_step_whose_script_was_killed_is_not_begun_a_second_time_beside_it(self):
        body = 'echo $PPID >"$TOP/pid"\n' + LINE + HELD
        self.exported(plan_text("new 0 A"), commands=self.commands(body))
        words = ["./run", "0.1", "1", "1", ":", "new", "0", "A"]
        self.hold()
        with subprocess.Popen(words, cwd=self.folder, stdout=subprocess.DEVNULL) as first:
            wait_until(self.trace)
            first.kill()
        said = self.make()[2]
        self.assertIn("somebody else is doing it", said)
        os.kill(int((self.top / "pid").read_text()), signal.SIGTERM)

    def test_a_folder_in_which_a_step_is_being_done_is_not_written(self):
        self.exported(WEB)
        with open(self.folder / "lock" / ".folder", "ab") as lock:
            fcntl.flock(lock, fcntl.LOCK_SH)
            reason = f"metis: {self.folder}: a step of its plan is being done, or somebody else writes it\n"
            self.assertEqual(self.refused(WEB), reason)
            self.assertEqual(call("split", self.folder, self.top / "new"), (1, "", reason))
            fcntl.flock(lock, fcntl.LOCK_EX)
            self.assertIn("somebody writes the folder anew", self.make()[2])
        self.assertEqual(self.make()[0], 0)

    def test_a_folder_that_was_written_anew_meanwhile(self):
        self.exported(WEB)
        makefile = (self.folder / "Makefile").read_text()
        self.exported(WEB, commands=self.commands("true\n"))
        (self.folder / "Makefile").write_text(makefile)
        self.assertIn("the folder was written anew; call make again", self.make()[2])
        self.assertEqual(self.marks(), [])

    def test_a_folder_of_others_is_not_touched(self):
        self.folder.mkdir()
        (self.folder / "Makefile").write_text("mine")
        self.assertIn("it has no plan.txt, and is not empty", self.refused(WEB))
        self.assertEqual([path.name for path in self.folder.iterdir()], ["Makefile"])
        (self.folder / "Makefile").unlink()
        self.exported(WEB)
        self.folder = self.top / "plan"
        self.assertIn("Not a directory", self.refused(WEB))

    def test_what_is_refused_leaves_no_folder(self):
        self.assertIn("has to wait for", self.refused(WEB.replace(" after 3", "")))
        self.assertIn("a rollout, since by action 11", self.refused(ROLLED))
        self.assertIn("nothing is known of 'x'", self.refused(WEB, commands="x = 1"))
        self.assertIn("No such file", self.refused(WEB, more=["--placement", self.top / "nowhere"]))
        (self.top / "placed").write_text(PLACED)
        self.assertIn(
            "of which the commands say nothing",
            self.refused(CROSSED, commands="", more=["--placement", self.top / "placed"]),
        )
        universe = TOP / "examples" / "web.json"
        self.assertIn(
            "step 1 (Wob: new) fits nothing",
            self.refused(WEB, commands='[[step]]\nwhen="Wob: new"\nrun=""', more=["--universe", universe]),
        )
        long = plan_text("new 0 A", *(f"move 0 s{number} s{number + 1}" for number in range(10_000)))
        self.assertIn("10001 actions wait one for the other, and make is good for 10000: use ninja", self.refused(long))
        self.assertFalse(self.folder.exists())
        with mock.patch("metis_planner.carry.script.make_executable", side_effect=Refused("the disk is full")):
            self.assertIn("the disk is full", self.refused(WEB))
        self.assertEqual(list(self.folder.iterdir()), [])
        self.exported(long, "ninja")

    def test_another_plan_is_refused(self):
        self.exported(WEB)
        self.make()
        self.assertIn("'new 0 Web' is done in it, which is no such action of this plan", self.refused(CROSSED))
        (self.folder / "done" / "1.2").unlink()
        self.assertIn("action 4 is done in it, and action 3, for which that waits, is not", self.refused(WEB))
        (self.folder / "done" / "1.2").touch()
        self.exported(WEB)
        (self.folder / "done" / "\x1b[2J").touch()
        self.assertIn("'\\x1b[2J' is done in it", self.refused(WEB))

    def test_where_nothing_is_done_another_plan_takes_its_place(self):
        self.exported(WEB)
        self.exported(CROSSED)
        self.assertEqual(self.make()[0], 0)


class RolloutTest(FolderCase):
    def test_nothing_old_goes_before_all_that_is_new_stands(self):
        self.exported(WEB)
        self.make()
        for _ in range(2):
            self.assertIn(
                "it goes on from 5 actions; what these leave stays until all that is new stands", self.exported(ROLLED)
            )
        self.assertEqual(self.make("done/0.4")[0], 0)
        numbers = self.numbers()
        self.assertEqual((sorted(numbers), numbers[-1]), (list(range(1, 12)), 11))

    @unittest.skipUnless(shutil.which("ninja"), "no ninja")
    def test_nor_by_ninja(self):
        (self.top / "old").write_text(WEB)
        self.assertIn(
            "`make -t old-1` marks them as done", self.exported(ROLLED, "ninja", more=["--from", self.top / "old"])
        )
        subprocess.run(["ninja", "--quiet", "-C", self.folder, "done/0.4"], check=True, capture_output=True)
        self.assertEqual((sorted(self.numbers()), self.numbers()[-1]), (list(range(1, 12)), 11))

    def test_in_an_empty_folder_the_old_plan_is_asked_for(self):
        said = self.refused(ROLLED)
        self.assertIn("a rollout, since by action 11 Web#0 goes, and with it all that it was bound to", said)
        self.assertIn("--from OLD", said)
        (self.top / "old").write_text(WEB)
        self.exported(ROLLED, more=["--from", self.top / "old"])
        self.assertEqual((self.make("-t", "old-1")[0], self.make("done/0.4")[0]), (0, 0))
        self.assertEqual((sorted(self.numbers()), self.numbers()[-1]), (list(range(6, 12)), 11))

    def test_another_old_plan_is_refused(self):
        (self.top / "old").write_text(CROSSED)
        self.assertIn(
            "it does not begin with the 15 actions of", self.refused(ROLLED, more=["--from", self.top / "old"])
        )
        (self.top / "old").write_text(plan_text("new 0 Web"))
        self.assertIn("no rollout of the 1 actions before", self.refused(ROLLED, more=["--from", self.top / "old"]))
        self.exported(WEB)
        self.assertIn(
            "does not go on from the 1 actions that --from names",
            self.refused(ROLLED, more=["--from", self.top / "old"]),
        )

    def test_what_is_no_rollout_may_be_carried_out_by_its_waits_alone(self):
        replaced = plan_text("new 0 Db", "delete 0", "new 1 Db")
        self.assertIn("a rollout, since by action 2 Db#0 goes", self.refused(replaced))
        self.exported(replaced, more=["--waits-alone"])
        self.exported(replaced)
        self.assertEqual(self.make()[0], 0)

    def test_a_rollout_of_a_rollout_has_two_barriers(self):
        second = ROLLED.replace("instances 4 actions 12", "instances 5 actions 15").replace(
            "end\n", "13 new 4 Db\n14 delete 2\n15 delete 3 after 14\nend\n"
        )
        self.exported(WEB)
        self.exported(ROLLED)
        self.assertIn("it goes on from 12 actions", self.exported(second))
        self.make("done/1.3")
        self.assertEqual(sorted(self.numbers()[-2:]), [11, 12])
        self.make("done/2.4")
        self.assertEqual(self.numbers()[-2:], [13, 14])

    def test_a_rollout_of_a_rollout_in_one_go_is_refused_unless_both_are_named(self):
        second = ROLLED.replace("instances 4 actions 12", "instances 5 actions 15").replace(
            "end\n", "13 new 4 Db\n14 delete 2\n15 delete 3 after 14\nend\n"
        )
        (self.top / "one").write_text(WEB)
        (self.top / "two").write_text(ROLLED)
        self.exported(WEB)
        self.make()
        self.assertIn("action 13 is of Db#4, which is new and stays", self.refused(second))
        shutil.rmtree(self.folder)
        self.assertIn("a rollout, since by action 11", self.refused(second, more=["--from", self.top / "two"]))
        self.exported(second, more=["--from", self.top / "two", "--from", self.top / "one"])
        self.assertEqual((self.folder / "rollouts").read_text(), "5 10 12\n12 13 15\n")

    def test_what_is_half_done_is_taken_down(self):
        self.exported(WEB, commands=self.commands(LINE + '[ "$METIS_ACTION" != 3 ]\n'))
        self.make("-k")
        status, part, notes = call("done", self.folder)
        self.assertEqual((status, part), (0, plan_text("new 0 Web", "new 1 Db")))
        self.assertEqual(notes, "metis: action 3 was begun and is not done: Db#1: off -> on\n")
        self.exported(plan_text("new 0 Web", "new 1 Db", "delete 0", "delete 1"))
        self.assertEqual((self.make()[0], self.marks()), (0, ["0.1", "0.2", "1.1", "1.2"]))

    def test_a_half_done_rollout_goes_on_to_something_else(self):
        self.exported(WEB)
        self.make()
        self.exported(ROLLED)
        self.make("done/3.1")
        part = WEB.replace("instances 2 actions 5", "instances 4 actions 10").replace(
            "end\n", "6 new 3 Db\n7 new 4 Db\n8 delete 0\n"
        )
        self.assertIn("it goes on from 6 actions", self.exported(f"{part}9 delete 1 after 8\n10 delete 3\nend\n"))
        self.assertEqual((self.folder / "rollouts").read_text(), "6 7 10\n")

    def test_taking_all_down_waits_for_nothing_new(self):
        self.exported(WEB)
        self.make()
        self.assertEqual(self.exported(TAKEN_DOWN), "")
        self.assertEqual((self.make()[0], len(self.trace())), (0, 7))


class SplitTest(FolderCase):
    def test_a_rollout_is_given_up(self):
        self.exported(WEB)
        self.make()
        self.exported(ROLLED, commands=self.commands(LINE + '[ "$METIS_ACTION" != 9 ]\n'))
        self.make("done/2.2")
        status, _, said = call("split", self.folder, self.top / "new")
        self.assertEqual((status, self.marks()), (0, ["0.1", "0.2", "0.3", "1.1", "1.2"]))
        self.assertEqual(
            said,
            f"metis: 3 actions are in {self.top}/new, and {self.folder} has its 5 old ones: export both anew\n",
        )
        self.assertEqual(
            (self.top / "new" / "plan.txt").read_text(), plan_text("new 2 Web", "new 3 Db", "move 3 off on")
        )
        self.assertEqual(self.marks(self.top / "new"), ["2.1", "3.1", "3.2"])
        self.assertTrue((self.top / "new" / "log" / "2.2").exists())
        self.assertEqual((self.folder / "plan.txt").read_text(), WEB)
        self.exported(WEB)
        self.assertEqual(self.make("-q")[0], 0)
        self.folder = self.top / "new"
        self.exported(plan_text("new 2 Web", "new 3 Db", "move 3 off on", "delete 2", "delete 3"))
        self.assertEqual((self.make()[0], len(self.marks())), (0, 5))

    def test_what_cannot_be_given_up(self):
        self.exported(WEB)
        self.make()
        self.assertIn("its plan is no rollout", call("split", self.folder, self.top / "new")[2])
        self.exported(ROLLED, commands=self.commands('[ "$METIS_ACTION" != 11 ]\n'))
        (self.top / "new").mkdir()
        (self.top / "new" / "mine").touch()
        self.assertIn("new: it has no plan.txt, and is not empty", call("split", self.folder, self.top / "new")[2])
        self.make()
        self.assertIn(
            "what is old is being taken away already; go on instead", call("split", self.folder, self.top / "other")[2]
        )
        self.assertFalse((self.top / "other").exists())


class WordsTest(unittest.TestCase):
    def test_statuses_and_lines(self):
        for words, status, said in (
            (["done", "/nowhere"], 1, "metis: /nowhere: no folder of Metis: it has no plan.txt\n"),
            (["graph", "/nowhere"], 1, "metis: /nowhere: No such file or directory\n"),
            (["graph", "a\nb\x1b[2J"], 1, "metis: a b\\x1b[2J: No such file or directory\n"),
            (["bake"], 2, None),
            (["make"], 2, None),
        ):
            done = subprocess.run(
                [sys.executable, "-m", "metis_planner", *words], cwd=TOP, capture_output=True, text=True, check=False
            )
            self.assertEqual((done.returncode, done.stdout), (status, ""), words)
            self.assertEqual(done.stderr if said else None, said)

    def test_output_that_nobody_takes(self):
        for place, said in ((open("/dev/full", "w"), "metis: standard output: No space left on device\n"),):
            words = [sys.executable, "-m", "metis_planner", "graph", TOP / "examples" / "web.json"]
            with place:
                done = subprocess.run(words, cwd=TOP, stdout=place, stderr=subprocess.PIPE, text=True, check=False)
            self.assertEqual((done.returncode, done.stderr), (1, said))


if __name__ == "__main__":
    unittest.main()
