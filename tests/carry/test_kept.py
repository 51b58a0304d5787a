"""What `run`, the engines' files and the folder keep to: limits that hold, locks by host, marks as a whole, and which rollout is one."""

import os
import re
import shutil
import signal
import subprocess
import unittest

from metis_planner.answers import Refused
from metis_planner.carry.rollouts import rollout_in
from tests.carry.shapes import CROSSED, LINE, PLACED, ROLLED, WEB, call, plan_text, steps_of
from tests.carry.test_life import DEAF, ONE, Waiting
from tests.effort import DEADLINE, FOREVER, is_running, wait_until

TWO_PLACED = "on 0 left\non 1 right\nplaced 2 hosts 2\n"
# The shell of the step itself heeds no TERM.
DEAF_SHELL = f'trap "" TERM\nn=0\nwhile [ $n -lt {FOREVER}0 ]; do sleep 0.1; n=$((n + 1)); done\n'
BY_ENV = '[hosts.left]\nvia = ["env"]\n[hosts.right]\nvia = ["env"]\n'


class Placed(Waiting):
    def rewritten(self, old, new):
        """Shortens what `run` waits for; where it does not say so, nothing is shortened."""
        run = self.folder / "run"
        run.write_text(run.read_text().replace(old, new))

    def placed(self, plan, placed, hosts, body=LINE, **options):
        (self.top / "placed").write_text(placed)
        commands = re.sub(r"\[hosts\.\w+\]\n(?:[a-z]+ = .*\n)*", "", self.commands(body, **options)) + hosts
        self.exported(plan, commands=commands, more=["--placement", self.top / "placed"])


class LimitTest(Placed):
    """What would go on for ever is cut off: make has a deadline in these tests, which comes long before."""

    def test_a_shell_that_heeds_no_signal_is_killed_after_its_limit(self):
        self.one(DEAF_SHELL, timeout=1)
        self.rewritten("timeout -k 10", "timeout -k 1")
        self.assertEqual(self.make()[0], 2)

    def test_so_is_one_on_a_host_and_it_is_killed_there(self):
        self.placed(ONE, "on 0 left\nplaced 1 hosts 1\n", BY_ENV, DEAF_SHELL, timeout=1)
        self.rewritten('"timeout -k 10 $limit', '"timeout -k 1 $limit')
        self.assertEqual(self.make()[0], 2)

    def test_a_way_to_a_host_that_hangs_has_an_end(self):
        hosts = f'[hosts.left]\nvia = ["sh", "-c", "exec sleep {FOREVER}"]\n'
        self.placed(ONE, "on 0 left\nplaced 1 hosts 1\n", hosts, timeout=1)
        self.rewritten("limit + 30", "limit + 1")
        self.assertEqual(self.make()[0], 2)

    def test_the_way_to_a_host_waits_until_the_step_has_ended_there(self):
        body = f"trap 'sleep 2; echo late >>\"$TRACE\"; exit 1' TERM\nsleep {FOREVER} &\nwait\n"
        self.placed(ONE, "on 0 left\nplaced 1 hosts 1\n", BY_ENV, body, timeout=3)
        self.assertEqual((self.make()[0], self.trace()), (2, ["late"]))

    def test_each_signal_ends_all_that_a_step_started(self):
        """What heeds none of them is killed, and until then its lock is held."""
        jobs = {}
        for sent in (signal.SIGINT, signal.SIGTERM, signal.SIGHUP):
            self.folder = self.top / sent.name
            body = DEAF.replace("$TOP/lives", f"$TOP/{sent.name}.lives").replace("-lt 60 ", f"-lt {FOREVER}0 ")
            self.one(body, timeout=FOREVER)
            jobs[sent] = self.started()
        for sent, job in jobs.items():
            wait_until(lambda: self.lives(f"{sent.name}.lives"))
            os.killpg(job.pid, sent)
        for sent, job in jobs.items():
            self.folder = self.top / sent.name
            job.communicate(timeout=DEADLINE)
            wait_until(self.is_free)
            [(_, _, child)] = self.lives(f"{sent.name}.lives")
            self.assertEqual((is_running(child), self.marks()), (False, []), sent)


class LockTest(Placed):
    def test_a_lock_is_one_of_its_host(self):
        """Two steps of one lock on two hosts wait for each other: neither would end if the lock were one for both."""
        body = (
            'if [ "$METIS_VERB" = new ]; then\n  touch "$TOP/at.$METIS_HOST"\n  n=0\n'
            '  until [ -e "$TOP/at.left" ] && [ -e "$TOP/at.right" ]; do n=$((n + 1)); [ $n -lt 1200 ]; sleep 0.1; done\nfi\n'
        )
        self.placed(plan_text("new 0 A", "new 1 A"), TWO_PLACED, BY_ENV, body, lock='"apt"')
        self.assertEqual(self.make("-j2")[0], 0)

    @unittest.skipUnless(shutil.which("ninja"), "no ninja")
    def test_what_waits_for_a_lock_takes_no_place_of_ninja(self):
        # The first with the lock waits for one without it, which has no place if the second with the lock has one.
        body = "n=0; until [ -e \"$TOP/B\" ]; do n=$((n + 1)); [ $n -lt 1200 ]; sleep 0.1; done\n"
        free = "[[step]]\nwhen = \"B: new\"\nrun = 'touch \"$TOP/B\"'\n"
        head, *steps = self.commands(body, lock='"apt"').split("[[step]]")
        text = head + free + "".join(f"[[step]]{each}" for each in steps)
        self.exported(plan_text("new 0 A", "new 1 A", "new 2 B"), "ninja", commands=text)
        done = subprocess.run(["ninja", "--quiet", "-j2", "-C", self.folder], check=False, capture_output=True, text=True)
        self.assertEqual(done.returncode, 0, done.stdout)


class MarkTest(Waiting):
    def test_a_mark_is_moved_to_its_place(self):
        """If it cannot be moved, as on a full disk, there is none, and the step is done again."""
        self.one(LINE)
        move = self.top / "bin" / "mv"
        move.parent.mkdir()
        move.write_text("#!/bin/sh\nexit 1\n")
        move.chmod(0o755)
        environment = {**os.environ, "PATH": f"{move.parent}:{os.environ['PATH']}"}
        words = ["make", "-s", "-C", self.folder]
        done = subprocess.run(words, env=environment, capture_output=True, text=True, check=False)
        self.assertEqual((done.returncode, self.marks()), (2, []))
        self.assertIn("make A#0: done, but done/0.1 could not be written, so it will be done again", done.stderr)
        self.assertEqual((self.make()[0], len(self.trace())), (0, 2))

    def test_names_are_names_of_files(self):
        self.exported(plan_text("new 0 a@1/b", "new 1 -f", "new 2 .x", "new 3 c.d_e-f"), more=[])
        self.make()
        self.assertEqual([line.split()[1] for line in self.trace()], ["a_1_b-0", "x-f-1", "x.x-2", "c.d_e-f-3"])


class PlacementTest(Waiting):
    def test_an_action_that_is_held_until_itself_is_refused(self):
        for after in ("9", "4 9", "10"):
            (self.top / "placed").write_text(PLACED.replace("after 4 6", f"after {after}"))
            said = self.refused(CROSSED, more=["--placement", self.top / "placed"])
            self.assertIn("action 9 cannot wait for a later one", said)
        self.assertFalse(self.folder.exists())


class SketchTest(Waiting):
    def test_a_sketch_may_stand_where_a_universe_does(self):
        """What it allows besides the plan is no step that fits nothing, and another one is."""
        (self.top / "web.sketch").write_text("Web: off > run(-sql) > off\nDb: off > on(+sql)\n")
        more = ["--universe", self.top / "web.sketch"]
        step = "[[step]]\nwhen = \"Web: {} -> off\"\nrun = ''\n"
        self.exported(WEB, commands=self.commands() + step.format("run"), more=more)
        said = self.refused(WEB, commands=self.commands() + step.format("runs"), more=more)
        self.assertIn("(Web: runs -> off) fits nothing in the universe", said)


class WhichRolloutTest(Waiting):
    def rollouts(self):
        return (self.folder / "rollouts").read_text()

    def test_one_that_was_not_written_whole_is_none(self):
        """Rollouts are written before their plan: what goes on from the whole plan that is there is of a plan that is not."""
        self.exported(WEB)
        self.make()
        (self.folder / "rollouts").write_text("5 10 12\n")
        self.assertIn("its plan is no rollout", call("split", self.folder, self.top / "new")[2])
        self.exported(ROLLED)
        self.assertEqual(self.rollouts(), "5 10 12\n")

    def test_another_plan_for_what_is_half_done_is_no_rollout(self):
        """It begins with something that is not done, so it does not go on from a plan of what is."""
        self.exported(WEB)
        self.make("done/0.1", "done/1.1")
        lines = ("new 0 Web", "new 2 Cache", "new 1 Db", "move 1 off on", "bind sql 0 1 after 4", "move 0 off run")
        self.assertEqual(self.exported(plan_text(*lines)), "")
        self.assertEqual(self.rollouts(), "")
        self.assertEqual((self.make("-j4")[0], len(self.marks())), (0, 6))

    def test_what_is_only_let_go_after_the_old_is_not_part_of_the_removal(self):
        lines = ("new 0 A", "new 1 B", "new 2 A", "bind p 2 1 after 2", "delete 0", "unbind p 2 1")
        with self.assertRaisesRegex(Refused, "action 6 is of A#2, which is new and stays"):
            rollout_in(steps_of(plan_text(*lines)), 2)

    def test_the_same_plan_with_and_without_a_barrier_are_two_exports(self):
        (self.top / "old").write_text(WEB)
        self.exported(ROLLED, more=["--from", self.top / "old"])
        before = (self.folder / "Makefile").read_text()
        self.exported(ROLLED, more=["--waits-alone"])
        (self.folder / "Makefile").write_text(before)
        self.assertIn("the folder was written anew; call make again", self.make()[2])

    def test_what_a_rollout_was_given_up_with_goes_on_with_it_no_more(self):
        self.exported(WEB)
        self.make()
        self.exported(ROLLED)
        self.exported(ROLLED, "ninja")
        self.make("done/3.1")
        self.assertEqual(call("split", self.folder, self.top / "new")[0], 0)
        self.assertEqual([name for name in ("Makefile", "build.ninja", "submit") if (self.folder / name).exists()], [])


if __name__ == "__main__":
    unittest.main()
