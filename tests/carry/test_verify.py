"""`verify` knows three answers: there, lost, and not known, which is whatever kept a check from being asked to its end."""

import contextlib
import fcntl
import json
import os
import pathlib
import subprocess
import sys
import threading
import unittest
from unittest import mock

from metis_planner.answers import Refused
from metis_planner.carry import verify
from metis_planner.carry.folder import Folder
from metis_planner.carry.taking_back import take_back
from tests.carry.shapes import WEB, call, plan_text
from tests.carry.test_kept import Placed
from tests.effort import FOREVER

TWO = plan_text("new 0 A", "move 0 off on", "new 1 B", "move 1 off on")
QUIET = "".join(f'[[step]]\nwhen = "{when}"\nrun = ""\n' for when in ("*: new", "*: bind *", "*: unbind *"))
IS_THERE = 'test -e "$TOP/$METIS_NAME" || { echo "it is gone"; exit 1; }'
# As `run` of version 1.2.0 ends with -c: with what the check printed, and its status.
OLD_RUN = "#!/bin/sh\ncd \"${0%/*}\"\nsh -c 'IS' || { echo 'it is gone'; exit 1; }\n"


class VerifyCase(Placed):
    def checked(self, check=IS_THERE, plan=TWO, more="", run='touch "$TOP/$METIS_NAME"', head="", words=()):
        """Brings all up, where each move is asked for by this check."""
        step = f"[[step]]\nwhen = \"*: * -> *\"\nrun = '{run}'\ncheck = '''{check}'''\n"
        gone = '[[step]]\nwhen = "*: delete"\nrun = \'rm -f "$TOP/$METIS_NAME"; [ ! -e "$TOP/dies" ] || kill -9 0\'\n'
        (self.top / "plan").write_text(plan)
        (self.top / "c.toml").write_text(f'{head}[env]\nTOP = "{self.top}"\n{QUIET}{step}{gone}{more}')
        status, _, said = call("make", self.top / "plan", "--commands", self.top / "c.toml", "--to", self.folder, "--lax", *words)
        self.assertEqual(status, 0, said)
        self.assertEqual(self.make()[0], 0)

    def on_left(self, via, **options):
        (self.top / "placed").write_text("on 0 left\non 1 left\nplaced 2 hosts 1\n")
        self.checked(more=f"[hosts.left]\nvia = {json.dumps(via)}\n", words=["--placement", self.top / "placed"], **options)

    def verdicts(self, *words):
        """The status, and the verdict with its reason for each instance."""
        status, out, said = call("verify", self.folder, *words)
        self.said = said
        return status, [line.split("  ")[-1].strip() for line in out.splitlines()]

    def nothing_goes(self, reason, count=2):
        """All is healthy, nothing could be asked: so nothing is taken back, and the status says that it is not known."""
        before = self.marks()
        for words in ((), ("--take-back",)):
            status, found = self.verdicts(*words)
            self.assertEqual((status, len(found)), (75, count), found)
            for each in found:
                self.assertRegex(each, f"^not known: .*{reason}")
            self.assertEqual(self.marks(), before)
            self.assertIn(f"of {count} it is not known whether they stand: nothing of them is taken back", self.said)


class AnswerTest(VerifyCase):
    def test_there_and_lost(self):
        self.checked()
        self.assertEqual(self.verdicts(), (0, ["ok", "ok"]))
        (self.top / "B-1").unlink()
        self.assertEqual(self.verdicts(), (1, ["ok", "lost: it is gone"]))

    def test_status_and_verdicts_as_json(self):
        self.checked()
        for gone, expected in (([], 0), (["B-1"], 1)):
            for name in gone:
                (self.top / name).unlink()
            status, out, _ = call("verify", self.folder, "--json")
            verdicts = [each["verdict"] for each in json.loads(out)]
            self.assertEqual((status, verdicts), (expected, ["ok", "lost" if gone else "ok"]))
        self.held_check("0.2")
        self.held_check("1.2")
        status, out, _ = call("verify", self.folder, "--json")
        self.assertEqual((status, {each["verdict"] for each in json.loads(out)}), (75, {"not known"}))

    def held_check(self, key):
        """As if somebody else asked just now."""
        lock = open(self.folder / "lock" / f"check.{key}", "ab")
        self.addCleanup(lock.close)
        fcntl.flock(lock, fcntl.LOCK_EX)

    def test_somebody_else_asks(self):
        self.checked()
        self.held_check("0.2")
        self.held_check("1.2")
        self.nothing_goes("somebody else is doing it$")

    def test_what_is_lost_goes_also_where_of_another_one_it_is_not_known(self):
        self.checked()
        self.held_check("0.2")
        (self.top / "B-1").unlink()
        status, found = self.verdicts("--take-back")
        self.assertEqual((status, found), (1, ["not known: somebody else is doing it", "lost: it is gone"]))
        self.assertEqual(self.marks(), ["0.1", "0.2", "1.1"])

    def test_the_folder_is_written_just_now(self):
        self.checked()
        with open(self.folder / "lock" / ".folder", "ab") as lock:
            fcntl.flock(lock, fcntl.LOCK_EX)
            status, found = self.verdicts()
        self.assertEqual((status, found), (75, ["not known: somebody writes the folder anew"] * 2))

    def test_many_at_once_say_no_false_word(self):
        """Two that ask at the same time: of each instance one of the two may not know, and nothing is lost."""
        self.checked(check='[ -e "$TOP/go" ] || sleep 1')
        before, statuses = self.marks(), []
        jobs = [threading.Thread(target=lambda: statuses.append(self.called())) for _ in range(2)]
        for job in jobs:
            job.start()
        for job in jobs:
            job.join()
        self.assertEqual(([each for each in statuses if each not in (0, 75)], self.marks()), ([], before))

    def called(self):
        """The status; whoever is refused, since the other one has the folder, says nothing of what is lost."""
        words = [sys.executable, "-m", "metis_planner", "verify", self.folder, "--take-back"]
        done = subprocess.run(words, capture_output=True, text=True, check=False)
        is_refused = done.returncode == 1 and not done.stdout and "somebody else writes it" in done.stderr
        return 75 if is_refused else done.returncode

    def test_a_limit_a_kill_and_a_shell_that_is_not_there(self):
        for check, reason in (
            (f"sleep {FOREVER}", "no answer after 1 s$"),
            (f'trap "" TERM; while :; do sleep 1; done', "its check ended with status 137$"),
            ("echo so; kill -9 $$", "its check ended with status 137: so$"),
            ("kill -TERM $$", "its check ended with status 143$"),
            ("exit 126", "its check ended with status 126$"),
            ("no-such-command", "its check ended with status 127: .*not found$"),
        ):
            self.checked(check)
            self.rewritten("limit=10 step=$check", "limit=1 step=$check")
            self.rewritten("timeout -k 10 ", "timeout -k 1 ")
            with self.subTest(check=check):
                self.nothing_goes(reason)

    def test_the_last_status_of_an_answer(self):
        for status, verdict in ((1, "lost: status 1"), (2, "lost: status 2"), (123, "lost: status 123")):
            self.checked(f"exit {status}")
            with self.subTest(status=status):
                self.assertEqual(self.verdicts(), (1, [verdict] * 2))

    def test_a_check_that_says_what_run_says(self):
        self.checked('echo "== said 0"; exit 1')
        self.assertEqual(self.verdicts(), (1, ["lost: == said 0"] * 2))
        self.checked('echo "== said 1"; echo; echo')
        self.assertEqual(self.verdicts(), (0, ["ok"] * 2))

    def test_without_a_check_it_is_said_that_nothing_was_asked(self):
        self.checked("")
        self.assertEqual((self.verdicts(), self.said), ((0, ["not asked"] * 2), "metis: no step has a check, so nothing was asked\n"))

    def test_a_folder_of_the_version_before(self):
        """Its `run` says by its status what the check said, and anything else by the same: only a yes is certain."""
        self.checked()
        (self.folder / "run").write_text(OLD_RUN.replace("IS", f"test -e {self.top}/A-0"))
        self.assertEqual(self.verdicts(), (0, ["ok"] * 2))
        (self.top / "A-0").unlink()
        self.nothing_goes("it is gone$")


class BoundTest(VerifyCase):
    def test_what_a_check_prints_has_a_bound(self):
        self.checked("yes", plan=plan_text("new 0 A", "move 0 off on"))
        sizes, log = [0], self.folder / "lock" / "check.0.2"
        job = subprocess.Popen(["./run", "-c", *(self.folder / "jobs").read_text().split("\n")[1].split(" ")], cwd=self.folder, stderr=subprocess.PIPE, text=True)
        while job.poll() is None:
            with contextlib.suppress(FileNotFoundError):
                sizes.append(log.stat().st_size)
        said = job.communicate()[1]
        self.assertLess(max(sizes), 9_000_000)
        self.assertEqual((job.returncode, len(said) < 4_000), (75, True), said[:200])
        self.assertFalse(log.exists())

    def test_a_line_without_an_end_is_cut(self):
        self.checked("head -c 3000000 /dev/zero | tr '\\0' x; exit 1".replace("'", '"'), plan=plan_text("new 0 A", "move 0 off on"))
        status, [found] = self.verdicts()
        self.assertEqual((status, found[:9], len(found) < 300), (1, "lost: xxx", True))

    @unittest.skipUnless(os.geteuid() == 0, "only root can mount a file system")
    def test_a_full_disk(self):
        """A healthy check that prints fails at that: it has not said no."""
        small = self.top / "small"
        small.mkdir()
        subprocess.run(["mount", "-t", "tmpfs", "-o", "size=600k", "none", small], check=True)
        self.addCleanup(subprocess.run, ["umount", small], check=True)
        self.folder = small / "f"
        self.checked('echo "it stands"', plan=plan_text("new 0 A", "move 0 off on"))
        with contextlib.suppress(OSError), open(small / "fill", "wb", buffering=0) as file:
            while True:
                file.write(bytes(1024))
        # As much room as the script of the check takes, and none for what it prints.
        for room in (0, 4096, 8192, 12288):
            os.truncate(small / "fill", max(0, (small / "fill").stat().st_size - 4096 if room else (small / "fill").stat().st_size))
            before = self.marks()
            status, [found] = self.verdicts("--take-back")
            with self.subTest(room=room):
                self.assertIn((status, found.split(":")[0]), ((75, "not known"), (0, "ok")))
                self.assertEqual(self.marks(), before)


class WayTest(VerifyCase):
    """Over a way the far end says what the check said, and no status of the way itself tells."""

    def far(self, text):
        path = self.top / "far"
        path.write_text(f"#!/bin/sh\n{text}\n")
        path.chmod(0o755)
        return [str(path)]

    def test_there_and_lost(self):
        self.on_left(["env"])
        self.assertEqual(self.verdicts(), (0, ["ok", "ok"]))
        (self.top / "B-1").unlink()
        self.assertEqual(self.verdicts(), (1, ["ok", "lost: it is gone"]))
        self.assertEqual(self.verdicts("--take-back")[0], 1)
        self.assertEqual(self.marks(), ["0.1", "0.2", "1.1"])

    def test_a_way_that_is_down(self):
        self.on_left(self.far('exec "$@"'))
        for end in ("exit 0", "exit 1", "exit 2", "exit 75", "echo 'no route' >&2; exit 255", "kill -9 $$", "exec chroot /nowhere sh", "echo 'x'; exit 0", "exec nothing"):
            self.far(end)
            with self.subTest(end=end):
                self.nothing_goes("host left did not say")

    def test_a_way_that_breaks_while_the_check_is_asked(self):
        """What the check printed until then is no answer, also if it looks like one."""
        self.on_left(self.far('exec "$@"'), check="echo gone; exit 1")
        self.far('"$@" | sed "/== said/d"; exit 0')
        self.nothing_goes("host left did not say: gone$")
        self.far('"$@"; exit 255')
        self.nothing_goes("host left did not say")

    def test_a_limit_there(self):
        self.on_left(["env"], check=f"sleep {FOREVER}")
        self.rewritten("limit=10 step=$check", "limit=1 step=$check")
        self.nothing_goes("no answer after 1 s$")

    def test_a_shell_that_is_not_there(self):
        self.on_left(["env"])
        self.rewritten("far_shell='sh -eu'", "far_shell='no-such-shell -eu'")
        self.nothing_goes("host left did not say: .*no-such-shell")

    def test_a_host_without_a_place_for_locks(self):
        """A check needs none, so it is asked."""
        self.on_left(self.far('exec "$@"'))
        self.rewritten("kept=/tmp/metis-", "kept=/proc/metis-")
        self.assertEqual(self.verdicts(), (0, ["ok", "ok"]))


class TakenBackTest(VerifyCase):
    def test_while_a_step_is_done_nothing_is_taken_back(self):
        self.checked()
        (self.top / "B-1").unlink()
        before = self.marks()
        with open(self.folder / "lock" / ".folder", "ab") as lock:
            fcntl.flock(lock, fcntl.LOCK_SH)
            status, out, said = call("verify", self.folder, "--take-back")
        self.assertEqual((status, out, self.marks()), (1, "", before))
        self.assertIn("a step of its plan is being done, or somebody else writes it", said)

    def test_nor_where_a_step_is_begun_after_all_were_asked(self):
        self.checked()
        (self.top / "B-1").unlink()
        before, folder = self.marks(), Folder(str(self.folder))
        steps = folder.steps()
        asked = verify.ask_all(folder, verify.standing_in(folder, steps, folder.done(steps)))
        with open(self.folder / "lock" / ".folder", "ab") as lock:
            fcntl.flock(lock, fcntl.LOCK_SH)
            with self.assertRaisesRegex(Refused, "a step of its plan is being done"):
                verify.taken_back(folder, steps, asked)
        self.assertEqual(self.marks(), before)

    def test_marks_go_from_the_last_to_the_first(self):
        """Whoever ends it in the middle leaves a part of the plan."""
        self.checked(plan=WEB)
        for count in range(1, 5):
            folder = Folder(str(self.folder))
            steps = folder.steps()
            own = [step for step in steps if step.key in folder.done(steps)]
            unlink, left = pathlib.Path.unlink, [1]

            def ending(path, missing_ok=False):
                if not left[0]:
                    raise KeyboardInterrupt
                left[0] -= 1
                unlink(path, missing_ok)

            with mock.patch.object(pathlib.Path, "unlink", ending), self.assertRaises(KeyboardInterrupt):
                take_back(folder, own)
            self.assertEqual(len(folder.done(steps)), 5 - count)

    def test_it_goes_on_until_nothing_is_lost(self):
        """Where all of an instance is gone, one call takes all back that has a check; what stands of it stays."""
        states = ("absent", "there", "set", "on")
        plan = plan_text("new 0 A", *(f"move 0 {one} {other}" for one, other in zip(states, states[1:])))
        self.checked('test -e "$TOP/$METIS_TO" || { echo "no $METIS_TO"; exit 1; }', plan=plan, run='touch "$TOP/$METIS_TO"')
        for name in ("on", "set"):
            (self.top / name).unlink()
        status, out, said = call("verify", self.folder, "--take-back")
        self.assertEqual((status, self.marks()), (1, ["0.1", "0.2"]), out)
        self.assertEqual(out, "A#0  on            lost: no on\nA#0  set           lost: no set\n")
        self.assertEqual(said, "metis: 2 steps will be done again by make\n")
        self.assertEqual((self.make()[0], self.verdicts()), (0, (0, ["ok"])))
        for name in ("on", "set", "there"):
            (self.top / name).unlink()
        self.assertEqual((call("verify", self.folder, "--take-back")[0], self.marks()), (1, ["0.1"]))
        self.assertEqual(call("verify", self.folder, "--take-back")[0], 0)

    def deleting(self):
        """A plan whose last action deletes A, and dies in the middle of that."""
        self.checked(plan=plan_text("new 0 A", "move 0 off on", "new 1 B", "move 1 off on"))
        (self.top / "dies").touch()
        (self.top / "plan").write_text(plan_text("new 0 A", "move 0 off on", "new 1 B", "move 1 off on", "delete 0"))
        words = ["--commands", self.top / "c.toml", "--to", self.folder, "--lax"]
        self.assertEqual(call("make", self.top / "plan", *words)[0], 0)
        self.assertEqual(self.make()[0], 2)
        self.assertFalse((self.top / "A-0").exists())

    def test_what_is_half_deleted_is_not_asked(self):
        self.deleting()
        before = self.marks()
        self.assertEqual(self.verdicts("--take-back"), (0, ["ok"]))
        self.assertEqual(self.marks(), before)
        (self.top / "dies").unlink()
        self.assertEqual(self.make()[0], 0)

    def test_what_is_half_deleted_is_made_again_where_something_needs_it(self):
        lines = ("new 0 A", "move 0 off on", "new 1 B", "bind p 1 0 after 2", "move 1 off on", "unbind p 1 0")
        self.checked(plan=plan_text(*lines))
        (self.top / "dies").touch()
        (self.top / "plan").write_text(plan_text(*lines, "delete 0 after 6"))
        self.assertEqual(call("make", self.top / "plan", "--commands", self.top / "c.toml", "--to", self.folder, "--lax")[0], 0)
        self.assertEqual(self.make()[0], 2)
        (self.top / "B-1").unlink()
        self.assertEqual(self.verdicts("--take-back"), (1, ["lost: it is gone"]))
        # B moves on while it takes p from A, of which nothing is left: so all of A is made again.
        self.assertEqual(self.marks(), ["1.1"])
        self.assertFalse((self.folder / "log" / "0.3").exists())
        (self.top / "dies").unlink()
        self.assertEqual(self.make()[0], 0)
        self.assertEqual(self.verdicts(), (0, ["ok"]))


if __name__ == "__main__":
    unittest.main()
