"""What happens to a folder in real life: limits, signals, kills, two folders, other hosts; and who asks how far it is."""

import argparse
import contextlib
import fcntl
import json
import os
import pathlib
import re
import signal
import subprocess
import sys
import time
import unittest
from unittest import mock

from metis_planner.carry import split
from tests.carry.shapes import CROSSED, HELD, LINE, PLACED, ROLLED, WEB, FolderCase, call, plan_text
from tests.effort import DEADLINE, FOREVER, is_running, soon, wait_until
from tests.test_words import TOP

ONE = "metis plan 1\ninstances 1 actions 1 dups 0\n1 new 0 A\nend\n"
# Says each tenth of a second that it lives, whatever TERM says, and ends by itself after some seconds.
DEAF = """\
sh -c 'trap "" TERM; n=0; while [ $n -lt 60 ]; do echo "$1 $(date +%s.%N) $$" >>"$TOP/lives"; sleep 0.1; n=$((n + 1)); done' - "$$" &
wait
"""


class Waiting(FolderCase):
    def setUp(self):
        """What is started by a shell in the background ignores Ctrl-C, and so would make and the steps."""
        super().setUp()
        for sent, handler in ((signal.SIGINT, signal.default_int_handler), (signal.SIGHUP, signal.SIG_DFL)):
            self.addCleanup(signal.signal, sent, signal.signal(sent, handler))

    def lives(self, name="lives"):
        """Of each try the first and the last moment in which its child lived, and its process."""
        path = self.top / name
        found = {}
        # The last line may not be there as a whole.
        for line in path.read_text().split("\n")[:-1] if path.exists() else ():
            shell, moment, child = line.split()
            first = found[shell][0] if shell in found else float(moment)
            found[shell] = (first, float(moment), int(child))
        return sorted(found.values())

    def is_free(self):
        """Whether nothing is done in the folder."""
        return subprocess.run(["flock", "-n", self.folder / "lock" / ".folder", "true"], check=False).returncode == 0

    def check_nothing_overlaps(self, count):
        spans = self.lives()
        self.assertEqual(len(spans), count)
        for (_, end, _), (begin, _, _) in zip(spans, spans[1:]):
            self.assertLess(end, begin)
        self.assertEqual([child for _, _, child in spans if is_running(child)], [])

    def commands_on(self, hosts, body=LINE):
        """The commands with these hosts in place of those of the other tests."""
        return re.sub(r"\[hosts\.\w+\]\n(?:[a-z]+ = .*\n)*", "", self.commands(body)) + hosts

    def one(self, body, **options):
        return self.exported(ONE, commands=self.commands(body, **options))

    def commands_of(self, session):
        """The words of each process that runs in a session."""
        found = []
        for path in pathlib.Path("/proc").glob("[0-9]*/cmdline"):
            with contextlib.suppress(OSError):
                found += [path.read_bytes()] if os.getsid(int(path.parent.name)) == session else []
        return found

    def started(self, *words):
        job = subprocess.Popen(
            ["make", "-s", "-C", self.folder, *words], start_new_session=True, stdout=subprocess.PIPE, stderr=subprocess.PIPE
        )
        self.addCleanup(job.communicate)
        return job


class EndedTest(Waiting):
    """What is ended has ended, with all that it started, before its step may begin again."""

    def test_after_a_limit(self):
        self.one(DEAF, timeout=4, retries=1, pause=0)
        self.assertEqual(self.make()[0], 2)
        self.check_nothing_overlaps(2)

    def test_after_the_shell_of_a_step_was_killed(self):
        self.one(f'echo $$ >"$TOP/shell"\n{DEAF}', retries=1, pause=0, timeout=DEADLINE)
        job = self.started()
        wait_until(self.lives)
        os.kill(int((self.top / "shell").read_text()), signal.SIGKILL)
        job.communicate(timeout=DEADLINE)
        self.check_nothing_overlaps(2)

    def test_after_a_signal(self):
        self.one(DEAF, timeout=DEADLINE)
        job = self.started()
        wait_until(self.lives)
        os.killpg(job.pid, signal.SIGINT)
        job.communicate(timeout=DEADLINE)
        # The lock goes when all of it has ended, and not before.
        wait_until(self.is_free)
        self.check_nothing_overlaps(1)
        self.assertEqual(self.marks(), [])


class AgainTest(Waiting):
    def test_each_try_after_the_first_knows_that_it_is_one(self):
        self.one('echo "again=[$METIS_AGAIN]" >>"$TOP/trace"; exit 1\n', retries=2, pause=0)
        self.make()
        self.assertEqual(self.trace(), ["again=[]", "again=[yes]", "again=[yes]"])

    def test_a_step_that_waited_for_its_lock_was_not_begun(self):
        self.one("echo x\n", lock='"apt"')
        locks = self.top / f"metis-{os.getuid()}"
        self.make()
        name = next(path for path in locks.iterdir() if path.name.startswith("lock.apt:"))
        (self.folder / "done" / "0.1").unlink()
        (self.folder / "log" / "0.1").unlink()
        with open(name, "ab") as held:
            fcntl.flock(held, fcntl.LOCK_EX)
            job = self.started()
            wait_until(lambda: b"flock\x008\x00" in self.commands_of(job.pid), "that the step waits for its lock")
            os.killpg(job.pid, signal.SIGTERM)
            job.communicate(timeout=DEADLINE)
        wait_until(self.is_free)
        self.assertEqual(call("done", self.folder)[2], "")

    def test_one_lock_for_two_folders(self):
        body = 'echo "in $(date +%s.%N)" >>"$TOP/trace"; sleep 0.7; echo "out $(date +%s.%N)" >>"$TOP/trace"\n'
        jobs = []
        for name in ("one", "two"):
            self.folder = self.top / name
            self.one(body, lock='"db"')
            jobs.append(self.started())
        for job in jobs:
            job.communicate(timeout=DEADLINE)
        self.assertEqual([line.split()[0] for line in self.trace()], ["in", "out", "in", "out"])

    def test_a_delete_is_told_whether_all_goes(self):
        gone = WEB.replace("actions 5", "actions 7").replace("end\n", "6 delete 0\n7 delete 1 after 6\nend\n")
        self.exported(gone, commands=self.commands('echo "$METIS_VERB [$METIS_TEARDOWN]" >>"$TOP/trace"\n'))
        self.make()
        self.assertEqual(self.trace()[-1], "delete [yes]")
        crossed = self.top / "crossed"
        self.folder = crossed
        self.exported(CROSSED, commands=self.commands('echo "$METIS_VERB [$METIS_TEARDOWN]" >>"$TOP/trace"\n'))
        self.make()
        self.assertEqual([line for line in self.trace() if line.startswith("delete")][-1], "delete []")

    def test_a_step_that_calls_another_folder_leaves_it_none_of_its_own_variables(self):
        inner = self.top / "inner"
        self.folder, outer = inner, self.folder
        self.one('echo "port=[${METIS_PORT-}]" >>"$TOP/trace"\n')
        self.folder = outer
        self.exported(WEB, commands=self.commands(f'if [ "$METIS_VERB" = bind ]; then make -s -C {inner}; fi\n'))
        self.assertEqual(self.make()[0], 0)
        self.assertEqual(self.trace(), ["port=[]"])


class WrittenAnewTest(Waiting):
    def test_a_makefile_that_was_read_before_marks_nothing(self):
        """A step without a command asks for the same digest as one with a command."""
        self.exported(ONE, commands="", more=["--lax"])
        old = (self.folder / "Makefile").read_text()
        self.exported(ONE, commands=self.commands("echo x\n"))
        (self.folder / "Makefile").write_text(old)
        status, _, said = self.make()
        self.assertEqual((status, self.marks()), (2, []))
        self.assertIn("make A#0: the folder was written anew; call make again", said)


class HostsTest(Waiting):
    def exported_on(self, placed, more=()):
        (self.top / "placed").write_text(placed)
        hosts = "".join(f"[hosts.{name}]\nvia = [\"env\"]\n" for name in ("left", "right"))
        return self.export(CROSSED, commands=self.commands_on(hosts), more=["--placement", self.top / "placed", *more])

    def test_what_was_done_on_a_host_does_not_go_on_elsewhere(self):
        self.assertEqual(self.exported_on(PLACED)[0], 0)
        self.assertEqual(self.make("done/0.1", "done/1.1")[0], 0)
        for text, here in ((PLACED.replace("0 left", "0 right"), "on right"), (None, "on this machine")):
            if text is None:
                status, _, said = self.export(CROSSED, commands=self.commands())
            else:
                status, _, said = self.exported_on(text)
            reason = f"metis: {self.folder}: A#0 was begun on left, and this would go on with it {here}: "
            self.assertEqual((status, said), (1, f"{reason}--placement names the host of each instance\n"))
        self.assertEqual(self.exported_on(PLACED)[0], 0)

    def test_the_script_of_a_hosts_step_repeats_it_there(self):
        self.assertEqual(self.exported_on(PLACED)[0], 0)
        self.make("done/0.1")
        script = self.folder / "log" / "0.1.sh"
        self.assertIn("exec env sh <<", script.read_text())
        self.assertEqual(subprocess.run(["sh", "-eu", script], check=False).returncode, 0)
        self.assertEqual(len(self.trace()), 2)

    def test_words_of_the_shell_get_to_the_host_as_they_are(self):
        (self.top / "placed").write_text(PLACED)
        hosts = '[hosts.left]\nvia = ["sh"]\n[hosts.right]\nvia = ["sh"]\n'.replace('"sh"', f'"{self.top}/far"')
        # As ssh does it: the words are joined by blanks, and a shell over there reads them.
        (self.top / "far").write_text('#!/bin/sh\nexec sh -c "$*"\n')
        (self.top / "far").chmod(0o755)
        head = 'shell = ["sh", "-c", "exec sh -eu /dev/stdin"]\n'
        self.exported(CROSSED, commands=head + self.commands_on(hosts), more=["--placement", self.top / "placed"])
        self.assertEqual(self.make("done/0.1")[0], 0)
        self.assertEqual(len(self.trace()), 1)

    def test_a_step_that_still_goes_on_there_is_not_begun_beside_itself(self):
        (self.top / "placed").write_text(PLACED)
        far = self.top / "far"
        # A connection that is lost at once: what was started over there goes on.
        far.write_text(
            f"#!/bin/sh\ncd {self.top}\ncat >far.$$\n"
            "setsid sh -c 'touch \"begun.$0\"; exec \"$@\"' $$ \"$@\" <far.$$ >>said 2>&1 &\n"
            "until [ -e begun.$$ ]; do sleep 0.02; done\nexit 255\n"
        )
        far.chmod(0o755)
        hosts = "".join(f'[hosts.{name}]\nvia = ["{far}"]\n' for name in ("left", "right"))
        body = f'echo in >>"$TOP/trace"\n{HELD}echo out >>"$TOP/trace"\n'
        self.exported(CROSSED, commands=self.commands_on(hosts, body), more=["--placement", self.top / "placed"])
        self.hold()
        self.make("done/0.1")
        wait_until(self.trace)
        for _ in range(2):
            self.make("done/0.1")
        wait_until(lambda: len(self.trace()) > 1 or self.said_far().count("an earlier try of this step still goes on here") == 2)
        self.let_go()
        wait_until(lambda: "out" in self.trace())
        self.assertEqual(self.trace(), ["in", "out"])

    def said_far(self):
        return (self.top / "said").read_text()

    def test_ssh_is_told_to_notice_a_link_that_is_down(self):
        (self.top / "placed").write_text(PLACED)
        hosts = '[hosts.left]\nvia = ["ssh", "-o", "ConnectTimeout=3", "a"]\n[hosts.right]\nvia = ["ssh", "b"]\n'
        self.exported(CROSSED, commands=self.commands_on(hosts), more=["--placement", self.top / "placed"])
        run = (self.folder / "run").read_text()
        self.assertIn("via='ssh -o ServerAliveInterval=15 -o ServerAliveCountMax=3 -o ConnectTimeout=3 a'", run)
        self.assertIn("-o ConnectTimeout=10 -o ServerAliveInterval=15 -o ServerAliveCountMax=3 b'", run)


class SaidTest(Waiting):
    def test_a_line_without_an_end_is_cut(self):
        self.one("head -c 50000000 /dev/zero | tr '\\0' x; exit 3\n")
        with soon():
            status, _, said = self.make()
        self.assertEqual(status, 2)
        self.assertLess(len(said), 50_000)
        self.assertIn("failed with status 3", said)

    def test_a_file_system_without_locks_is_said(self):
        self.one("echo x\n")
        flock = self.top / "bin" / "flock"
        flock.parent.mkdir()
        flock.write_text("#!/bin/sh\nexit 71\n")
        flock.chmod(0o755)
        words = ["make", "-s", "-C", self.folder]
        environment = {**os.environ, "PATH": f"{flock.parent}:{os.environ['PATH']}"}
        done = subprocess.run(words, env=environment, capture_output=True, text=True, check=False)
        self.assertIn("this file system has no locks (flock ended with 71)", done.stderr)

    def test_text_that_is_no_ascii_is_written_whatever_the_locale(self):
        self.exported(ONE, commands=self.commands("echo é\n") + '\n')
        text = (self.top / "c.toml").read_text()
        (self.top / "c.toml").write_text(text.replace("[env]", '[env]\nWORD = "é"'))
        words = [sys.executable, "-m", "metis_planner", "make", self.top / "plan", "--commands", self.top / "c.toml", "--to", self.folder]
        environment = {**os.environ, "LC_ALL": "C", "PYTHONUTF8": "0", "PYTHONCOERCECLOCALE": "0"}
        done = subprocess.run(words, cwd=TOP, env=environment, capture_output=True, text=True, check=False)
        self.assertEqual((done.returncode, done.stderr), (0, ""))

    def test_time_goes_by_a_clock_that_nobody_sets(self):
        """`date` says an hour less after the step: what it took is not below nothing, and the mark does not end before it begins."""
        date = self.top / "bin" / "date"
        date.parent.mkdir()
        date.write_text(f'#!/bin/sh\nn=$(($(cat {self.top}/n 2>/dev/null || echo 0) + 1)); echo $n >{self.top}/n\n'
                        'exec /bin/date -d "-$((n * 3600)) seconds" "$@"\n')
        date.chmod(0o755)
        self.one("sleep 1\n")
        environment = {**os.environ, "PATH": f"{date.parent}:{os.environ['PATH']}"}
        started = time.monotonic()
        done = subprocess.run(["make", "-s", "-C", self.folder], env=environment, capture_output=True, text=True, check=False)
        whole = time.monotonic() - started
        found = re.fullmatch(r"make A#0 [.]{2}\nmake A#0: done in (\d+) s \(1 of 1\)\n", done.stdout)
        self.assertTrue(found and 1 <= int(found[1]) <= whole + 1, (done.stdout, whole))
        begun, ended = map(float, (self.folder / "done" / "0.1").read_text().split("\n")[1].split())
        self.assertTrue(0.9 < ended - begun < whole + 0.1, whole)

    def test_events_are_lines_of_json(self):
        self.exported(WEB, commands=self.commands('if [ "$METIS_VERB" = move ]; then exit 4; fi\n'))
        self.make("-k")
        events = [json.loads(line) for line in (self.folder / "events").read_text().splitlines()]
        found = [(each["event"], each["instance"]) for each in events]
        self.assertIn(("done", "Web#0"), found)
        self.assertIn(("failed", "Db#1"), found)
        self.assertEqual(next(each["status"] for each in events if each["event"] == "failed"), 4)

    def test_each_goal_has_its_sentence(self):
        self.exported(WEB)
        self.assertIn("# 4 Web#0 takes sql from Db#1\ndone/0.2: | done/0.1 done/1.2\n", (self.folder / "Makefile").read_text())


class AskedTest(Waiting):
    """`status`, `log`, `retry` and `verify`."""

    CHECKED = """
[[step]]
when = "*: new"
run = ""
[[step]]
when = "*: bind *"
run = ""
[[step]]
when = "*: * -> *"
run = 'touch "$TOP/$METIS_NAME"'
check = 'test -e "$TOP/$METIS_NAME" || {{ echo "it is gone"; exit 1; }}'
"""

    def test_status_while_a_step_runs_and_after_it_failed(self):
        self.exported(WEB, commands=self.commands(f'if [ "$METIS_ACTION" = 3 ]; then echo why; {HELD}exit 5; fi\n'))
        self.hold()
        job = self.started("-j2", "-k")
        wait_until(lambda: "running  Db#1: off -> on" in call("status", self.folder)[1])
        status, text, _ = call("status", self.folder)
        self.assertEqual(status, 0)
        self.assertIn("2 of 5 done, 1 running, 2 waiting", text)
        self.assertIn("  running  Db#1: off -> on, for", text)
        self.let_go()
        job.communicate(timeout=DEADLINE)
        status, text, _ = call("status", self.folder)
        self.assertEqual(status, 1)
        self.assertIn(f"  failed   Db#1: off -> on: failed with status 5; metis log {self.folder} Db#1\n             | why\n", text)
        found = json.loads(call("status", self.folder, "--json")[1])
        self.assertEqual(found["counts"], {"done": 2, "running": 0, "failed": 1, "ready": 0, "waiting": 2})
        self.assertEqual(found["actions"][3]["waits_for"], [3])

    def test_done_can_be_asked_while_a_step_runs(self):
        self.exported(WEB, commands=self.commands(f'if [ "$METIS_ACTION" = 3 ]; then {HELD}fi\n'))
        self.hold()
        job = self.started("-j2")
        wait_until(lambda: "running  Db#1: off -> on" in call("status", self.folder)[1])
        status, part, notes = call("done", self.folder)
        self.assertEqual((status, part.split("\n")[1]), (0, "instances 2 actions 2 dups 0"), notes)
        self.let_go()
        job.communicate(timeout=DEADLINE)

    def test_time_that_is_left_is_the_longest_chain(self):
        self.exported(WEB, commands=self.commands('if [ "$METIS_VERB" = move ]; then sleep 1; fi\n'))
        self.make("done/1.2")
        found = json.loads(call("status", self.folder, "--json")[1])
        # What is left is a new, a bind and a move of Web. None of its kind is done, so each takes the mean of what is.
        took = [self.seconds_of(key) for key in ("1.1", "1.2")]
        self.assertGreater(took[1], 0.9)
        self.assertAlmostEqual(found["seconds_left"], 3 * sum(took) / 2, places=2)
        self.make()
        self.assertEqual(json.loads(call("status", self.folder, "--json")[1])["seconds_left"], 0)

    def seconds_of(self, key):
        begun, ended = map(float, (self.folder / "done" / key).read_text().split("\n")[1].split())
        return ended - begun

    def test_logs_by_the_name_of_an_instance(self):
        self.exported(WEB, commands=self.commands('printf "of %s\\033[2J\\n" "$METIS_NAME"\n'))
        self.make()
        status, text, _ = call("log", self.folder, "Db#1")
        self.assertEqual((status, text.count("of Db-1")), (0, 2))
        self.assertNotIn("\x1b", text)
        self.assertIn("# 3 Db#1: off -> on\n", text)
        self.assertIn("no instance, action or step 'Db#7'; instances are Web#0, Db#1", call("log", self.folder, "Db#7")[2])

    def test_a_step_is_done_again_with_what_waited_for_it(self):
        self.exported(WEB)
        self.make()
        self.assertEqual(call("retry", self.folder, "Db#1")[0], 0)
        self.assertEqual(self.marks(), ["0.1", "1.1"])
        self.make()
        self.assertEqual(self.numbers().count(3), 2)
        self.assertEqual(self.numbers().count(1), 1)

    def test_what_is_lost_is_named_and_healed(self):
        head = self.commands("").split("[[step]]")[0]
        self.exported(WEB, commands=head + self.CHECKED.format())
        self.make()
        self.assertEqual(call("verify", self.folder)[:2], (0, "Web#0  run           ok\nDb#1   on            ok\n"))
        (self.top / "Db-1").unlink()
        status, text, notes = call("verify", self.folder)
        self.assertEqual((status, text), (1, "Web#0  run           ok\nDb#1   on            lost: it is gone\n"))
        self.assertEqual(self.make("-q")[0], 0)
        status, _, notes = call("verify", self.folder, "--take-back")
        self.assertEqual((status, notes), (1, "metis: 3 steps will be done again by make\n"))
        self.assertEqual(self.marks(), ["0.1", "1.1"])
        self.assertEqual(self.make()[0], 0)
        self.assertEqual(call("verify", self.folder)[0], 0)
        self.assertEqual(json.loads(call("verify", self.folder, "--json")[1])[1]["verdict"], "ok")

    def test_a_check_that_hangs_has_an_end(self):
        head = self.commands("").split("[[step]]")[0]
        text = self.CHECKED.format().replace("test -e", f"sleep {FOREVER}; test -e")
        self.exported(WEB, commands=head + text)
        self.make()
        run = self.folder / "run"
        run.write_text(run.read_text().replace("limit=10 step=$check", "limit=1 step=$check"))
        status, text, _ = call("verify", self.folder)
        self.assertEqual((status, text.count("not known: no answer after 1 s\n")), (75, 2))


class WrittenTest(Waiting):
    """What an export says to `run`, and who may read it."""

    def test_nobody_else_may_look_into_the_folder(self):
        self.exported(ONE)
        self.assertEqual(self.folder.stat().st_mode & 0o777, 0o700)
        self.assertEqual((self.folder / "run").stat().st_mode & 0o777, 0o700)

    def test_the_limit_at_the_top_of_the_file_is_for_all_steps(self):
        self.exported(ONE, commands="timeout = 1\n" + self.commands(f"sleep {FOREVER}\n"))
        self.assertIn("it took more than its 1 s", self.make()[2])

    def test_a_step_without_a_limit_has_one_of_an_hour(self):
        self.exported(ONE)
        self.assertIn(" limit=3600 ", (self.folder / "run").read_text())

    def test_a_pause_is_made_between_two_tries(self):
        self.one('date +%s >>"$TOP/trace"; exit 1\n', retries=1, pause=2)
        self.make()
        first, second = map(int, self.trace())
        self.assertGreaterEqual(second - first, 2)

    def test_another_placement_is_another_export(self):
        hosts = '[hosts.left]\n[hosts.right]\n'
        digests = set()
        for placed in (PLACED, PLACED.replace("0 left", "0 right"), PLACED.replace("hold 9 after 4 6\n", "")):
            (self.top / "placed").write_text(placed)
            self.exported(CROSSED, commands=self.commands_on(hosts), more=["--placement", self.top / "placed"])
            digests.add(re.search(r"METIS_EXPORT := (\w+)", (self.folder / "Makefile").read_text())[1])
        self.assertEqual(len(digests), 2)
        # A hold is in the waits of the Makefile alone, and changes no step.

    def test_a_server_keeps_no_lock_of_its_step(self):
        body = f'setsid sleep {FOREVER} >/dev/null 2>&1 & echo $! >>"$TOP/servers"\n'
        self.exported(plan_text("new 0 A", "new 1 A"), commands=self.commands(body, lock='"db"'))
        self.addCleanup(lambda: [os.kill(int(pid), 9) for pid in (self.top / "servers").read_text().split()])
        self.assertEqual(self.make("-j8")[0], 0)

    def test_an_instance_that_takes_from_the_old_is_not_parted_from_it(self):
        taking = WEB.replace("instances 2 actions 5", "instances 3 actions 9").replace(
            "end\n", "6 new 2 Web\n7 bind sql 2 1 after 3\n8 move 2 off run\n9 delete 0\nend\n"
        )
        self.exported(WEB)
        self.make()
        self.exported(taking)
        self.make("done/2.2")
        status, _, said = call("split", self.folder, self.top / "new")
        self.assertEqual((status, (self.top / "new").exists()), (1, False), said)
        self.assertIn("takes from what is old, so the two cannot be parted", said)

    def test_a_split_that_was_ended_between_the_plan_and_the_marks_is_finished(self):
        self.exported(WEB)
        self.make()
        self.exported(ROLLED)
        self.make("done/3.2")
        with mock.patch("metis_planner.carry.folder.Folder.finish_parting", side_effect=[None, None, KeyboardInterrupt]):
            self.assertRaises(KeyboardInterrupt, split.run, argparse.Namespace(folder=self.folder, new=self.top / "new"))
        self.assertIn("3.2", self.marks())
        status, part, said = call("done", self.folder)
        self.assertEqual((status, part), (0, WEB), said)
        self.exported(WEB)
        self.assertNotIn("3.2", self.marks())


class AnsibleTest(Waiting):
    def test_a_playbook_gets_the_variables_of_its_step_and_is_limited_to_its_host(self):
        (self.top / "placed").write_text(PLACED)
        fake = self.top / "fake"
        fake.write_text(f'#!/bin/sh\nprintf "%s\\n" "$@" >{self.top}/words\n')
        fake.chmod(0o755)
        text = f"""
[env]
ANSIBLE_PLAYBOOK = "{fake}"
[hosts.left]
via = ["ssh", "root@10.0.0.11"]
[hosts.right]
[[step]]
when = "*: new"
playbook = "/srv/new it.yml"
"""
        self.exported(CROSSED, commands=text, more=["--placement", self.top / "placed", "--lax"])
        self.assertEqual(self.make("done/0.1")[0], 0)
        words = (self.top / "words").read_text().splitlines()
        self.assertEqual(words[2:4], ["-l", "left"])
        self.assertEqual(words[-1], "/srv/new it.yml")
        found = json.loads(words[words.index("-e") + 1])
        self.assertEqual((found["metis_name"], found["metis_verb"], found["metis_host"]), ("A-0", "new", "left"))
        inventory = pathlib.Path(words[1]).read_text()
        self.assertIn("left ansible_host=10.0.0.11 ansible_user=root\n", inventory)
        self.assertIn("right ansible_connection=local\n", inventory)
        status, printed, _ = call("inventory", self.top / "placed", "--commands", self.top / "c.toml")
        self.assertEqual((status, printed), (0, inventory))


class KeptTest(unittest.TestCase):
    def test_each_file_that_is_written_reaches_the_disk_before_its_name(self):
        text = (TOP / "metis_planner" / "carry" / "run.sh").read_text()
        self.assertRegex(text, re.compile(r'sync "log/\$key.mark".*&& mv .* && \{ sync done', re.DOTALL))


if __name__ == "__main__":
    unittest.main()
