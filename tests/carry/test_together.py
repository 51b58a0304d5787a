"""What belongs together is together at each moment: a plan with what it was made for, and a rollout with its plan."""

import argparse
import contextlib
import fcntl
import json
import os
import pathlib
import re
import shutil
import subprocess
import sys
import tempfile
import unittest
from unittest import mock

from metis_planner.carry import calling, split
from metis_planner.carry.folder import Folder, sum_of
from tests.carry.shapes import LINE, ROLLED, TAKEN_DOWN, WEB, FolderCase, call, plan_text
from tests.carry.test_kept import Placed
from tests.carry.test_up import UNIVERSE, UpCase
from tests.effort import FOREVER, is_running
from tests.stand_in import Answer
from tests.test_words import TOP


BY = '[hosts.left]\nvia = ["env"]\n'


class SplitTest(FolderCase):
    def ended_at(self, count):
        """A rollout that is given up, and ended before this write of a file; whether there were so many."""
        shutil.rmtree(self.folder, ignore_errors=True)
        shutil.rmtree(self.top / "new", ignore_errors=True)
        self.exported(WEB)
        self.make()
        self.exported(ROLLED)
        self.make("done/3.2")
        left, whole = [count], split.write_whole

        def ending(path, text):
            if not left[0]:
                raise KeyboardInterrupt
            left[0] -= 1
            whole(path, text)

        with mock.patch("metis_planner.carry.split.write_whole", ending), mock.patch("metis_planner.carry.folder.write_whole", ending):
            with contextlib.suppress(KeyboardInterrupt):
                split.run(argparse.Namespace(folder=self.folder, new=self.top / "new"))
        return not left[0]

    def test_at_no_moment_the_longer_plan_is_no_rollout(self):
        """Or its export would have no barrier, and what is old would go while what is new has failed."""
        count = 0
        while self.ended_at(count):
            folder = Folder(str(self.folder))
            steps, text = folder.steps(), folder.text()
            with self.subTest(count=count):
                self.assertIn((text, len(folder.rollouts(len(steps)))), ((ROLLED, 1), (WEB, 0)))
                if text == WEB:
                    self.assertEqual(call("done", self.folder)[:2], (0, WEB))
            count += 1
        self.assertGreater(count, 5)

    def test_a_folder_that_has_a_plan_is_said_to_have_one(self):
        self.exported(WEB)
        self.make()
        self.exported(ROLLED)
        self.make("done/3.2")
        self.assertEqual(call("split", self.folder, self.top / "new")[0], 0)
        self.exported(ROLLED)
        self.make("done/3.2")
        self.assertEqual(call("split", self.folder, self.top / "new")[2], f"metis: {self.top / 'new'}: it has a plan already\n")


class TwoTest(UpCase):
    """Two calls of `up` at the same time, with different targets."""

    def request(self):
        return json.loads((self.folder / "request.json").read_text())

    def meanwhile(self, words):
        """Before the engine of the first call begins, the second one does all that it does."""
        whole = calling.carried_out

        def between(request, folder):
            with mock.patch("metis_planner.carry.calling.carried_out", whole):
                self.other = self.up(*words)
            return whole(request, folder)

        return mock.patch("metis_planner.carry.calling.carried_out", between)

    def test_who_was_overtaken_is_not_told_that_all_is_done(self):
        with self.meanwhile(["Db:on"]):
            status, _, said = self.up("Web:run")
        self.assertEqual(self.other[0], 0, self.other)
        self.assertEqual(status, 1)
        self.assertIn(f"{self.folder}: somebody else has planned something else in it meanwhile; call it again\n", said)
        self.assertEqual((self.request()["targets"], self.request()["plan"]), (["Db:on"], sum_of((self.folder / "plan.txt").read_bytes())))

    def test_the_same_asked_twice_is_no_other_plan(self):
        with self.meanwhile(["Web:run"]):
            status, _, said = self.up("Web:run")
        self.assertEqual((status, self.other[0]), (0, 0), said)
        self.assertEqual(sorted(self.numbers()), [1, 2, 3, 4, 5])

    def test_what_was_asked_for_is_written_while_the_folder_is_held(self):
        seen = []

        def watched(whole):
            def write(path, text):
                if path.parent == self.folder:
                    with open(self.folder / "lock" / ".folder", "ab") as lock:
                        try:
                            fcntl.flock(lock, fcntl.LOCK_EX | fcntl.LOCK_NB)
                            seen.append((path.name, "free"))
                        except BlockingIOError:
                            seen.append((path.name, "held"))
                whole(path, text)

            return write

        with contextlib.ExitStack() as stack:
            for module in ("request", "calling", "script", "folder"):
                name = f"metis_planner.carry.{module}.write_whole"
                stack.enter_context(mock.patch(name, watched(calling.write_whole)))
            self.stands("Web:run")
        self.assertLessEqual({"plan.txt", "universe.json", "request.json", "run"}, {name for name, _ in seen})
        # The format of a folder is noted where it is made, before there is a lock in it.
        self.assertEqual([name for name, how in seen if how == "free" and name != "format"], [])


class RetryTest(FolderCase):
    def test_of_an_instance_whose_step_failed_nothing_is_taken_back(self):
        """make does the failed step again; what worked before it stays."""
        self.exported(WEB, commands=self.commands(LINE + '[ "$METIS_ACTION" != 3 ]\n'))
        self.make("-k")
        before = self.marks()
        status, out, said = call("retry", self.folder, "Db#1")
        self.assertEqual((status, out, self.marks()), (1, "", before))
        reason = "nothing is taken back, since this is not done, and make does it again: Db#1: off -> on"
        self.assertEqual(said, f"metis: {self.folder}: {reason}\n")
        self.exported(WEB)
        self.assertEqual(self.make()[0], 0)
        self.assertEqual(call("retry", self.folder, "Db#1")[0], 0)


class DownTest(UpCase):
    answers = [*UpCase.answers, Answer(["rollout", UNIVERSE, WEB], TAKEN_DOWN)]

    def test_over_a_request_that_is_damaged(self):
        self.stands("Web:run")
        before = self.marks()
        for text, reason in (
            ("not json", "request.json: no JSON"),
            ("", "request.json: no JSON"),
            ("\xff", "request.json: no"),
            ("[]", "it was not written by `metis up`"),
            ("3", "it was not written by `metis up`"),
            ('{"commands": 3}', "it was not written by `metis up`"),
            ("[" * 100_000, "request.json: no JSON"),
        ):
            (self.folder / "request.json").write_text(text, encoding="latin-1")
            with self.subTest(text=text[:20]):
                status, out, said = call("down", self.folder, "--yes")
                self.assertEqual((status, out, said.count("\n"), self.marks()), (1, "", 1, before), said[-300:])
                self.assertIn(reason, said)
        for jobs in ("true", "0", "-2", '"x"', "1e400", "100000000000"):
            (self.folder / "request.json").write_text(f'{{"commands": "{self.top}/c.toml", "jobs": {jobs}}}')
            with self.subTest(jobs=jobs):
                said = call("down", self.folder)[2]
                self.assertIn("Take all of this away, with its data", said)

    def test_down_of_a_plan_on_hosts_is_done_on_them(self):
        (self.top / "placed").write_text("on 0 left\non 1 right\nplaced 2 hosts 2\n")
        hosts = '[hosts.left]\nvia = ["env", "VIA=left"]\n[hosts.right]\nvia = ["env", "VIA=right"]\n'
        commands = self.commands().split("[hosts.left]")[0] + hosts + "[[step]]" + self.commands().split("[[step]]", 1)[1]
        self.exported(WEB, commands=commands, more=["--placement", self.top / "placed"])
        self.assertEqual(self.make()[0], 0)
        status, _, said = call("down", self.folder, "--universe", self.universe, "--commands", self.top / "c.toml", "--yes")
        self.assertEqual(status, 0, said)
        self.assertEqual([(line.split()[1:3], line.split()[-1]) for line in self.trace()[-2:]], [(["Web-0", "delete"], "left"), (["Db-1", "delete"], "right")])


class JobsTest(UpCase):
    def test_how_many_at_once_is_a_number_from_one_on(self):
        words = ["--commands", self.top / "c.toml", "--to", self.folder, "--yes"]
        (self.top / "c.toml").write_text(self.commands())
        here = pathlib.Path.cwd()
        self.addCleanup(os.chdir, here)
        os.chdir(self.top)
        for text, given, reason in (
            ("true", (), "jobs is of another kind"),
            ("0", (), "jobs is not from 1 to 10000"),
            ("-2", (), "jobs is not from 1 to 10000"),
            ("10001", (), "jobs is not from 1 to 10000"),
            ("4", ("-j", "-3"), "-j is not from 1 to 10000"),
            ("4", ("-j", "0"), "-j is not from 1 to 10000"),
            ("4", ("-j", "99999999999999999999"), "-j is not from 1 to 10000"),
        ):
            (self.top / "metis.toml").write_text(f"jobs = {text}\n")
            with self.subTest(text=text, given=given):
                status, out, said = call("up", self.universe, "Web:run", *words, *given)
                self.assertEqual((status, out, said.count("\n"), self.folder.exists()), (1, "", 1, False), said)
                self.assertIn(reason, said)
        self.stands("Web:run")
        (self.top / "metis.toml").unlink()
        self.assertIn("-j is not from 1 to 10000", call("down", self.folder, "-j", "-3", "--yes")[2])


class WayTest(Placed):
    """What a step starts on a host, over a way that may stay on this machine."""

    def server(self, via, count=1):
        body = f'setsid sleep {FOREVER} >/dev/null 2>&1 & echo $! >>"{self.top}/servers"\n'
        self.addCleanup(self.end_servers)
        self.placed(plan_text(*(f"new {each} A" for each in range(count))), "".join(f"on {each} left\n" for each in range(count)) + f"placed {count} hosts 1\n", f"[hosts.left]\nvia = {json.dumps(via)}\n", body)

    def servers(self):
        return [int(word) for word in (self.top / "servers").read_text().split()]

    def end_servers(self):
        for server in filter(is_running, self.servers()):
            os.kill(server, 9)

    def goes_on(self, via):
        """The server lives, holds nothing, and the folder is written and carried out again."""
        self.server(via, 2)
        self.assertEqual(self.make("-j2")[0], 0)
        self.assertTrue(self.is_free())
        self.assertEqual([is_running(each) for each in self.servers()], [True, True])
        for server in self.servers():
            held = [os.readlink(path) for path in pathlib.Path(f"/proc/{server}/fd").iterdir()]
            self.assertEqual([path for path in held if str(self.folder) in path or "metis-" in path], [])
        for word in ("A#0", "A#1"):
            self.assertEqual(call("retry", self.folder, word)[0], 0)
        self.assertEqual(self.make("-j2")[0], 0)

    def test_a_server_over_a_way_of_this_machine(self):
        self.goes_on(["env"])

    @unittest.skipUnless(os.geteuid() == 0, "only root may change the root")
    def test_a_server_in_another_root(self):
        self.goes_on(["chroot", "/"])

    def locks(self):
        folder = re.search(r"([0-9a-f]{12})[.][$]key", (self.folder / "run").read_text())[1]
        return list(pathlib.Path(f"/tmp/metis-{os.getuid()}").glob(f"{folder}.*"))

    def test_the_file_of_a_lock_goes_when_its_step_has_ended(self):
        for body, status in (("true\n", 0), ("exit 3\n", 2), (f"sleep {FOREVER}\n", 2)):
            self.placed(plan_text("new 0 A"), "on 0 left\nplaced 1 hosts 1\n", BY, body, timeout=2)
            with self.subTest(body=body):
                self.assertEqual((self.make()[0], self.locks()), (status, []))
                shutil.rmtree(self.folder)

    def test_a_lock_whose_file_was_taken_away_is_none(self):
        """Who had the lock takes its file away just when the next one has opened it: that one has to open it again."""
        flock = self.top / "bin" / "flock"
        flock.parent.mkdir()
        flock.write_text(f'#!/bin/sh\n[ -e {self.top}/taken ] || case "$*" in "-n 9") rm -f "$(readlink /proc/$$/fd/9)"; touch {self.top}/taken ;; esac\nexec {shutil.which("flock")} "$@"\n')
        flock.chmod(0o755)
        body = f'ls /tmp/metis-{os.getuid()} >"$TOP/there"\n'
        self.placed(plan_text("new 0 A"), "on 0 left\nplaced 1 hosts 1\n", BY.replace('"env"', f'"env", "PATH={flock.parent}:{os.environ["PATH"]}"'), body)
        self.assertEqual(self.make()[0], 0)
        self.assertTrue((self.top / "taken").exists())
        folder = re.search(r"([0-9a-f]{12})[.][$]key", (self.folder / "run").read_text())[1]
        self.assertIn(f"{folder}.0.1", (self.top / "there").read_text().split())


class SketchTest(unittest.TestCase):
    def test_a_sketch_beside_what_a_shell_has_opened(self):
        """`metis replay web.sketch <(metis plan ..)`: the program gets the pipe, and the sketch as a universe."""
        with mock.patch.dict(os.environ), contextlib.ExitStack() as stack:
            top = pathlib.Path(stack.enter_context(tempfile.TemporaryDirectory()))
            program = top / "program"
            program.write_text('#!/bin/sh\n[ "$1" = --plain ] && shift\ncat "$3"\ngrep -c aeolus "$2"\n')
            program.chmod(0o755)
            (top / "web.sketch").write_text("Web: off > run\n")
            script = f'"{sys.executable}" -m metis_planner over-sketch replay "{top}/web.sketch" <(echo of the pipe) </dev/null'
            environment = {**os.environ, "METIS_COMMAND": str(program), "PYTHONPATH": str(TOP)}
            done = subprocess.run(["bash", "-c", script], env=environment, capture_output=True, text=True, check=False)
            self.assertEqual((done.returncode, done.stdout), (0, "of the pipe\n1\n"), done.stderr)


if __name__ == "__main__":
    unittest.main()
