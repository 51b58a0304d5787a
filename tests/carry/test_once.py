"""No step runs twice at once: whoever is ended by whatever signal, also where nobody reads what is printed any more.

A step holds a lock of its own, which all that it starts inherits: a try that finds it held says `twice`.
"""

import os
import pathlib
import shutil
import signal
import subprocess
import time
import unittest

from tests.carry.shapes import LINE, call
from tests.carry.test_kept import Placed
from tests.carry.test_life import ONE, Waiting
from tests.effort import DEADLINE, FOREVER, is_running, wait_until
from tests.test_words import TOP

# It heeds a signal after a while, and else lasts until it may end; a second try ends at once.
WAITS = """trap 'sleep 1; exit 1' TERM; until [ -e "$TOP/go" ]; do sleep 0.1; done"""
ALONE = f"""
exec 5>>"$TOP/$NAME.alone"
flock -n 5 || echo twice >>"$TOP/$NAME.twice"
echo "$$" >>"$TOP/$NAME.begun"
if [ "$(wc -l <"$TOP/$NAME.begun")" -gt 1 ]; then exit 0; fi
sh -c 'echo "$$" >>"$TOP/$NAME.children"; {WAITS.replace("'", '"')}' &
{WAITS}
wait
"""
LEFT = "on 0 left\nplaced 1 hosts 1\n"


def processes_in(folder):
    """The processes that are at work in a folder, by their numbers, with their words."""
    found = {}
    for path in pathlib.Path("/proc").glob("[0-9]*"):
        try:
            if os.readlink(path / "cwd") == str(folder):
                found[int(path.name)] = (path / "cmdline").read_bytes().split(b"\0")
        except OSError:
            continue
    return found


def those(folder, *names):
    """Of the processes in a folder those that run one of these: make, run, timeout; `run` is a word of its shell."""
    wanted = {name.encode() for name in names}
    return [number for number, words in processes_in(folder).items() if wanted & {word.rpartition(b"/")[2] for word in words[:2]}]


class OnceTest(Placed):
    def setUp(self):
        super().setUp()
        self.jobs = {}

    def begun(self, name):
        path = self.top / f"{name}.children"
        return path.exists() and path.read_text().endswith("\n")

    def begin(self, name, words, is_read):
        """Starts the engine, and waits until its step is under way; where nobody reads what is said, the reader goes before that."""
        job = subprocess.Popen(words, start_new_session=True, stdout=subprocess.PIPE, stderr=subprocess.STDOUT, cwd=self.top)
        self.addCleanup(self.ended, job)
        self.jobs[name] = job
        wait_until(lambda: self.begun(name), f"the step of {name}")
        if not is_read:
            job.stdout.close()

    def ended(self, job):
        if job.poll() is None:
            os.killpg(job.pid, signal.SIGKILL)
        if not job.stdout.closed:
            job.stdout.close()
        job.wait()

    def go_on(self, words_of):
        """Calls each once, which is when a step would run beside itself; then lets what is held end, and calls each until all is done."""
        for name, words in words_of.items():
            subprocess.run(words, capture_output=True, cwd=self.top, check=False)
        (self.top / "go").touch()
        for words in words_of.values():
            self.goes_on(words)

    def goes_on(self, words):
        end = time.monotonic() + DEADLINE
        while subprocess.run(words, capture_output=True, cwd=self.top, check=False).returncode:
            self.assertLess(time.monotonic(), end)
            time.sleep(0.1)

    def check(self, name):
        self.assertFalse((self.top / f"{name}.twice").exists(), f"{name}: a step ran beside itself")
        self.assertEqual(self.marks(self.top / name), ["0.1"], name)
        children = map(int, (self.top / f"{name}.children").read_text().split())
        self.assertEqual([child for child in children if is_running(child)], [], name)

    def written(self, name, engine, **options):
        self.folder = self.top / name
        commands = self.commands(ALONE, timeout=FOREVER, **options).replace("[env]\n", f'[env]\nNAME = "{name}"\n', 1)
        self.exported(ONE, engine, commands)

    def words(self, engine, name):
        return ["make", "-s", "-C", self.top / name] if engine == "make" else ["ninja", "-C", self.top / name]

    def blows(self, engine):
        """What is sent to whom; the group is that of a terminal."""
        return {
            "Ctrl-C": lambda job, folder: os.killpg(job.pid, signal.SIGINT),
            "hangup": lambda job, folder: os.killpg(job.pid, signal.SIGHUP),
            "term-all": lambda job, folder: os.killpg(job.pid, signal.SIGTERM),
            "term-engine": lambda job, folder: os.kill(job.pid, signal.SIGTERM),
            "kill-engine": lambda job, folder: os.kill(job.pid, signal.SIGKILL),
            "kill-run": lambda job, folder: self.kill(folder, "run"),
            "kill-timeout": lambda job, folder: self.kill(folder, "timeout"),
            "kill-run-timeout": lambda job, folder: self.kill(folder, "run", "timeout"),
            "kill-three": lambda job, folder: self.kill(folder, engine, "run", "timeout"),
        }

    def kill(self, folder, *names):
        found = those(folder, *names)
        self.assertGreaterEqual(len(found), len(names), processes_in(folder))
        for number in found:
            os.kill(number, signal.SIGKILL)

    def each_blow(self, engine, is_read):
        """All at the same time, each in a folder of its own, since they wait most of the time."""
        blows = self.blows(engine)
        for name in blows:
            self.written(name, engine)
            self.begin(name, self.words(engine, name), is_read)
        for name, blow in blows.items():
            blow(self.jobs[name], self.top / name)
        self.go_on({name: self.words(engine, name) for name in blows})
        for name in blows:
            with self.subTest(blow=name):
                self.check(name)

    def test_with_make(self):
        self.each_blow("make", True)

    def test_with_make_where_nobody_reads(self):
        self.each_blow("make", False)

    @unittest.skipUnless(shutil.which("ninja"), "no ninja")
    def test_with_ninja(self):
        self.each_blow("ninja", True)

    @unittest.skipUnless(shutil.which("ninja"), "no ninja")
    def test_with_ninja_where_nobody_reads(self):
        self.each_blow("ninja", False)

    def test_with_up(self):
        """`metis up` is ended alone, and with all that it started."""
        (self.top / "u.sketch").write_text("A: off > on(+p)\n")
        blows = {
            "up-Ctrl-C": lambda job: os.killpg(job.pid, signal.SIGINT),
            "up-term": lambda job: os.kill(job.pid, signal.SIGTERM),
            "up-kill": lambda job: os.kill(job.pid, signal.SIGKILL),
            "up-kill-all": lambda job: [os.kill(number, signal.SIGKILL) for number in (job.pid, *those(self.top / "up-kill-all", "make", "run", "timeout"))],
        }
        words_of = {}
        for name in blows:
            step = self.commands(ALONE).split("[[step]]\n")[-1].replace("*: * -> *", "*: new")
            commands = f'[env]\nTOP = "{self.top}"\nNAME = "{name}"\n[[step]]\n{step}[[step]]\nwhen = "*: * -> *"\nrun = ""\n'
            (self.top / f"{name}.toml").write_text(commands)
            words_of[name] = [TOP / "metis", "up", "u.sketch", "A:on", f"--commands={name}.toml", f"--to={name}", "--yes", "--engine=make"]
            if subprocess.run([TOP / "metis", "plan", "u.sketch", "A:on"], cwd=self.top, capture_output=True, check=False).returncode:
                self.skipTest("no program that plans")
            self.begin(name, words_of[name], False)
        for name, blow in blows.items():
            blow(self.jobs[name])
        self.go_on(words_of)
        for name in blows:
            with self.subTest(blow=name):
                self.assertFalse((self.top / f"{name}.twice").exists())
                self.assertEqual(self.marks(self.top / name), ["0.1", "0.2"])

    def test_over_a_way_that_stays_on_this_machine(self):
        """What is ended here is ended there, before the locks go."""
        blows = self.blows("make")
        del blows["kill-engine"], blows["kill-timeout"], blows["kill-run-timeout"], blows["kill-three"]
        for name in blows:
            self.folder = self.top / name
            (self.top / "placed").write_text(LEFT)
            commands = self.commands(ALONE, timeout=FOREVER).replace("[env]\n", f'[env]\nNAME = "{name}"\n', 1)
            commands = commands.replace("[hosts.left]\n", '[hosts.left]\nvia = ["env"]\n')
            self.exported(ONE, commands=commands, more=["--placement", self.top / "placed"])
            self.begin(name, self.words("make", name), False)
        for name, blow in blows.items():
            blow(self.jobs[name], self.top / name)
        self.go_on({name: self.words("make", name) for name in blows})
        for name in blows:
            with self.subTest(blow=name):
                self.check(name)

    def test_a_signal_while_what_failed_is_ended(self):
        """The step has failed, and a child of it takes its time: the lock is held until that has ended."""
        self.folder = self.top / "f"
        body = (
            'exec 5>>"$TOP/f.alone"\nflock -n 5 || echo twice >>"$TOP/f.twice"\necho x >>"$TOP/f.begun"\n'
            'if [ "$(wc -l <"$TOP/f.begun")" -gt 1 ]; then exit 0; fi\n'
            "sh -c 'trap \"touch $TOP/termed; sleep 2; exit\" TERM; touch $TOP/ready; while :; do sleep 0.1; done' &\n"
            'until [ -e "$TOP/ready" ]; do sleep 0.05; done\nexit 1\n'
        )
        self.one(body)
        job = self.started()
        wait_until((self.top / "termed").exists)
        os.killpg(job.pid, signal.SIGTERM)
        job.communicate(timeout=DEADLINE)
        self.goes_on(self.words("make", "f"))
        self.assertFalse((self.top / "f.twice").exists())


class GroupTest(Waiting):
    """What tells whether a process group is still the one of a step: a stranger and a server are left alone."""

    def groups(self):
        return sorted(path.name for path in (self.folder / "log").glob("*.group"))

    def orphaned(self, body=None):
        """A step that goes on, though make, its script and its limit were killed; its shell and what it waits for."""
        self.one(body or f'if [ -n "$METIS_AGAIN" ]; then exit 0; fi\necho "$$" >"$TOP/shell"\nsleep {FOREVER} & echo "$!" >"$TOP/child"\nwait\n')
        job = self.started()
        wait_until(lambda: (self.top / "child").exists() and (self.top / "child").read_text().strip())
        for number in those(self.folder, "make", "run", "timeout"):
            os.kill(number, signal.SIGKILL)
        job.communicate(timeout=DEADLINE)
        found = [int((self.top / name).read_text()) for name in ("shell", "child")]
        self.addCleanup(self.kill_all, found)
        self.assertTrue(all(map(is_running, found)))
        return found

    def kill_all(self, numbers):
        for number in filter(is_running, numbers):
            os.kill(number, signal.SIGKILL)

    def stranger(self):
        job = subprocess.Popen(["sleep", str(FOREVER)], start_new_session=True)
        self.addCleanup(job.wait)
        self.addCleanup(job.kill)
        return job.pid

    def test_it_is_noted_while_the_step_runs_and_no_longer(self):
        body = 'cat "$METIS_FOLDER"/log/0.1.group >>"$TRACE"; ps -o pgid= -p "$$" >>"$TRACE"; [ -e "$TOP/good" ]\n'
        self.one(body)
        self.assertEqual((self.make()[0], self.groups()), (2, []))
        (self.top / "good").touch()
        self.assertEqual((self.make()[0], self.groups()), (0, []))
        first, group, *_ = self.trace()
        self.assertEqual(first.split()[3], group.strip())
        self.assertEqual(first.split()[0], pathlib.Path("/proc/sys/kernel/random/boot_id").read_text().strip())

    def test_what_goes_on_is_ended_before_the_step_is_begun_again(self):
        left = self.orphaned()
        self.assertEqual(self.make()[0], 0)
        self.assertEqual(([each for each in left if is_running(each)], self.groups()), ([], []))

    def test_also_where_only_a_child_of_its_shell_is_left(self):
        shell, child = self.orphaned()
        os.kill(shell, signal.SIGKILL)
        wait_until(lambda: not is_running(shell))
        self.assertEqual((self.make()[0], is_running(child)), (0, False))

    def test_also_where_its_log_was_taken_away(self):
        """The lock of the step is that of its log: whoever takes the log away makes another one."""
        body = f'if [ -n "$METIS_AGAIN" ] || [ -e "$TOP/begun" ]; then exit 0; fi\ntouch "$TOP/begun"\nsleep {FOREVER} & echo "$!" >"$TOP/child"\nwait\n'
        self.one(body)
        job = self.started()
        wait_until(lambda: (self.top / "child").exists() and (self.top / "child").read_text().strip())
        (self.folder / "log" / "0.1").unlink()
        self.assertEqual(self.make()[0], 0)
        self.assertFalse(is_running(int((self.top / "child").read_text())))
        job.communicate(timeout=DEADLINE)

    def test_nobody_writes_the_folder_while_it_goes_on(self):
        shell, child = self.orphaned()
        # What was killed may hold the folder for a moment more.
        wait_until(lambda: "somebody else writes it" not in call("retry", self.folder, "A#0")[2])
        for words in (("retry", self.folder, "A#0"), ("split", self.folder, self.top / "new"), ("down", self.folder)):
            with self.subTest(words=words):
                status, _, said = call(*words)
                self.assertEqual((status, said.count("\n")), (1, 1), said)
                self.assertIn(f"{self.folder}: the step 0.1 goes on, though its script was killed", said)
        self.assertIn("kill -- -", self.refused(ONE))
        self.kill_all([shell, child])
        wait_until(lambda: not is_running(child))
        self.exported(ONE)

    def test_a_server_that_a_step_has_left_is_not_ended(self):
        """In the group of its step, and with its log for its output: it is there after the step, and after it is done again."""
        body = f'if [ ! -e "$TOP/server" ]; then sleep {FOREVER} & echo "$!" >"$TOP/server"; fi\n'
        self.one(body)
        self.assertEqual(self.make()[0], 0)
        server = int((self.top / "server").read_text())
        self.addCleanup(self.kill_all, [server])
        self.assertEqual(call("retry", self.folder, "A#0")[0], 0)
        self.assertEqual((self.make()[0], is_running(server)), (0, True))

    def test_a_server_with_another_output_does_not_keep_its_step_from_being_begun(self):
        """Nobody knows any more whether it is one of a stranger, who has the same number by now."""
        shell, child = self.orphaned(
            f'if [ -n "$METIS_AGAIN" ]; then exit 0; fi\necho "$$" >"$TOP/shell"\nsleep {FOREVER} >/dev/null 2>&1 & echo "$!" >"$TOP/child"\nwait\n'
        )
        os.kill(shell, signal.SIGKILL)
        wait_until(lambda: not is_running(shell))
        self.assertEqual((self.make()[0], is_running(child)), (0, True))

    def test_a_stranger_with_the_number_is_not_ended(self):
        """After another boot, in another namespace, for another folder, or where it began at another time."""
        self.one("exit 1\n")
        self.make()
        stranger = self.stranger()
        began = pathlib.Path(f"/proc/{stranger}/stat").read_text().rpartition(") ")[2].split()[19]
        boot = pathlib.Path("/proc/sys/kernel/random/boot_id").read_text().strip()
        space, place = (f"{found.st_dev}:{found.st_ino}" for found in (os.stat("/proc/self/ns/pid"), os.stat(self.folder)))
        self.one(LINE)
        right = (boot, space, place, str(stranger), began)
        for wrong in range(5):
            if wrong == 3:
                continue
            words = [each if at != wrong else f"{each[:-1]}{'1' if each[-1] != '1' else '2'}" for at, each in enumerate(right)]
            with self.subTest(wrong=wrong):
                (self.folder / "log" / "0.1.group").write_text(" ".join(words) + "\n")
                (self.folder / "done" / "0.1").unlink(missing_ok=True)
                self.assertEqual(call("retry", self.folder, "A#0")[2], f"metis: {self.folder}: nothing is taken back, since this is not done, and make does it again: make A#0\n")
                self.assertEqual((self.make()[0], is_running(stranger), self.groups()), (0, True, []))
        # With all five it is taken for the group, which shows that the others were told apart by that one.
        (self.folder / "log" / "0.1.group").write_text(" ".join(right) + "\n")
        (self.folder / "done" / "0.1").unlink()
        self.assertIn("goes on, though its script was killed", call("retry", self.folder, "A#0")[2])

    def test_what_is_no_such_note_means_nothing(self):
        self.one(LINE)
        for text in ("", "\n", "x", "a b c d e f g\n", "\0\0", "* * * * *\n"):
            (self.folder / "log" / "0.1.group").write_text(text)
            (self.folder / "done" / "0.1").unlink(missing_ok=True)
            with self.subTest(text=text):
                self.assertEqual((self.make()[0], self.groups()), (0, []))

    def test_a_copy_of_a_folder_does_not_end_the_step_of_the_other(self):
        self.one(f'if [ "$METIS_FOLDER" != {self.folder} ]; then exit 0; fi\nsleep {FOREVER} & echo "$!" >"$TOP/child"\nwait\n')
        job = self.started()
        wait_until(lambda: (self.top / "child").exists() and (self.top / "child").read_text().strip())
        shutil.copytree(self.folder, self.top / "copy")
        done = subprocess.run(["make", "-s", "-C", self.top / "copy"], capture_output=True, text=True, check=False)
        self.assertEqual((done.returncode, is_running(int((self.top / "child").read_text()))), (0, True), done.stderr)
        os.killpg(job.pid, signal.SIGTERM)
        job.communicate(timeout=DEADLINE)


if __name__ == "__main__":
    unittest.main()
