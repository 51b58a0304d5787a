"""Where there is no room, no right to write, a link that somebody planted, or another call at the same moment: each ends in a refusal or
in the right state.
"""

import contextlib
import os
import shutil
import subprocess
import sys
import unittest

from tests.carry.shapes import call
from tests.carry.test_changed import ChangedCase
from tests.carry.test_own import NOBODY, content
from tests.carry.test_up import UpCase
from tests.test_words import TOP

SIZES = (8, 16, 24, 32, 48, 64, 80, 96, 128, 256)
NUMBERS = [1, 2, 3, 4, 5]


def mounted(where, options):
    """Whether a small file system could be mounted."""
    return subprocess.run(["mount", "-t", "tmpfs", "-o", options, "none", where], capture_output=True, check=False).returncode == 0


class RoomTest(UpCase):
    def setUp(self):
        super().setUp()
        self.small = self.top / "small"
        self.small.mkdir()
        if not mounted(self.small, "size=8k,nr_inodes=0"):
            self.skipTest("no small file system can be mounted here")
        self.addCleanup(subprocess.run, ["umount", self.small], check=True)
        self.folder = self.small / "f"

    def remount(self, options):
        subprocess.run(["mount", "-o", f"remount,{options}", self.small], check=True)

    def test_a_disk_that_is_full_at_ten_sizes(self):
        """Nothing is marked that has no mark, and with more room the same call comes to its end; only what failed is done again."""
        whole = 0
        for size in SIZES:
            subprocess.run(["umount", self.small], check=True)
            self.assertTrue(mounted(self.small, f"size={size}k"))
            status, _, said = self.up("Web:run")
            with self.subTest(size=size):
                marks = self.folder / "done"
                self.assertTrue(status == 0 or said, said)
                self.assertNotIn("Traceback", said)
                for path in marks.iterdir() if marks.is_dir() else ():
                    self.assertGreater(path.stat().st_size, 0, path.name)
                whole += status == 0
                self.remount("size=10m")
                self.stands("Web:run")
                done = self.numbers()
                self.assertEqual(sorted(set(done)), NUMBERS)
                self.assertLessEqual(len(done), len(NUMBERS) + 1, "more than one step was done twice")
                (self.top / "trace").unlink()
        self.assertTrue(0 < whole < len(SIZES), f"{whole} of {len(SIZES)} sizes had room")

    def test_a_folder_that_cannot_be_written(self):
        self.remount("size=10m")
        self.stands("Web:run")
        before, said = content(self.folder), []
        self.remount("ro")
        for words in (("down", self.folder, "--yes"), ("retry", self.folder, "Db#1"), ("split", self.folder, self.top / "new")):
            said.append((words[0], *call(*words)))
        said.append(("up", *self.up("Web:run", "Web:run")))
        for word, status, _, line in said:
            with self.subTest(word=word):
                self.assertEqual((status, line.count("\n")), (1, 1), line)
                self.assertIn("Read-only file system", line)
        for words in (("status", self.folder), ("done", self.folder)):
            self.assertEqual(call(*words)[0], 0)
        self.assertEqual(content(self.folder), before)
        self.remount("rw")
        self.stands("Web:run")


@unittest.skipUnless(os.geteuid() == 0, "only root can give a file away")
class LinkTest(UpCase):
    """What somebody else has put in the way of a folder."""

    def test_a_link_to_a_folder_of_somebody_else(self):
        other = self.top / "other"
        other.mkdir()
        os.chown(other, NOBODY, NOBODY)
        self.folder.symlink_to(other)
        status, _, said = self.up("Web:run")
        self.assertEqual((status, said.count("\n"), list(other.iterdir())), (1, 1, []), said)
        self.assertIn("it belongs to somebody else", said)

    def test_a_run_that_is_a_link_to_a_file_of_somebody_else(self):
        self.stands("Web:run")
        other = self.top / "other"
        other.write_text("#!/bin/sh\ntouch \"$TOP/PWNED\"\n")
        os.chown(other, NOBODY, NOBODY)
        (self.folder / "run").unlink()
        (self.folder / "run").symlink_to(other)
        status, _, said = self.up("Web:run", "Web:run")
        self.assertEqual((status, said.count("\n")), (1, 1), said)
        self.assertIn("it belongs to somebody else", said)
        self.assertFalse((self.top / "PWNED").exists())

    def test_a_link_in_the_place_of_what_is_written_is_not_followed(self):
        """Each file is written beside its place and moved there, so what a link names stays as it was."""
        for name in ("run", "plan.txt", "universe.json", "request.json", "Makefile"):
            shutil.rmtree(self.folder, ignore_errors=True)
            self.stands("Web:run")
            victim = self.top / f"victim-{name}"
            victim.write_bytes((self.folder / name).read_bytes())
            victim.chmod(0o700)
            before = victim.read_bytes()
            (self.folder / name).unlink()
            (self.folder / name).symlink_to(victim)
            with self.subTest(name=name):
                self.stands("Web:run", "Web:run")
                self.assertEqual(victim.read_bytes(), before)


class AtOnceTest(ChangedCase):
    """Two calls of `up` that really go on at the same time, with different targets."""

    def words(self, target):
        more = ["--commands", self.top / "c.toml", "--to", self.folder, "--yes", "--delete", "all"]
        return [sys.executable, "-m", "metis_planner", "up", self.universe, target, *more]

    def test_one_is_refused_or_stops_or_both_come_to_their_end(self):
        (self.top / "c.toml").write_text(self.commands("sleep 0.05\n"))
        targets = ("lb:on", "db:on")
        for pause in (0.0, 0.1, 0.2, 0.4, 0.6, 0.9):
            jobs = []
            for target in targets:
                words = list(map(str, self.words(target)))
                jobs.append(subprocess.Popen(words, cwd=TOP, stdout=subprocess.PIPE, stderr=subprocess.STDOUT, text=True))
                with contextlib.suppress(subprocess.TimeoutExpired):
                    jobs[0].wait(pause)
            said = [job.communicate()[0] for job in jobs]
            with self.subTest(pause=pause):
                self.assertNotIn("Traceback", "".join(said))
                for job, text in zip(jobs, said):
                    self.assertIn(job.returncode, (0, 1), text)
                # Whoever calls last has what he asked for, also after this.
                last = subprocess.run(list(map(str, self.words(targets[0]))), cwd=TOP, capture_output=True, text=True, check=False)
                self.assertEqual(last.returncode, 0, last.stdout + last.stderr)
                self.assertEqual(self.left(), [])
                done = call("done", self.folder)[1]
                words = [os.environ["METIS_COMMAND"], "replay", self.folder / "universe.json", "-", targets[0]]
                judged = subprocess.run(words, input=done, capture_output=True, text=True, check=False)
                self.assertEqual((judged.returncode, judged.stdout.split()[0]), (0, "good"), judged.stdout)


if __name__ == "__main__":
    unittest.main()
