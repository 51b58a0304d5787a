"""A folder is one's own: what somebody else may have written is refused by name, before anything is written or run."""

import os
import subprocess
import unittest

from tests.carry.shapes import WEB, FolderCase, call, plan_text
from tests.carry.test_up import UpCase

NOBODY = 65534


def content(folder):
    """All that is in a folder, with the bytes of its files."""
    return {str(path): path.read_bytes() if path.is_file() else b"" for path in folder.rglob("*")}


class OwnTest(FolderCase):
    def words(self):
        (self.top / "c.toml").write_text(self.commands())
        (self.top / "plan").write_text(WEB)
        more = ["--commands", self.top / "c.toml", "--to", self.folder]
        yield from ([engine, self.top / "plan", *more] for engine in ("make", "ninja", "slurm"))
        yield ["retry", self.folder, "Db#1"]
        yield ["split", self.folder, self.top / "new"]
        yield ["down", self.folder]
        yield ["verify", self.folder]
        yield ["verify", self.folder, "--take-back"]

    def all_refused(self, path, reason):
        before = content(self.folder)
        for words in self.words():
            with self.subTest(words=words, path=path):
                status, out, said = call(*words)
                self.assertEqual((status, out, said.count("\n")), (1, "", 1), said)
                self.assertTrue(said.startswith(f"metis: {path}: {reason}"), said)
        self.assertEqual(content(self.folder), before)
        self.assertEqual(self.trace(), [])

    def run_refused(self):
        """`run` itself does nothing, by whatever engine it is called."""
        job = (self.folder / "jobs").read_text().split("\n")[0].split(" ")
        done = subprocess.run(["./run", *job], cwd=self.folder, capture_output=True, text=True, check=False)
        self.assertEqual((done.returncode, done.stdout), (77, ""))
        self.assertEqual(done.stderr, f"{self.folder}: it, or run in it, belongs to somebody else or may be written by others\n")
        self.assertEqual(self.make()[0], 2)
        self.assertEqual((self.trace(), self.marks()), ([], []))

    def test_one_that_others_may_write(self):
        self.exported(WEB)
        for path, mode in ((self.folder, 0o777), (self.folder, 0o770), (self.folder / "run", 0o720), (self.folder / "run", 0o702)):
            path.chmod(mode)
            with self.subTest(path=path, mode=mode):
                self.all_refused(path, "others may write it, who could have put any command there")
                self.run_refused()
            path.chmod(0o700)
        self.assertEqual(self.make()[0], 0)

    @unittest.skipUnless(os.geteuid() == 0, "only root can give a file away")
    def test_one_of_somebody_else(self):
        self.exported(WEB)
        for path in (self.folder, self.folder / "run"):
            os.chown(path, NOBODY, -1)
            with self.subTest(path=path):
                self.all_refused(path, "it belongs to somebody else")
                self.run_refused()
            os.chown(path, 0, -1)

    @unittest.skipUnless(os.geteuid() == 0, "only root can give a file away")
    def test_an_empty_one_of_somebody_else(self):
        self.folder.mkdir(mode=0o777)
        os.chown(self.folder, NOBODY, -1)
        self.assertIn(f"{self.folder}: it belongs to somebody else", self.refused(WEB))
        self.assertEqual(list(self.folder.iterdir()), [])

    def test_an_empty_one_of_ones_own_is_closed_to_others(self):
        self.folder.mkdir()
        self.folder.chmod(0o777)
        self.exported(WEB)
        self.assertEqual(self.folder.stat().st_mode & 0o777, 0o700)
        self.assertEqual(self.make()[0], 0)

    def test_one_that_others_may_read_is_as_it_was(self):
        """Who made the folder by hand may have let a group read it."""
        self.exported(WEB)
        self.folder.chmod(0o755)
        self.exported(WEB)
        self.assertEqual((self.make()[0], self.folder.stat().st_mode & 0o777), (0, 0o755))

    def test_who_only_looks_is_not_refused(self):
        self.exported(WEB)
        self.folder.chmod(0o777)
        self.assertEqual(call("status", self.folder)[0], 0)
        self.assertEqual(call("done", self.folder)[0], 0)

    @unittest.skipUnless(os.geteuid() == 0, "only root can be somebody else")
    def test_another_user_can_do_nothing_in_it(self):
        self.exported(plan_text("new 0 A"))
        self.top.chmod(0o755)
        self.folder.chmod(0o755)
        (self.folder / "run").chmod(0o755)
        words = ["runuser", "-u", "nobody", "--", "make", "-s", "-C", self.folder]
        done = subprocess.run(words, capture_output=True, text=True, check=False)
        self.assertEqual((done.returncode, self.marks()), (2, []))
        self.assertIn("belongs to somebody else", done.stderr)


class UpOwnTest(UpCase):
    def test_up_and_down_in_one_that_others_may_write(self):
        self.stands("Web:run")
        self.folder.chmod(0o777)
        before = content(self.folder)
        for status, out, said in (self.up("Web:run"), self.up("Db:on"), call("down", self.folder, "--yes")):
            self.assertEqual((status, out, said.count("\n")), (1, "", 1), said)
            self.assertIn(f"{self.folder}: others may write it", said)
        self.assertEqual(content(self.folder), before)

    def test_up_into_an_empty_one_that_others_may_write(self):
        self.folder.mkdir()
        self.folder.chmod(0o777)
        self.stands("Web:run")
        self.assertEqual(self.folder.stat().st_mode & 0o777, 0o700)



if __name__ == "__main__":
    unittest.main()
