"""Folders that Metis 1.2.0 wrote: finished, stopped halfway, after a change, and on hosts. What that version said of them is kept."""

import functools
import json
import os
import pathlib
import subprocess
from unittest import mock

from tests.carry.shapes import FolderCase, call
from tests.stand_in import stand_in

KEPT = pathlib.Path(__file__).parent / "old"
JUDGED = ("replay", "waits", "rollout", "reconfigure", "place")


class OldFolderTest(FolderCase):
    def setUp(self):
        super().setUp()
        quiet = mock.Mock(run=functools.partial(subprocess.run, stdout=subprocess.DEVNULL, stderr=subprocess.DEVNULL))
        for patch in (
            mock.patch.dict(os.environ, {"METIS_COMMAND": str(stand_in(self.top, [], judged=JUDGED))}),
            mock.patch("metis_planner.carry.exporting.subprocess", quiet),
        ):
            patch.start()
            self.addCleanup(patch.stop)
        self.addCleanup(os.chdir, pathlib.Path.cwd())
        os.chdir(self.top)

    def unpacked(self, name):
        """The folder as it was written, and what 1.2.0 said of it."""
        kept = json.loads((KEPT / f"{name}.json").read_text())
        for each in kept["folders"]:
            (self.folder / each).mkdir(parents=True)
        for each, text in kept["files"].items():
            (self.folder / each).write_text(text.replace("@TOP@", str(self.top)))
        (self.folder / "run").chmod(0o700)
        for each, text in kept["beside"].items():
            (self.top / each).write_text(text)
        return kept["said"]

    def up(self, *more, commands="commands.toml"):
        return call("up", "universe.json", "lb:on", "--commands", commands, "--to", "f", "-j", "1", "--yes", *more)

    def check_said(self, said):
        """The words that only look, and `retry`, say what they said."""
        for words, (status, text, notes) in said.items():
            self.assertEqual(call(*words.split(" ")), (status, text, notes), words)

    def verbs(self):
        return [line.split()[0] for line in self.trace()]

    def test_one_that_is_finished(self):
        self.check_said(self.unpacked("finished"))
        # `retry` took back what hangs on the database; make, with the files of then, does that again and nothing else.
        self.assertEqual(self.make()[0], 0)
        self.assertEqual(sorted(self.verbs()), 4 * ["bind"] + 4 * ["move"])
        self.assertEqual(self.up()[0], 0)
        self.assertEqual(len(self.trace()), 8)
        # It is of this version from then on, and has what it had.
        self.assertEqual((self.folder / "format").read_text(), "2\n")
        self.assertEqual((call("status", "f")[0], len(self.marks())), (0, 16))
        self.assertEqual(call("down", "f", "--yes")[0], 0)
        self.assertEqual(self.verbs()[8:], ["delete"] * 5)

    def test_one_that_stopped_halfway(self):
        self.check_said({words: what for words, what in self.unpacked("stopped").items() if "retry" not in words})
        self.assertEqual(self.up()[0], 0)
        # The failed step knows that it was begun, and what was done is not done again; nothing is deleted.
        self.assertEqual(self.trace()[0], "move db-2 on  yes")
        self.assertEqual(sorted(self.verbs()), 4 * ["bind"] + 4 * ["move"])

    def test_what_is_gone_is_never_made_again(self):
        said = self.unpacked("changed")
        self.check_said({words: what for words, what in said.items() if "retry" not in words})
        self.assertEqual(self.up("--wishes", "wishes")[0], 0)
        self.assertEqual(self.trace(), [])
        self.assertNotIn(" db\n", (self.folder / "plan.txt").read_text())
        self.assertIn("delete 2 after", (self.folder / "past" / "1" / "plan.txt").read_text())
        # 1.2.0 made the old database again here, and deleted it.
        (self.top / "lost.disk-1").touch()
        self.assertEqual(call("verify", "f", "--take-back")[0], 1)
        (self.top / "lost.disk-1").unlink()
        self.assertEqual(self.make()[0], 0)
        self.assertEqual([line for line in self.trace() if "db-2" in line.split() or "delete" in line], [])

    def test_taking_back_goes_over_first(self):
        self.unpacked("changed")
        (self.top / "lost.disk-1").touch()
        status, _, notes = call("verify", "f", "--take-back")
        self.assertIn("what is gone is no part of the plan any more", notes)
        (self.top / "lost.disk-1").unlink()
        self.assertEqual((status, self.make()[0]), (1, 0))
        self.assertEqual([line for line in self.trace() if "db-2" in line.split() or "delete" in line], [])
        self.assertEqual(call("verify", "f")[0], 0)

    def test_one_on_hosts(self):
        self.check_said(self.unpacked("hosts"))
        self.assertEqual(self.make()[0], 0)
        where = {path.name: path.read_text().split("\n")[2] for path in (self.folder / "done").iterdir()}
        before = len(self.trace())
        status, _, notes = self.up("--hosts", "hosts", commands="on-hosts.toml")
        self.assertEqual(status, 0, notes)
        self.assertEqual(where, {path.name: path.read_text().split("\n")[2] for path in (self.folder / "done").iterdir()})
        self.assertEqual(len(self.trace()), before)
        # Without hosts, or by other ones, nothing goes on elsewhere than where it stands.
        self.assertIn("--placement names the host", self.up(commands="on-hosts.toml")[2])
        (self.top / "hosts").write_text("metis hosts 1\nhost right 9\nend\n")
        self.assertIn("stands on host left, which is none of the hosts", self.up("--hosts", "hosts", commands="on-hosts.toml")[2])

    def test_a_newer_one_is_refused_by_name(self):
        self.unpacked("finished")
        (self.folder / "format").write_text("3\n")
        for words in (["status", "f"], ["verify", "f"], ["retry", "f", "db#2"], ["down", "f", "--yes"]):
            self.assertEqual(call(*words)[::2], (1, "metis: f: a folder of format '3', and this version of Metis knows 2: use the newer one that wrote it\n"))
        self.assertEqual(self.up()[0], 1)
        self.assertEqual(self.trace(), [])
