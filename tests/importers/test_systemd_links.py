"""Links, folders of drop-ins and hidden files, as the systemd of this machine takes them."""

import os
import pathlib
import re
import shutil
import subprocess
import tempfile
import unittest

from metis_planner.importers.systemd.units import Folders
from tests.importers.test_systemd import LIBRARY, service

FILES = ("x@1.service", "x@.service", "plain.service", "y@2.service", "z.service", "other@.service")
# Each link, and where it leads: those of systemd's own rules and all that come near them.
LINKS = {
    "foo.service": "x@1.service",
    "t@.service": "plain.service",
    "i@1.service": "y@2.service",
    "s.socket": "plain.service",
    "ok.service": "plain.service",
    "okt@.service": "x@.service",
    "oki@5.service": "other@.service",
    "okin@1.service": "x@1.service",
    "bad@2.service": "x@1.service",
    "no.service": "nothing-valid",
    "again.service": "ok.service",
}


class LinksTest(unittest.TestCase):
    def setUp(self) -> None:
        kept = tempfile.TemporaryDirectory()
        self.addCleanup(kept.cleanup)
        self.root = pathlib.Path(kept.name)
        self.units = self.root / LIBRARY
        self.units.mkdir(parents=True)
        for name in FILES:
            (self.units / name).write_text(service())

    @unittest.skipUnless(shutil.which("systemd-analyze"), "systemd is not there")
    def test_which_links_systemd_takes(self) -> None:
        for name, target in LINKS.items():
            (self.units / name).symlink_to(target)
        environment = {**os.environ, "SYSTEMD_UNIT_PATH": str(self.units)}
        asked = subprocess.run(["systemd-analyze", "unit-files"], capture_output=True, text=True, env=environment, check=False)
        if asked.returncode or "ids:" not in asked.stdout:
            self.skipTest("this systemd-analyze lists no unit files")
        taken = set(re.findall(r"^ids: (\S+) ", asked.stdout, re.MULTILINE))
        folders = Folders(self.root)
        self.assertEqual({name for name in (*FILES, *LINKS) if folders.first(name)}, taken & {*FILES, *LINKS})

    def test_a_folder_of_drop_ins_that_is_a_link_is_not_read(self) -> None:
        elsewhere = self.root / "elsewhere"
        elsewhere.mkdir()
        (elsewhere / "10.conf").write_text("[Unit]\nAfter=z.service\n")
        for name in ("plain.service.d", "plain.service.wants"):
            (self.units / name).symlink_to("/elsewhere")
        unit = Folders(self.root).load("plain.service")
        assert unit is not None
        self.assertEqual((unit["After"], unit["Wants"]), ([], []))

    def test_a_hidden_drop_in_is_not_read(self) -> None:
        folder = self.units / "plain.service.d"
        folder.mkdir()
        (folder / ".20.conf").write_text("[Unit]\nAfter=z.service\n")
        (folder / "30.conf").write_text("[Unit]\nAfter=x@1.service\n")
        unit = Folders(self.root).load("plain.service")
        assert unit is not None
        self.assertEqual(unit["After"], ["x@1.service"])


if __name__ == "__main__":
    unittest.main()
