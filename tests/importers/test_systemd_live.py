"""With --live systemd itself is asked; here a command answers in its place, as `systemctl show` of systemd 252 does."""

import os
import pathlib
import tempfile
import unittest
import unittest.mock

from metis_planner.answers import Refused
from metis_planner.importers import systemd
from tests.importers.shapes import shape
from tests.importers.test_systemd import active, boot

LOADED = """Id=t.target
Names=t.target alias.target
Requires=a.service
Wants=b.service gone.service dev-x.device x.mount
After=a.service b.service x.mount
LoadState=loaded
FragmentPath=/lib/systemd/system/t.target

Id=a.service
Names=a.service
Requires=system.slice
After=system.slice basic.target
LoadState=loaded
FragmentPath=/lib/systemd/system/a.service

Id=x.mount
Names=x.mount
After=-.mount
LoadState=loaded
FragmentPath=/run/systemd/generator/x.mount

Id=dev-x.device
Names=dev-x.device
LoadState=loaded
FragmentPath=

Id=system.slice
Names=system.slice
LoadState=loaded
FragmentPath=
"""
LATER = {
    "b.service": "Id=b.service\nNames=b.service\nAfter=a.service\nLoadState=loaded\nFragmentPath=/lib/systemd/system/b.service\n",
    "gone.service": "Id=gone.service\nNames=gone.service\nLoadState=not-found\nFragmentPath=\n",
    "masked.target": "Id=masked.target\nNames=masked.target\nLoadState=masked\nFragmentPath=/dev/null\n",
}


class LiveTest(unittest.TestCase):
    def setUp(self):
        folder = tempfile.TemporaryDirectory()
        self.addCleanup(folder.cleanup)
        self.folder = pathlib.Path(folder.name)
        (self.folder / "*").write_text(LOADED)
        for name, text in LATER.items():
            (self.folder / name).write_text(text)
        self.answer(f'for name; do :; done\necho "$*" >>{self.folder}/asked\nexec cat "{self.folder}/$name"')
        path = unittest.mock.patch.dict(os.environ, {"PATH": f"{self.folder}:{os.environ['PATH']}"})
        path.start()
        self.addCleanup(path.stop)

    def answer(self, script):
        (self.folder / "systemctl").write_text(f"#!/bin/sh\n{script}\n")
        (self.folder / "systemctl").chmod(0o755)

    def test_what_is_loaded_and_what_is_asked_for_then(self):
        expected = {
            **active("a.service"),
            **active("b.service", "a.service"),
            **active("t.target", "a.service", "b.service", "x.mount"),
            **active("x.mount"),
            **boot("a.service", "b.service", "t.target", "x.mount"),
        }
        for name in ("t.target", "alias.target"):
            document, notes = systemd.live_universe(name)
            self.assertEqual(shape(document), expected)
            self.assertEqual(notes, ["wanted, and not there: gone.service"])
        asked = (self.folder / "asked").read_text().split("\n")
        self.assertTrue(asked[0].startswith("show --no-pager --property=Id,LoadState,FragmentPath,"), asked[0])
        self.assertTrue(asked[0].endswith(" -- *"), asked[0])

    def test_refused(self):
        for name, reason in {
            "masked.target": "masked.target: systemd has no such unit, or it is masked or without a file",
            "gone.service": "gone.service: systemd has no such unit, or it is masked or without a file",
            "../x.target": "no name of a unit: ../x.target",
            "x@.service": "no name of a unit: x@.service",
        }.items():
            with self.assertRaises(Refused) as caught:
                systemd.live_universe(name)
            self.assertEqual(str(caught.exception), reason)
        self.answer("echo 'Failed to connect to bus: Host is down' >&2; exit 1")
        with self.assertRaisesRegex(Refused, "^systemctl show: Failed to connect to bus: Host is down$"):
            systemd.live_universe("t.target")

    def test_no_systemctl(self):
        with unittest.mock.patch.dict(os.environ, {"PATH": "/nonexistent"}):
            with self.assertRaisesRegex(Refused, "^systemctl is not there .*; --root FOLDER reads unit files$"):
                systemd.live_universe("t.target")
