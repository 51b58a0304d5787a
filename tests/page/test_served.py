"""The server by which a browser follows a folder, and what a page looks like, by hand."""

import pathlib
import re
import shutil
import socket
import tempfile
import threading
import unittest
import urllib.error
import urllib.request
from unittest import mock

from metis_planner.answers import Refused
from metis_planner.carry.folder import Folder
from metis_planner.page import progress, server, sheet
from tests.carry.shapes import WEB, FolderCase
from tests.effort import DEADLINE

PAGE = pathlib.Path(sheet.__file__).resolve().parent


class ServerTest(unittest.TestCase):
    def test_what_it_answers_and_to_whom(self):
        said = []
        with mock.patch.object(server, "say", said.append):
            keeper = pathlib.Path(tempfile.mkdtemp(prefix="page-")) / "address"
            self.addCleanup(shutil.rmtree, keeper.parent)
            words = (lambda: "<p>the page", lambda: {"done": []}, keeper)
            thread = threading.Thread(target=server.serve, args=words, daemon=True)
            with mock.patch.object(server.Server, "serve_forever", autospec=True) as forever:
                forever.side_effect = lambda one: [one.handle_request() for _ in range(6)]
                thread.start()
                while not said:
                    pass
                url = said[0].split()[0]
                self.assertRegex(url, r"^http://127\.0\.0\.1:\d+/[\w-]{24}/$")
                own = [("", None, 200), ("state", None, 200)]
                others = [(path, None, 404) for path in ("plan.txt", "../", "state?x")]
                for path, host, status in (*own, *others, ("", "evil.example", 404)):
                    request = urllib.request.Request(url + path, headers={"Host": host} if host else {})
                    try:
                        with urllib.request.urlopen(request, timeout=DEADLINE) as answer:
                            self.assertEqual((answer.status, answer.headers["Cache-Control"]), (status, "no-store"), path)
                    except urllib.error.HTTPError as fault:
                        self.assertEqual(fault.code, status, path)
                        fault.close()
                thread.join(DEADLINE)

    def addresses(self, keeper, count, **more):
        """What a server says that is started so often, one after the other."""
        said = []
        with mock.patch.object(server, "say", said.append), mock.patch.object(server.Server, "serve_forever"):
            for _ in range(count):
                server.serve(lambda: "", dict, keeper, **more)
        return said

    def test_the_address_stays_over_a_restart_and_is_its_owners(self):
        with tempfile.TemporaryDirectory() as name:
            keeper = pathlib.Path(name) / "address"
            first, second = self.addresses(keeper, 2)
            self.assertEqual(first, second)
            self.assertEqual(keeper.stat().st_mode & 0o777, 0o600)
            port = int(re.search(r":(\d+)/", first)[1])
            with socket.create_server(("127.0.0.1", port)):  # somebody else is there: another port, and the same token
                (third,) = self.addresses(keeper, 1)
                self.assertNotEqual(third, first)
                self.assertEqual(third.split("/")[3], first.split("/")[3])
                with self.assertRaisesRegex(Refused, f"port {port}"):
                    self.addresses(keeper, 1, asked=port)
            with self.assertRaisesRegex(Refused, "port 99999"):
                self.addresses(keeper, 1, asked=99999)
            for text in ("80 short\n", "", "x" * 99, f"80 {'/' * 24}\n"):
                keeper.write_text(text)
                self.assertNotIn(text.strip() or "none", self.addresses(keeper, 1)[0])
            target = pathlib.Path(name) / "target"
            target.write_text("mine")
            keeper.unlink()
            keeper.symlink_to(target)
            self.addresses(keeper, 1)
            self.assertEqual((target.read_text(), keeper.is_symlink()), ("mine", False))

    def test_a_browser_is_opened_where_that_is_asked_for(self):
        with tempfile.TemporaryDirectory() as name, mock.patch.object(server.webbrowser, "open") as opened:
            keeper = pathlib.Path(name) / "address"
            self.addresses(keeper, 1)
            opened.assert_not_called()
            (said,) = self.addresses(keeper, 1, is_opened=True)
            opened.assert_called_once_with(said.split()[0])


class CheapPollTest(FolderCase):
    def test_nothing_is_read_while_nothing_is_newer(self):
        self.exported(WEB)
        followed = progress.Followed(Folder(str(self.folder)), False)
        with mock.patch.object(progress, "state_of", wraps=progress.state_of) as state_of:
            self.assertEqual(followed.state()["done"], [])
            for _ in range(5):
                followed.state()
            self.assertEqual(state_of.call_count, 1)
            self.make()
            self.assertEqual(len(followed.state()["done"]), 5)
            self.assertEqual(state_of.call_count, 2)
            followed.known["begun"] = [{"status": "running"}]  # while a step runs, its bar grows
            followed.state()
            self.assertEqual(state_of.call_count, 3)


class LookTest(unittest.TestCase):
    """Colours and names of the page by hand: what WCAG 2.2 asks of them."""

    css = (PAGE / "page.css").read_text("utf-8")

    def colours(self):
        """The colours in the light, and in the dark."""
        light, dark = re.findall(r":root \{(.*?)\}", self.css, re.DOTALL)[:2]
        return [dict(re.findall(r"--([\w-]+): (#[0-9a-f]{3,6});", text)) for text in (light, dark)]

    def contrast(self, one, other):
        def light_of(colour):
            digits = colour[1:] if len(colour) == 7 else "".join(2 * each for each in colour[1:])
            parts = [int(digits[at : at + 2], 16) / 255 for at in (0, 2, 4)]
            linear = [part / 12.92 if part <= 0.04045 else ((part + 0.055) / 1.055) ** 2.4 for part in parts]
            return 0.2126 * linear[0] + 0.7152 * linear[1] + 0.0722 * linear[2]

        low, high = sorted((light_of(one), light_of(other)))
        return (high + 0.05) / (low + 0.05)

    def test_contrast(self):
        self.assertAlmostEqual(self.contrast("#fff", "#000000"), 21)
        for colours in self.colours():
            grounds = [colours[name] for name in ("bg", "panel", "old", "new", "gone")]
            for name in ("faint", "ready", "done", "bad", "up", "down"):
                for ground in grounds:
                    self.assertGreaterEqual(round(self.contrast(colours[name], ground), 2), 3.0, (name, ground))
            for name in ("ink", "soft", "dim"):
                for ground in (colours["bg"], colours["panel"]):
                    self.assertGreaterEqual(round(self.contrast(colours[name], ground), 2), 4.5, (name, ground))

    def test_colours_that_are_forced_and_chosen_marks(self):
        self.assertIn("@media (forced-colors: active)", self.css)

    def test_each_control_has_a_name(self):
        text = (PAGE / "plan.html").read_text("utf-8")
        for attributes, content in re.findall(r"<button([^>]*)>(.*?)</button>", text, re.DOTALL):
            said = re.search(r'aria-label="([^"]+)"', attributes)
            self.assertTrue(said or re.sub("<[^>]*>", "", content).strip(), attributes)
        for attributes in re.findall(r"<input([^>]*)>", text):
            is_box = 'type="checkbox"' in attributes
            self.assertTrue(is_box or "aria-label" in attributes, attributes)
        self.assertEqual(len(re.findall(r"<label[^>]*><input[^>]*> \S", text)), text.count('type="checkbox"'))
        self.assertEqual([each for each in re.findall(r"<svg[^>]*>", text) if "aria-hidden" not in each], [])


if __name__ == "__main__":
    unittest.main()
