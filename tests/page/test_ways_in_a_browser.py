"""What one finds, keeps and takes along of a page, in a real browser: zoom, search, legend, redo, links, lists and pictures."""

import contextlib
import http.client
import os
import re
import subprocess
import sys
import unittest
import xml.dom.minidom
from urllib.parse import urlsplit

from metis_planner.carry.steps import who
from tests.carry.shapes import WEB, plan_text, steps_of
from tests.effort import DEADLINE
from tests.page.in_a_browser import InABrowser
from tests.page.test_pages import NUMBERS, WAVES
from tests.test_words import TOP
from trials.browsers import Chromium, Firefox

# A balancer over a blog, which has a database and a server; and a mail server that is nobody's.
FIVE = plan_text(
    "new 0 Lb", "new 1 Sql", "move 1 off run", "new 2 Httpd", "move 2 off run", "new 3 Blog", "bind sql 3 1 after 3",
    "bind http 3 2 after 5", "move 3 off run", "bind blog 0 3 after 9", "move 0 off run", "new 4 Mail", "move 4 off run",
)  # fmt: skip
NAMES = ["Lb#0", "Sql#1", "Httpd#2", "Blog#3", "Mail#4"]
LANES = "#names .lane"
BOX = """(() => {{ const {{ x, y, width, height }} = document.querySelector({0!r}).getBoundingClientRect();
  return [x, y, width, height]; }})()"""
PASTED = """(() => { const area = document.createElement("textarea"); area.id = "pasted";
  document.body.append(area); area.focus(); })()"""
END = """(({ scrollTop, clientHeight, scrollHeight }) => [scrollTop, clientHeight, scrollHeight])(
  document.querySelector("#logs pre"))"""
MARKS = """Object.fromEntries([...document.querySelectorAll("#pic .mark")].map((e) => [e.dataset.k,
  ["done", "ready", "running", "failed"].find((name) => e.classList.contains(name)) ?? "waits"]))"""


class Ways(InABrowser):
    def setUp(self):
        super().setUp()
        self.five = self.path("five", FIVE)

    def box(self, selector):
        return self.js(BOX.format(selector))

    def find(self, text):
        self.browser.key("/")
        self.assertEqual(self.js("document.activeElement.id"), "find")
        self.browser.type(text)
        self.painted()

    def pasted(self):
        """What is in the clipboard, by the keys that put it in."""
        self.js(PASTED)
        self.browser.paste()
        self.painted()
        text = self.js("document.getElementById('pasted').value")
        self.js("document.getElementById('pasted').remove()")
        return text

    def test_zoom(self):
        self.open(self.five)
        mark, name = "#pic .mark[data-k='3']", LANES
        before = [self.box(each)[3] for each in (mark, name)]
        self.press("#nearer")
        for each, height in zip((mark, name), before, strict=True):
            self.assertAlmostEqual(self.box(each)[3] / height, 1.25, delta=0.05)
        x, y, width, height = self.box(mark)
        self.browser.click(x + width / 2, y + height / 2)
        self.painted()
        self.assertEqual(self.js("explorer.walk.done()"), [3])  # where it is seen, there it is pressed
        for _ in range(12):
            self.press("#nearer")
        self.assertAlmostEqual(self.box(mark)[3] / before[0], 4, delta=0.2)  # an outline is as wide as before in Firefox
        self.js("explorer.picture.bringIn(1)")
        x, y, width, height = self.box("#pic .mark[data-k='1']")
        self.browser.click(x + width + 24, y + height / 2)  # as near as 6 in a picture that is not zoomed
        self.painted()
        self.assertEqual(self.js("explorer.walk.done()"), [3, 1])
        self.assertGreater(self.js("document.getElementById('scroll').scrollWidth - document.getElementById('scroll').clientWidth"), 0)
        self.assertLessEqual(self.js("document.documentElement.scrollWidth"), 1280)
        for _ in range(20):
            self.press("#farther")
        self.assertAlmostEqual(self.box(mark)[3] / before[0], 0.25, delta=0.05)

    def test_the_picture_is_saved_as_a_file_that_looks_like_it(self):
        self.open(self.five)
        self.js("explorer.step(6)")
        self.painted()
        fills = "[...document.querySelectorAll('.mark')].map((e) => getComputedStyle(e.querySelector('path, rect')).fill)"
        on_page = self.js(fills.replace(".mark", "#pic .mark"))
        self.assertGreater(len(set(on_page)), 2)
        self.press("#savePicture")
        path = self.browser.saved / "plan.svg"
        self.until(lambda: path.exists() and path.read_text("utf-8").rstrip().endswith("</svg>"), "no picture is saved")
        found = xml.dom.minidom.parse(str(path))
        texts = ["".join(part.data for part in each.childNodes if part.nodeType == 3) for each in found.getElementsByTagName("text")]
        for name in NAMES:
            self.assertEqual(texts.count(name), 1, name)
        self.browser.open(path)
        self.assertEqual(self.js("document.documentElement.localName"), "svg")
        self.assertEqual(self.js(fills), on_page)
        wide, high = self.js("[document.documentElement.clientWidth, document.documentElement.getBoundingClientRect().height]")
        self.assertGreater(min(wide, high), 100)
        inside = """[...document.querySelectorAll("text")].every((e) => e.getBoundingClientRect().right
          <= document.documentElement.getBoundingClientRect().right + 1)"""
        self.assertTrue(self.js(inside))
        path.unlink()

    def test_a_link_has_the_moment_the_order_the_search_the_view_and_the_choice(self):
        words = (self.path("web", WEB), "--waves", self.path("waves", WAVES), *NUMBERS)
        self.open(*words)
        self.js("explorer.advance([1])")
        self.js("explorer.show('time')")
        self.find("db")
        self.js("explorer.choose([2])")
        self.press("#copyLink")
        self.until(lambda: self.js("document.getElementById('copyLink').textContent") == "copied", "nothing is copied")
        link = self.pasted()
        self.assertRegex(link, r"^file:///.*/page\.html#at=1&order=2&view=time&find=db&chosen=3$")
        self.until(lambda: self.js("document.getElementById('copyLink').textContent") == "copy link", "it stays copied")
        self.browser.open(link)
        self.painted()
        self.assertEqual(self.js("explorer.walk.done()"), [1])
        self.assertEqual(self.js("document.getElementById('find').value"), "db")
        self.assertEqual(self.shown(LANES), ["Db#1"])
        self.assertEqual(self.shown("#views [aria-pressed=true]"), ["time"])
        self.assertEqual(self.js("[...document.querySelectorAll('#pic .pin')].map((e) => e.dataset.k)"), ["2"])
        self.assertIn("3  Db#1: off → on", self.js("document.getElementById('told').textContent"))

    def test_the_order_as_a_list(self):
        self.open(self.five)
        for k in (11, 3):
            self.js(f"explorer.advance([{k}])")
        self.press("#copyOrder")
        self.until(lambda: self.js("document.getElementById('copyOrder').textContent") == "copied", "nothing is copied")
        lines = [line.split(None, 2) for line in self.pasted().splitlines()]
        self.assertEqual([int(words[0]) for words in lines], [12, 4, 1, 2, 3, 5, 6, 7, 8, 9, 10, 11, 13])
        self.assertEqual(lines[:2], [["12", "make", "Mail#4"], ["4", "make", "Httpd#2"]])

    def test_undo_and_redo(self):
        self.open(self.five)
        for k in (11, 3):
            self.js(f"explorer.advance([{k}])")
        self.painted()
        for key, done in (("u", [11]), ("u", []), ("u", []), ("r", [11]), ("r", [11, 3]), ("r", [11, 3]), ("u", [11])):
            self.browser.key(key)
            self.assertEqual(self.js("explorer.walk.done()"), done, key)
        self.press("#redo")
        self.assertEqual(self.js("explorer.walk.done()"), [11, 3])
        self.press("#undo")
        self.js("explorer.advance([0])")
        self.painted()
        self.assertEqual(self.js("document.getElementById('redo').getAttribute('aria-disabled')"), "true")
        self.browser.key("r")
        self.assertEqual(self.js("explorer.walk.done()"), [11, 0])

    def test_a_search_says_how_many_it_finds_and_has_a_way_out(self):
        self.open(self.five)
        self.assertEqual(self.shown("#found"), [""])
        self.find("sql")
        self.assertEqual(self.shown(LANES), ["Sql#1", "Blog#3"])  # who is one, and who takes it
        self.assertIn("2 of 5 lanes; the next action is in a lane that is hidden", self.shown("#found")[0])
        self.assertEqual(self.shown("#now button"), ["2 make Sql#1", "6 make Blog#3"])
        self.assertIn("and 3 in lanes that are hidden", self.shown("#now")[0])
        self.browser.type("zzz")
        self.painted()
        self.assertEqual(self.shown(LANES), [])
        self.assertIn("no lane has sqlzzz", self.shown("#found")[0])
        self.press("#found button")
        self.assertEqual((self.shown(LANES), self.shown("#found")), (NAMES, [""]))
        self.assertEqual(self.js("document.activeElement.id"), "find")
        self.browser.type("mail")
        self.browser.key("Escape")
        self.painted()
        self.assertEqual((self.shown(LANES), self.js("document.getElementById('find').value")), (NAMES, ""))

    def test_what_a_lane_needs_and_what_needs_it(self):
        """Beside what the waits of the plan lead to."""
        steps = steps_of(FIVE)
        names = {step.action.instance: who(step.action) for step in steps}

        def reached(instance, is_up):
            waits = {step.action.number: set(step.waits) for step in steps}
            found = {step.action.number for step in steps if step.action.instance == instance}
            while True:
                more = {q for k in found for q in waits[k]} if is_up else {k for k, all_ in waits.items() if all_ & found}
                if more <= found:
                    return {names[step.action.instance] for step in steps if step.action.number in found}
                found |= more

        for instance in (3, 1, 0, 4):
            self.open(self.five)
            self.find(f'"{names[instance].lower()}"')
            self.assertEqual(self.shown(LANES), [names[instance]])
            up, down = reached(instance, True), reached(instance, False)
            self.press("#with", " ")
            self.assertEqual(set(self.shown(LANES)), up)
            self.press("#behind", " ")
            self.assertEqual(set(self.shown(LANES)), up | down)
        self.assertEqual((reached(3, True), reached(3, False)), ({"Blog#3", "Sql#1", "Httpd#2"}, {"Blog#3", "Lb#0"}))

    def test_a_name_chooses_its_lane(self):
        self.open(self.five)
        x, y, _, height = self.box(f"{LANES}[aria-expanded], #names div:nth-child(4) .lane")
        self.browser.click(x + 4, y + height / 2)
        self.painted()
        self.assertEqual((self.shown(LANES), self.js("document.getElementById('find').value")), (["Blog#3"], '"Blog#3"'))
        self.browser.key("Enter")
        self.painted()
        self.assertEqual(self.shown(LANES), NAMES)

    def test_the_legend_filters(self):
        self.open(self.five)
        self.js("explorer.advance([11])")
        self.painted()
        statuses, steps = self.js(MARKS), steps_of(FIVE)
        of = {k: who(step.action) for k, step in enumerate(steps)}
        for name in ("done", "ready", "waits", "new", "move", "bind"):
            with self.subTest(name):
                self.press(f"#legend button[value={name}]")
                ks = [k for k, step in enumerate(steps) if name in (statuses[str(k)], step.action.verb)]
                self.assertEqual(self.shown(LANES), [each for each in NAMES if each in {of[k] for k in ks}])
                self.assertEqual(self.js("[...document.querySelectorAll('#legend [aria-pressed=true]')].map((e) => e.value)"), [name])
                self.press(f"#legend button[value={name}]")
                self.assertEqual((self.shown(LANES), self.shown("#found")), (NAMES, [""]))

    def test_the_end_of_a_log_is_seen(self):
        lines = "".join(f"echo line {n} {'x' * 300}; " for n in range(40))
        self.exported(WEB, commands=f'[[step]]\nwhen = "Db: off -> on"\nrun = "{lines} exit 3"\n', more=["--lax"])
        self.make("-k")
        self.open(self.folder, "--logs")
        top, seen, whole = self.js(END)
        self.assertGreater(whole, seen)
        self.assertGreaterEqual(top + seen, whole - 2)
        self.assertIn("line 39 xxx", self.shown("#logs pre")[0])
        self.press("#logs article button")
        self.until(lambda: self.shown("#logs article button") == ["copied"], "nothing is copied")
        self.assertEqual(self.pasted(), f"metis log {self.folder.name} Db#1")


class Served(InABrowser):
    """A folder that is followed, over a restart of the server."""

    @contextlib.contextmanager
    def served(self, *words, browser=""):
        environment = {**os.environ, "BROWSER": browser}
        command = [sys.executable, "-m", "metis_planner", "page", str(self.folder), "--serve", *map(str, words)]
        with subprocess.Popen(command, cwd=TOP, stderr=subprocess.PIPE, text=True, env=environment) as server:
            try:
                yield re.search(r"http://\S+", server.stderr.readline())[0]
            finally:
                server.kill()

    def test_a_page_comes_back_after_a_restart_and_goes_on(self):
        self.exported(WEB)
        marks = f"Object.values({MARKS}).filter((status) => status === 'done').length"
        warned = "document.getElementById('warn').textContent"
        with self.served() as url:
            self.browser.open(url)
            self.assertEqual(self.js(marks), 0)
        self.until(lambda: "cannot be followed" in self.js(warned), "nothing says that the server is gone")
        with self.served() as again:
            self.assertEqual(again, url)
            self.until(lambda: self.js(warned) == "", "the page does not come back")
            self.assertEqual(self.make()[0], 0)
            self.until(lambda: self.js(marks) == 5, "what is done is not shown")
            self.assertEqual(self.js("location.href").split("#")[0], url)

    def test_the_port_that_is_asked_for_and_a_browser_that_is_opened(self):
        self.exported(WEB)
        with self.served() as url:
            port = urlsplit(url).port
        said = self.top / "said"
        script = self.path("browser", f'#!/bin/sh\nprintf "%s\\n" "$1" >{said}.new; mv {said}.new {said}\n')
        script.chmod(0o755)
        (self.folder / "page.address").unlink()
        with self.served("--port", port, "--open", browser=str(script)) as other:
            self.assertEqual(urlsplit(other).port, port)
            self.assertNotEqual(other, url)  # the token was in the folder, and is a new one now
            self.until(said.exists, "no browser is opened")
            self.assertEqual(said.read_text(), f"{other}\n")
            client = http.client.HTTPConnection("127.0.0.1", port, timeout=DEADLINE)
            client.request("GET", urlsplit(url).path)
            self.assertEqual(client.getresponse().status, 404)
            client.close()


class ChromiumTest(Ways):
    kind = Chromium


class FirefoxTest(Ways):
    kind = Firefox


class ChromiumServedTest(Served):
    kind = Chromium


class FirefoxServedTest(Served):
    kind = Firefox


del Ways, Served, InABrowser


if __name__ == "__main__":
    unittest.main()
