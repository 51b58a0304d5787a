"""What the tests of a page in a real browser share: the browser, the pages, and how a control is come to by keys."""

import json
import shutil
import time
import unittest

from tests.carry.shapes import ROLLED, WEB, FolderCase, call
from tests.effort import DEADLINE
from tests.page.test_pages import NUMBERS, WAVES
from trials.browsers import Chromium, started

# All that can have the focus and is seen; of marks and names, between which arrows lead, the one that Tab reaches.
STOPS = """[...document.querySelectorAll("button, input, select, summary, [tabindex]")].filter((e) => e.checkVisibility()
  && e.tabIndex >= 0)"""
HERE = f"{STOPS}.indexOf(document.activeElement)"
NAMED = """(() => { const e = document.activeElement;
  return (e.getAttribute("aria-label") ?? e.labels?.[0]?.textContent ?? e.textContent).trim(); })()"""
MOST_KEYS = 400


class InABrowser(FolderCase):
    """A test over one browser, which all tests of its class share."""

    kind = Chromium

    @classmethod
    def setUpClass(cls):
        if not shutil.which(cls.kind.name):
            raise unittest.SkipTest(f"no {cls.kind.name}")
        try:
            cls.browser = started(cls.kind)
        except (TimeoutError, EOFError) as fault:
            raise unittest.SkipTest(f"{cls.kind.name} does not start: {fault}") from fault

    @classmethod
    def tearDownClass(cls):
        cls.browser.close()

    def path(self, name, text):
        path = self.top / name
        path.write_text(text)
        return path

    def open(self, *words):
        status, text, notes = call("page", *words)
        self.assertEqual(status, 0, notes)
        self.browser.open(self.path("page.html", text))

    def js(self, text):
        return self.browser.js(text)

    def pages(self):
        """A plan with times, a rollout, and a folder in which something failed."""
        web = self.path("web", WEB)
        yield (web, "--waves", self.path("waves", WAVES), *NUMBERS)
        yield (self.path("rolled", ROLLED), "--from", web)
        self.exported(WEB, commands='[[step]]\nwhen = "Db: off -> on"\nrun = "echo no room; exit 3"\n', more=["--lax"])
        self.make("-k")
        yield (self.folder, "--logs")

    def tab_to(self, selector):
        """By Tab, or back by Shift and Tab from what comes after it: behind the last control Firefox leads to its own, and not back."""
        is_after = f"""(() => {{ const e = document.activeElement; const to = document.querySelector("{selector}");
          return e !== document.body && Boolean(to?.compareDocumentPosition(e) & Node.DOCUMENT_POSITION_FOLLOWING); }})()"""
        for _ in range(MOST_KEYS):
            if self.js(f'document.hasFocus() && document.activeElement.matches("{selector}")'):
                return
            self.browser.back() if self.js(is_after) else self.browser.key("Tab")
        self.fail(f"Tab does not come to {selector}")

    def shown(self, selector):
        """The texts of what a selector finds."""
        return self.js(f"[...document.querySelectorAll({json.dumps(selector)})].map((e) => e.textContent)")

    def press(self, selector, key="Enter"):
        """Comes to a control by Tab and presses it, and waits until that is painted."""
        self.tab_to(selector)
        self.browser.key(key)
        self.painted()

    def painted(self):
        self.js("new Promise((done) => setTimeout(done, 30))")

    def until(self, holds, what):
        end = time.time() + DEADLINE
        while not holds():
            self.assertLess(time.time(), end, what)
            time.sleep(0.1)
