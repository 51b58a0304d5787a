"""A page in a real browser, by keys alone: each control is reached by Tab or arrows, and does what it does by Enter or a blank."""

import json
import unittest

from tests.carry.shapes import ROLLED, WEB
from tests.page.in_a_browser import HERE, NAMED, STOPS, InABrowser
from tests.page.test_pages import WAITING
from trials.browsers import Chromium, Firefox


class Keys(InABrowser):
    def test_each_control_is_reached_by_keys_alone(self):
        for words in self.pages():
            with self.subTest(str(words[0])):
                self.open(*words)
                count = self.js(f"{STOPS}.length")
                self.assertGreater(count, 25)
                seen, nameless = set(), []
                for _ in range(count + 3):
                    self.browser.key("Tab")
                    seen.add(self.js(HERE))
                    if not self.js(NAMED):
                        nameless.append(self.js("document.activeElement.outerHTML"))
                self.assertEqual(set(range(count)) - seen, set(), self.missed(seen))
                self.assertEqual(nameless, [])
                for selector, among in ((".mark", "#pic .mark"), (".lane", ".lane")):
                    self.open(*words)  # behind the last control Firefox leads to its own, and not back
                    self.assertEqual(self.by_arrows(selector), self.js(f"document.querySelectorAll('{among}').length"))

    def missed(self, seen):
        return self.js(f"{STOPS}.filter((e, i) => !{json.dumps(sorted(seen))}.includes(i)).map((e) => e.outerHTML.slice(0, 90))")

    def by_arrows(self, selector):
        """How many marks or names are reached from the one to which Tab leads."""
        self.tab_to(selector)
        all_ = f"[...document.querySelectorAll('{'#pic ' if selector == '.mark' else ''}{selector}')]"
        here, seen = f"{all_}.indexOf(document.activeElement)", set()
        keys = {".mark": ("ArrowRight", "ArrowLeft", "ArrowDown"), ".lane": ("ArrowDown",)}[selector]
        for _ in range(self.js("document.querySelectorAll('#names div').length") + 1):
            for key in keys:
                for _ in range(self.js("explorer.plan.size") if key in ("ArrowLeft", "ArrowRight") else 1):
                    seen.add(self.js(here))
                    self.browser.key(key)
        return len(seen | {self.js(here)})

    def test_a_blank_toggles_each_box_and_plays_nothing(self):
        for words in self.pages():
            self.open(*words)
            boxes = self.js(f"{STOPS}.filter((e) => e.type === 'checkbox').map((e) => e.id)")
            self.assertGreaterEqual(len(boxes), 7)
            for name in boxes:
                self.tab_to(f"#{name}")
                was = self.js(f"document.getElementById('{name}').checked")
                self.browser.key(" ")
                self.assertEqual(self.js(f"document.getElementById('{name}').checked"), not was, name)
                self.browser.key(" ")
                self.assertEqual(self.js("document.getElementById('play').textContent"), "play", name)

    def test_a_plan_is_stepped_through_to_its_end_and_the_focus_stays(self):
        self.open(self.path("web", WEB))
        self.tab_to("#next")
        for at in range(1, 6):
            self.browser.key("Enter")
            self.assertEqual(self.js("+document.getElementById('slide').value"), at)
        self.browser.key("Enter")
        self.assertEqual(self.js("document.activeElement.id"), "next")
        self.open(self.path("web", WEB))
        for at in range(1, 6):
            self.tab_to("#told button:not(.ref)")
            self.browser.key("Enter")
            self.js("new Promise((done) => setTimeout(done, 20))")
            self.assertEqual(self.js("explorer.walk.at"), at)
            self.assertNotEqual(self.js("document.activeElement.tagName"), "BODY")

    def test_the_picture_is_scrolled_by_arrows(self):
        self.open(self.path("rolled", ROLLED), "--from", self.path("web", WEB))
        self.js("document.getElementById('pane').style.minWidth = '4000px'")
        self.tab_to("#scroll")
        at = self.js("explorer.walk.at")
        self.browser.key("ArrowRight")
        self.js("new Promise((done) => setTimeout(done, 400))")
        self.assertGreater(self.js("document.getElementById('scroll').scrollLeft"), 0)
        self.assertEqual(self.js("explorer.walk.at"), at)

    def test_names_that_differ_at_their_end_are_told_apart(self):
        kinds = [f"Deployment/cert-manager/cert-manager-{name}" for name in ("cainjector", "webhook", "startupapicheck")]
        lines = "".join(f"{n + 1} new {n} {kind}\n" for n, kind in enumerate(kinds))
        self.open(self.path("long", f"metis plan 1\ninstances 3 actions 3 dups 0\n{lines}end\n"))
        whole = """[...document.querySelectorAll("#names .lane")].map((e) => { const end = e.querySelector(".part2");
          const [one, all] = [end, document.getElementById("names")].map((each) => each.getBoundingClientRect());
          return [end.textContent, one.right <= all.right + 1 && end.scrollWidth <= end.clientWidth + 1]; })"""
        ends = [f"{kind}#{n}"[-12:] for n, kind in enumerate(kinds)]
        for width in (1280, 390):
            self.browser.size(width, 800)
            self.js("new Promise((done) => setTimeout(done, 100))")
            self.assertEqual(self.js(whole), [[text, True] for text in ends], width)
            box = "(e) => e.getBoundingClientRect()"
            inside = f"""(() => {{ const right = ({box})(document.getElementById("names")).right;
              return [...document.querySelectorAll("#names .part2")].every((e) => ({box})(e).right <= right + 0.5); }})()"""
            self.assertTrue(self.js(inside), width)
            shown = "[...document.querySelectorAll('#names i')].every((e) => e.checkVisibility())"
            self.assertTrue(self.js(shown), width)
        self.browser.size(1280, 860)

    def test_reasons_are_reached_by_tab(self):
        self.open(self.path("why", WAITING))
        self.tab_to("li[data-line='1']")
        self.assertEqual(self.js("document.querySelectorAll('.wide .lit.tag').length"), 1)


class ChromiumTest(Keys):
    kind = Chromium

    def test_roles_and_names_as_a_screen_reader_has_them(self):
        self.open(self.path("web", WEB))
        self.browser.call("Accessibility.enable")
        nodes = self.browser.call("Accessibility.getFullAXTree")["nodes"]
        found = [(each["role"]["value"], each.get("name", {}).get("value", "")) for each in nodes if not each.get("ignored")]
        controls = [each for each in found if each[0] in ("button", "checkbox", "searchbox", "slider", "combobox", "region")]
        self.assertEqual([each for each in controls if not each[1]], [])
        names = [name for role, name in controls if role == "button"]
        self.assertIn("1 make Web#0, ready", names)
        self.assertIn("5 Web#0: off → run, waits", names)
        self.assertIn(("region", "the lanes, which arrows scroll"), controls)
        self.assertFalse([each for each in found if each[0] in ("image", "img")], "a picture of the legend has a role")


class FirefoxTest(Keys):
    kind = Firefox


del Keys, InABrowser


if __name__ == "__main__":
    unittest.main()
