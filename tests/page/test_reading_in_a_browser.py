"""Whether a page can be read and used by everybody, as real browsers show it: contrast, names, roles, sizes, and by touch.

axe-core would say more of it and is in no package of Debian; its rules that a page can break are written out in reading.js.
"""

import json
import pathlib
import struct
import unittest
import zlib

from tests.carry.shapes import CROSSED, ROLLED, WEB, call
from tests.page.in_a_browser import InABrowser
from tests.page.test_pages import NUMBERS, REFUSAL, WAITING, WAVES
from trials.browsers import Chromium, Firefox

CHECK = (pathlib.Path(__file__).resolve().parent / "reading.js").read_text("utf-8")
LOOKS = ("1", "explorer.step(3)", "explorer.choose([3])", "document.getElementById('words').click()", "explorer.show('time')")
# Wrongs that are made in a page, and by which rule each is noticed.
WRONGS = (
    ("contrast", "document.documentElement.style.setProperty('--soft', '#8a949b')"),
    ("contrast", "explorer.step(5); explorer.picture.paint(new Map()); "
     "document.documentElement.style.setProperty('--on-done', '#5f7f95')"),
    ("placeholder", "document.getElementById('find').style = 'background: #777; color: #000'"),
    ("outline", "document.documentElement.style.setProperty('--faint', '#b0b6ba')"),
    ("arrow", "document.documentElement.style.setProperty('--faint', '#b0b6ba')"),
    ("name", "document.getElementById('find').removeAttribute('aria-label')"),
    ("name", "document.getElementById('next').removeAttribute('aria-label'); document.getElementById('next').textContent = ''"),
    ("name", "document.getElementById('scroll').setAttribute('aria-label', ''); document.getElementById('scroll').replaceChildren()"),
    ("hidden control", "document.getElementById('legend').setAttribute('aria-hidden', true)"),
    ("nested control", "document.getElementById('next').append(document.createElement('button'))"),
    ("role without focus", "document.querySelector('.lane').removeAttribute('tabindex')"),
    ("label without role", "document.getElementById('scroll').removeAttribute('role')"),
    ("order of focus", "document.getElementById('next').setAttribute('tabindex', 3)"),
    ("scrolled by no key", "document.getElementById('beside').style = 'height: 40px; overflow: auto'; "
     "document.querySelectorAll('#beside button').forEach((e) => e.remove())"),
    ("twice", "document.getElementById('next').id = 'prev'"),
    ("level of a heading", "document.getElementById('warn').append(document.createElement('h4')); "
     "document.querySelector('h4').textContent = 'x'"),
    ("list", "document.querySelector('ul').append(document.createElement('p'))"),
    ("regions of one name", "document.getElementById('steps').setAttribute('aria-label', 'What is shown')"),
    ("size", "document.getElementById('nearer').style = 'min-height: 0; height: 14px; padding: 0; width: 8px'"),
    ("structure", "document.documentElement.lang = ''"),
    ("in no part of the page", "document.body.append(document.createElement('b')); document.body.lastChild.textContent = 'x'"),
)  # fmt: skip


def pixels_of(png, most=100):
    """The first rows of a PNG of eight bits a colour, each a list of (red, green, blue)."""
    at, data, head = 8, b"", b""
    while at < len(png):
        (size,) = struct.unpack(">I", png[at : at + 4])
        kind, body = png[at + 4 : at + 8], png[at + 8 : at + 8 + size]
        head, data = (body if kind == b"IHDR" else head), data + (body if kind == b"IDAT" else b"")
        at += 12 + size
    width, height, bits, colours = struct.unpack(">IIBB", head[:10])
    assert bits == 8 and colours in (2, 6), (bits, colours)
    deep, raw = (3 if colours == 2 else 4), zlib.decompress(data)
    rows, before = [], bytes(width * deep)
    for y in range(min(height, most)):
        line = raw[y * (width * deep + 1) :][: width * deep + 1]
        before = unfiltered(line[0], line[1:], before, deep)
        rows.append([tuple(before[x : x + 3]) for x in range(0, width * deep, deep)])
    return rows


def unfiltered(kind, line, above, deep):
    found = bytearray(line)
    for at in range(len(found)):
        left, up = (found[at - deep] if at >= deep else 0), above[at]
        corner = above[at - deep] if at >= deep else 0
        guess = left + up - corner
        nearest = min((left, up, corner), key=lambda each: abs(guess - each))
        found[at] = (found[at] + (0, left, up, (left + up) // 2, nearest)[kind]) % 256
    return bytes(found)


class Reading(InABrowser):
    def found(self):
        self.painted()
        return self.js(CHECK)

    def plans_and_reasons(self):
        yield from self.pages()
        yield (self.path("crossed", CROSSED),)
        yield (self.path("why", WAITING),)
        yield (self.path("refusal", REFUSAL), "--why", self.path("why", WAITING))
        yield (self.path("refusal", REFUSAL),)

    def test_all_can_be_read_and_used_in_the_light_and_in_the_dark(self):
        texts = set()
        try:
            for words in self.plans_and_reasons():
                for is_dark in (False, True):
                    self.browser.look(is_dark=is_dark)
                    self.open(*words)
                    is_plan = self.js("typeof explorer === 'object' && Boolean(explorer.plan)")
                    for look in LOOKS if is_plan else ("1",):
                        if "time" in look and not self.js("explorer.times"):
                            continue
                        self.js(look)
                        found = self.found()
                        self.assertEqual(found["faults"], [], (words, is_dark, look))
                        self.assertGreater(found["texts"], 8)
                        self.assertGreaterEqual(found["controls"], 20 if is_plan else 0, words)
                        self.assertEqual(found["marks"] > 1, "refusal" not in str(words[0]) or len(words) > 1)
                    texts.add(self.js("getComputedStyle(document.body).backgroundColor"))
        finally:
            self.browser.look()
        self.assertEqual(len(texts), 2)  # the light and the dark

    def test_all_can_be_read_and_used_on_a_phone(self):
        self.browser.size(390, 800)
        try:
            for words in self.plans_and_reasons():
                self.open(*words)
                self.assertEqual(self.found()["faults"], [], words)
        finally:
            self.browser.size(1280, 860)

    def test_marks_and_arrows_of_a_large_plan_stand_out(self):
        lines = [line for n in range(60) for line in (f"new {2 * n} Web", f"new {2 * n + 1} Db", f"bind sql {2 * n} {2 * n + 1}")]
        plan = "".join(f"{n} {line}{f' after {n - 1}' if 'bind' in line else ''}\n" for n, line in enumerate(lines, 1))
        for is_dark in (False, True):
            self.browser.look(is_dark=is_dark)
            self.open(self.path("many", f"metis plan 1\ninstances 120 actions 180 dups 0\n{plan}end\n"))
            self.js("['byType', 'foldLeaves'].map((id) => document.getElementById(id)).forEach((e) => e?.checked && e.click())")
            self.assertTrue(self.js("document.getElementById('pic').classList.contains('many')"))
            found = self.found()
            self.assertEqual(found["faults"], [], is_dark)
            self.assertGreaterEqual(found["marks"], 180 + 60)
        self.browser.look()

    def test_what_is_not_chosen_is_paler_and_no_line_strikes_its_words_through(self):
        """A mark that is dimmed still covers the line on which it stands."""
        self.open(self.path("rolled", ROLLED), "--from", self.path("web", WEB))
        self.js("explorer.choose([5])")
        self.painted()
        dim = "[...document.querySelectorAll('#pic.dim .mark:not(.lit)')]"
        opacities = self.js(f"{dim}.map((e) => +getComputedStyle(e).opacity)")
        self.assertGreater(len(opacities), 3)
        self.assertEqual(set(opacities), {1})
        own = "(({ fill, fillOpacity }) => [fill, +fillOpacity])(getComputedStyle(e.querySelector('rect, path')))"
        fills = self.js(f"{dim}.map((e) => {own})")
        for fill, opacity in fills:
            self.assertFalse(opacity < 1 or "/" in fill or "rgba" in fill or fill == "none", fill)

    def test_a_binding_is_hit_by_a_finger(self):
        """12 away from its middle each way, which is 24 across; and no farther away than that is meant by a tap."""
        self.browser.size(390, 800)
        try:
            for dx, dy, is_hit in ((0, 0, True), (0, 11, True), (0, -11, True), (11, 0, True), (-11, 0, True), (0, 40, False)):
                self.open(self.path("rolled", ROLLED), "--from", self.path("web", WEB))
                self.js("document.getElementById('words').click()")  # no words, and small marks
                self.js("explorer.step(8)")
                self.painted()
                self.js("document.querySelector('#pic .mark[data-k=\"8\"]').scrollIntoView({ block: 'center', inline: 'center' })")
                box = "document.querySelector('#pic .mark[data-k=\"8\"] > :is(path, rect)').getBoundingClientRect()"
                x, y, width, height = self.js(f"(({{ x, y, width, height }}) => [x, y, width, height])({box})")
                self.assertLess(height, 24)
                self.browser.click(x + width / 2 + dx, y + height / 2 + dy)
                self.painted()
                self.assertEqual(8 in self.js("explorer.walk.done()"), is_hit, (dx, dy))
        finally:
            self.browser.size(1280, 860)

    def test_a_chart_is_dark_where_all_is_dark(self):
        """By the pixel in its corner, and one of a bar of green, which stays green."""
        self.path("plan", WEB)
        status, text, _ = call("gantt", self.top / "plan", self.path("waves", WAVES), *NUMBERS)
        self.assertEqual(status, 0)
        chart, shot = self.path("chart.svg", text), self.top / "shot.png"
        try:
            for is_dark in (False, True):
                self.browser.look(is_dark=is_dark)
                self.browser.open(chart)
                self.browser.shot(shot)
                rows = pixels_of(shot.read_bytes())
                self.assertEqual(max(rows[0][0]) < 60, is_dark, rows[0][0])
                x, y = self.js("""(({ x, y, width, height }) => [x + 4, y + 3])(
                  document.querySelector("g rect[fill='#b9dfb3']").getBoundingClientRect())""")
                red, green, blue = rows[round(y)][round(x)]
                self.assertGreater(green, max(red, blue), is_dark)
        finally:
            self.browser.look()

    def test_what_is_wrong_is_noticed(self):
        """The check itself: each of these wrongs, made in a page, is said by its rule."""
        for rule, wrong in WRONGS:
            self.open(self.path("web", WEB))
            self.assertEqual(self.found()["faults"], [])
            self.js(f"(() => {{ {wrong}; }})()")
            rules = {fault.split(":")[0] for fault in self.js(CHECK)["faults"]}
            self.assertIn(rule, rules, wrong)


class ChromiumTest(Reading):
    kind = Chromium

    def test_roles_and_names_as_a_screen_reader_has_them(self):
        for words in self.plans_and_reasons():
            self.open(*words)
            self.browser.call("Accessibility.enable")
            nodes = self.browser.call("Accessibility.getFullAXTree")["nodes"]
            found = [(each["role"]["value"], each.get("name", {}).get("value", "")) for each in nodes if not each.get("ignored")]
            kinds = ("button", "checkbox", "searchbox", "slider", "combobox", "region", "DisclosureTriangle")
            controls = [each for each in found if each[0] in kinds]
            self.assertEqual([each for each in controls if not each[1]], [], words)
            self.assertFalse([each for each in found if each[0] in ("image", "img") and not each[1]], words)
            self.assertLessEqual({"main", "banner"}, {role for role, _ in found}, words)

    def test_a_wide_window_is_used(self):
        self.browser.size(2560, 1200)
        self.open(self.path("web", WEB))
        self.assertGreater(self.js("document.querySelector('main').getBoundingClientRect().width"), 2400)
        self.browser.size(1280, 860)

    def test_with_colours_that_are_forced_what_is_pressed_and_what_is_fresh_stand_out(self):
        """Where the colours of the page are taken away, an outline says it."""
        outline = "(e) => getComputedStyle(e).outlineStyle !== 'none'"
        fills = "[...document.querySelectorAll('#pic .{0} :is(path, rect)')].map((e) => getComputedStyle(e).fill)"
        try:
            self.browser.look(is_forced=True)
            self.open(self.path("web", WEB))
            self.js("explorer.showOnly('new')")
            self.js("explorer.step(1)")
            self.painted()
            for selector, is_so in (
                ("#legend [aria-pressed=true]", True),
                ("#legend [aria-pressed=false]", False),
                (".row.fresh", True),
            ):
                found = self.js(f"[...document.querySelectorAll({json.dumps(selector)})].map({outline})")
                self.assertEqual(set(found), {is_so}, selector)
            done, ready = (self.js(fills.format(name)) for name in ("done", "ready"))
            self.assertTrue(done and ready and not set(done) & set(ready))
        finally:
            self.browser.look()


class FirefoxTest(Reading):
    kind = Firefox


del Reading, InABrowser


if __name__ == "__main__":
    unittest.main()
