#!/usr/bin/env python3
"""Tries the pages in real browsers, Debian's Chromium and Firefox without a window:

    python3 -m trials page [TEST ..]

What a page shows is compared with what Python's exporters say that each action waits for, with what `metis sim` shows, and
with what the browsers themselves do: which addresses they ask for, what their policy keeps from running, how wide a page is.
Each browser that is not there is skipped by its name. A Chromium without a window takes some 400 MB.
"""

import contextlib
import http.client
import json
import pathlib
import random
import re
import subprocess
import sys
import unittest
from collections.abc import Iterator
from urllib.parse import urlsplit

from trials.browsers import Chromium, Firefox
from trials.page_cases import CASES, EXAMPLES, WISHES, Case, Changed, Tried, doubles_universe, metis, placed_case, said
from trials.page_browsing import CLICK, BrowserCase
from trials.trial import TOP
from metis_planner.text.actions import Bind

HOSTILE = (
    '"><img src=x onerror=window.hit=1></script x><img src=x onerror=window.hit=3></script>'
    "<script>window.hit=2</script><!-- &lt;"
)
COMMANDS = """timeout = 60
[[step]]
when = "*: new"
run = ""
[[step]]
when = "mysql: inst -> run"
run = 'echo "<img src=x onerror=window.hit=1>"; test -e ready'
[[step]]
when = "*: inst -> run"
run = 'while test -e hold; do sleep 0.2; done'
[[step]]
when = "*: uninst -> inst"
run = 'true'
"""
# Six ways to get a script into the page by hand: what its policy is for.
WAYS = (
    "document.body.insertAdjacentHTML('beforeend', '<img src=x onerror=\"window.hit=1\">')",
    "document.body.innerHTML = '<svg onload=window.hit=1>'",
    "document.body.append(Object.assign(document.createElement('script'), { textContent: 'window.hit = 1' }))",
    "(() => { const e = new Image(); e.setAttribute('onerror', 'window.hit=1'); e.src = 'x'; document.body.append(e); })()",
    "document.body.append(Object.assign(document.createElement('script'), { src: 'data:text/javascript,window.hit=1' }))",
    "setTimeout('window.hit = 1', 0)",
)
FRONT = (sys.executable, "-m", "metis_planner")
QUIET = subprocess.DEVNULL
# At each of these sets of actions: what is done and ready, and what is done after each that waits was pressed.
MOMENTS = """(async (paths) => {
  const marks = (name) => [...document.querySelectorAll(`#pic .mark.${name}`)].map((e) => +e.dataset.k);
  const painted = () => new Promise((done) => setTimeout(done, 0));
  const found = [];
  for (const path of paths) {
    explorer.step(0);
    explorer.act((walk) => walk.advance(path));
    await painted();
    const [done, ready] = [marks("done"), marks("ready")];
    for (const mark of document.querySelectorAll("#pic .mark:not(.done, .ready)")) {
      mark.dispatchEvent(new MouseEvent("click", { bubbles: true }));
      document.body.dispatchEvent(new KeyboardEvent("keydown", { key: "Enter", bubbles: true }));
    }
    await painted();
    const { plan, walk } = explorer;
    const stands = [...configuration(plan, walk.done())];
    found.push([done, ready, marks("done"), stands.map(([i, one]) => [i, `${plan.types.get(i)}:${one.state}`, one.takes])]);
  }
  return found;
})(%s)"""
BY_NAME = {case.name: case for case in CASES}
WIDTHS = (1280, 768, 390, 320)
MANY = ("web", "crossed, one doubled", "blog", "blog rolled out", "shop", "wordpress")
MOST_TIMES = 4  # as long as a step of 299 actions may one of 1,977 take


class Moments(BrowserCase):
    """What is shown at each moment, in both browsers."""

    middling: tuple[str, ...] = ("blog", "balanced, three of a kind")

    def every_moment(self, case: Case) -> int:
        """Every set of actions that some order has done: there no waiting action can be done, and it is what `sim` shows."""
        self.open(Tried(case, self.top))
        seen: set[frozenset[int]] = set()
        todo: list[list[int]] = [[]]
        while todo:
            path = todo.pop()
            if frozenset(path) in seen:
                continue
            seen.add(frozenset(path))
            self.js("explorer.step(0)")
            for k in path:
                self.press(k)
            state = self.checked()
            self.assertEqual(set(state["done"]), set(path))
            self.press_all(set(range(self.tried.size)) - set(path) - set(state["ready"]))
            self.assertEqual(self.checked()["done"], state["done"])
            if path:
                self.same_as_sim(self.tried.shown(path)[-1], state)
            todo += [[*path, k] for k in state["ready"]]
        return len(seen)

    def test_every_moment_of_small_plans(self) -> None:
        counts = {}
        for case in CASES:
            if case.name in ("web", "service", "server", "crossed, one doubled", "replicas", "odd names"):
                counts[case.name] = self.every_moment(case)
        print(self.kind.name, "every moment:", counts, file=sys.stderr)
        self.assertGreater(counts["crossed, one doubled"], 20)

    def test_every_moment_of_middling_plans(self) -> None:
        """The same of plans with hundreds of moments: at each, what is ready and done, and that nothing else can be done."""
        counts = {}
        for case in (*(BY_NAME[name] for name in self.middling), placed_case()):
            self.open(Tried(case, self.top))
            moments = self.tried.moments()
            counts[case.name] = len(moments)
            for at in range(0, len(moments), 100):
                paths = moments[at : at + 100]
                for path, (done, ready, kept, stands) in zip(paths, self.js(MOMENTS % json.dumps(paths)), strict=True):
                    waits = self.tried.waits
                    expected = {k for k in range(self.tried.size) if k not in path and waits[k] <= set(path)}
                    self.assertEqual((set(done), set(ready), set(kept)), (set(path), expected, set(path)))
                    if path:
                        self.same_as_sim(self.tried.shown(path)[-1], {"stands": stands})
        print(self.kind.name, "every moment:", counts, file=sys.stderr)

    def test_walks_through_every_plan(self) -> None:
        draw, cases = random.Random(7), [*CASES, placed_case()]
        for tried in (*(Tried(case, self.top) for case in cases), Changed(self.top)):
            with self.subTest(tried.case.name):
                self.open(tried)
                self.assertEqual(self.state()["at"], tried.start)
                for _ in range(1 if tried.size > 100 else 3):
                    self.walk(draw)
                end = self.state()["stands"]
                places = draw.sample(range(tried.size), min(4, tried.size))
                order = list(self.js("[...explorer.walk.order]"))
                shown = tried.shown(order)
                for at in places:  # the slider, over the order that was made
                    self.slide(at + 1)
                    self.same_as_sim(shown[at], self.checked())
                for name in ("printed", "stages", "lanes", "random"):
                    self.js("explorer.step(0)")
                    found = self.choose_order(name)
                    place = {k: at for at, k in enumerate(found)}
                    self.assertEqual(sorted(found), list(range(tried.size)))
                    self.assertTrue(all(place[q] < place[k] for k, waits in enumerate(tried.waits) for q in waits))
                    self.js(f"explorer.step({tried.size})")
                    self.assertEqual(sorted(self.checked()["stands"]), sorted(end))
                good = metis("replay", tried.universe, tried.path)
                self.assertIn(good.strip(), self.text("verdict"))
                self.assertIn("good", good)

    def test_keys_and_undo(self) -> None:
        self.open(Tried(BY_NAME["blog"], self.top))
        keys = ("ArrowRight", "ArrowRight", "ArrowLeft", "End", "ArrowRight", "Home", "ArrowLeft")
        for key, at in zip(keys, (1, 2, 1, 15, 15, 0, 0), strict=True):
            self.browser.key(key)
            self.assertEqual(self.state()["at"], at, key)
        for _ in range(3):  # the first that is left, and two on: action 3, which is ready
            self.browser.key("j")
        self.browser.key("Enter")
        self.assertEqual(self.state()["done"], [2])
        self.browser.key("u")
        self.assertEqual(self.state()["done"], [])
        for _ in range(12):
            self.browser.key("j")
        self.browser.key("Enter")  # one that waits
        self.assertEqual(self.checked()["done"], [])
        self.browser.key("/")
        self.assertEqual(self.js("document.activeElement.id"), "find")
        self.browser.type("wordp")
        names = "[...document.querySelectorAll('#names b')].map((e) => e.textContent)"
        self.assertEqual(self.js(names), ["haproxy#0", "wordpress#3"])  # who is one, and who takes one
        self.js("document.getElementById('with').click()")
        self.assertEqual(len(self.js(names)), 4)
        self.browser.key("Escape")
        self.browser.key("b")
        self.assertEqual(self.js("document.querySelectorAll('#pic .mark.bind').length"), 0)

    def test_mouse(self) -> None:
        self.open(Tried(BY_NAME["blog"], self.top))
        x, y, width, height = self.box("#pic .mark[data-k='12']")
        x, y = x + width / 2, y + height / 2
        self.browser.point(x, y)
        lit = self.js("[...document.querySelectorAll('#pic .mark.lit')].map((e) => +e.dataset.k)")
        self.assertEqual(set(lit), {2, 3, 4, 5, 6, 7, 8, 9, 10, 11, 12, 13, 14})
        self.assertIn("waits for 10 more", self.text("told"))
        self.browser.click(x, y)
        self.assertEqual(self.state()["at"], 0)
        self.js("[...document.querySelectorAll('#told button')].find((e) => e.textContent.startsWith('step it')).click()")
        self.assertEqual(set(self.checked()["done"]), {2, 3, 4, 5, 6, 7, 8, 9, 10, 11, 12})

    def test_barrier(self) -> None:
        for tried, gone in ((Tried(BY_NAME["blog rolled out"], self.top), 30), (Changed(self.top), 13)):
            self.open(tried)
            self.assertEqual(self.state()["at"], tried.start)
            self.press(gone)
            self.assertEqual(self.checked()["at"], tried.start)
            self.js("document.getElementById('guard').click()")
            self.press(gone)
            ready = self.state()["at"] > tried.start  # of the change the balancer has to let the old one go first
            self.assertEqual(ready, tried.case.name != "changed")
            if ready:
                self.assertIn("Neither", self.text("safe"))
            self.js("document.getElementById('guard').click()")
            self.assertEqual(self.checked()["at"], tried.start)

    def test_the_address_has_the_moment_and_the_order(self) -> None:
        tried = Tried(BY_NAME["blog"], self.top)
        self.open(tried)
        for k in (8, 2):
            self.press(k)
        self.until(lambda: self.js("location.hash") == "#at=2&order=9,3")
        self.js("explorer.step(6)")
        self.until(lambda: self.js("location.hash") == "#at=6&order=9,3")
        order = self.js("[...explorer.walk.order]")
        self.browser.open(f"{tried.page.as_uri()}#at=4&order=9,3")
        self.assertEqual(self.checked()["at"], 4)
        self.assertEqual(self.js("[...explorer.walk.order]"), order)
        for wrong in ("#at=4&order=5", "#at=x", "#at=3&order=1,1", "#at=2&order=99999999", "#at=2&order=<img>"):
            self.browser.open(f"{tried.page.as_uri()}{wrong}")
            self.assertEqual(self.checked()["at"], 0)
            self.assertIn("no order of this plan", self.text("warn"))

    def test_nothing_is_asked_of_anybody_and_nothing_hostile_runs(self) -> None:
        """Titles and names are shown as they are; and if markup got in all the same, the policy would keep it from running."""
        blog = Tried(BY_NAME["blog"], self.top)
        name = self.top / "<img src=x onerror=window.hit=1>.txt"
        name.write_text(blog.path.read_text())
        for words in (
            (name, "--title", HOSTILE),
            (name,),
            (blog.path, "--title", "\u202e</title><svg onload=window.hit=1>"),
        ):
            self.browser.open(self.made(*words))
            self.js("explorer.step(5)")
            self.assertIsNone(self.js("window.hit ?? null"))
            self.assertEqual(self.js("performance.getEntriesByType('resource').length"), 0)
            odd = "document.querySelectorAll('[onload], [onerror], img, title ~ title, #title *').length"
            self.assertEqual(self.js(odd), 0)
        self.browser.open(self.made(name))
        self.assertIn("<img src=x onerror=window.hit=1>.txt", self.text("title"))
        for way in WAYS:
            self.js(f"(() => {{ try {{ {way}; }} catch (fault) {{ }} }})()")
        self.js("new Promise((done) => setTimeout(done, 300))")
        self.assertIsNone(self.js("window.hit ?? null"))
        self.may_fault = True  # what the policy kept from it

    def test_no_page_is_wider_than_its_window(self) -> None:
        waiting = EXAMPLES / "waiting.json"
        refusal, why = self.top / "waiting.refusal", self.top / "waiting.why"
        refusal.write_text(metis("plan", waiting, "Shop:up"))
        why.write_text(metis("why", waiting, "Shop:up"))
        pages = [self.made(refusal, "--why", why, "--universe", waiting, name="refusal")]
        pages += [Tried(BY_NAME[name], self.top).page for name in MANY]
        pages += [Tried(placed_case(), self.top).page, Changed(self.top).page]
        for width in WIDTHS:
            self.browser.size(width, 800)
            for page in pages:
                self.browser.open(page)
                seen = self.js("[document.documentElement.scrollWidth, document.body.scrollWidth, innerWidth]")
                self.assertEqual(seen[2], width)
                self.assertLessEqual(max(seen[:2]), width, page.name)
        self.browser.size(1280, 860)


class ChromiumTest(Moments):
    kind = Chromium
    middling = (*Moments.middling, "blog taken down", "lvm2")

    def test_one_file_and_one_request(self) -> None:
        tried = Tried(BY_NAME["wordpress"], self.top)
        text = tried.page.read_text()
        for word in ("http://", "https://", "innerHTML", "eval(", "@import", "url("):
            self.assertNotIn(word, text.replace("http://www.w3.org/2000/svg", ""))
        self.open(tried)
        self.js("explorer.step(150)")
        asked = [url for url in self.browser.asked_for() if url != "about:blank"]
        self.assertEqual(asked, [tried.page.as_uri()])

    def test_folded_rows(self) -> None:
        """Each action is in one mark. What of a mark is ready is done by a press, and never what waits."""
        tried = Tried(BY_NAME["wordpress"], self.top)
        self.tried = tried
        self.browser.open(tried.page)
        for box in ("foldLeaves", "byType"):
            self.js(
                f"(() => {{ const e = document.getElementById('{box}'); if (!e.checked) e.click(); explorer.step(0); }})()"
            )
            ks = self.js("[...document.querySelectorAll('#pic .mark')].map((e) => e.dataset.k.split(' ').map(Number))")
            self.assertEqual(sorted(k for each in ks for k in each), list(range(tried.size)))
            if box == "foldLeaves":
                self.assertLess(len(ks), tried.size - 20)
                label = self.js("[...document.querySelectorAll('#names b')].at(-1).textContent")
                takers = {action.instance for action in tried.plan.actions if isinstance(action, Bind)}
                leaves = {action.instance for action in tried.plan.actions} - takers
                self.assertEqual(label, f"{len(leaves)} that need nothing")
            for _ in range(tried.size):
                done = set(self.js("explorer.walk.done()"))
                if len(done) == tried.size:
                    break
                ready = {k for k in range(tried.size) if k not in done and tried.waits[k] <= done}
                mark = next(each for each in ks if ready & set(each))
                self.js(f"document.querySelector('#pic .mark[data-k=\"{' '.join(map(str, mark))}\"]').{CLICK}")
                self.assertEqual(set(self.js("explorer.walk.done()")), done | (ready & set(mark)))
            self.assertEqual(len(self.js("explorer.walk.done()")), tried.size)

    def test_the_order_by_time(self) -> None:
        tried = Tried(BY_NAME["blog"], self.top)
        waves, numbers = self.top / "waves", ("20", "5", "1", "1", "60")
        waves.write_text(metis("waves", tried.universe, tried.path, *numbers))
        starts = {int(line.split()[0]) - 1: int(line.split()[2]) for line in waves.read_text().splitlines()[: tried.size]}
        self.browser.open(self.made(tried.path, "--universe", tried.universe, "--waves", waves, *numbers))
        order = self.choose_order("time")
        self.assertEqual([starts[k] for k in order], sorted(starts.values()))
        self.tried = tried
        self.js(f"explorer.step({tried.size})")
        self.same_as_sim(tried.shown(order)[-1], self.checked())
        self.js("explorer.show('time')")
        left = {k: self.js(f"explorer.picture.layout.markOf[{k}].x") for k in starts}
        self.assertEqual(sorted(starts, key=lambda k: (starts[k], k)), sorted(left, key=lambda k: (left[k], k)))
        red = self.js("[...document.querySelectorAll('#pic .mark.chain')].map((e) => +e.dataset.k + 1)")
        self.assertEqual(sorted(red), [int(word) for word in waves.read_text().splitlines()[-1].split()[1:]])

    def test_the_map_moves_the_window(self) -> None:
        self.open(Tried(BY_NAME["wordpress"], self.top))
        self.assertFalse(self.js("document.getElementById('map').hidden"))
        x, y, width, height = self.box("#map")
        self.browser.click(x + width / 2, y + height - 3)
        names = "['scrollTop', 'clientHeight', 'scrollHeight']"
        top, seen, whole = self.js(f"{names}.map((name) => document.getElementById('scroll')[name])")
        self.assertGreaterEqual(top + seen, whole - 2)
        self.open(Tried(BY_NAME["web"], self.top))
        self.assertTrue(self.js("document.getElementById('map').hidden"))

    def test_every_control_of_every_page(self) -> None:
        odd = self.top / "empty.txt"
        odd.write_text("metis plan 1\ninstances 0 actions 0 dups 0\nend\n")
        long = self.top / "long.txt"
        long.write_text(f"metis plan 1\ninstances 1 actions 1 dups 0\n1 new 0 {'n' * 64}\nend\n")
        pages = [self.made(odd, name="empty"), self.made(long, name="long"), Changed(self.top).page]
        pages += [Tried(case, self.top).page for case in (*(BY_NAME[name] for name in MANY), placed_case())]
        for page in pages:
            self.browser.open(page)
            self.js(
                """(() => { for (const name of ['words', 'bindings', 'byType', 'foldLeaves', 'foldOld', 'lastOnTop', 'with',
                  'bindings', 'words', 'byType', 'guard', 'guard', 'first', 'next', 'prev', 'last', 'undo', 'play', 'play']) {
                  document.getElementById(name)?.click(); }
                for (let at = 0; at <= explorer.plan.size; at += 1) explorer.step(at);
                document.getElementById('all').open = true;
                dispatchEvent(new Event('beforeprint')); dispatchEvent(new Event('afterprint')); })()"""
            )
            self.js("new Promise((done) => setTimeout(done, 50))")
            self.assertEqual(self.browser.faults(), [], page.name)

    def test_each_instance_says_what_is_wished_of_it(self) -> None:
        tried = Changed(self.top)
        self.open(tried)
        rows = "[...document.querySelectorAll('#names div')].map((e) => [e.querySelector('b').textContent, e.title])"
        self.assertEqual(
            self.js(rows),
            [
                ["= Lb#0", "Lb#0: kept, as is wished: rebind 0"],
                ["− Web1#1", "Web1#1: going, as is wished: avoid Web1"],
                ["= Db#2", "Db#2: kept"],
                ["+ Web2#3", "Web2#3: new"],
            ],
        )
        lines = "[...document.querySelectorAll('#names div')].map((e) => e.querySelector('small.wide')?.textContent ?? '')"
        self.assertEqual(self.js(lines), ["rebind 0", "avoid Web1", "", ""])
        stand = "[...document.querySelectorAll('#stand .row')].map((e) => e.querySelector('em').textContent.match(/wished: [^·]*/)?.[0].trim() ?? '')"
        self.assertEqual(self.js(stand), ["wished: rebind 0", "wished: avoid Web1", ""])
        self.js(f"explorer.step({tried.size})")
        self.js("new Promise((done) => setTimeout(done, 0))")
        self.assertEqual(self.js(stand), ["wished: rebind 0", "", ""])
        self.assertEqual(self.js("document.querySelector('#wishes pre').textContent"), WISHES)
        self.assertTrue(self.js("document.querySelector('#wishes pre').checkVisibility()"))

    def test_hosts_are_groups_of_lanes(self) -> None:
        tried = Tried(placed_case(), self.top)
        self.open(tried)
        row = "(e) => [e.classList.contains('host'), e.querySelector('b').textContent]"
        rows = self.js(f"[...document.querySelectorAll('#names div')].map({row})")
        lines = [line.split() for line in (self.top / "two-doubles-on-two-hosts.placed").read_text().splitlines()]
        placed = {words[1]: words[2] for words in lines if words[0] == "on"}
        host = ""
        for is_host, name in rows:
            host = name if is_host else host
            if not is_host:
                self.assertEqual(placed[name.split("#")[1]], host, name)
        self.assertEqual(sum(is_host for is_host, _ in rows), 2)
        self.assertGreater(self.js("document.querySelectorAll('#pic .hold').length"), 0)
        held = next(words for words in lines if words[0] == "hold")
        self.js(f"explorer.choose([{int(held[1]) - 1}])")
        self.assertIn("has its room on", self.text("told"))

    def test_the_circle_is_red(self) -> None:
        waiting = EXAMPLES / "waiting.json"
        why = self.top / "waiting.why"
        why.write_text(metis("why", waiting, "Shop:up"))
        self.browser.open(self.made(why, "--universe", waiting))
        self.assertIn("confirmed lacks Shop:up", self.text("verdict"))
        red = self.js("[...document.querySelectorAll('.wide .node.ring .say')].map((e) => e.textContent)")
        self.assertEqual(set(red), {"Shop:up", "Mail:up"})
        self.assertEqual(self.js("document.querySelectorAll('li.ring').length"), 2)
        self.js("document.querySelector('li[data-line=\"0\"]').dispatchEvent(new Event('pointerover'))")
        lit = self.js("[...document.querySelectorAll('.wide .lit.tag')].map((e) => e.textContent)")
        self.assertEqual(lit, ["mail"])

    def test_a_folder_is_followed(self) -> None:
        """From a first failure to the end: what is running, failed and done, and that the server goes."""
        tried = Tried(BY_NAME["blog"], self.top)
        commands, folder = self.top / "commands.toml", self.top / "folder"
        commands.write_text(COMMANDS)
        words = ("make", tried.path, "--commands", commands, "--lax", "--to", folder)
        subprocess.run([*FRONT, *map(str, words)], cwd=TOP, check=True, capture_output=True)
        (folder / "hold").touch()
        with self.served(folder, "--universe", tried.universe, "--logs", "--title", HOSTILE) as (server, url):
            make = subprocess.Popen(["make", "-k", "-j4", "-s", "-C", folder], stdout=QUIET, stderr=QUIET)
            self.browser.open(url)
            self.until(lambda: self.marks().get("8") == "running" and self.marks().get("5") == "failed")
            self.assertIn("failed with status 1", self.text("warn"))
            self.assertIn("<img src=x onerror=window.hit=1>", self.text("logs"))
            self.assertIsNone(self.js("window.hit ?? null"))
            self.ask(url)
            self.stays_where_it_is()
            (folder / "hold").unlink()
            make.wait(60)
            self.until(lambda: self.marks().get("8") == "done")
            self.assertNotIn("onerror", said(folder)[1])  # a log is in a page that is sent on only if it is asked for
            (folder / "ready").touch()
            subprocess.run(["make", "-j4", "-s", "-C", folder], stdout=QUIET, timeout=60, check=True)
            self.until(lambda: set(self.marks().values()) == {"done"})
            lengths = self.js("explorer.times.bars.map((bar) => bar[1] - bar[0])")
            self.assertEqual(len(lengths), tried.size)
            self.assertGreater(lengths[7], 0.2)  # the step that was held back
            server.terminate()
            server.wait(10)
            self.until(lambda: "cannot be followed" in self.text("warn"))
            self.may_fault = True  # the browser says that nobody answers

    @contextlib.contextmanager
    def served(self, folder: pathlib.Path, *words: object) -> Iterator[tuple[subprocess.Popen[str], str]]:
        """A server of the page of a folder, and its address."""
        command = [*FRONT, "page", str(folder), "--serve", *map(str, words)]
        with subprocess.Popen(command, cwd=TOP, stderr=subprocess.PIPE, text=True) as server:
            try:
                assert server.stderr is not None
                found = re.search(r"http://\S+", server.stderr.readline())
                assert found is not None
                yield server, found[0]
            finally:
                server.kill()

    def stays_where_it_is(self) -> None:
        """While a step runs, the order is not drawn anew, and the times are where they were scrolled to."""
        self.js("document.getElementById('pane').style.minWidth = '3000px'")
        for view, is_drawn in (("steps", False), ("time", True)):
            self.js(f"(explorer.show('{view}'), explorer.first = explorer.picture.svg)")
            self.js("document.getElementById('scroll').scrollLeft = 37")
            self.js("new Promise((done) => setTimeout(done, 4500))")
            self.assertEqual(self.js("explorer.first !== explorer.picture.svg"), is_drawn)
            self.assertEqual(self.js("document.getElementById('scroll').scrollLeft"), 37)
        self.js("(explorer.show('steps'), document.getElementById('pane').style.minWidth = '')")

    def ask(self, url: str) -> None:
        """What the server answers, and to whom."""
        at = urlsplit(url)
        asked = (
            (at.path, None, 200),
            (f"{at.path}state", None, 200),
            ("/", None, 404),
            (f"/{'x' * 24}/", None, 404),
            (at.path, "evil.example", 404),
            (f"{at.path}../plan.txt", None, 404),
        )
        for path, host, status in asked:
            client = http.client.HTTPConnection(str(at.hostname), at.port)
            client.request("GET", path, headers={"Host": host} if host else {})
            self.assertEqual(client.getresponse().status, status, path)
            client.close()

    def test_a_step_of_many_actions(self) -> None:
        """A step with its layout at 1,977 actions takes at most four times what one takes at 299, both in this run."""
        medians = {}
        universe, targets = doubles_universe(110)
        for case in (BY_NAME["wordpress"], Case("110 doubles", universe, targets)):
            tried = Tried(case, self.top)
            self.browser.open(tried.page)
            times = self.js(
                """(async () => { const times = [], { plan, walk } = explorer; explorer.step(Math.floor(plan.size / 3));
                await new Promise((done) => setTimeout(done, 300));
                for (let i = 0; i < 60; i += 1) {
                  const start = performance.now();
                  explorer.step(walk.at + 1);
                  await null; await null;
                  document.body.getBoundingClientRect();
                  times.push(performance.now() - start);
                  await new Promise((done) => setTimeout(done, 5));
                }
                return times; })()"""
            )
            self.assertEqual(self.js("explorer.walk.at"), tried.size // 3 + 60)
            medians[tried.size] = sorted(times)[30]
        print("a step, in ms:", {size: round(median, 1) for size, median in medians.items()}, file=sys.stderr)
        self.assertEqual(sorted(medians), [299, 1977])
        self.assertLessEqual(medians[1977], MOST_TIMES * medians[299])


class FirefoxTest(Moments):
    kind = Firefox


del Moments, BrowserCase


if __name__ == "__main__":
    from trials import page as trial_of_pages

    words = [name if name.partition(".")[0].endswith("Test") else f"ChromiumTest.{name}" for name in sys.argv[1:]]
    unittest.main(module=trial_of_pages, argv=[sys.argv[0], *words])
