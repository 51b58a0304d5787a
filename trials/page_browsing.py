"""What the tests over a page share: a browser in which one is opened, what it shows, and how it is pressed."""

import pathlib
import random
import shutil
import tempfile
import time
import unittest
from typing import Any

from trials.browsers import Browser, started
from trials.page_cases import Tried, said

# Shared pieces of scripts.
INPUT = "dispatchEvent(new Event('input', { bubbles: true }))"
CHANGE = "dispatchEvent(new Event('change', { bubbles: true }))"
CLICK = "dispatchEvent(new MouseEvent('click', { bubbles: true }))"
STATE = """new Promise((done) => setTimeout(() => {
  const all = (name) => [...document.querySelectorAll(`#pic .mark.${name}`)];
  const marks = (name) => all(name).flatMap((e) => e.dataset.k.split(" ").map(Number));
  const { plan, walk } = explorer;
  done({ done: marks("done"), ready: marks("ready"), at: +document.getElementById("slide").value, all: marks("mark").length,
    unmet: document.querySelectorAll("#stand .bad").length, text: document.getElementById("count").textContent,
    stands: [...configuration(plan, walk.done())].map(([i, one]) => [i, `${plan.types.get(i)}:${one.state}`, one.takes]) });
}, 0))"""


class BrowserCase(unittest.TestCase):
    """A test over one browser, which all tests of its class share."""

    kind: type[Browser]
    browser: Any
    top: pathlib.Path

    @classmethod
    def setUpClass(cls) -> None:
        if not shutil.which(cls.kind.name):
            raise unittest.SkipTest(f"no {cls.kind.name}")
        cls.browser = started(cls.kind)
        cls.top = pathlib.Path(tempfile.mkdtemp(prefix="page-"))

    @classmethod
    def tearDownClass(cls) -> None:
        cls.browser.close()
        shutil.rmtree(cls.top)

    def setUp(self) -> None:
        self.may_fault = False

    def tearDown(self) -> None:
        faults = [fault for fault in self.browser.faults() if "favicon" not in fault]
        self.browser.go("about:blank")
        self.assertTrue(self.may_fault or not faults, faults)

    def open(self, tried: Tried) -> None:
        self.tried = tried
        self.browser.open(tried.page)
        self.unfold()

    def unfold(self) -> None:
        """A mark for each action, so that each can be looked at and pressed."""
        boxes = "['foldLeaves', 'foldOld', 'byType'].map((id) => document.getElementById(id))"
        self.js(f"{boxes}.forEach((e) => e?.checked && e.click())")

    def made(self, *words: object, name: str = "page") -> pathlib.Path:
        status, text, notes = said(*words)
        self.assertEqual(status, 0, notes)
        path: pathlib.Path = self.top / f"{name}.html"
        path.write_text(text)
        return path

    def js(self, text: str) -> Any:
        return self.browser.js(text)

    def text(self, name: str) -> str:
        return str(self.js(f"document.getElementById('{name}').textContent"))

    def box(self, selector: str) -> Any:
        """Where an element is, and how wide and high."""
        of = f'document.querySelector("{selector}").getBoundingClientRect()'
        return self.js(f"(() => {{ const r = {of}; return [r.x, r.y, r.width, r.height]; }})()")

    def marks(self) -> dict[str, str]:
        return dict(
            self.js(
                """Object.fromEntries([...document.querySelectorAll('#pic .mark')].map((e) => [+e.dataset.k + 1,
                ['done', 'ready', 'running', 'failed'].find((c) => e.classList.contains(c)) ?? '']))"""
            )
        )

    def state(self) -> Any:
        return self.js(STATE)

    def checked(self) -> Any:
        """What is shown, which is what Python says of the waits."""
        state, waits = self.state(), self.tried.waits
        done = set(state["done"])
        self.assertEqual((len(state["done"]), state["all"]), (state["at"], self.tried.size))
        for k in done:
            self.assertLessEqual(waits[k], done, f"action {k + 1} is done, and what it waits for is not")
        ready = {k for k in range(self.tried.size) if k not in done and waits[k] <= done}
        self.assertEqual(set(state["ready"]), ready)
        self.assertEqual(state["unmet"], 0)
        left = self.tried.size - len(done) - len(ready)
        self.assertEqual(state["text"], f"{len(done)} of {self.tried.size} · {len(ready)} ready · {left} waiting")
        return state

    def press(self, k: int) -> None:
        self.js(f"document.querySelector('#pic .mark[data-k=\"{k}\"]').{CLICK}")

    def press_all(self, ks: set[int]) -> None:
        """Presses each by a click, and as what is chosen by Enter and on its line in the panel."""
        self.js(
            f"""(() => {{ for (const k of {sorted(ks)}) {{
              document.querySelector(`#pic .mark[data-k="${{k}}"]`).{CLICK};
              explorer.choose([k]);
              document.body.dispatchEvent(new KeyboardEvent('keydown', {{ key: 'Enter', bubbles: true }}));
              document.querySelector('#now button[data-k="' + k + '"]')?.click();
            }} explorer.choose(null); }})()"""
        )

    def same_as_sim(self, shown: tuple[set[tuple[str, ...]], set[tuple[str, ...]]], state: Any) -> None:
        instances, bindings = shown
        self.assertEqual({(str(i), pair) for i, pair, _ in state["stands"]}, instances)
        self.assertEqual({(port, str(i), str(y)) for i, _, takes in state["stands"] for port, y in takes}, bindings)

    def slide(self, at: int) -> None:
        self.js(f"(() => {{ const e = document.getElementById('slide'); e.value = {at}; e.{INPUT}; }})()")

    def choose_order(self, name: str) -> list[int]:
        self.js(f"(() => {{ const e = document.getElementById('order'); e.value = '{name}'; e.{CHANGE}; }})()")
        return list(self.js("[...explorer.walk.order]"))

    def walk(self, draw: random.Random) -> list[int]:
        """A walk by clicks from nothing to the end, each moment of which is looked at; what waits is pressed in vain."""
        self.js("explorer.step(0)")
        order, state = [], self.checked()
        states = []
        while state["ready"]:
            waiting = set(range(self.tried.size)) - set(state["done"]) - set(state["ready"])
            self.press_all(set(draw.sample(sorted(waiting), min(5, len(waiting)))))
            k = draw.choice(state["ready"])
            self.press(k)
            order.append(k)
            state = self.checked()
            self.assertEqual(set(state["done"]), set(order))
            states.append(state)
        self.assertEqual(len(order), self.tried.size)
        for each, shown in zip(states, self.tried.shown(order), strict=True):
            self.same_as_sim(shown, each)
        return order

    def until(self, holds: Any, seconds: float = 120) -> None:
        end = time.time() + seconds
        while not holds():
            self.assertLess(time.time(), end, "it did not come")
            time.sleep(0.2)
