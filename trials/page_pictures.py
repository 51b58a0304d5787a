#!/usr/bin/env python3
"""Takes pictures of pages in Chromium, to be looked at; or writes the pages and the picture that docs/ keeps:

    python3 -m trials page_pictures FOLDER
    python3 -m trials page_pictures --write

A page that docs/ keeps says what the proved program said, so with a program that is not proved these two keep theirs, and are
drawn anew with what they have, as the picture is (tools/draw_pages.py).
"""

import dataclasses
import pathlib
import subprocess
import sys
import tempfile
from collections.abc import Sequence

from metis_planner.page import verdict
from trials.browsers import Chromium
from trials.page_cases import CASES, EXAMPLES, Case, Changed, Tried, doubles_universe, metis, placed_case, said
from trials.trial import TOP, expect

DOCS = TOP / "docs"
TIMES = ("20", "5", "1", "1", "60")
COMMANDS = """timeout = 60
[[step]]
when = "*: new"
run = ""
[[step]]
when = "mysql: inst -> run"
run = 'echo "no room on /var/lib/mysql"; exit 1'
[[step]]
when = "*: inst -> run"
run = 'sleep 0.4'
[[step]]
when = "*: uninst -> inst"
run = 'sleep 0.7'
"""
BY_TIME = "explorer.show('time')"


@dataclasses.dataclass(frozen=True)
class Shot:
    """A picture: of which page, what is done in it before, and how it is looked at."""

    name: str
    page: str
    script: str = "1"
    width: int = 1280
    is_dark: bool = False
    is_grey: bool = False


SHOTS = (
    Shot("5-actions", "web", "explorer.step(2)"),
    Shot("15-actions", "blog", "explorer.step(6); explorer.choose([10])"),
    Shot("15-actions-time", "blog", f"{BY_TIME}; explorer.step(6)"),
    Shot("34-actions", "rollout", "explorer.step(20)"),
    Shot("34-actions-time", "rollout", f"{BY_TIME}; explorer.step(25)"),
    Shot("34-actions-folded", "rollout", "document.getElementById('foldOld').click(); explorer.step(20)"),
    Shot("34-actions-no-barrier", "rollout", "document.getElementById('guard').click(); explorer.advance([30])"),
    Shot("changed", "changed", "explorer.step(11)"),
    Shot("hosts", "hosts", "explorer.step(20)"),
    Shot("299-actions", "wordpress", "explorer.step(120)"),
    Shot("299-actions-chosen", "wordpress", "explorer.step(120); explorer.choose([282])"),
    Shot("299-actions-time", "wordpress", f"{BY_TIME}; explorer.step(150)"),
    Shot("1977-actions", "doubles", "explorer.step(700)"),
    Shot("double", "crossed", "explorer.step(7)"),
    Shot("refusal", "refusal"),
    Shot("folder-failed", "folder"),
    Shot("folder-failed-time", "folder", BY_TIME),
    Shot("folder-failed-grey", "folder", is_grey=True),
    Shot("dark-299-actions", "wordpress", "explorer.step(120); explorer.choose([282])", is_dark=True),
    Shot("dark-rollout", "rollout", "explorer.step(32)", is_dark=True),
    Shot("dark-refusal", "refusal", is_dark=True),
    Shot("narrow-15-actions", "blog", "explorer.step(8)", width=390),
    Shot("narrow-34-actions-dark", "rollout", "explorer.step(20)", width=390, is_dark=True),
    Shot("narrow-refusal", "refusal", width=390),
)


class Pages:
    """The pages that pictures are taken of, and those that docs/ keeps."""

    def __init__(self, top: pathlib.Path) -> None:
        self.top = top
        self.cases = {case.name: case for case in CASES}

    def made(self, *words: object) -> str:
        status, text, notes = said(*words)
        expect(status == 0, notes)
        return text

    def file(self, name: str, text: str) -> pathlib.Path:
        path = self.top / name
        path.write_text(text)
        return path

    def of_plan(self, name: str, title: str, unit: str) -> str:
        """A plan with its times; of a rollout, from the plan that it goes on from."""
        case = self.cases[name]
        tried = Tried(case, self.top)
        waves = self.file("waves", metis("waves", tried.universe, tried.path, *TIMES))
        slug = tried.path.with_suffix("")
        more = ["--from", f"{slug}.old.txt"] if case.later is not None else []
        words: Sequence[object] = (tried.path, "--universe", tried.universe, "--waves", waves, *TIMES, "--unit", unit)
        return self.made(*words, "--title", title, *more)

    def of_refusal(self) -> str:
        universe = EXAMPLES / "lvm2-strict.json"
        refusal = self.file("refusal", metis("plan", universe, "port:lvm2"))
        why = self.file("why", metis("why", universe, "port:lvm2"))
        title = "lvm2 of Debian 12, without a rule for cycles"
        return self.made(refusal, "--why", why, "--universe", universe, "--title", title)

    def of_folder(self) -> str:
        tried = Tried(self.cases["blog"], self.top)
        folder, commands = self.top / "folder", self.file("commands.toml", COMMANDS)
        front = [sys.executable, "-m", "metis_planner"]
        words = [*front, "make", str(tried.path), "--commands", str(commands), "--lax", "--to", str(folder)]
        subprocess.run(words, cwd=TOP, check=True, capture_output=True)
        subprocess.run(["make", "-k", "-s", "-j4", "-C", folder], capture_output=True, check=False)
        return self.made(folder, "--logs", "--universe", tried.universe, "--title", "The blog: what make has done")

    def kept(self) -> dict[str, str]:
        """What docs/ keeps."""
        wordpress = self.of_plan("wordpress", "wordpress of Debian 12, with all that it needs", "s")
        return {"wordpress.html": wordpress, "lvm2.html": self.of_refusal()}

    def all(self) -> dict[str, str]:
        kept = self.kept()
        universe, targets = doubles_universe(110)
        plain = {"web": "web", "crossed": "crossed, one doubled"}
        return {
            "wordpress": kept["wordpress.html"],
            "refusal": kept["lvm2.html"],
            "blog": self.of_plan("blog", "The blog: haproxy:run", "min"),
            "rollout": self.of_plan("blog rolled out", "The blog, rolled out anew", "min"),
            "folder": self.of_folder(),
            "changed": Changed(self.top).page.read_text(),
            "hosts": Tried(placed_case(), self.top).page.read_text(),
            "doubles": Tried(Case("110 doubles", universe, targets), self.top).page.read_text(),
            **{name: Tried(self.cases[case], self.top).page.read_text() for name, case in plain.items()},
        }


def take(browser: Chromium, pages: dict[str, pathlib.Path], shot: Shot, path: pathlib.Path) -> None:
    is_narrow = shot.width < 600
    browser.size(shot.width, 844 if is_narrow else 860)
    browser.look(shot.is_dark, shot.is_grey)
    browser.open(pages[shot.page])
    browser.js(f"(async () => {{ {shot.script}; await new Promise((done) => setTimeout(done, 300)); }})()")
    browser.shot(path, is_whole=is_narrow)
    expect(not browser.faults(), browser.faults())


def main() -> None:
    if len(sys.argv) != 2:
        raise SystemExit(__doc__)
    with tempfile.TemporaryDirectory(prefix="page-") as name:
        top = pathlib.Path(name)
        pages = Pages(top)
        browser = Chromium()
        try:
            if sys.argv[1] == "--write":
                if verdict.is_proved():
                    for each, text in pages.kept().items():
                        (DOCS / each).write_text(text)
                else:
                    print("the program is not proved, so the pages keep what they say of it", file=sys.stderr)
                subprocess.run([sys.executable, TOP / "tools" / "draw_pages.py"], check=True)
                return
            out = pathlib.Path(sys.argv[1])
            out.mkdir(parents=True, exist_ok=True)
            files = {each: pages.file(f"{each}.html", text) for each, text in pages.all().items()}
            for shot in SHOTS:
                take(browser, files, shot, out / f"{shot.name}.png")
            browser.size(1280, 860)
            browser.look()
            for each in ("blog", "rollout", "wordpress", "refusal"):
                browser.open(files[each])
                browser.pdf(out / f"print-{each}.pdf")
        finally:
            browser.close()


if __name__ == "__main__":
    main()
