#!/usr/bin/env python3
"""Draws anew what pages of docs/ show, by the code as it is: python3 tools/draw_pages.py [--check]

The pages wordpress.html and lvm2.html keep what the proved program said of them, in today's scripts, style and drawing; the first
keeps its data too, and what the second is drawn of is in this file.
blog-run.svg is the chart of a folder in which the four services of the blog came up, whose times are in this file. page.png is
the page of the blog in Chromium, and has in it, as a text of its own, the words and colours that it shows; it too keeps what the
proved program said. With --check nothing is written, and the status is 1 if something would be; pixels, which depend on fonts, are
not compared. `python3 -m trials page_pictures --write` makes the two pages from nothing, which needs the proved program.
"""

import argparse
import html
import json
import pathlib
import re
import shutil
import struct
import subprocess
import sys
import tempfile
import zlib
from collections.abc import Callable, Iterator

TOP = pathlib.Path(__file__).resolve().parent.parent
sys.path.append(str(TOP))

from metis_planner.carry.folder import DONE, Folder  # noqa: E402
from metis_planner.carry.steps import steps_of  # noqa: E402
from metis_planner.draw import gantt  # noqa: E402
from metis_planner.page import reasons, sheet, times, values  # noqa: E402
from metis_planner.page.verdict import Verdict  # noqa: E402
from metis_planner.text import plans  # noqa: E402
from metis_planner.text.documents import ComponentType  # noqa: E402
from trials.browsers import Chromium  # noqa: E402

DOCS = TOP / "docs"
TOOK = re.compile(r"<title>([0-9]+) [^<]*?: ([0-9.]+) to ([0-9.]+)")
BEGIN = 1_700_000_000  # so that the times of the marks are moments
# The blog as `metis plan examples/blog.json haproxy:run` orders it.
BLOG = """metis plan 1
instances 4 actions 15 dups 0
1 new 0 haproxy
2 move 0 uninst inst
3 new 1 mysql
4 move 1 uninst inst
5 move 1 inst run
6 new 2 httpd
7 move 2 uninst inst
8 move 2 inst run
9 new 3 wordpress
10 move 3 uninst inst
11 bind mysql 3 1 after 5
12 bind httpd 3 2 after 8
13 move 3 inst run
14 bind wordpress 0 3 after 13
15 move 0 inst run
end
"""
# What `metis plan` and `metis why` say of examples/lvm2-strict.json and port:lvm2.
REFUSAL = """metis refusal 1
lacks port:lvm2
pairs 7
dmeventd:absent
libaio1:absent
libaio1:installed
libdevmapper-event1.02.1:absent
libdevmapper-event1.02.1:installed
liblvm2cmd2.03:absent
lvm2:absent
end
"""
WHY = """metis why 1
lacks port:lvm2 from lvm2:installed
lines 3
lvm2:installed needs dmeventd from dmeventd:installed
dmeventd:installed needs liblvm2cmd2.03 from liblvm2cmd2.03:installed
liblvm2cmd2.03:installed needs dmeventd from dmeventd:installed
end
"""
# The picture of the page of the blog: how long each kind of action takes, how wide and high it is, and how far one has stepped in it.
TOOK_MINUTES = {"new": 20, "delete": 5, "bind": 1, "unbind": 1, "move": 60}
SIZE, AT = (1280, 680), 8
SIGNATURE, SHOWS = b"\x89PNG\r\n\x1a\n", "Shows"
# What of a page does not depend on fonts: its words, its marks with their classes, and its colours.
SHOWN = """({ words: document.body.innerText.split(/\\s+/).join(" "),
  marks: [...document.querySelectorAll("#pic .mark")].map((e) => [e.getAttribute("class"), e.getAttribute("aria-label")]),
  edges: document.querySelectorAll("#pic .wait").length,
  colours: [...document.querySelector("style").textContent.match(/:root \\{[^}]*\\}/)[0].matchAll(/--[\\w-]+/g)]
    .map(([name]) => `${name} ${getComputedStyle(document.documentElement).getPropertyValue(name)}`) })"""


def page_anew(text: str) -> str:
    """A page that is kept, with its own data and words, in the scripts and the style of today."""
    data = json.loads(part(text, r'<script type="application/json" id="data">(.*?)</script>'))
    title = html.unescape(part(text, r'<h1 id="title">(.*?)</h1>'))
    kind, said = re.search(r'<p id="verdict" class="(\w*)">(.*?)</p>', text, re.DOTALL).groups()  # type: ignore[union-attr]
    verdict = Verdict(kind, html.unescape(said))
    if data["kind"] == "reasons":
        return sheet.of_reasons(title, verdict, "\n".join(reasons.parts(lvm2_said(), lvm2_types())))
    summary = html.unescape(part(text, r'<p id="sum">(.*?)<span'))
    wishes, doubles = re.search(r'<section id="more">(.*?)</section>', text, re.DOTALL)[1], ""  # type: ignore[index]
    body = sheet.filled("plan.html", {"WISHES": wishes, "DOUBLES": doubles})
    return sheet.page({"TITLE": title, "SUM": summary}, verdict, body, data, sheet.OF_A_PLAN)


def lvm2_said() -> reasons.Said:
    refusal, explanation = plans.read(REFUSAL), plans.read(WHY)
    assert isinstance(refusal, plans.Refusal) and isinstance(explanation, plans.Explanation)
    return reasons.Said((refusal, REFUSAL), (explanation, WHY))


def lvm2_types() -> list[ComponentType] | None:
    return values.types_in(argparse.Namespace(universe=str(TOP / "examples" / "lvm2-strict.json")))


def part(text: str, pattern: str) -> str:
    found = re.search(pattern, text, re.DOTALL)
    if found is None:
        raise SystemExit(f"no {pattern} in a page that is kept")
    return found[1]


def chart_anew(text: str) -> str:
    """The chart of a folder in which the services came up at the times that the chart of before has."""
    took = {int(number): (float(start), float(end)) for number, start, end in TOOK.findall(text)}
    with tempfile.TemporaryDirectory(prefix="metis-") as name:
        top = pathlib.Path(name)
        plan, commands, folder = top / "plan.txt", top / "commands.toml", top / "folder"
        plan.write_text(BLOG)
        commands.write_text('[[step]]\nwhen = "*: new"\nrun = "true"\n')
        words = ["make", str(plan), "--commands", str(commands), "--lax", "--to", str(folder)]
        subprocess.run([sys.executable, "-m", "metis_planner", *words], cwd=TOP, check=True, capture_output=True)
        for step in Folder(str(folder)).steps():
            action = step.action
            start, end = took.get(action.number, (0.0, 0.0))
            times = f"{BEGIN + start:.9f} {BEGIN + end:.9f}\n" if action.number in took else ""
            (folder / DONE / step.key).write_text(f"{step.line}\n{times}")
        chart = argparse.Namespace(plan=str(folder), waves=None, times=[], unit="", most=gantt.MOST_LANES)
        return gantt.run(chart).text


def chunks_of(png: bytes) -> Iterator[tuple[bytes, bytes]]:
    """The parts of a PNG, each with its kind."""
    at = len(SIGNATURE)
    while at < len(png):
        (size,) = struct.unpack(">I", png[at : at + 4])
        yield png[at + 4 : at + 8], png[at + 8 : at + 8 + size]
        at += 12 + size


def texts_in(png: bytes) -> dict[str, str]:
    parts = (body.partition(b"\0") for kind, body in chunks_of(png) if kind == b"tEXt")
    return {name.decode("latin-1"): text.decode("latin-1") for name, _, text in parts}


def with_text(png: bytes, name: str, text: str) -> bytes:
    """A PNG with a text in it, which is of ASCII."""
    body = name.encode("ascii") + b"\0" + text.encode("ascii")
    chunks = list(chunks_of(png))
    chunks.insert(1, (b"tEXt", body))
    written = (struct.pack(">I", len(data)) + kind + data + struct.pack(">I", zlib.crc32(kind + data)) for kind, data in chunks)
    return SIGNATURE + b"".join(written)


def blog_page(said: str) -> str:
    """The page of the blog with its universe and times, and with what the proved program said of it."""
    plan = plans.plan_of(BLOG, "blog")
    steps = steps_of(plan, "blog")
    universe = str(TOP / "examples" / "blog.json")
    value = values.value_of(plan, steps, [], argparse.Namespace(universe=universe, placement=None))
    schedule = times.scheduled(plan, [step.waits for step in steps], TOOK_MINUTES)
    lengths = [TOOK_MINUTES[step.action.verb] for step in steps]
    bars = [[first, first + length, last - first] for (first, last), length in zip(schedule.starts, lengths, strict=True)]
    told = {"unit": "min", "bars": bars, "finish": schedule.finish, "chain": schedule.chain, "note": ""}
    return sheet.of_plan("The blog: haproxy:run", Verdict("good", said), plan, {**value, "wishes": [], "times": told})


def picture_anew(png: bytes) -> bytes:
    """The page of the blog in Chromium; or the picture as it is, where it shows the same."""
    kept = json.loads(texts_in(png)[SHOWS])
    browser = Chromium()
    try:
        path = pathlib.Path(browser.home) / "blog.html"
        path.write_text(blog_page(kept["said"]), "utf-8")
        browser.size(*SIZE)
        browser.open(path)
        browser.js(f"(async () => {{ explorer.step({AT}); await new Promise((done) => setTimeout(done, 300)); }})()")
        shown = {"said": kept["said"], **browser.js(SHOWN)}
        if shown == kept:
            return png
        shot = pathlib.Path(browser.home) / "page.png"
        browser.shot(shot)
        return with_text(shot.read_bytes(), SHOWS, json.dumps(shown))
    finally:
        browser.close()


ANEW = {"wordpress.html": page_anew, "lvm2.html": page_anew, "blog-run.svg": chart_anew}


def in_bytes(draw: Callable[[str], str]) -> Callable[[bytes], bytes]:
    return lambda data: draw(data.decode()).encode()


def stale_files(is_check: bool) -> Iterator[str]:
    """The files that the code draws in another way, which are written anew unless they are only looked at."""
    found: dict[str, Callable[[bytes], bytes]] = {name: in_bytes(draw) for name, draw in ANEW.items()}
    if shutil.which(Chromium.name):
        found["page.png"] = picture_anew
    else:
        print(f"page.png: not looked at, since {Chromium.name} is not there", file=sys.stderr)
    for name, drawn in found.items():
        data = (DOCS / name).read_bytes()
        anew = drawn(data)
        if anew == data:
            continue
        if not is_check:
            (DOCS / name).write_bytes(anew)
        yield name


def main() -> int:
    is_check = sys.argv[1:] == ["--check"]
    stale = list(stale_files(is_check))
    if stale:
        print(f"{', '.join(stale)}: {'not as the code draws it' if is_check else 'drawn anew'}")
    return 1 if is_check and stale else 0


if __name__ == "__main__":
    sys.exit(main())
