"""Compares the figures that pages tell: with the sources where they follow from these, and else with one another.

A figure that was measured stands on one page. Another page that tells it too has to tell the same.
"""

import pathlib
import re
import shutil
import subprocess
import sys
from collections.abc import Iterator

TOP = pathlib.Path(__file__).resolve().parent.parent

LINES_OF_README = 120
WORDS = "no one two three four five six seven eight nine ten eleven twelve thirteen fourteen fifteen sixteen".split()
COUNTS = re.compile(r"There are (\w+) crates, (\w+) edits, (\w+) programs and (\w+) tests\.")
PASSED = re.compile(r"(\d+) passed, 0 failed")
KIT = re.compile(r"rattle-kit-\w+")
LIMITS = re.compile(r"at most ([\d,]+) pairs,? (?:and )?([\d,]+) ports(?:, (\d+) states a type and (\d+)\s+providers)?")
# A crate's row in docs/dev/GATE.md: its proof beside that of metis_ids, and how many edits it has of either kind.
# A crate whose proof was not measured has a dash.
ROW_OF_A_CRATE = re.compile(r"(?m)^\| `(metis\w*)` \| ([\d.]+|-) \| (\d+) \| (\d+) \|$")


def text_of(name: str) -> str:
    """A page with its words divided by single spaces, so that a sentence may stand on two lines."""
    return re.sub(r"(?<=\S)[ \n]+(?=\S)(?![|#>-])", " ", (TOP / name).read_text())


def pages() -> list[str]:
    found = [*TOP.glob("*.md"), *TOP.glob("docs/**/*.md"), *TOP.glob("metis_planner/**/*.md"), *TOP.glob("docs/*.1")]
    return sorted(str(it.relative_to(TOP)) for it in found if it.name != "CHANGELOG.md")


def number(word: str) -> int:
    return WORDS.index(word) if word in WORDS else int(word.replace(",", ""))


def unequal(name: str, what: str, told: object, right: object) -> Iterator[str]:
    if told != right:
        yield f"{name}: {what}: the page says {told}, and it is {right}"


def sought(name: str, pattern: str) -> re.Match | None:
    """What a page says in these words; the blanks of the pattern stand for any."""
    return re.search(pattern, text_of(name))


def crates() -> list[str]:
    lines = [line.split("#")[0].strip() for line in (TOP / "crates.txt").read_text().splitlines()]
    return [line.split(":")[0].split()[0] for line in lines if line]


def edits_in(folder: str, crate: str = "*") -> int:
    """How many edits stand in such folders of a crate, or of all."""
    return len(list(TOP.glob(f"crates/{crate}/{folder}/*.edit")))


def counts_of_sources() -> tuple[int, int, int, int]:
    """The crates, their edits of both kinds, programs and tests."""
    tests = sum(it.read_text().count("#[test]") for it in TOP.glob("crates/*/src/**/*.rt"))
    programs = len(list(TOP.glob("crates/*/src/main.rt")))
    return len(crates()), edits_in("must-fail") + edits_in("edits"), programs, tests


def of_the_sources() -> Iterator[str]:
    """What docs/dev/GATE.md counts, and what `rt ci` ends with: a crate passes, and so does an edit that it tries."""
    counts, tried, others = counts_of_sources(), edits_in("must-fail"), edits_in("edits")
    found = COUNTS.search(text_of("docs/dev/GATE.md"))
    told = tuple(map(number, found.groups())) if found else None
    yield from unequal("docs/dev/GATE.md", "crates, edits, programs and tests", told, counts)
    for name in pages():
        for passed in PASSED.findall(text_of(name)):
            yield from unequal(name, "passed", int(passed), counts[0] + tried)
    found = sought("docs/dev/GATE.md", r"is for, (\d+) in \d+ crates[\s\S]*?are the other (\d+)")
    yield from unequal("docs/dev/GATE.md", "edits of both kinds", found and tuple(map(int, found.groups())), (tried, others))


def of_the_gate() -> Iterator[str]:
    """The table of docs/dev/GATE.md has each crate once, with its edits, and the checks that are told follow from the sources."""
    name = "docs/dev/GATE.md"
    rows = ROW_OF_A_CRATE.findall((TOP / name).read_text())
    without = sorted({row[0] for row in rows} ^ set(crates()))
    yield from unequal(name, "crates in the table or in crates.txt alone", without, [])
    for crate, _, tried, others in rows:
        right = (edits_in("must-fail", crate), edits_in("edits", crate))
        yield from unequal(name, f"edits of {crate}", (int(tried), int(others)), right)
    grounds = sum(edits_in("must-fail", crate) > 1 for crate in crates())
    with_tests = len({it.parts[-3] for it in TOP.glob("crates/*/src/**/*.rt") if "#[test]" in it.read_text()})
    found = sought(name, r"from nothing has (\d+) checks")
    checks = len(crates()) + with_tests + edits_in("must-fail") + 2 * grounds
    yield from unequal(name, "checks", found and int(found[1]), checks)


def of_the_kit() -> Iterator[str]:
    """README says which kit proved which version, and when: the kit at hand, the version of VERSION, on the day of the times in
    docs/dev/GATE.md. No page names a kit that README does not."""
    proved = sorted(set(KIT.findall(text_of("README.md"))))
    here = subprocess.run(["rt", "version"], capture_output=True, text=True, check=False).stdout.split() if shutil.which("rt") else []
    told = [(name, kit) for name in pages() for kit in KIT.findall(text_of(name))] + [("README.md", kit) for kit in here[:1]]
    yield from (f"{name}: the kit {kit} is none of those that README names: {' and '.join(proved)}" for name, kit in told if kit not in proved)
    found = sought("README.md", r"`(rattle-kit-\w+)` proved version ([\d.]+) on (\d+ \w+ \d+)\.")
    yield from unequal("README.md", "the kit that proved it", found and found[1], here[0] if here else found and found[1])
    yield from unequal("README.md", "the version that was proved", found and found[2], (TOP / "VERSION").read_text().strip())
    day = sought("docs/dev/GATE.md", r"from one run of (\d+ \w+ \d+) \(kit")
    yield from unequal("README.md", "the day on which it was proved", found and found[3], day and day[1])
    runs = sought("README.md", r"Version ([\d.]+) runs on")
    yield from unequal("README.md", "the version that runs", runs and runs[1], (TOP / "VERSION").read_text().strip())


def of_the_importers(program: pathlib.Path) -> Iterator[str]:
    """What dpkg carried out, which metis_planner/importers/README.md has as a table, beside the plans of the examples."""
    name = "metis_planner/importers/README.md"
    rows = dict(re.findall(r"(?m)^\| ([a-z0-9.+-]+) \| ([\d,]+ \| [\d,]+ \| [\d,]+) \|$", (TOP / name).read_text()))
    figures = {package: row.split(" | ") for package, row in rows.items()}
    for package in ("lvm2", "wordpress"):
        words = [str(program), "plan", str(TOP / "examples" / f"{package}.json"), f"port:{package}"]
        head = subprocess.run(words, capture_output=True, text=True, check=False).stdout.split()
        yield from unequal(name, f"actions of {package}", figures.get(package, [None])[-1], head[6] if len(head) > 6 else None)


def limits() -> tuple[int, ...]:
    """The limits that the Python side keeps, as it has them: pairs, ports, states of a type, and providers of a port."""
    names = ("MOST_PAIRS", "MOST_PORTS", "MOST_STATES", "MOST_OF_A_PORT")
    code = f"from metis_planner.text import documents as d; print({', '.join(f'd.{name}' for name in names)})"
    said = subprocess.run([sys.executable, "-c", code], cwd=TOP, capture_output=True, text=True, check=True).stdout
    return tuple(map(int, said.split()))


def of_the_limits() -> Iterator[str]:
    """The limits of a universe, wherever a page tells them in these words."""
    right = limits()
    for name in pages():
        for found in LIMITS.finditer(text_of(name)):
            told = tuple(number(it) for it in found.groups() if it)
            yield from unequal(name, "limits", told, right[: len(told)])


def of_the_words() -> Iterator[str]:
    """How many commands there are, by the table of docs/FORMATS.md, and how long README is."""
    commands = re.findall(r"(?m)^\| `([a-z]+) [A-Z ]+` \|", (TOP / "docs/FORMATS.md").read_text())
    found = sought("docs/ERRORS.md", r"none of the (\w+) commands")
    yield from unequal("docs/ERRORS.md", "commands", found and number(found[1]), len(commands))
    lines = (TOP / "README.md").read_text().count("\n")
    if lines > LINES_OF_README:
        yield f"README.md: {lines} lines, more than {LINES_OF_README}"
    # What has no number yet stands above.
    newest = re.search(r"(?m)^## (\d\S*)$", (TOP / "CHANGELOG.md").read_text())
    yield from unequal("CHANGELOG.md", "the version", newest and newest[1], (TOP / "VERSION").read_text().strip())


def faults(program: pathlib.Path) -> Iterator[str]:
    """Each figure that is told otherwise than it is."""
    for look in (of_the_sources, of_the_gate, of_the_kit, of_the_limits, of_the_words):
        yield from look()
    yield from of_the_importers(program)
