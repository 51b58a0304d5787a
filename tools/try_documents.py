#!/usr/bin/env python3
"""Tries the commands that pages and the man page show, and compares what they print, byte for byte.

    tools/try_documents.py [PROGRAM]

PROGRAM is the built program, crates/metis/out/metis where none is given. Each page is tried that shows what to type: lines
behind `$ ` are typed, one after the other in one shell; the lines up to the next one are what is printed, where a line
`...` stands for any lines. The status is 0, or what a comment `# status N` behind the command says. A block behind the
words "Save this as `NAME`:" is written into that file. Commands that prove, install or show a manual are listed and not run, and so
are importers where their source is not there (Debian's index, PyYAML, units), and Graphviz. Plans are carried out by make,
which has to be there. What a page has written stands in .gitignore.

It also looks up the laws that pages cite, their links, their figures (tools/figures.py), the lists of docs/dev/HEADLINE.md and
THEOREMS.md, and the lines that a page shows as a diff: those behind `+` stand in the file named above them, in this order. It looks
whether pages for users say the reader's words (tools/plain.py), and it tries the commands that lead from an error line to its
place (tools/error_lines.py). It ends with status 1 if something is not as a page says.
"""

import importlib.util
import itertools
import os
import pathlib
import re
import shutil
import subprocess
import sys
import tempfile

import error_lines
import figures
import plain
import theorems

TOP = pathlib.Path(__file__).resolve().parent.parent
# In it the command has the name that the package gives it, and statuses are not shown.
MANUAL = "docs/metis.1"
INDENT = "    "
INTO_FILE = re.compile(r"\b[Ss]ave this as\s+`([^`]+)`:$")
STATUS = re.compile(r"# status (\d+)$")
# What a command needs beside this repository, by how it begins: whether it is there.
NEEDS = (
    (re.compile(r"^(rt|apt|man|tools/build.py)\b"), lambda: False),
    (re.compile(r"^(\.\.?/)?metis (import|lint) debian "), lambda: bool(shutil.which("apt-cache")) and bool(run_out("apt-cache", "dumpavail"))),
    (re.compile(r"^(\.\.?/)?metis (import|lint) (compose|kubernetes) .*\.ya?ml"), lambda: importlib.util.find_spec("yaml") is not None),
    (re.compile(r"^(\.\.?/)?metis (import|lint) systemd "), lambda: pathlib.Path("/lib/systemd/system").is_dir()),
    (re.compile(r"^dot "), lambda: bool(shutil.which("dot"))),
)
# A command that a page shows without trying it.
SHOWN = re.compile(r"^(\./)?metis (plan|replay|refute|audit|why|confirm|sim|crew|waves|control|rollout|place|print|load) ")
# A law has a name of three words or more; shorter ones may be anything.
LAW = re.compile(r"`([a-z0-9]+(?:_[a-z0-9]+){2,})`")
LINK = re.compile(r"\]\(([^)\s]+)\)")
SPAN = re.compile(r"`([^`]+)`")


def run_out(*words):
    return subprocess.run(words, stdout=subprocess.PIPE, stderr=subprocess.DEVNULL, check=False).stdout


def can_run(command):
    """Whether all is there that the command needs."""
    return all(is_there() for begins, is_there in NEEDS if begins.search(command))


class Step:
    """One thing that a page has a reader do: a command with what it prints, or a file to be written."""

    def __init__(self, place, command, name=None):
        self.place, self.command, self.name, self.lines = place, command, name, []

    def status(self):
        found = STATUS.search(self.command)
        return int(found[1]) if found else 0

    def fits(self, printed):
        """Whether this is what the page shows, where `...` stands for any lines."""
        parts = ["(?:.*\n)*" if line == "..." else re.escape(line + "\n") for line in self.lines]
        return re.fullmatch("".join(parts), printed) is not None


def blocks_of(page):
    """The indented blocks of a page: the number of the first line, the lines, and the paragraph before it."""
    lines, fenced, at = [*page.splitlines(), ""], False, 0
    before, paragraph = [], []
    while at < len(lines):
        line = lines[at]
        fenced ^= line.startswith("```")
        if not fenced and line.startswith(INDENT) and (at == 0 or not lines[at - 1].strip()):
            end = next(other for other in range(at, len(lines)) if not lines[other].startswith(INDENT))
            yield at + 1, [it[len(INDENT):] for it in lines[at:end]], " ".join(before)
            before, at = [], end
            continue
        if line.strip():
            paragraph.append(line)
        else:
            before, paragraph = paragraph or before, []
        at += 1


def pages():
    """All pages of the repository that a reader may follow."""
    return sorted([*TOP.glob("*.md"), *TOP.glob("docs/**/*.md"), *TOP.glob("metis_planner/**/*.md")])


def pages_with_commands():
    """The names of the pages that show what to type."""
    return [str(it.relative_to(TOP)) for it in pages() if any(block[0].startswith("$ ") for _, block, _ in blocks_of(it.read_text()))]


def steps_of_manual(name):
    """What the man page has a reader do: there `cat` of a file shows what is to be in it."""
    steps, is_example = [], False
    for number, line in enumerate((TOP / name).read_text().splitlines(), 1):
        if line.startswith((".Bd -literal", ".Ed")):
            is_example = line.startswith(".Bd")
        elif is_example and line.startswith("$ cat "):
            steps.append(Step(f"{name}:{number}", "", line.removeprefix("$ cat ")))
        elif is_example and line.startswith("$ "):
            steps.append(Step(f"{name}:{number}", line[2:]))
        elif is_example:
            steps[-1].lines.append(line)
    return steps, []


def steps_of(name):
    """What the page has a reader do, in order, and what is wrong with how it says so."""
    if name == MANUAL:
        return steps_of_manual(name)
    steps, wrong = [], []
    for start, block, before in blocks_of((TOP / name).read_text()):
        into = INTO_FILE.search(before)
        if block[0].startswith("$ "):
            for number, line in enumerate(block, start):
                if line.startswith("$ "):
                    steps.append(Step(f"{name}:{number}", line[2:]))
                else:
                    steps[-1].lines.append(line)
        elif into:
            steps.append(Step(f"{name}:{start}", "", into[1]))
            steps[-1].lines = block
        else:
            wrong += [f"{name}:{start}: a command without `$ `: {line}" for line in block if SHOWN.match(line)]
    for number, line in enumerate((TOP / name).read_text().splitlines(), 1):
        wrong += [f"{name}:{number}: a command that is not tried: {it}" for it in SPAN.findall(line) if SHOWN.match(it)]
    return steps, wrong


def lay_out(folder, program):
    """What a reader has in the top folder, with the program in place of the one that the command would build."""
    for name in ("examples", "tools"):
        (folder / name).symlink_to(TOP / name)
    command = f"script={folder}/metis top={TOP}\nfind_program() {{\n    program={program}\n}}\n. {TOP}/metis_planner/front.sh\n"
    (folder / "metis").write_text(f"#!/bin/sh\n{command}")
    (folder / "metis").chmod(0o755)
    (folder / "commands").mkdir()
    (folder / "commands" / "metis").symlink_to(folder / "metis")


def not_ignored(folder, before):
    """What the commands of a page made in the top folder, and what git would list there."""
    made = sorted(it.name + "/" * it.is_dir() for it in folder.iterdir() if it.name not in before)
    ran = subprocess.run(["git", "check-ignore", "--no-index", "--stdin"], input="\n".join(made), cwd=TOP, capture_output=True, text=True, check=False)
    return [] if ran.returncode > 1 else [it for it in made if it not in ran.stdout.splitlines()]


def shell_of(steps, kept):
    """One shell script that takes all steps, and keeps for each what it printed and its status."""
    lines = []
    for at, step in enumerate(steps):
        if step.name:
            (kept / f"{at}.file").write_text("\n".join(step.lines) + "\n")
            lines.append(f'cp "{kept}/{at}.file" "{step.name}"')
        else:
            lines += [f"{{ {step.command}", f'}} >"{kept}/{at}.out" 2>"{kept}/{at}.err" </dev/null', f'echo $? >"{kept}/{at}.status"']
    return "\n".join(lines) + "\n"


def text_of(path):
    return path.read_text() if path.is_file() else ""


def faults_of(steps, kept):
    """What came otherwise than the page says."""
    for at, step in enumerate(steps):
        if step.name:
            continue
        printed, said, status = (text_of(kept / f"{at}.{kind}") for kind in ("out", "err", "status"))
        status = status.strip()
        if status != str(step.status()) and not step.place.startswith(MANUAL):
            yield f"{step.place}: status {status or 'none'}: {step.command}\n{said}"
        elif not step.fits(printed):
            yield f"{step.place}: another text: {step.command}\n{printed}"
        elif said and status == "0" and "|" not in step.command:
            yield f"{step.place}: on standard error: {said}"


def try_page(name, program):
    """Takes the steps of a page in a folder of its own. Returns how many commands were tried, and what is wrong."""
    steps, wrong = steps_of(name)
    left_out = [step for step in steps if not can_run(step.command)]
    for step in left_out:
        print(f"{step.place}: not run: {step.command}")
    steps = [step for step in steps if step not in left_out]
    with tempfile.TemporaryDirectory() as folder, tempfile.TemporaryDirectory() as kept:
        top = pathlib.Path(folder)
        lay_out(top, program)
        before = {it.name for it in top.iterdir()}
        path = f"{top / 'commands'}:{os.environ['PATH']}" if name == MANUAL else os.environ["PATH"]
        script = shell_of(steps, pathlib.Path(kept))
        subprocess.run(["bash", "-c", script], cwd=folder, env={**os.environ, "PATH": path}, check=False, timeout=600)
        wrong += faults_of(steps, pathlib.Path(kept))
        if name != MANUAL:
            wrong += [f"{name}: not in .gitignore: {it}" for it in not_ignored(top, before)]
    return sum(1 for step in steps if not step.name), wrong


def anchors_of(page):
    """The anchors of a page's headings, as a repository's page makes them."""
    heads = re.findall(r"(?m)^#+ (.*)$", page)
    return {re.sub(r"[^\w\- ]", "", head.lower()).replace(" ", "-") for head in heads}


def broken_links(path):
    for link in LINK.findall(path.read_text()):
        target, _, anchor = link.partition("#")
        there = path.parent / target if target else path
        if "://" in link:
            continue
        if not there.exists():
            yield f"{path.relative_to(TOP)}: no such file: {link}"
        elif anchor and anchor not in anchors_of(there.read_text()):
            yield f"{path.relative_to(TOP)}: no such heading: {link}"


def names_in_sources():
    files = [it for part in ("src", "specs") for it in TOP.glob(f"crates/*/{part}/**/*") if it.is_file()]
    return {name for it in [*files, *TOP.glob("bench/*.py")] for name in re.findall(r"\w+", it.read_text(errors="replace"))}


def lines_not_there(path):
    """The lines that a page quotes from a file and that are not in it, in their order: those after `+` below a line `+++ FILE` of a
    diff, and all of a block that begins with three marks, a word and the file."""
    page = path.read_text()
    for block in re.findall(r"(?ms)^```diff\n(.*?)^```$", page):
        lines = iter(())
        for shown in block.splitlines():
            if shown.startswith("+++ "):
                name = shown[4:]
                lines = iter([it.strip() for it in text_of(TOP / name).splitlines()])
            elif shown.startswith("+") and shown[1:].strip() not in lines:
                yield f"{path.relative_to(TOP)}: not a line of {name}: {shown[1:].strip()}"
    for name, block in re.findall(r"(?ms)^```\w+ (\S+/\S+)\n(.*?)^```$", page):
        lines = iter([it.strip() for it in text_of(TOP / name).splitlines()])
        for shown in filter(None, map(str.strip, block.splitlines())):
            if shown not in lines:
                yield f"{path.relative_to(TOP)}: not a line of {name}: {shown}"


def look_up():
    """What pages cite and is not there."""
    known = names_in_sources()
    for path in [*TOP.glob("*.md"), *TOP.glob("docs/**/*.md")]:
        cited = {name for name in LAW.findall(path.read_text()) if name not in known}
        yield from (f"{path.relative_to(TOP)}: no such law or definition: {name}" for name in sorted(cited))
        yield from lines_not_there(path)
    for path in pages():
        yield from broken_links(path)
    listed = subprocess.run([TOP / "tools" / "reading_list.py", "--check"], capture_output=True, text=True, check=False)
    if listed.returncode:
        yield f"docs/dev/HEADLINE.md: {listed.stdout}{listed.stderr}"


def main(words):
    program = pathlib.Path(words[0] if words else TOP / "crates" / "metis" / "out" / "metis").resolve()
    if not program.is_file():
        print(f"there is no program {program}", file=sys.stderr)
        return 2
    wrong = list(itertools.chain(look_up(), figures.faults(program), error_lines.faults(program), plain.faults(), theorems.faults()))
    for name in (*pages_with_commands(), MANUAL):
        tried, faults = try_page(name, program)
        print(f"{name}: {tried} commands tried, {len(faults)} otherwise than the page says")
        wrong += faults
    print(*wrong, sep="\n", end="\n" if wrong else "")
    return 1 if wrong else 0


if __name__ == "__main__":
    sys.exit(main(sys.argv[1:]))
