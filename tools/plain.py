#!/usr/bin/env python3
"""Looks at the English of pages: which words of ours have a reader's word, and which sentences are long.

    tools/plain.py [PAGE..]

PAGE is a page in Markdown or a man page; all pages if none is given. On the pages for users it names each term for which
PREFERRED has a better one, and each sentence that begins with a participle or with 'Of'. The exit status is 1 if it named any,
and 2 if a page is not there. A sentence of more than 35 words is a note, on any page, because a count of words says little: the
ten points of CONTRIBUTING are what to write by. The last line for a page says how many words and sentences it has, and how many
sentences in a hundred join a fact to its reason (because, so, which, ..).

Code is not read, and inline code is one word. A cell of a table is a paragraph of its own, and so is an item of a list.
"""

import dataclasses
import pathlib
import re
import sys
from collections.abc import Iterator

TOP = pathlib.Path(__file__).resolve().parent.parent
# The change log is history, so it keeps the words of its time.
OF_OPERATORS = tuple(sorted(str(it.relative_to(TOP)) for it in (TOP / "README.md", *TOP.glob("docs/*.md"), *TOP.glob("docs/*.1"))))
OF_DEVELOPERS = (
    "CHANGELOG.md",
    "CONTRIBUTING.md",
    *sorted(str(it.relative_to(TOP)) for it in TOP.glob("docs/dev/*.md")),
    "metis_planner/importers/README.md",
    "metis_planner/carry/README.md",
)
PAGES = (*OF_OPERATORS, *OF_DEVELOPERS)
LONGEST = 35
IS = "(?:is|are|was|were)"
# A term, how it is found in the plain text of a sentence, and what to say in its place.
PREFERRED = (
    ("stands", r"\b(?:stands?(?! for\b)|stood|standing)\b", "exists, is running, is in place"),
    ("behind", r"\bbehind\b", "after, below"),
    ("told", r"\b(?:told|tells)\b", "says, reports"),
    ("lacks", r"\black(?:s|ed|ing)?\b", "does not contain, is missing"),
    ("attain", r"\battain\w*\b", "reach"),
    ("anew", r"\banew\b", "again"),
    ("besides", r"\bbesides\b", "also, in addition"),
    ("else", r"^Else\b|[,;] (?:and |or )?else\b", "otherwise"),
    ("mostly", r"\bmostly\b", "usually"),
    ("whoever", r"\bwhoever\b", "you, or who it is"),
    ("dear", r"\bdear(?:er|est)?\b", "expensive"),
    ("kit", r"\bkits?\b", "toolchain"),
    ("gate", r"\bgates?\b", "CI"),
    ("edit", r"\bedits?\b", "mutant, change"),
    ("law", r"\blaws?\b", "theorem"),
    ("clause", r"\bclauses?\b", "postcondition"),
    ("double", r"\bdoubles?\b", "extra instance"),
    ("the fresh", r"\bthe fresh\b", "the new deployment"),
    ("waits", r"\b(?:the|its|their|all|these|those|what|further|keeps?) waits\b", "ordering constraints, dependencies"),
    ("net that loses", r"\bnet that loses\b", "lossy network"),
    ("if and only if", r"\bif and only if\b", "exactly when"),
    ("a participle first", rf"^(?:Not )?(?:\w+(?:ed|own|ten|ught)|Given|Such|Left|Said) {IS}\b", "the subject first"),
    ("Of X the Y", r"^Of (?!course\b)", "the subject first"),
)
# What joins a fact to its reason, its contrast or its example.
JOINS = re.compile(r"\b(?:because|so|which|although|unless|instead|for example)\b", re.IGNORECASE)
# What a page may keep: some words of the sentence, and why.
EXCEPTIONS: dict[str, tuple[tuple[str, str], ...]] = {}

FENCE = re.compile(r"^\s*(```|~~~)")
ITEM = re.compile(r"^\s*(?:[-*+]|\d+\.)\s+")
RULE = re.compile(r"^\s*\|(?:\s*:?-+:?\s*\|)+\s*$")
CELL = re.compile(r"(?<!\\)\|")
SPAN = re.compile(r"(`+)(?!`)(.+?)(?<!`)\1(?!`)")
LINK = re.compile(r"!?\[([^\]]*)\]\([^)]*\)")
TAG = re.compile(r"<[^<>]*>")
END = re.compile(r"[.!?][)\"'\u2019\u201d]*(?= |$)")
# Macros of a man page whose words stand in a sentence; any other one ends the paragraph.
INLINE = {".Ar", ".Nm", ".Cm", ".Ql", ".Pa", ".Sq", ".Pq", ".No", ".Op"}
MARK = re.compile(r" ([.,:;?]+)$")
# The number of a line, while its text is joined with that of others.
PLACE = re.compile(r"\x00\d+\x00")


@dataclasses.dataclass(frozen=True)
class Sentence:
    line: int
    words: str
    is_whole: bool

    def length(self) -> int:
        """How many words it has; a dash or a bracket alone is none."""
        return sum(1 for word in self.words.split() if re.search(r"\w", word))


@dataclasses.dataclass(frozen=True)
class Finding:
    line: int
    what: str
    sentence: Sentence


def plain_text(text: str) -> str:
    """A paragraph without its marks: links by their words, and inline code as one word."""
    text = SPAN.sub(lambda span: "code" + "".join(PLACE.findall(span[0])), text)
    text = LINK.sub(r"\1", text)
    text = TAG.sub("", text)
    return re.sub(r"\*\*|(?<!\w)[*_](?=\w)|(?<=\w)[*_](?!\w)", "", text)


def pieces_of_page(lines: list[str]) -> Iterator[list[tuple[int, str]]]:
    """The paragraphs, headings, items and cells of a page: lines with their numbers, without code."""
    piece: list[tuple[int, str]] = []
    fence, is_code, is_after_blank = "", False, True
    for number, line in enumerate(lines, 1):
        opens = FENCE.match(line)
        is_code = line.startswith("    ") and (is_code or is_after_blank)
        is_text = not (opens or fence or is_code)
        if opens and fence in ("", opens[1]):
            fence = "" if fence else opens[1]
        if not is_text or not line.strip() or line.startswith(("#", "|", ">")) or ITEM.match(line):
            yield piece
            piece = []
        if is_text and line.startswith("|") and not RULE.match(line):
            yield from ([(number, cell)] for cell in CELL.split(SPAN.sub("code", line)))
        elif is_text and line.startswith("#"):
            yield [(number, line.lstrip("# "))]
        elif is_text and line.strip() and not line.startswith("|"):
            piece.append((number, ITEM.sub("", line.lstrip("> "))))
        is_after_blank = not line.strip()
    yield piece


def pieces_of_manual(lines: list[str]) -> Iterator[list[tuple[int, str]]]:
    """The same of a man page: its synopsis is not read, and the words of a macro are one word."""
    piece: list[tuple[int, str]] = []
    is_code = is_synopsis = False
    for number, line in enumerate(lines, 1):
        macro = line.split(" ")[0] if line.startswith(".") else ""
        is_code = macro == ".Bd" or is_code and macro != ".Ed"
        is_synopsis = "SYNOPSIS" in line if macro == ".Sh" else is_synopsis
        if macro and macro not in INLINE:
            yield piece
            piece = []
        elif not is_code and not is_synopsis:
            mark = MARK.search(line) if macro else None
            piece.append((number, f"code{mark[1] if mark else ''}" if macro else line))
    yield piece


def sentences_of(piece: list[tuple[int, str]]) -> Iterator[Sentence]:
    """The sentences of a paragraph, each with the line on which it begins."""
    marked = " ".join(f"\x00{number}\x00 {text.strip()}" for number, text in piece)
    text = re.sub(r" +", " ", plain_text(marked)).strip()
    line, begin = piece[0][0], 0
    for end in [*(found.end() for found in END.finditer(text)), len(text)]:
        part = text[begin:end]
        numbers = [int(it.strip("\x00")) for it in PLACE.findall(part)]
        starts_line = PLACE.match(part.lstrip())
        words = re.sub(r" +", " ", PLACE.sub("", part)).strip()
        if words:
            yield Sentence(numbers[0] if starts_line else line, words, bool(re.search(r"[.!?:][)\"'\u2019\u201d]*$", words)))
        line, begin = (numbers or [line])[-1], end


def read_page(path: pathlib.Path) -> list[Sentence]:
    lines = path.read_text().splitlines()
    pieces = pieces_of_manual(lines) if re.search(r"\.[1-9]$", path.name) else pieces_of_page(lines)
    return [it for piece in pieces if piece for it in sentences_of(piece)]


def findings_of(sentences: list[Sentence]) -> Iterator[Finding]:
    """The terms that have a better one."""
    for it in sentences:
        for term, pattern, better in PREFERRED:
            if re.search(pattern, it.words):
                yield Finding(it.line, f"'{term}': {better}", it)


def faults_of(name: str, sentences: list[Sentence], kept: tuple[tuple[str, str], ...]) -> Iterator[str]:
    """A line for each finding that is no exception, and for each exception that nothing needs."""
    unused = {part for part, _ in kept}
    for found in findings_of(sentences):
        excepted = [part for part, _ in kept if part in found.sentence.words]
        unused.difference_update(excepted)
        if not excepted:
            yield f"{name}:{found.line}: {found.what}: {found.sentence.words[:60]}"
    yield from (f"{name}:1: an exception that nothing needs: {part}" for part in sorted(unused))


def notes_of(name: str, sentences: list[Sentence]) -> Iterator[str]:
    """What a writer may want to look at, and need not change."""
    for it in sentences:
        if it.length() > LONGEST:
            yield f"{name}:{it.line}: note: a sentence of {it.length()} words: {it.words[:60]}"


def summary_of(name: str, sentences: list[Sentence], words: int) -> str:
    whole = [it for it in sentences if it.is_whole]
    joined = sum(bool(JOINS.search(it.words)) for it in whole)
    return f"{name}: {words} words, {len(whole)} sentences, of which {100 * joined // max(len(whole), 1)} in a hundred join a fact to another"


def look_at(name: str) -> tuple[list[str], list[str], str]:
    """What is wrong with a page, notes on it, and the line that says how long it is."""
    path = TOP / name
    sentences = read_page(path)
    wrong = [] if name in OF_DEVELOPERS else list(faults_of(name, sentences, EXCEPTIONS.get(name, ())))
    return wrong, list(notes_of(name, sentences)), summary_of(name, sentences, sum(bool(re.search(r"\w", it)) for it in path.read_text().split()))


def faults() -> Iterator[str]:
    """What is wrong with the pages for users."""
    for name in OF_OPERATORS:
        yield from look_at(name)[0]


def main(names: list[str]) -> int:
    names = names or list(PAGES)
    missing = [name for name in names if not (TOP / name).is_file()]
    if missing:
        print(f"there is no page {missing[0]}", file=sys.stderr)
        return 2
    looked = [look_at(name) for name in names]
    for faults, notes, summary in looked:
        print(*faults, *notes, summary, sep="\n")
    return 1 if any(faults for faults, _, _ in looked) else 0


if __name__ == "__main__":
    sys.exit(main(sys.argv[1:]))
