"""First calls, as people type them, with what the front says: calls.txt beside this file. What the program prints, and its status,
are the same with and without the front.
"""

import concurrent.futures
import os
import pathlib
import re
import shlex
import shutil
import subprocess
import tempfile
import unittest
from typing import NamedTuple

from tests.test_words import TOP

HERE = pathlib.Path(__file__).resolve().parent
FRONT = TOP / "metis"
PROVED = TOP / "crates" / "metis" / "out" / "metis"
FEWEST = 60
MOST_LINES = 3
# What the program leaves to the front, and has to refuse at its first word.
BAD_FIRST_WORD = ("bad word 1\n", 2)


class Call(NamedTuple):
    """A call, its line in the list, and what is said of it."""

    line: int
    words: list[str]
    said: list[str]


class Ended(NamedTuple):
    """What a call printed, said and ended with."""

    printed: str
    said: str
    status: int


def calls() -> list[Call]:
    found: list[Call] = []
    for number, text in enumerate((HERE / "calls.txt").read_text().splitlines(), 1):
        if text.startswith("$ "):
            found.append(Call(number, shlex.split(text[2:])[1:], []))
        elif text and not text.startswith("#"):
            found[-1].said.append(text)
    return found


def program() -> list[str] | None:
    """Words that run the program: the proved one, or one that was built before without a proof."""
    if PROVED.is_file():
        return [str(PROVED)]
    kept = pathlib.Path(os.environ.get("XDG_CACHE_HOME") or pathlib.Path.home() / ".cache", "metis-build", "unproved")
    found = sorted(kept.glob("*/metis"))
    return [str(found[-1])] if found else None


def fits(expected: str, said: str) -> bool:
    return said.startswith(expected[:-3]) if expected.endswith("...") else said == expected


class CallsTest(unittest.TestCase):
    def setUp(self) -> None:
        found = program()
        if found is None:
            self.skipTest("there is no program yet: ./metis or rt ci builds it")
        folder = tempfile.TemporaryDirectory()
        self.addCleanup(folder.cleanup)
        top = pathlib.Path(folder.name)
        self.files = top / "files"
        shutil.copytree(HERE / "files", self.files)
        # A checkout of its own, so that the front runs this program, whatever the state of the sources.
        self.front = top / "metis"
        shutil.copy(FRONT, self.front)
        (top / "metis_planner").symlink_to(TOP / "metis_planner")
        (top / "crates" / "metis" / "out").mkdir(parents=True)
        (top / "crates.txt").write_text("")
        shutil.copy(found[0], top / "crates" / "metis" / "out" / "metis")

    def run_call(self, words: list[str], text: str = "", **environment: str) -> Ended:
        done = subprocess.run(
            [self.front, *words],
            cwd=self.files,
            input=text,
            capture_output=True,
            text=True,
            env={**os.environ, **environment},
            check=False,
        )
        return Ended(done.stdout, done.stderr, done.returncode)

    def test_each_first_call_is_answered_in_words_and_the_program_has_its_say(self) -> None:
        listed = calls()
        self.assertGreaterEqual(len(listed), FEWEST)
        with concurrent.futures.ThreadPoolExecutor(4) as pool:
            fronts = list(pool.map(lambda call: self.run_call(call.words), listed))
            plain = list(pool.map(lambda call: self.run_call(["--plain", *self.over_a_document(call.words)]), listed))
        for call, front, alone in zip(listed, fronts, plain):
            with self.subTest(line=call.line, words=call.words):
                self.assertEqual((front.printed, front.status), (alone.printed, alone.status))
                self.assertEqual(alone.said, "")
                lines = front.said.splitlines()
                self.assertEqual(len(lines), len(call.said), front.said)
                self.assertLessEqual(len(lines), MOST_LINES)
                for expected, said in zip(call.said, lines):
                    self.assertTrue(fits(f"metis: {expected}", said), f"{said}\n{expected}")

    def over_a_document(self, words: list[str]) -> list[str]:
        """The words with a document in place of a sketch, which the program does not read."""
        if len(words) < 2 or not words[1].endswith(".sketch"):
            return words
        made = subprocess.run([self.front, "sketch", words[1]], cwd=self.files, capture_output=True, text=True, check=True)
        path = self.files / f"{words[1]}.json"
        path.write_text(made.stdout)
        return [words[0], path.name, *words[2:]]

    def test_what_came_from_standard_input_cannot_be_read_again(self) -> None:
        web = (self.files / "web.json").read_text()
        for words, text, said in (
            (["plan", "-", "Web:rnu"], web, "the universe came from standard input, which cannot be read again"),
            (["plan", "-", "Web/run"], web, "Web/run is no target: TYPE:STATE or port:PORT"),
            (["replay", "web.json", "-", "Web:rnu"], "x", "no target Web:rnu: Web has off, run; did you mean Web:run?"),
            (["replay", "app.txt", "-"], "x", "app.txt is a sketch: "),
            (["replay", "nowhere.json", "-"], "x", "no such file: nowhere.json"),
            (["replay", "web.json", "-"], "x", "the plan came from standard input, which cannot be read again"),
        ):
            with self.subTest(words=words):
                found = self.run_call(words, text)
                self.assertIn(f"metis: {said}", found.said)
                self.assertEqual(found.said.count("\n"), 1)

    def test_a_plain_call_is_the_program_alone(self) -> None:
        for words in (["help"], ["--version"], ["show"], ["import", "compose"], ["pln"], []):
            with self.subTest(words=words):
                self.assertEqual(self.run_call(["--plain", *words]), (*BAD_FIRST_WORD[:1], "", BAD_FIRST_WORD[1]))
                self.assertEqual(self.run_call(words, METIS_PLAIN="1"), (*BAD_FIRST_WORD[:1], "", BAD_FIRST_WORD[1]))

    def test_the_status_of_a_program_that_cannot_write(self) -> None:
        with open("/dev/full", "w") as full:
            done = subprocess.run(
                [self.front, "print", "web.json"], cwd=self.files, stdout=full, stderr=subprocess.PIPE, text=True, check=False
            )
        self.assertEqual(done.returncode, 5)
        self.assertIn("metis: standard output could not be written to the end", done.stderr)

    def test_nothing_is_said_where_standard_error_is_closed(self) -> None:
        done = subprocess.run(f"{self.front} pln 2>&-", shell=True, cwd=self.files, capture_output=True, text=True, check=False)
        self.assertEqual((done.stdout, done.stderr, done.returncode), ("bad word 1\n", "", 2))


class WordsTest(unittest.TestCase):
    """The words of the front are none of the program's, and each list of them is the same."""

    def grammar(self) -> list[str]:
        text = (TOP / "crates" / "metis_words" / "src" / "words.rt").read_text()
        return re.findall(r'"([a-z]+)" => Some\(Verb::', text)

    def words_in_front(self, ends: str) -> list[str]:
        text = (TOP / "metis_planner" / "front.sh").read_text().replace("\\\n", "")
        found = re.search(rf"(?m)^([^#\n]*?\| {ends}[^)\n]*)\)$", text)
        assert found
        return [word.strip() for word in found[1].split("|")]

    def test_the_words_of_the_program_are_those_of_its_grammar(self) -> None:
        from metis_planner.program import WORDS

        self.assertEqual(sorted(self.grammar()), sorted(WORDS))
        self.assertEqual(sorted(self.words_in_front("why")), sorted(WORDS))

    def test_the_words_of_the_front_are_none_of_these(self) -> None:
        from metis_planner.words import FRONT_WORDS

        self.assertEqual(set(FRONT_WORDS) & set(self.grammar()), set())
        self.assertEqual(sorted(self.words_in_front("version")), sorted(FRONT_WORDS))


if __name__ == "__main__":
    unittest.main()
