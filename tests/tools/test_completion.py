import re
import shutil
import subprocess
import unittest

from metis_planner.completion import text_for
from metis_planner.words import SOURCES, WORDS
from tests.test_words import TOP

WEB = "examples/web.json"
TARGETS = ["Db:off", "Db:on", "Web:off", "Web:run", "port:sql"]
# zsh's own functions for completion, which print what they are given.
ZSH = """
compadd() { shift; print -rl -- "$@" }
_files() { print FILES }
words=(%s)
CURRENT=%d
source completion/_metis
"""


def commands():
    """The commands of the table of docs/FORMATS.md, each with its words."""
    rows = re.findall(r"(?m)^\| `([a-z]+) ([A-Z ]+)` \|", (TOP / "docs" / "FORMATS.md").read_text())
    return {name: words.split() for name, words in rows}


def files_of(words):
    return sum(word not in ("TARGETS", "N") for word in words)


def output(*words):
    return subprocess.run(words, cwd=TOP, capture_output=True, text=True, check=True).stdout.split()


class MadeTest(unittest.TestCase):
    def test_both_files_are_what_the_tables_of_words_make(self):
        for shell, name in (("bash", "metis.bash"), ("zsh", "_metis")):
            self.assertEqual((TOP / "completion" / name).read_text(), text_for(shell), f"python3 -m metis_planner.completion {shell}")


@unittest.skipIf(shutil.which("bash") is None, "bash is not there")
class BashTest(unittest.TestCase):
    def completed(self, *words):
        """What is offered for the last of these words, which are divided as bash divides a line."""
        quoted = " ".join(f"'{word}'" for word in words)
        script = f"source completion/metis.bash; COMP_WORDS=({quoted}); COMP_CWORD={len(words) - 1}; _metis; printf '%s\\n' \"${{COMPREPLY[@]}}\""
        return output("bash", "-c", script)

    def test_commands(self):
        self.assertEqual(sorted(self.completed("metis", "")), sorted([*commands(), *WORDS]))
        self.assertEqual(sorted(self.completed("metis", "pl")), ["place", "plan"])
        self.assertEqual(sorted(self.completed("metis", "import", "")), sorted(SOURCES))
        self.assertEqual(self.completed("metis", "import", "de"), ["debian"])

    def test_options(self):
        self.assertEqual(self.completed("metis", "show", "--j"), ["--json"])
        self.assertIn("--placement", self.completed("metis", "make", "plan.txt", "--"))
        self.assertEqual(self.completed("metis", "plan", WEB, "--"), [])

    def test_files(self):
        self.assertEqual(self.completed("metis", "plan", "examples/we"), [WEB])
        for name, words in commands().items():
            for place in range(files_of(words)):
                self.assertEqual(self.completed("metis", name, *["x"] * place, "examples/we"), [WEB], name)

    def test_targets(self):
        self.assertEqual(self.completed("metis", "plan", WEB, ""), TARGETS)
        self.assertEqual(self.completed("metis", "plan", WEB, "W"), ["Web:off", "Web:run"])
        self.assertEqual(self.completed("metis", "plan", WEB, "Db", ":", "off", "p"), ["port:sql"])
        for name, words in commands().items():
            expected = TARGETS if "TARGETS" in words else []
            self.assertEqual(self.completed("metis", name, WEB, *["x"] * (files_of(words) - 1), ""), expected, name)

    def test_behind_a_colon(self):
        self.assertEqual(self.completed("metis", "plan", WEB, "Web", ":"), ["off", "run"])
        self.assertEqual(self.completed("metis", "plan", WEB, "Web", ":", "r"), ["run"])

    def test_what_is_no_universe_has_no_targets(self):
        self.assertEqual(self.completed("metis", "plan", "README.md", ""), [])
        self.assertEqual(self.completed("metis", "plan", "-", ""), [])


@unittest.skipIf(shutil.which("zsh") is None, "zsh is not there")
class ZshTest(unittest.TestCase):
    def completed(self, *words):
        return output("zsh", "-f", "-c", ZSH % (" ".join(f"'{word}'" for word in words), len(words)))

    def test_commands(self):
        self.assertEqual(self.completed("metis", ""), sorted([*commands(), *WORDS]))
        self.assertEqual(self.completed("metis", "import", ""), list(SOURCES))
        self.assertEqual(self.completed("metis", "show", "--j")[:2], ["--color", "--help"])

    def test_files_and_targets(self):
        for name, words in commands().items():
            for place in range(files_of(words)):
                self.assertEqual(self.completed("metis", name, *["x"] * place, ""), ["FILES"], name)
            behind = self.completed("metis", name, WEB, *["x"] * (files_of(words) - 1), "")
            self.assertEqual(behind, TARGETS if "TARGETS" in words else [], name)
