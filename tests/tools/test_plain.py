import contextlib
import importlib.util
import io
import pathlib
import tempfile
import unittest

from tests.test_words import TOP

LONG = " ".join(f"word{number}" for number in range(36))
PAGE = f"""# A heading without a stop

A first sentence, which goes on
to a second line. Where it is so, it is.

    a block of code, which stands behind {LONG}.

```text
what stands behind {LONG}.
```

| a cell | {LONG} |
|---|---|
| `a \\| b` counts as one word. | [three words here](page.md#stands-behind) |

- An item that `stands behind` a colon,
  {LONG}. Given is what was told.
- See [a link](x.md).
"""
MANUAL = f""".Dd November 29, 2026
.Sh SYNOPSIS
.Nm
{LONG}
.Sh DESCRIPTION
.Nm
prints a
.Ar plan .
It stands.
.Bd -literal
what stands behind {LONG}.
.Ed
"""


def tool():
    found = importlib.util.spec_from_file_location("plain", TOP / "tools" / "plain.py")
    module = importlib.util.module_from_spec(found)
    found.loader.exec_module(module)
    return module


class PlainPages(unittest.TestCase):
    @classmethod
    def setUpClass(cls):
        cls.plain = tool()

    def page(self, text, name="page.md"):
        folder = tempfile.TemporaryDirectory()
        self.addCleanup(folder.cleanup)
        path = pathlib.Path(folder.name) / name
        path.write_text(text)
        return path

    def sentences(self, text, name="page.md"):
        return self.plain.read_page(self.page(text, name))

    def faults(self, text, kept=(), name="page.md"):
        return list(self.plain.faults_of(name, self.sentences(text, name), kept))

    def notes(self, text, name="page.md"):
        return list(self.plain.notes_of(name, self.sentences(text, name)))

    def main(self, *words):
        said = io.StringIO()
        with contextlib.redirect_stdout(said), contextlib.redirect_stderr(said):
            return self.plain.main([str(word) for word in words]), said.getvalue().splitlines()

    def test_a_page_is_read_as_markdown(self):
        found = [(it.line, it.words, it.is_whole) for it in self.sentences(PAGE)]
        self.assertEqual(
            found,
            [
                (1, "A heading without a stop", False),
                (3, "A first sentence, which goes on to a second line.", True),
                (4, "Where it is so, it is.", True),
                (12, "a cell", False),
                (12, LONG, False),
                (14, "code counts as one word.", True),
                (14, "three words here", False),
                (16, f"An item that code a colon, {LONG}.", True),
                (17, "Given is what was told.", True),
                (18, "See a link.", True),
            ],
        )

    def test_findings_have_their_lines(self):
        found = [it.rsplit(": ", 1)[0] for it in self.faults(PAGE)]
        self.assertEqual(found, ["page.md:17: 'told': says, reports", "page.md:17: 'a participle first': the subject first"])

    def test_a_long_sentence_is_a_note_and_no_fault(self):
        found = [it.rsplit(": ", 1)[0] for it in self.notes(PAGE)]
        self.assertEqual(found, ["page.md:12: note: a sentence of 36 words", "page.md:16: note: a sentence of 42 words"])
        self.assertEqual(self.notes(" ".join(LONG.split()[:35]) + ". Short.\n\nShort. Short.\n"), [])

    def test_code_and_links_may_stand_on_two_lines(self):
        text = "See `a code\nspan` and [a\nlink](x.md). Next.\nLast.\n"
        self.assertEqual([(it.line, it.words) for it in self.sentences(text)], [(1, "See code and a link."), (3, "Next."), (4, "Last.")])

    def test_a_manual_is_read_without_its_synopsis_and_examples(self):
        found = [(it.line, it.words) for it in self.sentences(MANUAL, "page.1")]
        self.assertEqual(found, [(6, "code prints a code."), (9, "It stands.")])

    def test_an_exception_is_for_its_sentence_and_has_to_be_needed(self):
        text = "It stands there. It is behind.\n"
        self.assertEqual(len(self.faults(text)), 2)
        self.assertEqual(len(self.faults(text, (("It stands", "a quotation"),))), 1)
        self.assertEqual(self.faults("It is.\n", (("it was", "gone"),)), ["page.md:1: an exception that nothing needs: it was"])

    def test_each_term_of_the_list_can_be_found(self):
        said = {
            "stands": "What is standing there?",
            "behind": "It comes behind the other.",
            "told": "It tells which.",
            "lacks": "No instance is lacking.",
            "attain": "The targets can be attained.",
            "anew": "It is made anew.",
            "besides": "It binds what is needed besides.",
            "else": "It goes up, or else it goes down.",
            "mostly": "They are mostly there.",
            "whoever": "It is for whoever reads.",
            "dear": "Low crates are dear.",
            "kit": "The kit is there.",
            "gate": "The gate is green.",
            "edit": "Each edit is refused.",
            "law": "A law says so.",
            "clause": "The clause is short.",
            "double": "It makes two doubles.",
            "the fresh": "Then the fresh is there.",
            "waits": "It respects its waits.",
            "net that loses": "It runs over a net that loses.",
            "if and only if": "It is there if and only if it was made.",
            "a participle first": "Not claimed are the fewest.",
            "Of X the Y": "Of the plan places are fixed.",
        }
        self.assertEqual(list(said), [term for term, _, _ in self.plain.PREFERRED])
        for term, sentence in said.items():
            self.assertIn(f"page.md:1: '{term}': ", self.faults(sentence)[0], sentence)

    def test_what_only_resembles_a_term_is_none(self):
        for sentence in (
            "UTF-8 stands for a form of text, as the standard says, and one understands it.",
            "An action waits for another, or something else.",
            "The gateway of a kitchen, by lawyers.",
            "Of course it is. Needed ports are named. So it is given.",
        ):
            self.assertEqual(self.faults(sentence), [], sentence)

    def test_the_status_and_the_last_line(self):
        status, lines = self.main(self.page("It is there, because it was. It is there.\n"))
        self.assertEqual((status, len(lines)), (0, 1))
        self.assertIn("9 words, 2 sentences, of which 50 in a hundred join a fact to another", lines[0])
        self.assertEqual(self.main(self.page(PAGE))[0], 1)
        self.assertEqual(self.main(self.page(LONG + ".\n"))[0], 0)
        self.assertEqual(self.main(TOP / "docs" / "NOTHING.md"), (2, [f"there is no page {TOP / 'docs' / 'NOTHING.md'}"]))

    def test_the_terms_are_for_the_pages_of_users(self):
        self.assertIn("docs/TUTORIAL.md", self.plain.OF_OPERATORS)
        self.assertIn("docs/metis.1", self.plain.OF_OPERATORS)
        self.assertEqual(set(self.plain.OF_OPERATORS) & set(self.plain.OF_DEVELOPERS), set())
        # The words of our own may be said to those who change the code.
        self.assertEqual(self.plain.look_at("docs/dev/DECISIONS.md")[0], [])


if __name__ == "__main__":
    unittest.main()
