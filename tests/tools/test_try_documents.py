import importlib
import pathlib
import sys
import tempfile
import unittest
from unittest import mock

from tests.test_words import TOP


def tool():
    with mock.patch.object(sys, "path", [str(TOP / "tools"), *sys.path]):
        return importlib.import_module("try_documents")


class QuotationsTest(unittest.TestCase):
    """What a page quotes from a file has to be in it."""

    def setUp(self):
        self.tool = tool()
        folder = tempfile.TemporaryDirectory()
        self.addCleanup(folder.cleanup)
        self.top = pathlib.Path(folder.name)
        (self.top / "specs").mkdir()
        (self.top / "specs" / "one.antt").write_text("-- One.\none : Type\none = two\n\ntwo = three\n")

    def faults(self, text):
        page = self.top / "page.md"
        page.write_text(text)
        with mock.patch.object(self.tool, "TOP", self.top):
            return list(self.tool.lines_not_there(page))

    def test_a_block_that_names_its_file_is_looked_up(self):
        self.assertEqual(self.faults("```text specs/one.antt\none = two\n\ntwo = three\n```\n"), [])
        self.assertEqual(self.faults("```text specs/one.antt\none = three\n```\n"), ["page.md: not a line of specs/one.antt: one = three"])
        # The order counts, and so does a file that is not there.
        self.assertEqual(len(self.faults("```text specs/one.antt\ntwo = three\none = two\n```\n")), 1)
        self.assertEqual(len(self.faults("```text specs/none.antt\none = two\n```\n")), 1)

    def test_a_block_without_a_file_is_not(self):
        self.assertEqual(self.faults("```text\none = three\n```\n```mermaid\na --> b\n```\n"), [])

    def test_added_lines_of_a_diff_are_looked_up(self):
        self.assertEqual(self.faults("```diff\n+++ specs/one.antt\n+one = two\n```\n"), [])
        self.assertEqual(self.faults("```diff\n+++ specs/one.antt\n+one = four\n```\n"), ["page.md: not a line of specs/one.antt: one = four"])


class StepsTest(unittest.TestCase):
    def test_a_block_is_saved_under_the_name_before_it(self):
        before = list(tool().blocks_of("Here it is. Save this\nas `a.sketch`:\n\n    a: b > c\n\nIt is into `d`:\n\n    e\n"))
        found = [tool().INTO_FILE.search(paragraph) for _, _, paragraph in before]
        self.assertEqual([it and it[1] for it in found], ["a.sketch", None])


if __name__ == "__main__":
    unittest.main()
