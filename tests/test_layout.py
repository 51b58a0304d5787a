"""How the Python side lies in its folders."""

import unittest

from tests.test_words import TOP

FOLDERS = ("metis_planner", "tests", "trials")
MOST_LINES = 600


class LayoutTest(unittest.TestCase):
    def files(self):
        return [path for folder in FOLDERS for path in (TOP / folder).rglob("*.py")]

    def test_modules_are_found_from_the_top_and_by_no_path_of_their_own(self):
        # The words stand apart, so that this file is none of those that it looks for.
        self.assertEqual([path for path in self.files() if ".".join(("sys", "path", "insert")) in path.read_text()], [])

    def test_no_file_is_long(self):
        long = {path.name for path in self.files() if path.read_text().count("\n") > MOST_LINES}
        self.assertEqual(long, set())

    def test_each_folder_of_tests_is_a_package(self):
        folders = {path.parent for path in (TOP / "tests").rglob("test_*.py")}
        self.assertEqual([folder for folder in folders if not (folder / "__init__.py").is_file()], [])


if __name__ == "__main__":
    unittest.main()
