import contextlib
import importlib.util
import io
import pathlib
import sys
import tempfile
import unittest

from tests.test_words import TOP

LAWS = """//! Laws of things.
use Rattle.std;

/// The first one says
/// that it is so.
pub fn it_is_so()
    ensures { (u : Universe) (ks : List ℕ) → IsTrue (is_steadfast u ks) → IsKept ks → 1 ≤ length ks → ks ≡ ks }
{}

/// What has a body is no theorem.
pub fn not_this()
    ensures { IsKept ks → ks ≡ ks }
{
    it_is_so();
}

/// Nor is what takes something.
pub fn nor_this(u: &Universe)
    ensures { IsKept ks → ks ≡ ks }
{}

/// Two statements.
#[tactic(auto)]
pub fn two()
    ensures kept { (ks : List ℕ) → IsKept ks → (more : List ℕ) × IsWhole (ks ++ more) }
    ensures apart { (ks : List ℕ) → ((k : ℕ) → IsKept (k ∷ ks)) → All (λ k. IsOf u k) ks → IsKept ks → ks ≡ ks }
{}
"""


def tool():
    found = importlib.util.spec_from_file_location("theorems", TOP / "tools" / "theorems.py")
    module = importlib.util.module_from_spec(found)
    sys.modules["theorems"] = module
    found.loader.exec_module(module)
    return module


class TheoremsTest(unittest.TestCase):
    def setUp(self):
        self.theorems = tool()
        folder = tempfile.TemporaryDirectory()
        self.addCleanup(folder.cleanup)
        self.theorems.TOP = self.top = pathlib.Path(folder.name)
        self.laws = self.top / "crates" / "one" / "src" / "laws.rt"
        for made in (self.laws.parent, self.top / "crates" / "none" / "src", self.top / "docs" / "dev"):
            made.mkdir(parents=True)
        (self.top / "crates.txt").write_text("# The crates\nnone\none: none\n")
        self.laws.write_text(LAWS)

    def main(self, *words):
        said = io.StringIO()
        with contextlib.redirect_stdout(said), contextlib.redirect_stderr(said):
            return self.theorems.main(list(words)), said.getvalue().splitlines()

    def test_each_theorem_has_its_premises_and_its_comment(self):
        status, lines = self.main()
        self.assertEqual(status, 0)
        self.assertEqual(
            lines[lines.index("## `one`"):],
            ["## `one`", "", "- `it_is_so` (`is_steadfast`, `IsKept`): The first one says that it is so.", "- `two` (`IsKept`, `IsOf`): Two statements."],
        )
        self.assertNotIn("## `none`", lines)

    def test_the_check_finds_a_page_that_is_not_of_the_sources(self):
        self.assertEqual(self.main("--check")[0], 1)
        self.assertEqual(self.main("--write"), (0, []))
        self.assertEqual(self.main("--check"), (0, []))
        self.laws.write_text(LAWS.replace("that it is so", "that it is not"))
        self.assertEqual(self.main("--check"), (1, ["docs/dev/THEOREMS.md: it is not what the sources make: tools/theorems.py --write"]))

    def test_a_theorem_without_a_comment_is_named(self):
        self.laws.write_text(LAWS.replace("/// Two statements.\n", ""))
        self.main("--write")
        self.assertEqual(self.main("--check"), (1, ["docs/dev/THEOREMS.md: the theorem two of one has no comment"]))

    def test_other_words_get_the_usage(self):
        status, lines = self.main("--help")
        self.assertEqual((status, lines[0].strip()), (2, "tools/theorems.py             prints the page"))


if __name__ == "__main__":
    unittest.main()
