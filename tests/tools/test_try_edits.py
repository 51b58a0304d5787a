"""Which crates' edits are due: those of a crate whose own code, specs or edits are not as they were when last tried."""

import importlib.util
import json
import pathlib
import shutil
import subprocess
import sys
import tempfile
import types
import unittest

from tests.test_words import TOP

TOOLS = TOP / "tools"


def tool_over(top: pathlib.Path) -> types.ModuleType:
    """tools/try_edits.py, as it lies in that copy of the repository."""
    for name in ("build", "building", "edits", "try_edits"):
        sys.modules.pop(name, None)
    sys.path[:0] = [str(top / "tools")]
    try:
        found = importlib.util.spec_from_file_location("try_edits", top / "tools" / "try_edits.py")
        assert found and found.loader
        module = importlib.util.module_from_spec(found)
        found.loader.exec_module(module)
        return module
    finally:
        del sys.path[0]


class DueTest(unittest.TestCase):
    def setUp(self) -> None:
        folder = tempfile.TemporaryDirectory()
        self.addCleanup(folder.cleanup)
        self.top = pathlib.Path(folder.name)
        shutil.copytree(TOP / "tools", self.top / "tools", ignore=shutil.ignore_patterns("__pycache__"))
        for name in ("metis_ids", "metis_crew", "metis_waves"):
            for part in ("src", "specs", "edits", "proofs"):
                shutil.copytree(TOP / "crates" / name / part, self.top / "crates" / name / part)
        shutil.copyfile(TOP / "crates.txt", self.top / "crates.txt")
        shutil.copyfile(TOP / "HANDLES", self.top / "HANDLES")
        self.tool = tool_over(self.top)
        self.tool.write_ledger(self.tool.crates_with_edits())

    def change(self, path: str, old: str, new: str) -> None:
        file = self.top / "crates" / path
        text = file.read_text()
        self.assertIn(old, text)
        file.write_text(text.replace(old, new, 1))

    def test_nothing_is_due_that_was_tried(self) -> None:
        self.assertEqual(self.tool.changed(), [])

    def test_a_clause_makes_the_edits_of_its_crate_due_and_no_others(self) -> None:
        self.change("metis_crew/src/crew.rt", "ensures", "ensures  ")
        self.assertEqual(self.tool.changed(), ["metis_crew"])

    def test_a_definition_and_an_edit_do_so_too_and_a_proof_does_not(self) -> None:
        for part in ("specs", "edits", "proofs"):
            path = next(iter(sorted((self.top / "crates" / "metis_waves" / part).rglob("*.*"))))
            path.write_text(path.read_text() + "\nabbrev pub more : ℕ\n")
            self.assertEqual(self.tool.changed(), [] if part == "proofs" else ["metis_waves"], part)
            self.tool.write_ledger(["metis_waves"])

    def test_an_import_and_a_comment_make_nothing_due(self) -> None:
        home = self.top / "crates" / "metis_waves"
        source = next(iter(sorted((home / "src").glob("*.rt"))))
        source.write_text("ghost use Rattle.std.specs.Prelude.{List};\n// A comment.\n" + source.read_text())
        (home / "specs" / "More.antt").write_text("-- What others cite.\npub use Rattle.metis_waves.specs.More.{more}\n")
        self.assertEqual(self.tool.changed(), [])
        source.write_text(source.read_text().replace("{\n", "{ // Not a line of its own.\n", 1))
        self.assertEqual(self.tool.changed(), ["metis_waves"])

    def test_a_new_crate_is_due_and_a_crate_that_is_gone_is_forgotten(self) -> None:
        shutil.copytree(self.top / "crates" / "metis_crew", self.top / "crates" / "metis_new")
        shutil.rmtree(self.top / "crates" / "metis_waves")
        self.assertEqual(self.tool.changed(), ["metis_new"])
        self.tool.write_ledger(["metis_new"])
        known = json.loads((self.top / "crates" / "edits.json").read_text())
        self.assertEqual(sorted(known), ["metis_crew", "metis_ids", "metis_new"])

    def test_each_crate_has_its_turn(self) -> None:
        turns = []
        for count in range(3):
            answer = subprocess.CompletedProcess([], 0, f"{count}\n", "")
            self.tool.subprocess.run, run = lambda *_, answer=answer, **__: answer, self.tool.subprocess.run
            turns += self.tool.by_turns()
            self.tool.subprocess.run = run
        self.assertEqual(set(turns), {"metis_crew", "metis_ids", "metis_waves"})

    def test_the_copy_has_the_crates_below_and_only_the_edits_that_are_tried(self) -> None:
        room = self.top / "room"
        room.mkdir()
        (self.top / "crates" / "metis_universe" / "src").mkdir(parents=True)
        (self.top / "crates" / "metis_waits" / "src").mkdir(parents=True)
        self.tool.lay_out(room, ["metis_crew"])
        listed = [line.split(":")[0] for line in (room / "crates.txt").read_text().splitlines()]
        self.assertEqual(listed, ["metis_ids", "metis_universe", "metis_waits", "metis_crew"])
        self.assertEqual(sorted(it.parts[-3] for it in room.glob("crates/*/must-fail/*.edit")), ["metis_crew"] * 3)


if __name__ == "__main__":
    unittest.main()
