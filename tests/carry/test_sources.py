"""What a type is called where an importer read of it reaches the steps, so that an image can be pulled by its name."""

import json
import pathlib
import subprocess
import sys
import tempfile
import unittest

from metis_planner.importers import compose
from tests.importers.test_compose import alone, project_of
from tests.test_words import TOP

PLAN = """metis plan 1
instances 2 actions 4 dups 0
1 new 0 image/registry.example_5000/shop_1
2 move 0 absent there
3 new 1 image/plain
4 move 1 absent there
end
"""
COMMANDS = """[[step]]
when = "*: absent -> there"
run = 'echo "$METIS_TYPE $METIS_SOURCE" >>"$METIS_FOLDER/../said"'
"""


class SourceTest(unittest.TestCase):
    def setUp(self):
        folder = tempfile.TemporaryDirectory()
        self.addCleanup(folder.cleanup)
        self.folder = pathlib.Path(folder.name)
        services = {"a": alone(image="registry.example:5000/shop:1"), "b": alone(image="plain")}
        (self.folder / "universe.json").write_text(compose.universe([project_of(services)]))
        (self.folder / "plan.txt").write_text(PLAN)
        (self.folder / "steps.toml").write_text(COMMANDS)

    def made(self, *words):
        paths = [self.folder / name for name in ("plan.txt", "steps.toml", "out")]
        command = [sys.executable, "-m", "metis_planner", "make", paths[0], "--commands", paths[1], "--to", paths[2], "--lax", *words]
        return subprocess.run(command, cwd=TOP, capture_output=True, text=True, check=False)

    def said(self):
        subprocess.run(["make", "-s", "-C", self.folder / "out"], check=True, capture_output=True)
        return sorted((self.folder / "said").read_text().splitlines())

    def test_the_document_says_it(self):
        types = json.loads((self.folder / "universe.json").read_text())["types"]
        sources = {kind["name"]: kind.get("source") for kind in types}
        self.assertEqual(sources["image/registry.example_5000/shop_1"], "image/registry.example:5000/shop:1")
        self.assertIsNone(sources["image/plain"])

    def test_steps_get_it(self):
        self.assertEqual(self.made("--universe", self.folder / "universe.json").returncode, 0)
        expected = ["image/plain image/plain", "image/registry.example_5000/shop_1 image/registry.example:5000/shop:1"]
        self.assertEqual(self.said(), expected)

    def test_without_a_universe_it_is_the_type(self):
        self.assertEqual(self.made().returncode, 0)
        self.assertIn("image/registry.example_5000/shop_1 image/registry.example_5000/shop_1", self.said())

    def test_one_that_a_shell_could_not_be_handed_is_refused(self):
        document = json.loads((self.folder / "universe.json").read_text())
        document["types"][0]["source"] = "'; touch /tmp/x; '"
        (self.folder / "universe.json").write_text(json.dumps(document))
        done = self.made("--universe", self.folder / "universe.json")
        self.assertEqual(done.returncode, 1)
        self.assertRegex(done.stderr, "the source of a has characters that no step can be handed\n$")
