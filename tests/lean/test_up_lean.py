"""`metis up --lean`: a first plan with few instances, carried out by make; over what stands it does not apply."""

import json
import subprocess
import sys

from tests.lean.test_lean import STATES, LeanCase
from tests.test_words import TOP

COMMANDS = "".join(
    f"[[step]]\nwhen = \"{when}\"\nrun = '{run}'\n"
    for when, run in (
        ("*: new", 'echo "$METIS_NAME" >>"$TOP/made"'),
        ("*: bind *", ""),
        ("*: unbind *", ""),
        ("*: delete", 'echo "$METIS_NAME" >>"$TOP/gone"'),
        ("*: * -> *", ""),
    )
)


class UpLeanTest(LeanCase):
    def up(self, *words: str, targets: tuple[str, ...] = ("App:on",)) -> tuple[int, list[str]]:
        self.environment["TOP"] = str(self.folder)
        (self.folder / "commands.toml").write_text(COMMANDS)
        place = ["--commands", str(self.folder / "commands.toml"), "--to", str(self.folder / "f"), "--yes"]
        given = [self.sketch(STATES), *targets, *place]
        done = subprocess.run(
            [sys.executable, "-m", "metis_planner", "up", *given, *words],
            cwd=self.folder,
            capture_output=True,
            text=True,
            env={**self.environment, "PYTHONPATH": str(TOP), "METIS_LOCKS": str(self.folder)},
            check=False,
        )
        return done.returncode, done.stderr.splitlines()

    def made(self) -> list[str]:
        return sorted((self.folder / "made").read_text().split())

    def test_a_first_plan_is_lean_and_what_stands_is_not_planned_anew(self) -> None:
        status, said = self.up("--lean")
        self.assertEqual((status, self.made()), (0, ["App-0", "Db-1"]))
        self.assertIn("metis: 2 instances where plan makes 3; no plan has fewer", said)
        # The same again does nothing, with or without the word.
        for words in (["--lean"], []):
            self.assertEqual((self.up(*words)[0], self.made()), (0, ["App-0", "Db-1"]))
        self.assertEqual(json.loads((self.folder / "f" / "universe.json").read_text())["types"][0]["name"], "Db")

    def test_metis_toml_may_say_so_and_without_it_the_plan_is_the_planners(self) -> None:
        status, _ = self.up()
        self.assertEqual((status, len(self.made())), (0, 3))
        status, said = self.up("--lean")
        self.assertEqual((status, len(self.made())), (0, 3))
        (self.folder / "metis.toml").write_text("lean = true\n")
        (self.folder / "made").unlink()
        status, said = self.up("--to", str(self.folder / "g"))
        self.assertEqual((status, self.made()), (0, ["App-0", "Db-1"]))

    def test_over_what_stands_it_says_that_it_does_not_apply(self) -> None:
        self.assertEqual(self.up("--lean")[0], 0)
        status, said = self.up("--lean", targets=("App:on", "Db:healthy"))
        self.assertEqual(status, 0)
        self.assertIn(f"metis: lean is for a first plan, and {self.folder / 'f'} has one already: it does not apply", said)
