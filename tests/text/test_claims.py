"""The checks of README's table: each one accepts what is so, and refuses something for which the claim of its row is false."""

import pathlib
import re
import subprocess
import tempfile
import unittest

from tests import real

CELL = r"((?:[^|\\]|\\.)+)"
TABLE = re.compile(rf"(?m)^\| {CELL} \| {CELL} \| {CELL} \| {CELL} \|$")
# A database that is switched on and off again, and a web server that needs it.
WEB = """{"aeolus":1,"types":[
{"name":"Db","initial":"off","states":[{"name":"off","next":["on"]},{"name":"on","provide":["sql"],"next":["off"]}]},
{"name":"Web","initial":"off","states":[{"name":"off","next":["run"]},{"name":"run","require":["sql"],"next":["off"]}]},
{"name":"Mail","initial":"off","states":[{"name":"off","next":["up"]},{"name":"up","require":["disk"],"next":[]}]}]}
"""
# The server runs although its database is not on yet.
TOO_EARLY = """metis plan 1
instances 2 actions 5 dups 0
1 new 0 Db
2 new 1 Web
3 bind sql 1 0
4 move 1 off run
5 move 0 off on
end
"""
# Each action is allowed, one after the other. As far as this text says, the server may run before the database is on.
TOO_FREE = """metis plan 1
instances 2 actions 5 dups 0
1 new 0 Db
2 move 0 off on
3 new 1 Web
4 bind sql 1 0
5 move 1 off run
end
"""
NO_WISHES = "metis wishes 1\nend\n"


@unittest.skipIf(real.built() is None, "the program is not built")
class ClaimsTest(unittest.TestCase):
    def setUp(self) -> None:
        room = tempfile.TemporaryDirectory()
        self.addCleanup(room.cleanup)
        self.room = pathlib.Path(room.name)
        self.write("web.json", WEB)

    def write(self, name: str, text: str) -> str:
        (self.room / name).write_text(text)
        return name

    def metis(self, *words: str) -> tuple[int, str]:
        program = real.built()
        assert program is not None
        done = subprocess.run([program, *words], cwd=self.room, capture_output=True, text=True, check=False)
        return done.returncode, done.stdout

    def test_the_checks_are_those_that_are_tried_here(self) -> None:
        readme = (real.TOP / "README.md").read_text()
        checks = [re.findall(r"`metis ([a-z]+)", row[3]) for row in TABLE.findall(readme) if row[0] != "claim"]
        self.assertEqual(checks, [[], ["waits"], ["reconfigure"], ["refute"], ["confirm"], [], ["waits"]])

    def test_each_order_is_safe(self) -> None:
        """`metis waits UNIVERSE PLAN | cmp - PLAN` says so of a printed plan, and not where waits are missing or it is no run."""
        plan = self.metis("plan", "web.json", "Web:run")[1]
        self.assertEqual(self.metis("waits", "web.json", self.write("plan.txt", plan)), (0, plan))
        for text in (TOO_EARLY, TOO_FREE):
            self.assertNotEqual(self.metis("waits", "web.json", self.write("plan.txt", text))[1], text)
        self.assertEqual(self.metis("replay", "web.json", self.write("plan.txt", TOO_FREE), "Web:run")[0], 0)

    def test_what_a_change_keeps(self) -> None:
        """`metis reconfigure .. | cmp - NEW` says so of a printed change, and not where the kept database is switched off."""
        old = self.metis("plan", "web.json", "Web:run")[1]
        words = ("reconfigure", "web.json", self.write("old.txt", old), self.write("wishes", NO_WISHES), "Db:on")
        status, new = self.metis(*words)
        self.assertEqual(status, 0)
        number = int(re.findall(r"(?m)^(\d+) ", new)[-1])
        actions = f"actions {number + 2} "
        falls = f"\n{number + 1} move 1 on off\n{number + 2} move 1 off on\nend\n"
        fallen = new.replace(f"actions {number} ", actions).replace("\nend\n", falls)
        again = self.metis("waits", "web.json", self.write("fallen.txt", fallen))[1]
        self.assertEqual(again.splitlines()[1], f"instances 2 {actions}dups 0", "each action is allowed")
        self.assertIn(" move 1 on off", again)
        self.assertEqual(self.metis(*words), (0, new))
        self.assertNotEqual(self.metis(*words)[1], again)

    def test_a_refusal(self) -> None:
        """`metis refute` accepts a printed refusal, and not a set that lacks a pair that is reached."""
        status, refusal = self.metis("plan", "web.json", "Mail:up")
        self.assertEqual(status, 1)
        self.assertEqual(self.metis("refute", "web.json", self.write("refusal.txt", refusal), "Mail:up"), (0, "closed lacks Mail:up\n"))
        short = refusal.replace("Web:run\n", "").replace("pairs 5", "pairs 4")
        self.assertEqual(self.metis("refute", "web.json", self.write("refusal.txt", short), "Mail:up"), (1, "open Web:off Web:run\n"))

    def test_an_explanation(self) -> None:
        """`metis confirm` accepts a printed explanation, and refuses it without any one of its lines."""
        for path, target in ((str(real.TOP / "examples" / "waiting.json"), "Shop:up"), ("web.json", "Mail:up")):
            status, why = self.metis("why", path, target)
            self.assertEqual(status, 1, why)
            lines = why.splitlines()
            self.assertEqual(self.metis("confirm", path, self.write("why.txt", why), target)[0], 0)
            count = int(lines[2].split()[1])
            for place in range(3, 3 + count):
                fewer = [*lines[:2], f"lines {count - 1}", *lines[3:place], *lines[place + 1 :]]
                self.assertEqual(self.metis("confirm", path, self.write("why.txt", "\n".join(fewer) + "\n"), target)[0], 1, fewer)

    def test_a_plan_is_read_back(self) -> None:
        """`metis waits UNIVERSE PLAN | cmp - PLAN` says so of a printed plan, and a text that is not well formed is refused."""
        plan = self.metis("plan", "web.json", "Web:run")[1]
        self.assertEqual(self.metis("waits", "web.json", self.write("plan.txt", plan)), (0, plan))
        status, said = self.metis("waits", "web.json", self.write("plan.txt", plan.replace("instances 2", "instances 3")))
        self.assertEqual((status, said.split()[:2]), (3, ["bad", "plan"]))


if __name__ == "__main__":
    unittest.main()
