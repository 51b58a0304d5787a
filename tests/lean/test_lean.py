"""What `metis lean` plans: held against a search over whole configurations, and against the program over the whole universe."""

import json
import os
import pathlib
import random
import signal
import subprocess
import sys
import tempfile
import time
import unittest
from unittest import mock

from metis_planner.answers import Refused
from metis_planner.lean import calls as calls_module
from metis_planner.lean.bound import Bound
from metis_planner.lean.calls import Calls
from metis_planner.lean.leanest import DEFAULT_CALLS, Leanest
from metis_planner.lean.universe import Universe
from metis_planner.look.sketch import universe_text
from tests.front.test_calls import program
from tests.lean.shapes import Drawn, fewest, services, tangle
from tests.test_words import TOP

SHIM = '#!/bin/sh\n[ "$1" = --plain ] && shift\nexec {program} "$@"\n'
STATES = "Db: off > started(+sql) > healthy(+sql +ok)\nApp: off > on(-sql -ok)\n"
EITHER = "Cluster: off > member > on(+sql +sql-cluster)\nSingle: off > on(+sql)\nApp: off > on(-sql)\nReport: off > on(-sql-cluster)\n"
PEERS = "East: off > listening(+east) > joined(+east -west)\nWest: off > listening(+west) > joined(+west -east)\n"


class LeanCase(unittest.TestCase):
    """A folder, and the program that is there, which is what the front asks."""

    def setUp(self) -> None:
        found = program()
        if found is None:
            self.skipTest("there is no program yet: ./metis or rt ci builds it")
        kept = tempfile.TemporaryDirectory()
        self.addCleanup(kept.cleanup)
        self.folder = pathlib.Path(kept.name)
        self.program = self.folder / "program"
        self.program.write_text(SHIM.format(program=found[0]))
        self.program.chmod(0o755)
        self.environment = {**os.environ, "METIS_COMMAND": str(self.program)}
        patched = mock.patch.dict(os.environ, self.environment)
        patched.start()
        self.addCleanup(patched.stop)

    def sketch(self, text: str, name: str = "u.sketch") -> str:
        (self.folder / name).write_text(text)
        return str(self.folder / name)

    def written(self, drawn: Drawn) -> str:
        (self.folder / "drawn.json").write_text(json.dumps(drawn.document))
        return str(self.folder / "drawn.json")

    def asked(self, *words: str) -> tuple[int, str]:
        done = subprocess.run([self.program, *words], capture_output=True, text=True, check=False)
        return done.returncode, done.stdout

    def run_lean(self, *words: str) -> tuple[int, str, list[str]]:
        done = subprocess.run(
            [sys.executable, "-m", "metis_planner", "lean", *words],
            cwd=TOP,
            capture_output=True,
            text=True,
            env=self.environment,
            check=False,
        )
        return done.returncode, done.stdout, done.stderr.splitlines()

    def found(self, path: str, targets: list[str], at_once: int | None = None, most: int = DEFAULT_CALLS) -> Leanest | None:
        """What is found, or nothing where the targets are refused; each answer is held against the whole universe."""
        text = universe_text(path)
        with Calls(targets, at_once) as calls:
            first = calls.plan(text)
            if first.status:
                return None
            lean = Leanest(text, path, targets, first.text)
            lean.search(calls, most, lambda _: None)
            calls.check(text, lean.best.made.text)
        return lean


class LeanTest(LeanCase):
    def test_what_people_write_first_has_one_instance_of_each(self) -> None:
        for text, targets, made, first in (
            (STATES, ["App:on"], 2, 3),
            (EITHER, ["App:on", "Report:on"], 3, 4),
        ):
            status, plan, said = self.run_lean(self.sketch(text), *targets)
            self.assertEqual((status, said), (0, [f"metis: {made} instances where plan makes {first}; no plan has fewer"]))
            self.assertEqual(plan.split("\n")[1].split()[1], str(made))

    def test_two_that_need_each_other(self) -> None:
        # One of them stays where it listens, and the other's extra instance goes: three, and with two neither could join first.
        status, plan, said = self.run_lean(self.sketch(PEERS), "East:joined", "West:joined")
        self.assertEqual((status, said), (0, ["metis: 3 instances where plan makes 4; at least 2"]))

    def test_a_plan_that_is_the_least_is_as_it_was(self) -> None:
        path = self.sketch("a: off > on(+p)\nb: off > on(-p)\n")
        document = self.folder / "u.json"
        document.write_text(universe_text(path))
        status, plan, said = self.run_lean(path, "b:on")
        self.assertEqual((status, plan), self.asked("plan", str(document), "b:on"))
        self.assertEqual(said, ["metis: 2 instances, as plan makes; no plan has fewer"])

    def test_what_plan_refuses_is_refused_as_plan_does(self) -> None:
        path = self.sketch("a: off > on(-p)\n")
        document = self.folder / "u.json"
        document.write_text(universe_text(path))
        for targets, lines in ((["a:on"], 2), (["a:no"], 1), (["b:on"], 1)):
            status, text, said = self.run_lean(str(document), *targets)
            self.assertEqual((status, text), self.asked("plan", str(document), *targets))
            self.assertEqual(len(said), lines, said)
            self.assertNotIn("metis-lean", " ".join(said))
        document.write_text('{"aeolus":1,"types":[{}]}')
        self.assertEqual(self.run_lean(str(document), "a:on")[:2], self.asked("plan", str(document), "a:on"))

    def test_drawn_universes_beside_all_ways_there_are(self) -> None:
        answered = 0
        for seed in range(60):
            drawn = tangle(random.Random(seed))
            lean = self.found(self.written(drawn), drawn.targets)
            with self.subTest(seed=seed):
                if lean is None:
                    self.assertIsNone(fewest(drawn, 3))
                    continue
                answered += 1
                least = fewest(drawn, lean.best.made.cost.instances)
                assert least is not None
                self.assertLessEqual(lean.best.made.cost, lean.first.cost)
                self.assertLessEqual(lean.bound.instances, least)
        self.assertGreater(answered, 20)

    def test_services_reach_the_bound(self) -> None:
        for seed in range(4):
            drawn = services(8, 2, random.Random(seed))
            lean = self.found(self.written(drawn), drawn.targets)
            assert lean is not None
            self.assertEqual(lean.best.made.cost.instances, lean.bound.instances, seed)

    def test_the_same_words_give_the_same_plan_however_many_are_tried_at_once(self) -> None:
        drawn = services(10, 3, random.Random(7))
        path = self.written(drawn)
        texts = {lean.best.made.text for lean in (self.found(path, drawn.targets, at_once) for at_once in (1, 3, 8)) if lean}
        self.assertEqual(len(texts), 1)

    def test_no_more_plans_are_tried_than_may_be(self) -> None:
        drawn = services(10, 3, random.Random(7))
        path, tried = self.written(drawn), []
        original = Calls.plan

        def counted(calls: Calls, document: str) -> calls_module.Said:
            tried.append(document)
            return original(calls, document)

        with mock.patch.object(Calls, "plan", counted):
            for most in (1, 2, 5):
                tried.clear()
                lean = self.found(path, drawn.targets, most=most)
                assert lean is not None
                self.assertLessEqual(len(tried), most)
                self.assertLessEqual(lean.best.made.cost, lean.first.cost)

    def test_where_nothing_can_be_won_nothing_is_tried(self) -> None:
        path = str(TOP / "examples" / "wordpress.json")
        text = universe_text(path)
        target = "wordpress:installed"
        with Calls([target]) as calls:
            lean = Leanest(text, path, [target], calls.plan(text).text)
            with mock.patch.object(Calls, "plan", side_effect=AssertionError("a plan was tried")):
                lean.search(calls, DEFAULT_CALLS, lambda _: None)
        self.assertRegex(lean.sentence(), "^[0-9]+ instances, as plan makes; no plan has fewer$")

    def test_what_the_program_does_not_find_good_is_never_printed(self) -> None:
        with Calls(["b:on"]) as calls:
            path = self.sketch("a: off > on(+p)\nb: off > on(-p)\n")
            text = universe_text(path)
            plan = calls.plan(text).text
            calls.check(text, plan)
            for planted in (plan.replace("move 1 off on", "move 1 on off"), plan.replace(" after 3", "")):
                self.assertNotEqual(planted, plan)
                with self.assertRaises(Refused):
                    calls.check(text, planted)

    def test_what_is_left_out_is_said_and_written(self) -> None:
        smaller = self.folder / "smaller.json"
        status, plan, said = self.run_lean(self.sketch(STATES), "App:on", "--left-out", "--universe", str(smaller))
        self.assertEqual(said[1:], ["metis: left out: Db:started sql"])
        self.assertEqual(self.asked("plan", str(smaller), "App:on"), (status, plan))

    def test_refusals_that_anyone_can_check(self) -> None:
        folder = self.folder / "refusals"
        path = self.sketch("Web: off > run(+http)\nBalancer: off > up(-http*2 +site)\nApp: off > on(-site)\n")
        status, _, said = self.run_lean(path, "App:on", "--why", "--refusals", str(folder))
        self.assertEqual(
            (status, sorted(said)),
            (
                0,
                [
                    "metis: 4 instances, as plan makes; no plan has fewer",
                    "metis: at least 1 App: a target names it",
                    "metis: at least 1 Balancer: App:on requires site, which Balancer alone provides",
                    "metis: at least 2 Web: Balancer:up requires 2 of http, which Web alone provides",
                ],
            ),
        )
        self.assertEqual(sorted(each.name for each in folder.iterdir()), ["Balancer.json", "Balancer.refusal", "Web.json", "Web.refusal"])
        for name in ("Balancer", "Web"):
            words = ["refute", str(folder / f"{name}.json"), str(folder / f"{name}.refusal"), "App:on"]
            self.assertEqual(self.asked(*words)[0], 0)

    def test_ended_at_any_moment_it_prints_nothing_or_a_whole_plan(self) -> None:
        drawn = services(16, 3, random.Random(3))
        path, whole = self.written(drawn), 0
        draw = random.Random(5)
        for number in (signal.SIGKILL, signal.SIGTERM, signal.SIGINT) * 4:
            with tempfile.TemporaryFile("w+") as out:
                words = [sys.executable, "-m", "metis_planner", "lean", path, *drawn.targets]
                job = subprocess.Popen(words, cwd=TOP, stdout=out, stderr=subprocess.DEVNULL, env=self.environment)
                time.sleep(draw.random() * 2)
                job.send_signal(number)
                job.wait()
                out.seek(0)
                text = out.read()
            if text:
                whole += 1
                (self.folder / "plan.txt").write_text(text)
                self.assertEqual(self.asked("replay", path, str(self.folder / "plan.txt"), *drawn.targets)[0], 0)

    def test_wrong_words(self) -> None:
        path = self.sketch(STATES)
        for words in (["--calls", "0"], ["--calls", "-3"], ["--calls", "x"]):
            self.assertEqual(self.run_lean(path, "App:on", *words)[0], 2)
        (self.folder / "file").touch()
        status, text, said = self.run_lean(path, "App:on", "--refusals", str(self.folder / "file"))
        self.assertEqual((status, text, said), (1, "", [f"metis: {self.folder / 'file'}: File exists"]))


class BoundTest(unittest.TestCase):
    """What no plan can do without, worked out by hand."""

    def least(self, text: str, *targets: str) -> dict[str, int]:
        with tempfile.TemporaryDirectory() as folder:
            path = pathlib.Path(folder) / "u.sketch"
            path.write_text(text)
            bound = Bound(Universe(universe_text(str(path)), str(path)), targets)
        return {kind: each.count for kind, each in bound.least.items()}

    def test_each_way_goes_through_it(self) -> None:
        # b:2 is passed by each way to b:3, b:1 is not; so a is needed, and c is not.
        text = "a: off > on(+p)\nc: off > on(+q)\nb: off > 1(-q) > 2(-p) > 3, off > 2\n"
        self.assertEqual(self.least(text, "b:3"), {"a": 1, "b": 1})

    def test_of_two_that_provide_none_is_needed(self) -> None:
        self.assertEqual(self.least("a: off > on(+p)\nb: off > on(+p)\nc: off > on(-p)\n", "c:on"), {"c": 1})

    def test_what_all_states_that_provide_it_have_in_common(self) -> None:
        # p comes from d:2 or d:3, both behind d:1, which needs a.
        text = "a: off > on(+q)\nd: off > 1(-q) > 2(+p), 1 > 3(+p)\nb: off > on(-p)\n"
        self.assertEqual(self.least(text, "b:on"), {"a": 1, "b": 1, "d": 1})

    def test_no_instance_provides_to_itself(self) -> None:
        self.assertEqual(self.least("a: off > on(+p) > high(+p -p)\n", "a:high"), {"a": 2})

    def test_targets_that_stand_together(self) -> None:
        # Two a:on and one a:low stand in the end, and c needs three that provide p, of which a:low is none.
        text = "a: off > low > on(+p)\nc: off > on(-p*3)\n"
        self.assertEqual(self.least(text, "a:on", "a:on", "a:low", "c:on"), {"a": 4, "c": 1})

    def test_a_port_that_is_wanted_more_than_once(self) -> None:
        self.assertEqual(self.least("a: off > on(+p)\n", "port:p", "port:p"), {"a": 2})


if __name__ == "__main__":
    unittest.main()
