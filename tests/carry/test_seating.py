"""Placements where some instances stand already: the program's own where none does, and never more on a host than it has room for."""

import dataclasses
import json
import pathlib
import random
import shutil
import subprocess
import tempfile
import unittest

from metis_planner.answers import Refused
from metis_planner.carry.placement import held
from metis_planner.carry.seating import Hosts, placement_text
from metis_planner.carry.steps import steps_of
from metis_planner.text import plans
from metis_planner.text.actions import New
from metis_planner.text.over_plans import read_placement
from tests import real

KINDS = ("a", "b", "c")
UNIVERSE = json.dumps({"aeolus": 1, "types": [{"name": kind, "initial": "on", "states": [{"name": "on"}]} for kind in KINDS]})


def random_list(rng):
    """A list that makes and deletes instances of types that need nothing."""
    lines, there, made = [], [], 0
    for _ in range(rng.randrange(1, 25)):
        if there and rng.random() < 0.4:
            lines.append(f"delete {there.pop(rng.randrange(len(there)))}")
        else:
            lines.append(f"new {made} {rng.choice(KINDS)}")
            there.append(made)
            made += 1
    text = "".join(f"{number} {line}\n" for number, line in enumerate(lines, 1))
    return f"metis plan 1\ninstances {made} actions {len(lines)} dups 0\n{text}end\n"


def random_hosts(rng):
    hosts = "".join(f"host h{each} {rng.randrange(0, 9)}\n" for each in range(rng.randrange(1, 5)))
    sizes = "".join(f"size {kind} {rng.randrange(0, 4)}\n" for kind in KINDS if rng.random() < 0.7)
    return f"metis hosts 1\n{hosts}{sizes}end\n"


class SeatingTest(unittest.TestCase):
    def test_with_nothing_that_stands_it_is_the_programs_own(self):
        top = pathlib.Path(tempfile.mkdtemp())
        self.addCleanup(shutil.rmtree, top)
        program = real.command(top)
        if program is None:
            self.skipTest("there is no program yet: ./metis or rt ci builds it")
        (top / "u.json").write_text(UNIVERSE)
        rng, statuses = random.Random(3), {0: 0, 1: 0}
        for case in range(150):
            plan, hosts = random_list(rng), random_hosts(rng)
            (top / "p").write_text(plan)
            (top / "h").write_text(hosts)
            done = subprocess.run([program, "place", top / "u.json", top / "p", top / "h"], capture_output=True, text=True, check=False)
            statuses[done.returncode] += 1
            try:
                text = placement_text(Hosts.of(hosts), plans.plan_of(plan, "p").actions, {})
            except Refused as refused:
                action = plans.plan_of(plan, "p").actions[int(done.stdout.split(" ")[1]) - 1]
                _, _, _, size, _, free = done.stdout.split()
                self.assertEqual(
                    str(refused),
                    f"no host has room for {action.type}#{action.instance}: its size is {size}, and no host has more than {free} left",
                )
                self.assertEqual(done.returncode, 1)
                continue
            self.assertEqual((done.returncode, done.stdout), (0, text), f"case {case}: {plan}{hosts}")
        self.assertGreater(min(statuses.values()), 20)

    def test_what_stands_stays_and_no_room_is_exceeded_in_any_order(self):
        rng, answered = random.Random(4), 0
        for _ in range(300):
            text, hosts = random_list(rng), Hosts.of(random_hosts(rng))
            plan = plans.plan_of(text, "p")
            made = [action.instance for action in plan.actions if isinstance(action, New)]
            fixed = {each: rng.choice(list(hosts.rooms)) for each in made if rng.random() < 0.4}
            try:
                placement = read_placement(placement_text(hosts, plan.actions, fixed).split("\n")[:-1], plan)
            except Refused:
                continue
            answered += 1
            self.assertEqual({each: placement.host_of[each] for each in fixed}, fixed)
            # The waits of the placement are among those of the steps; each order that keeps them keeps the rooms.
            waits = {step.action.number: step.waits for step in held(placement, steps_of(plan, "p"))}
            kept = plan._replace(actions=tuple(dataclasses.replace(action, after=waits[action.number]) for action in plan.actions))
            for _ in range(5):
                self.check_rooms(hosts, placement.host_of, plans.random_order(kept, rng))
        self.assertGreater(answered, 100)

    def check_rooms(self, hosts, host_of, order):
        load, kind = dict.fromkeys(hosts.rooms, 0), {}
        for action in order:
            kind.setdefault(action.instance, action.type)
            size = hosts.size(kind[action.instance])
            load[host_of[action.instance]] += size if isinstance(action, New) else -size
            self.assertLessEqual(load[host_of[action.instance]], hosts.rooms[host_of[action.instance]])

    def test_what_does_not_fit_any_more_is_named(self):
        plan = plans.plan_of("metis plan 1\ninstances 2 actions 2 dups 0\n1 new 0 a\n2 new 1 b\nend\n", "p").actions
        hosts = Hosts.of("metis hosts 1\nhost x 1\nhost y 2\nsize b 2\nend\n")
        self.assertEqual(placement_text(hosts, plan, {1: "y"}).split("\n")[:2], ["on 0 x", "on 1 y"])
        for fixed, reason in (({1: "x"}, "host x has room for 1, and what stands on it takes 2"), ({0: "z"}, "a#0 stands on host z")):
            with self.assertRaisesRegex(Refused, reason):
                placement_text(hosts, plan, fixed)
        # What is only made on the way to a list of what stands is on no host.
        self.assertEqual(placement_text(hosts, plan, {0: "x"}, {1}).split("\n")[1], "on 1 x")
