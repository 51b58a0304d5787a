#!/usr/bin/env python3
"""Looks at plans and rollouts of random universes as the exporters do, and asks the program whether that is right:

    python3 -m trials carry_rollouts [--metis PROGRAM] [--universes N]

The waits of each text have to be those that it was printed with. What is new in a rollout has to end where the
program's own plan for the same targets says, also where old instances are bound in a cycle, so that a scaffold is made.
A rollout has to be recognized without its old plan. Each part of a list that has all that its actions wait for has to
be a plan: the program makes a rollout to nothing of it, and `replay` has to find that nothing stands.
"""

import argparse
import json
import pathlib
import random
import sys
import tempfile


from metis_planner.answers import Refused
from metis_planner.carry import steps
from metis_planner.carry.folder import part_of, written
from metis_planner.carry.rollouts import sign_of_a_rollout, rollout_in
from metis_planner.text import plans
from metis_planner.text.actions import Delete
from trials import trial
from trials.trial import TOP, Failed, expect

PARTS = 3
# Two components that end up bound to each other: each needs in its last state what the other provides.
CYCLIC = {
    "aeolus": 1,
    "types": [
        {
            "name": kind,
            "initial": "off",
            "states": [
                {"name": "off", "next": ["on"]},
                {"name": "on", "provide": [gives], "next": ["full"]},
                {"name": "full", "provide": [gives], "require": [takes]},
            ],
        }
        for kind, gives, takes in (("A", "x", "y"), ("B", "y", "x"))
    ],
}
BOUND_IN_A_CYCLE = [
    *("new 0 A", "move 0 off on", "new 1 B", "move 1 off on", "bind x 1 0", "move 1 on full"),
    *("new 2 A", "move 2 off on", "bind y 2 1", "move 2 on full", "bind x 1 2", "unbind x 1 0", "delete 0"),
]


class Universe:
    """A universe in a file, and what the program says over it."""

    def __init__(self, program: str, document: dict, folder: pathlib.Path) -> None:
        self.program, self.folder, self.document = program, folder, document
        self.path = folder / "universe.json"
        self.path.write_text(json.dumps(document))

    def printed(self, verb: str, *words: object, text: str | None = None) -> str:
        return trial.printed(self.program, verb, self.path, *words, text=text)

    def kept(self, name: str, text: str) -> pathlib.Path:
        path = self.folder / name
        path.write_text(text)
        return path

    def goals(self, draw: random.Random) -> list[str]:
        kinds = draw.choices(self.document["types"], k=draw.randint(1, 4))
        return [f"{kind['name']}:{draw.choice(kind['states'])['name']}" for kind in kinds]


def random_document(draw: random.Random) -> dict:
    ports = [f"p{number}" for number in range(draw.randint(1, 5))]
    types = []
    for kind in range(draw.randint(2, 6)):
        states = []
        count = draw.randint(2, 5)
        for number in range(count):
            onward = [f"s{number + 1}"] if number + 1 < count else []
            if draw.random() < 0.2:
                onward.append(f"s{draw.randrange(count)}")
            provided = draw.sample(ports, min(len(ports), draw.choice([0, 1, 1, 2])))
            required = draw.sample(ports, min(len(ports), draw.choice([0, 0, 1, 2]))) if number else []
            states.append({"name": f"s{number}", "provide": provided, "require": required, "next": onward})
        types.append({"name": f"T{kind}", "initial": "s0", "states": states})
    return {"aeolus": 1, "types": types}


def steps_in(text: str) -> tuple[steps.Step, ...]:
    """The steps of a printed plan, of which the waits are looked at."""
    plan = plans.read(text)
    expect(written(plan) == text, f"it is written otherwise:\n{text}")
    return steps.steps_of(plan, "printed")


def try_rollout(universe: Universe, old: str, goals: list[str]) -> tuple[steps.Step, ...]:
    """A rollout from a plan to these goals, where they can be attained; else the plan."""
    count = len(plans.read(old).actions)
    fresh = universe.printed("plan", *goals)
    if not fresh.startswith("metis plan"):
        return steps_in(old)
    rolled = steps_in(universe.printed("rollout", universe.kept("old.txt", old), *goals))
    found = rollout_in(rolled, count)
    expect(
        found.fresh == count + len(plans.read(fresh).actions),
        f"{found}, and {len(plans.read(fresh).actions)} are fresh:\n{old}",
    )
    expect(sign_of_a_rollout(rolled) is not None, f"it is taken for a plan: {goals}\n{old}")
    return rolled


def random_part(draw: random.Random, whole: tuple[steps.Step, ...]) -> set[str]:
    """The keys of some steps, with all that these wait for."""
    kept: dict[int, str] = {}
    left_out = draw.random() * 0.3
    for step in whole:
        if all(number in kept for number in step.waits) and draw.random() > left_out:
            kept[step.action.number] = step.key
    return set(kept.values())


def try_part(universe: Universe, draw: random.Random, whole: tuple[steps.Step, ...]) -> None:
    part = part_of(whole, random_part(draw, whole))
    back = universe.printed("rollout", universe.kept("part.txt", written(part)))
    expect(back.startswith("metis plan"), f"{back}{written(part)}")
    found = rollout_in(steps_in(back), len(part.actions))
    expect(not found.has_fresh(), f"{found}\n{back}")
    verdict = universe.printed("replay", "-", text=back)
    expect(verdict.startswith("good standing 0 "), f"{verdict}{back}")


def try_universe(program: str, seed: int, folder: pathlib.Path) -> bool:
    """Whether there was a plan."""
    draw = random.Random(seed)
    universe = Universe(program, random_document(draw), folder)
    plan = universe.printed("plan", *universe.goals(draw))
    if not plan.startswith("metis plan"):
        return False
    expect(sign_of_a_rollout(steps_in(plan)) is None, f"a plan is taken for a rollout:\n{plan}")
    whole = try_rollout(universe, plan, universe.goals(draw))
    for _ in range(PARTS):
        try_part(universe, draw, whole)
    return True


def try_cycle(program: str, folder: pathlib.Path) -> None:
    universe = Universe(program, CYCLIC, folder)
    rolled = try_rollout(universe, trial.plan_text(BOUND_IN_A_CYCLE), ["A:full"])
    scaffold = [step for step in rolled[len(BOUND_IN_A_CYCLE) :] if isinstance(step.action, Delete)]
    expect(len(scaffold) > 2, "no scaffold was made")


def main() -> int:
    parser = argparse.ArgumentParser(description=__doc__, formatter_class=argparse.RawDescriptionHelpFormatter)
    parser.add_argument("--metis", default=str(TOP / "metis"), metavar="PROGRAM")
    parser.add_argument("--universes", type=int, default=1000, metavar="N")
    arguments = parser.parse_args()
    plans, seed = 0, "of the cycle"
    with tempfile.TemporaryDirectory() as folder:
        try:
            try_cycle(arguments.metis, pathlib.Path(folder))
            for seed in range(arguments.universes):
                plans += try_universe(arguments.metis, seed, pathlib.Path(folder))
        except (Failed, Refused, plans.NoText) as fault:
            print(f"universe {seed}: {fault}")
            return 1
    counted = f"{plans} plans and rollouts, and {PARTS * plans} parts of them"
    print(f"{arguments.universes} universes: {counted}, are what they are taken for")
    return 0


if __name__ == "__main__":
    sys.exit(main())
