#!/usr/bin/env python3
"""Lists of what stands after random histories, and ways on from there over changed descriptions:

    python3 -m trials carry_histories [--metis PROGRAM] [--histories N] [--edits N] [--seed S]

Random universes get random plans, parts of these, rollouts and reconfigurations. Of what stands by then a list is made that has
nothing of what is gone: the program replays it, and it has to leave the same instances by their numbers, in the same states, with
the same bindings. Then the description is edited (a requirement, count or provided port more or less, a state or type gone or
added) and the way on to what is still attained is looked for: the first part loses nothing, the end holds the targets, and what is
kept or changed is there in the state that is meant. Some plans stopped in the middle: what is half made is at its end then, or
why not is counted. Each list is followed by the rules of tests/judge.py, and one in ten is given to the program as well. The last
lines count what came of it; the status is 1 if anything was wrong.
"""

import argparse
import collections
import json
import os
import pathlib
import random
import sys
import tempfile
from collections.abc import Sequence

from metis_planner.answers import Refused
from metis_planner.carry.course import Aim
from metis_planner.carry.evolve import evolved
from metis_planner.carry.folder import Mark, part_of
from metis_planner.carry.forms import CHANGED, SAME
from metis_planner.carry.going_over import compacted
from metis_planner.carry.judging import Judge
from metis_planner.carry.named_wishes import Wishes
from metis_planner.carry.rebase import NoList
from metis_planner.carry.stands import Stands, types_of
from metis_planner.carry.steps import steps_of
from metis_planner.text import plans, wishes
from metis_planner.text.actions import Action, Bind, Move, New, Unbind, line_of
from metis_planner.text.configurations import Configuration, after
from metis_planner.carry.ways import GOING
from tests import judge as rules
from tests import real
from trials.trial import Failed, expect, printed

ALL_WISHES = f"{wishes.HEAD}\nend\n"


def random_universe(rng: random.Random) -> dict:
    """A universe of a few types, whose states need and give what others do, also in circles and with counts."""
    count = rng.randrange(3, 7)
    ports = [f"p{each}" for each in range(rng.randrange(2, 7))]
    types = []
    for each in range(count):
        states: list[dict] = [{"name": "off"}]
        for place in range(rng.randrange(1, 4)):
            states.append({"name": f"s{place}"})
            states[-2].setdefault("next", []).append(f"s{place}")
            if rng.random() < 0.25:
                states[-1].setdefault("next", []).append(states[rng.randrange(place + 1)]["name"])
            for key, chance in (("provide", 0.75), ("require", 0.5)):
                own = sorted(rng.sample(ports, rng.randrange(1, 3))) if rng.random() < chance else []
                states[-1] |= {key: own} if own else {}
            if rng.random() < 0.15 and states[-1].get("require"):
                states[-1]["require"][0] = {"port": states[-1]["require"][0], "count": 2}
        types.append({"name": f"t{each}", "initial": "off", "states": states})
    return {"aeolus": 2, "types": types}


def edited(universe: dict, rng: random.Random) -> dict:
    """The universe with one edit, as somebody makes it who changes a description."""
    found = json.loads(json.dumps(universe))
    kind = rng.choice(found["types"])
    state = rng.choice(kind["states"][1:])
    port = f"p{rng.randrange(6)}"
    edit = rng.randrange(7)
    if edit == 0 and port not in [each if isinstance(each, str) else each["port"] for each in state.get("require", [])]:
        state.setdefault("require", []).append(port)
    elif edit == 1 and state.get("require"):
        state["require"].pop()
    elif edit == 2 and port not in state.get("provide", []):
        state.setdefault("provide", []).append(port)
    elif edit == 3 and state.get("provide"):
        state["provide"].pop()
    elif edit == 4 and state.get("require"):
        last = state["require"].pop()
        name, many = (last, 2) if isinstance(last, str) else (last["port"], last["count"] % 2 + 1)
        state["require"].append({"port": name, "count": many})
    elif edit == 5 and len(found["types"]) > 1:
        found["types"].remove(kind)
    else:
        new = "s9"
        for each in kind["states"]:
            each["name"] = new if each["name"] == state["name"] and each is not state else each["name"]
            each["next"] = [new if one == state["name"] else one for one in each.get("next", [])]
        state["name"] = new
    for each in found["types"]:
        for one in each["states"]:
            for key in ("provide", "require", "next"):
                if one.get(key) == []:
                    del one[key]
    return found


class Referee(Judge):
    """Follows lists by the rules of the tests; the program, which takes longer, is asked of one in ten."""

    asked = 0

    def replayed(self, universe: str, actions: Sequence[Action]) -> str:
        Referee.asked += 1
        found: list[str] = []
        world = rules.World(json.loads(universe))
        try:
            rules.follow(world, (line_of(action) for action in actions), found)
        except (rules.No, KeyError, ValueError) as why:
            raise NoList(f"action {len(found) + 1}: {why}") from why
        made = sum(isinstance(action, New) for action in actions)
        text = "\n".join(["metis plan 1", f"instances {made} actions {len(found)} dups 0", *found, "end", ""])
        if Referee.asked % 10 == 0:
            expect(super().replayed(universe, actions) == text, "the program has other waits")
        return text


class History:
    """What was done over a universe, as a plan that the program goes on from."""

    def __init__(self, judge: Judge, program: str, rng: random.Random) -> None:
        self.judge, self.program, self.rng = judge, program, rng
        self.universe = json.dumps(random_universe(rng)) + "\n"
        self.path = judge.path(self.universe)
        self.types = types_of(self.universe)
        self.plan: plans.Plan | None = None
        self.whole: plans.Plan | None = None

    def pairs(self, types: Sequence) -> list[str]:
        return [f"{kind.name}:{state.name}" for kind in types for state in kind.states[1:]]

    def ask(self, *words: str) -> plans.Plan | None:
        text = printed(self.program, *words)
        return plans.plan_of(text, "a plan") if text.startswith("metis plan 1") else None

    def begin(self) -> bool:
        for _ in range(6):
            targets = self.rng.choices(self.pairs(self.types), k=self.rng.randrange(1, 4))
            self.plan = self.ask("plan", self.path, *targets)
            if self.plan and self.plan.actions:
                return True
        return False

    def part(self) -> None:
        """Only a part of it was done; the rest of the plan is known, as it is in a folder."""
        self.whole = self.plan
        steps = steps_of(self.plan, "a plan")
        kept: set[str] = set()
        share = self.rng.random()
        for step in steps:
            if self.rng.random() < 0.5 + share / 2 and all(steps[each - 1].key in kept for each in step.waits):
                kept.add(step.key)
        self.plan = part_of(steps, kept)

    def change(self) -> None:
        """To other targets, by a rollout or by keeping what serves."""
        path = self.judge.path(written(self.plan))
        targets = self.rng.choices(self.pairs(self.types), k=self.rng.randrange(0, 4))
        there = after(self.plan.actions, self.types)
        lines = [f"{self.rng.choice(('retire', 'rebind'))} {each}" for each in there.instances if self.rng.random() < 0.15]
        wished = self.judge.path("".join(f"{line}\n" for line in (wishes.HEAD, *lines, "end")))
        found = self.ask("rollout", self.path, path, *targets) if self.rng.random() < 0.25 else None
        self.plan = found or self.ask("reconfigure", self.path, path, wished, *targets) or self.plan

    def stands(self) -> Stands:
        done = {step.key for step in steps_of(self.plan, "a plan")}
        steps = steps_of(self.whole or self.plan, "a plan")
        marks = {step.key: Mark(step.line, "", "") for step in steps if step.key in done}
        return Stands(steps, marks, part_of(steps, done), self.types)


def written(plan: plans.Plan) -> str:
    from metis_planner.carry.folder import written as text_of

    return text_of(plan)


def left_by(found: Configuration) -> tuple[dict, set]:
    return {each: (it.type, it.state) for each, it in found.instances.items()}, found.bindings


def list_of(history: History, counts: collections.Counter) -> None:
    """The list of what stands leaves just that, and has nothing of what is gone."""
    stands = history.stands()
    free = max((action.instance for action in stands.done.actions if isinstance(action, New)), default=-1) + 1
    there = after(stands.done.actions, history.types)
    counts["stand"] += len(there.instances)
    made = [action.instance for action in stands.done.actions if isinstance(action, New)]
    counts["gone"] += len(made) - len(there.instances)
    counts["actions before"] += len(stands.done.actions)
    try:
        way = compacted(stands, history.universe, history.judge, free)
    except NoList as why:
        counts["no list"] += 1
        print(f"no list: {why}")
        return
    counts["lists"] += 1
    counts["actions after"] += len(way.plan.actions)
    expect(left_by(after(way.plan.actions, history.types)) == left_by(there), "it leaves something else")
    others = {action.instance for action in way.plan.actions if isinstance(action, New)} - set(there.instances)
    counts["with helpers"] += bool(others)
    expect(all(each >= free for each in others), "what is gone is in it")


def attained(history: History, universe: str, there: Configuration) -> list[str]:
    """Of what stands by a description that which is still attained."""
    path = history.judge.path(universe)
    have = {f"{kind.name}:{state.name}" for kind in types_of(universe) for state in kind.states}
    targets = [f"{it.type}:{it.state}" for it in there.instances.values() if f"{it.type}:{it.state}" in have]
    return [each for each in targets if printed(history.program, "plan", path, each).startswith("metis plan 1")]


def edit_of(history: History, counts: collections.Counter) -> None:
    """The way on to an edited description."""
    stands = history.stands()
    there = after(stands.done.actions, history.types)
    if not there.instances:
        return
    universe = json.dumps(edited(json.loads(history.universe), history.rng)) + "\n"
    # Where the plan stopped, what it was to bring about is asked for still.
    wanted = after(history.whole.actions, history.types) if history.whole else there
    targets = tuple(attained(history, universe, wanted))
    free = max(action.instance for action in stands.done.actions if isinstance(action, New)) + 1
    lines = ("rebind all",) if history.rng.random() < 0.8 else ()
    counts["edits"] += 1
    try:
        found = evolved(stands, Aim(universe, targets, Wishes(lines=lines)), history.judge, free)
    except Refused as refused:
        counts["refused: " + ("users not told" if "is replaced" in str(refused) else "no other provider")] += 1
        return
    except NoList as why:
        counts["edits without a list"] += 1
        print(f"no list: {why}")
        return
    counts["answered"] += 1
    check_edit(found, universe, targets, there)
    if history.whole:
        halves(found, counts)


WHY_LEFT = {
    "asked for": "not needed",
    "any more": "its end is gone",
    "has no way": "no way",
    "it lacks": "what it lacks cannot be had",
    "cannot be attained": "what it lacks cannot be had",
}


def halves(found, counts: collections.Counter) -> None:
    """What is half made is at its end, or why it is not is counted; what goes of it has a reason."""
    end = after(found.last.plan.actions, types_of(found.last.universe)).instances
    for each, half in found.halves.going.items():
        counts["half made, and at its end"] += each in end and end[each].state == half.end
        expect(each in end and end[each].state == half.end or half.is_helper, f"half made {each} is not at its end {half.end}")
    for each, why in found.halves.left.items():
        counts[f"half made, and left: {next((WHY_LEFT[words] for words in WHY_LEFT if words in why), why)}"] += 1
        expect(each in end or each in found.roles[GOING], f"half made {each} is lost")


def check_edit(found, universe, targets, there: Configuration) -> None:
    """The first part loses nothing, the end holds the targets, and what stays is in the state that is meant."""
    types = types_of(universe)
    if found.first:
        made = {action.instance for action in found.first.fresh if isinstance(action, New)} | set(found.halves.going)
        loose = found.halves.loose
        for action in found.first.fresh:
            is_new = isinstance(action, New | Bind) or isinstance(action, Move) and action.instance in made
            is_loose = isinstance(action, Unbind) and (action.port, action.instance, action.provider) in loose
            expect(is_new or is_loose or action.instance in made, f"{action} in a first part")
    end = after(found.last.plan.actions, types_of(found.last.universe))
    have = [f"{it.type}:{it.state}" for it in end.instances.values()]
    for target in targets:
        expect(have.count(target) >= targets.count(target), f"{target} is not there at the end")
    forms = {(kind.name, state.name): state for kind in types for state in kind.states}
    for change in found.changes:
        is_onward = change.instance in found.halves.going
        if change.fate in (SAME, CHANGED) and change.instance in end.instances and not is_onward:
            it = end.instances[change.instance]
            expect((it.type, it.state) == (change.kind, change.meant), f"{change.who} is in {it.state}, and {change.meant} is meant")
            for port, count in forms[it.type, it.state].require.items():
                expect(end.served(change.instance, port) >= count, f"{change.who} lacks {port} at the end")
    kept = {action.instance for action in found.last.plan.actions[: found.last.done] if isinstance(action, New)}
    expect(set(there.instances) <= kept, "an instance is lost in the list of what stands")


def main() -> int:
    parser = argparse.ArgumentParser(description=__doc__, formatter_class=argparse.RawDescriptionHelpFormatter)
    parser.add_argument("--metis", default=str(real.built() or ""))
    parser.add_argument("--histories", type=int, default=3000)
    parser.add_argument("--changes", type=int, default=4)
    parser.add_argument("--edits", type=int, default=1, help="for each history")
    parser.add_argument("--seed", type=int, default=1)
    words = parser.parse_args()
    counts: collections.Counter = collections.Counter()
    with tempfile.TemporaryDirectory(prefix="histories-", dir="/dev/shm" if os.path.isdir("/dev/shm") else None) as name:
        os.environ["METIS_COMMAND"] = str(real.command(pathlib.Path(name)))
        for number in range(words.histories):
            tried(number, words, pathlib.Path(name), counts)
            if number % 20 == 19:
                print(json.dumps(dict(sorted(counts.items()))), flush=True)
    for key, value in sorted(counts.items()):
        print(f"{value:>9}  {key}")
    return 1 if counts["wrong"] else 0


def tried(number: int, words: argparse.Namespace, top: pathlib.Path, counts: collections.Counter) -> None:
    """One history: its list, and ways on from it."""
    history = History(Referee(top), words.metis, random.Random(words.seed * 1_000_003 + number))
    if not history.begin():
        counts["nothing to plan"] += 1
        return
    counts["histories"] += 1
    for _ in range(history.rng.randrange(words.changes + 1)):
        history.change()
    if history.rng.random() < 0.4:
        history.part()
    try:
        list_of(history, counts)
        for _ in range(words.edits):
            edit_of(history, counts)
    except (Failed, AssertionError) as fault:
        counts["wrong"] += 1
        print(f"seed {words.seed}, history {number}: {fault}", flush=True)


if __name__ == "__main__":
    sys.exit(main())
