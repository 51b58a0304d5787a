#!/usr/bin/env python3
"""Tries `reconfigure` of the built program on random cases: python3 tools/try_reconfigure.py [PROGRAM [SEED [CASES]]]

A case is a universe, a plan that leaves something, other targets, and wishes, all of them drawn. What is printed is compared with what
is outside of `reconfigure`: from the empty plan and without wishes its actions are those of `plan`; where each instance is retired, they
are those of `rollout`; where `plan` refuses the targets, it refuses them in the same words. Each list is a run by `replay`, with the
targets at its end. And its actions are read here: they begin with those of the plan; what stood makes no move, and stays where a wish
says so; what has to leave is gone; until the first unbinding or deletion of what stood, that does nothing but be bound anew, and after
it nothing that stays is made, moved or bound; and what is there at the end serves a target or a wish, or something that does. From
there the same targets make nothing anew.

The last line counts the cases. The status is 1 if one is otherwise than it has to be, or if too few of some kind were drawn.
"""

import collections
import json
import pathlib
import random
import subprocess
import sys
import tempfile
from collections.abc import Iterator
from dataclasses import dataclass, field

TOP = pathlib.Path(__file__).resolve().parent.parent
SEED, CASES = 20261201, 1_000
# Longer than any machine needs: it only ends what would never end.
DEADLINE = 600
NO_WISHES = "metis wishes 1\nend\n"
EMPTY = "metis plan 1\ninstances 0 actions 0 dups 0\nend\n"
VERDICTS = ("absent", "kept", "unavoidable", "unmet", "needs")
# How many of a hundred cases have to come to each kind of answer, lest nothing be tried.
FEWEST = {"lists": 40, "made": 10, "kept something": 15, "removed something": 15, "bound anew": 1, "refused wishes": 3}


class Otherwise(Exception):
    """That something is otherwise than it has to be."""


def expect(is_so: object, what: str) -> None:
    if not is_so:
        raise Otherwise(what)


# ---- what is drawn


def drawn_universe(draw: random.Random) -> dict:
    ports = [f"p{number}" for number in range(draw.randint(1, 4))]
    types = []
    for kind in range(draw.randint(2, 5)):
        count = draw.randint(2, 4)
        states = []
        for number in range(count):
            onward = [f"s{number + 1}"] if number + 1 < count else []
            onward += [f"s{draw.randrange(count)}"] if draw.random() < 0.15 else []
            provided = draw.sample(ports, min(len(ports), draw.choice([0, 1, 1, 2])))
            required = draw.sample(ports, min(len(ports), draw.choice([0, 1, 1, 2]))) if number else []
            entries = [{"port": port, "count": draw.randint(2, 3)} if draw.random() < 0.25 else port for port in required]
            states.append({"name": f"s{number}", "provide": provided, "require": entries, "next": sorted(set(onward))})
        types.append({"name": f"T{kind}", "initial": "s0", "states": states})
    return {"aeolus": 2, "types": types}


def drawn_targets(draw: random.Random, universe: dict) -> list[str]:
    pairs = [f"{kind['name']}:{state['name']}" for kind in universe["types"] for state in kind["states"][1:]]
    ports = sorted({port for kind in universe["types"] for state in kind["states"] for port in state["provide"]})
    return [draw.choice(pairs) if draw.random() < 0.8 or not ports else f"port:{draw.choice(ports)}" for _ in range(draw.randint(1, 4))]


def drawn_wishes(draw: random.Random, universe: dict, there: "Configuration") -> list[str]:
    """Each instance that stands has at most one line; now and then a line is about one that does not stand."""
    lines = []
    for instance in there.pair_of:
        verb = draw.choice(["", "", "", "keep", "rebind", "retire"])
        lines += [f"{verb} {instance}"] if verb else []
    pairs = [f"{kind['name']}:{state['name']}" for kind in universe["types"] for state in kind["states"]]
    lines += draw.sample([*pairs, *(kind["name"] for kind in universe["types"])], 1) if draw.random() < 0.3 else []
    lines = [line if " " in line else f"avoid {line}" for line in lines]
    lines += ["keep all"] if draw.random() < 0.15 else []
    lines += [f"keep {max(there.pair_of, default=0) + 9}"] if draw.random() < 0.04 else []
    draw.shuffle(lines)
    return lines


# ---- what is read


@dataclass(frozen=True)
class Action:
    verb: str
    words: tuple[str, ...]

    @property
    def instance(self) -> int:
        """Who acts: of a binding the one that takes."""
        return int(self.words[1] if self.verb in ("bind", "unbind") else self.words[0])


def lines_of(text: str) -> list[str]:
    """The lines of the actions of a plan's text, as they stand there."""
    expect(text.startswith("metis plan 1\n") and text.endswith("\nend\n"), f"no plan: {text[:80]!r}")
    return [line for line in text.split("\n")[2:-2] if not line.startswith("dup ")]


def actions_of(lines: list[str]) -> list[Action]:
    found = (line.partition(" after ")[0].split(" ")[1:] for line in lines)
    return [Action(verb, tuple(words)) for verb, *words in found]


@dataclass
class Configuration:
    """What stands: the pair of each instance, and the bindings (port, who takes, from whom)."""

    universe: dict
    pair_of: dict[int, str] = field(default_factory=dict)
    bindings: set[tuple[str, int, int]] = field(default_factory=set)

    def __post_init__(self) -> None:
        states = [(kind, state) for kind in self.universe["types"] for state in kind["states"]]
        self.initial = {kind["name"]: f"{kind['name']}:{kind['initial']}" for kind in self.universe["types"]}
        self.provided = {f"{kind['name']}:{state['name']}": set(state["provide"]) for kind, state in states}
        self.required = {f"{kind['name']}:{state['name']}": counts_of(state["require"]) for kind, state in states}

    def after(self, actions: list[Action]) -> "Configuration":
        found = Configuration(self.universe, dict(self.pair_of), set(self.bindings))
        for action in actions:
            found.do(action)
        return found

    def do(self, action: Action) -> None:
        instance = action.instance
        if action.verb == "new":
            self.pair_of[instance] = self.initial[action.words[1]]
        elif action.verb == "move":
            self.pair_of[instance] = f"{self.pair_of[instance].partition(':')[0]}:{action.words[2]}"
        elif action.verb == "delete":
            del self.pair_of[instance]
            self.bindings = {each for each in self.bindings if instance not in each[1:]}
        else:
            binding = (action.words[0], instance, int(action.words[2]))
            (self.bindings.add if action.verb == "bind" else self.bindings.discard)(binding)

    def stands_on(self, instance: int) -> set[int]:
        """The instances that it takes a port from which its pair requires."""
        required = self.required[self.pair_of[instance]]
        return {other for port, own, other in self.bindings if own == instance and port in required}

    def serves(self, instance: int, target: str) -> bool:
        kind, _, name = target.partition(":")
        pair = self.pair_of[instance]
        return name in self.provided[pair] if kind == "port" else pair == target


def counts_of(entries: list) -> dict[str, int]:
    return {each["port"]: each["count"] for each in entries if isinstance(each, dict)} | {each: 1 for each in entries if isinstance(each, str)}


class Wishes:
    """The lines of a text of wishes, and what leaves by them."""

    def __init__(self, lines: list[str], there: Configuration) -> None:
        words = [line.split(" ") for line in lines]
        self.text = "".join(f"{line}\n" for line in ("metis wishes 1", *lines, "end"))
        self.named = [int(word) for verb, word in words if verb != "avoid" and word != "all"]
        self.stay = [int(word) for verb, word in words if verb in ("keep", "rebind") and word != "all"]
        self.rebind = {int(word) for verb, word in words if verb == "rebind"}
        self.keeps_all = ["keep", "all"] in words
        avoided = {word for verb, word in words if verb == "avoid"}
        retired = {int(word) for verb, word in words if verb == "retire"}
        self.avoids = bool(avoided)
        self.roots = {z for z, pair in there.pair_of.items() if z in retired or pair in avoided or pair.partition(":")[0] in avoided}
        self.leaving = set(self.roots)
        while more := {z for z in there.pair_of if z not in self.rebind and there.stands_on(z) & self.leaving} - self.leaving:
            self.leaving |= more


# ---- the program


class Program:
    def __init__(self, path: str, folder: pathlib.Path) -> None:
        self.path, self.folder = path, folder

    def file(self, name: str, text: str) -> str:
        (self.folder / name).write_text(text)
        return name

    def answer(self, *words: str) -> tuple[str, int]:
        done = subprocess.run(
            [self.path, *words], cwd=self.folder, stdin=subprocess.DEVNULL, stdout=subprocess.PIPE, timeout=DEADLINE, check=False
        )
        return done.stdout.decode(), done.returncode

    def reconfigured(self, old: str, wishes: str, targets: list[str]) -> tuple[str, int]:
        return self.answer("reconfigure", "u.json", self.file("old.txt", old), self.file("wishes.txt", wishes), *targets)


@dataclass
class Case:
    """A universe in the folder of the program, the plan of what stands, the configuration that it leaves, and other targets."""

    program: Program
    universe: dict
    old: str
    targets: list[str]

    def __post_init__(self) -> None:
        self.lines = lines_of(self.old)
        self.there = Configuration(self.universe).after(actions_of(self.lines))


def text_of(lines: list[str]) -> str:
    made = sum(line.split(" ")[1] == "new" for line in lines)
    return "\n".join(["metis plan 1", f"instances {made} actions {len(lines)} dups 0", *lines, "end", ""])


def drawn_old(draw: random.Random, program: Program, universe: dict) -> str:
    """A plan for some targets, or a beginning of it; now and then one that goes on from such a one."""
    text, status = program.answer("plan", "u.json", *drawn_targets(draw, universe))
    if status != 0:
        return EMPTY
    lines = lines_of(text)
    if draw.random() < 0.35:
        lines = lines[: draw.randint(0, len(lines))]
    old = text_of(lines)
    if draw.random() < 0.4:
        further, status = program.reconfigured(old, NO_WISHES, drawn_targets(draw, universe))
        old = further if status == 0 else old
    return old


# ---- what has to be


def try_against_plan(case: Case) -> None:
    """From nothing and without wishes it is `plan`, but for the dups."""
    plan, status = case.program.answer("plan", "u.json", *case.targets)
    own, own_status = case.program.reconfigured(EMPTY, NO_WISHES, case.targets)
    expect(own_status == status, f"from nothing: status {own_status}, and plan ends with {status}")
    if status == 0:
        expect(lines_of(own) == lines_of(plan), "from nothing: other actions than those of plan")
        expect(own.split("\n")[1].endswith(" dups 0"), "from nothing: dups")
    else:
        expect(own == plan, "from nothing: another refusal than that of plan")


def try_against_rollout(case: Case) -> None:
    """Where all that stands is retired, it is `rollout`."""
    rollout, status = case.program.answer("rollout", "u.json", case.program.file("old.txt", case.old), *case.targets)
    lines = [f"retire {instance}" for instance in case.there.pair_of]
    own, own_status = case.program.reconfigured(case.old, Wishes(lines, case.there).text, case.targets)
    expect(own_status == status, f"all retired: status {own_status}, and rollout ends with {status}")
    same = lines_of(own) == lines_of(rollout) if status == 0 else own == rollout
    expect(same, "all retired: another answer than that of rollout")


def try_with(case: Case, lines: list[str]) -> collections.Counter:
    """The answer to wishes, read as it has to be; and what there was in it."""
    wishes = Wishes(lines, case.there)
    text, status = case.program.reconfigured(case.old, wishes.text, case.targets)
    plan, of_plan = case.program.answer("plan", "u.json", *case.targets)
    if of_plan != 0:
        expect((text, status) == (plan, of_plan), "another refusal than that of plan")
        return collections.Counter(["refused targets"])
    if status != 0:
        check_refusal(text, status, wishes, case.there)
        return collections.Counter(["refused wishes"])
    check_wishes_can_be_met(wishes, case.there)
    found = lines_of(text)
    expect(found[: len(case.lines)] == case.lines, "it does not begin with the actions of the plan")
    more = actions_of(found[len(case.lines) :])
    end = case.there.after(more)
    verdict, status = case.program.answer("replay", "u.json", case.program.file("all.txt", text), *case.targets)
    good = f"good standing {len(end.pair_of)} actions {len(found)}\n"
    expect((verdict, status) == (good, 0), f"replay says {verdict!r}, and {good!r} is due")
    check_what_stood(wishes, case, more, end)
    check_the_new(wishes, case, more)
    check_tidy(wishes, case, end)
    try_again(case, text, end)
    return kinds_of(case.there, more, end)


def check_refusal(text: str, status: int, wishes: Wishes, there: Configuration) -> None:
    """A refusal by wishes: the first that is due of those that can be told from the wishes alone, or one that only `avoid` brings."""
    expect(status == 1 and text.count("\n") == 1, f"status {status}: {text[:80]!r}")
    verb, *words = text.split()
    expect(verb in VERDICTS, f"{text!r}")
    absent = next((z for z in wishes.named if z not in there.pair_of), None)
    if absent is not None:
        expect(text == f"absent {absent}\n", f"{text!r}, and {absent} does not stand")
        return
    leaving = next((z for z in wishes.stay if z in wishes.leaving), None)
    if leaving is not None:
        expect(verb == "kept" and int(words[0]) == leaving and int(words[2]) in wishes.roots, f"{text!r}, and {leaving} leaves")
        return
    expect(verb in ("unavoidable", "unmet") and wishes.avoids, f"{text!r}, and nothing is avoided or named in vain")


def check_wishes_can_be_met(wishes: Wishes, there: Configuration) -> None:
    expect(all(z in there.pair_of for z in wishes.named), "a list, though a wish names what does not stand")
    expect(not wishes.leaving.intersection(wishes.stay), "a list, though a wish is for what leaves")


def check_what_stood(wishes: Wishes, case: Case, more: list[Action], end: Configuration) -> None:
    """What stood moves no more, goes if it has to, and stays if it is wished; until the removal it is at most bound anew."""
    there = case.there.pair_of
    border = next((k for k, it in enumerate(more) if it.verb in ("unbind", "delete") and it.instance in there), len(more))
    for place, action in enumerate(more):
        if action.instance in there:
            expect(action.verb not in ("new", "move"), f"{action} of what stood")
            fits = place >= border or action.verb == "bind" and action.instance in wishes.rebind
            expect(fits or is_held_up(more, border, action), f"{action} before the removal, of what nobody lets be bound anew")
    for action in more[border:]:
        is_of_the_removal = action.verb in ("unbind", "delete") or action.instance not in end.pair_of
        expect(is_of_the_removal, f"{action} of what stays, after something has gone")
    stay = {*wishes.stay, *(set(there) - wishes.leaving if wishes.keeps_all else ())}
    for instance in stay:
        expect(end.pair_of.get(instance) == there[instance], f"{instance} was to stay in {there[instance]}")
    expect(not wishes.leaving & end.pair_of.keys(), "what leaves is there at the end")


def is_held_up(more: list[Action], border: int, action: Action) -> bool:
    """Whether a binding is one to a scaffold, which only holds up what goes: it is deleted in the removal, and so is who takes."""
    gone = {it.instance for it in more[border:] if it.verb == "delete"}
    return action.verb == "bind" and action.instance in gone and int(action.words[2]) in gone


def check_the_new(wishes: Wishes, case: Case, more: list[Action]) -> None:
    """No number is used again, nothing is bound to what leaves, and nothing is made where all is there."""
    used = {it.instance for it in actions_of(case.lines) if it.verb == "new"}
    made = [it.instance for it in more if it.verb == "new"]
    expect(not used.intersection(made) and len(set(made)) == len(made), "a number of an instance is used again")
    gone = {it.instance for it in more if it.verb == "delete"}
    for action in more:
        to = int(action.words[2]) if action.verb == "bind" else -1
        expect(to not in wishes.leaving or action.instance in gone, f"{action} to what leaves")
    settled = [z for z in case.there.pair_of if z not in wishes.leaving]
    wanted = collections.Counter(case.targets)
    is_there = all(sum(case.there.serves(z, target) for z in settled) >= count for target, count in wanted.items())
    if is_there and not wishes.leaving:
        fresh = [it for it in more if it.verb in ("new", "bind") and it.instance not in gone]
        expect(not fresh, f"{fresh[:1]}, though all is there and stays")


def check_tidy(wishes: Wishes, case: Case, end: Configuration) -> None:
    """At the end each instance is wished, serves a target, was made to be bound anew to, or is one that such a one stands on."""
    new = set(end.pair_of) - set(case.there.pair_of)
    rebound = {other for _, own, other in end.bindings if own in wishes.rebind and other in new}
    first = {z for z in end.pair_of if any(end.serves(z, target) for target in case.targets)} | rebound
    reached = first | {z for z in end.pair_of if z in wishes.stay or wishes.keeps_all and z not in new}
    queue = sorted(reached)
    for instance in queue:
        more = end.stands_on(instance) - reached
        reached |= more
        queue += sorted(more)
    expect(reached == set(end.pair_of), f"{sorted(set(end.pair_of) - reached)} serve nothing at the end")
    for port, own, _ in end.bindings:
        expect(port in end.required[end.pair_of[own]], f"{own} is bound at {port} at the end, which it does not require")
    users = {other for _, _, other in end.bindings}
    alone = sum(z in new and z not in users for z in first)
    expect(alone <= len(case.targets), f"{alone} are new and used by nobody, and there are {len(case.targets)} targets")


def try_again(case: Case, text: str, end: Configuration) -> None:
    """From the end the same targets, without wishes, make nothing that stays, and bind nothing that was there anew."""
    again, status = case.program.reconfigured(text, NO_WISHES, case.targets)
    expect(status == 0, f"once more: status {status}")
    found, before = lines_of(again), lines_of(text)
    expect(found[: len(before)] == before, "once more: it does not begin with the actions of the plan")
    last = end.after(actions_of(found[len(before) :]))
    expect(last.pair_of.keys() <= end.pair_of.keys(), "once more: something is made anew")
    expect(last.bindings <= end.bindings, "once more: something is bound anew")


def kinds_of(there: Configuration, more: list[Action], end: Configuration) -> collections.Counter:
    kept = there.pair_of.keys() & end.pair_of.keys()
    kinds = {
        "lists": True,
        "made": end.pair_of.keys() - there.pair_of.keys(),
        "kept something": kept,
        "removed something": there.pair_of.keys() - end.pair_of.keys(),
        "bound anew": any(it.verb == "bind" and it.instance in kept for it in more),
    }
    return collections.Counter(name for name, is_so in kinds.items() if is_so)


def try_case(program: Program, seed: str) -> collections.Counter:
    draw = random.Random(seed)
    universe = drawn_universe(draw)
    program.file("u.json", json.dumps(universe))
    case = Case(program, universe, drawn_old(draw, program, universe), drawn_targets(draw, universe))
    try_against_plan(case)
    try_against_rollout(case)
    return try_with(case, drawn_wishes(draw, universe, case.there) if draw.random() < 0.75 else [])


def lacking(counts: collections.Counter, cases: int) -> Iterator[str]:
    """The kinds of which so few were drawn that they are hardly tried."""
    for name, fewest in FEWEST.items():
        if counts[name] * 100 < fewest * cases:
            yield f"only {counts[name]} cases of {cases}: {name}"


def main(words: list[str]) -> int:
    program = words[0] if words else str(TOP / "crates" / "metis" / "out" / "metis")
    seed, cases = (int(words[place]) if len(words) > place else default for place, default in ((1, SEED), (2, CASES)))
    counts: collections.Counter = collections.Counter()
    otherwise = 0
    with tempfile.TemporaryDirectory() as folder:
        for number in range(cases):
            try:
                counts += try_case(Program(str(pathlib.Path(program).resolve()), pathlib.Path(folder)), f"{seed} {number}")
            except (Otherwise, ValueError, KeyError, IndexError) as fault:
                otherwise += 1
                print(f"case {number} of seed {seed}: {fault!r}", file=sys.stderr)
    too_few = list(lacking(counts, cases)) if cases >= CASES and not otherwise else []
    print(", ".join(f"{name} {count}" for name, count in sorted(counts.items())))
    for line in too_few:
        print(line, file=sys.stderr)
    print(f"{cases} cases, {otherwise} otherwise than they have to be")
    return 1 if otherwise or too_few else 0


if __name__ == "__main__":
    sys.exit(main(sys.argv[1:]))
