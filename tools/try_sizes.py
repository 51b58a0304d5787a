#!/usr/bin/env python3
"""Tries the built program over plans of up to four million actions: python3 tools/try_sizes.py [PROGRAM]

No contract says that memory suffices, so a program that gives up past some size keeps all of them. Most cases run one command over
the plan of the tower of 31 types, or over a script as long as one may be, and compare every line of the answer with what this file
works out from the actions, by the rules of docs/dev/MODEL.md and docs/FORMATS.md. Some universes are as large as they may be: plans of
1,922 and 1,966 dups, of 16,513 instances, and of a graph with more than five million edges; a document of 4.1 MB in one line; and an
explanation of 1,968 lines. The last line counts the cases.
"""

import collections
import json
import pathlib
import random
import subprocess
import sys
import tempfile
from collections.abc import Iterator
from dataclasses import dataclass

TOP = pathlib.Path(__file__).resolve().parent.parent
DATA = TOP / "crates" / "metis_transcripts" / "data"
UNIVERSE = str(DATA / "tower-of-31.json")
DURATIONS = {"new": 5, "delete": 3, "bind": 2, "unbind": 1, "move": 7}
# As long as a script may be; and as many turns as make the case some seconds long.
SCRIPT_BYTES = 65_536
TURNS = 500_000
SEED = 20261129
# Longer than any machine needs: it only ends what would never end.
DEADLINE = 3_600


@dataclass(frozen=True)
class Action:
    verb: str
    instance: int
    name: str
    waits: tuple[int, ...]


@dataclass(frozen=True)
class Answer:
    status: int
    lines: list[str]


# A case: its name, what was printed, what has to be, and the status.
Case = tuple[str, list[str], list[str], int]


class Program:
    def __init__(self, path: str, folder: str) -> None:
        self.path, self.folder = path, pathlib.Path(folder)

    def file(self, name: str, text: str) -> str:
        path = self.folder / name
        path.write_text(text)
        return str(path)

    def into(self, name: str, *words: str) -> tuple[str, int]:
        """The file that the answer goes into, which is too large to be held, and the status."""
        path = self.folder / name
        with open(path, "wb") as file:
            done = subprocess.run([self.path, *words], stdin=subprocess.DEVNULL, stdout=file, timeout=DEADLINE)
        return str(path), done.returncode

    def answer(self, *words: str) -> Answer:
        done = subprocess.run([self.path, *words], stdin=subprocess.DEVNULL, stdout=subprocess.PIPE, timeout=DEADLINE)
        return Answer(done.returncode, done.stdout.decode().splitlines())


def actions_of(lines: list[str]) -> list[Action]:
    """The actions of a plan's text. Each waits for what stands behind `after`, and for the one before it of its own instance."""
    actions: list[Action] = []
    last: dict[int, int] = {}
    for number, line in enumerate((it for it in lines[2:-1] if not it.startswith("dup ")), start=1):
        said, _, after = line.partition(" after ")
        _, verb, *words = said.split(" ")
        instance = int(words[1] if verb in ("bind", "unbind") else words[0])
        own = (last[instance],) if instance in last else ()
        actions.append(Action(verb, instance, words[-1], own + tuple(map(int, after.split()))))
        last[instance] = number
    return actions


# ---- universes


def tower(sizes: list[int]) -> dict:
    """Types of so many states each. All but the last state provide a port, and the second state of the next type requires them all."""
    types, below = [], []
    for k, size in enumerate(sizes):
        states = [{"name": f"s{j}", "provide": [f"p{k}.{j}"], "next": [f"s{j + 1}"]} for j in range(size - 1)]
        states[1]["require"] = below
        types.append({"name": f"t{k}", "initial": "s0", "states": [*states, {"name": f"s{size - 1}"}]})
        below = [f"p{k}.{j}" for j in range(size - 1)]
    return {"aeolus": 1, "types": types}


def serving_tower(sizes: list[int]) -> dict:
    """The same, but each last state provides a port too, and the next type requires that as well."""
    types, below = [], []
    for k, size in enumerate(sizes):
        states = [{"name": f"s{j}", "provide": [f"p{k}.{j}"], "next": [f"s{j + 1}"][: size - 1 - j]} for j in range(size)]
        states[1]["require"] = below
        types.append({"name": f"t{k}", "initial": "s0", "states": states})
        below = [f"p{k}.{j}" for j in range(size)]
    return {"aeolus": 1, "types": types}


def ring(sizes: list[int]) -> dict:
    """Types of so many states each. The second state of each requires what the last state of the next type provides, and so around."""
    types = []
    for k, size in enumerate(sizes):
        states: list[dict] = [{"name": f"s{j}", "next": [f"s{j + 1}"]} for j in range(size - 1)]
        states.append({"name": f"s{size - 1}", "provide": [f"p{k}"]})
        states[1]["require"] = [f"p{(k + 1) % len(sizes)}"]
        types.append({"name": f"t{k}", "initial": "s0", "states": states})
    return {"aeolus": 1, "types": types}


def long_document() -> str:
    """The canonical text of a universe, nearly as long as a document may be: 500 types of four states, of which each provides 28 ports,
    some of them those of the state before it. All names have 54 bytes or more."""
    long = "x" * 50
    names = [[f"{long}_{kind:03}_{state}" for state in range(4)] for kind in range(500)]
    firsts = iter(at * 198 // 100 for at in range(2_000))
    types = [
        {
            "initial": own[0],
            "name": f"{long}_{kind:03}",
            "states": [
                {"name": name, "next": own[at + 1 : at + 2], "provide": [f"{long}_{port:04}".ljust(64, "y") for port in range(first, first + 28)], "require": []}
                for (at, name), first in zip(enumerate(own), firsts)
            ],
        }
        for kind, own in enumerate(names)
    ]
    return json.dumps({"aeolus": 1, "types": types}, separators=(",", ":"))


def slots(count: int, before: int, serving: int) -> dict:
    """Types with so many states before those that provide a port each, of which the first requires 16 providers of each port below."""
    types, below = [], []
    for k in range(count):
        names = [f"b{j}" for j in range(before)] + [f"s{j}" for j in range(serving)]
        states = [{"name": name, "next": names[at + 1 : at + 2]} for at, name in enumerate(names)]
        states[before]["require"] = [{"port": port, "count": 16} for port in below]
        below = [f"p{k}.{j}" for j in range(serving)]
        for state, port in zip(states[before:], below):
            state["provide"] = [port]
        types.append({"name": f"t{k}", "initial": names[0], "states": states})
    return {"aeolus": 2, "types": types}


# ---- what has to be answered


def wave_lines(actions: list[Action], printed: list[str]) -> Iterator[str]:
    """The earliest and the latest starts; of the chain, which is a choice, what makes it one."""
    takes = [DURATIONS[action.verb] for action in actions]
    start = [0] * len(actions)
    for k, action in enumerate(actions):
        start[k] = max((start[m - 1] + takes[m - 1] for m in action.waits), default=0)
    finish = max(map(int.__add__, start, takes), default=0)
    end = [finish] * len(actions)
    for k in range(len(actions) - 1, -1, -1):
        for m in actions[k].waits:
            end[m - 1] = min(end[m - 1], end[k] - takes[k])
    for k in range(len(actions)):
        yield f"{k + 1} at {start[k]} to {end[k] - takes[k]}"
    yield f"finish {finish}"
    chain = list(map(int, printed[-1].split()[1:]))
    links = all(m in actions[k - 1].waits and start[k - 1] == start[m - 1] + takes[m - 1] for m, k in zip(chain, chain[1:]))
    holds = links and start[chain[0] - 1] == 0 and sum(takes[k - 1] for k in chain) == finish
    yield printed[-1] if holds else "a chain of actions that takes all the time"


def crew_lines(actions: list[Action], turns: list[int]) -> Iterator[str]:
    own: dict[int, list[int]] = {}
    for number, action in enumerate(actions, start=1):
        own.setdefault(action.instance, []).append(number)
    done = [False] * (len(actions) + 1)
    at = dict.fromkeys(own, 0)
    for turn in turns:
        if turn not in own:
            yield "nobody"
        elif at[turn] == len(own[turn]):
            yield "done"
        else:
            next_own = own[turn][at[turn]]
            waiting = min((m for m in actions[next_own - 1].waits if not done[m]), default=0)
            if not waiting:
                done[next_own] = True
                at[turn] += 1
            yield f"waits {next_own} {waiting}" if waiting else f"did {next_own}"
    yield f"progress {sum(done)} of {len(actions)}"


def place_lines(actions: list[Action], hosts: list[tuple[str, int]]) -> Iterator[str]:
    """First fit for instances of size 1, and the further waits of each New."""
    load, made = [0] * len(hosts), [0] * len(hosts)
    deletes: list[list[int]] = [[] for _ in hosts]
    where: dict[int, int] = {}
    held = []
    for number, action in enumerate(actions, start=1):
        if action.verb == "new":
            host = next(k for k, (_, room) in enumerate(hosts) if load[k] < room)
            where[action.instance] = host
            load[host] += 1
            made[host] += 1
            too_many = made[host] - hosts[host][1]
            if too_many > 0:
                held.append(f"hold {number} after " + " ".join(map(str, deletes[host][:too_many])))
            yield f"on {action.instance} {hosts[host][0]}"
        elif action.verb == "delete":
            load[where[action.instance]] -= 1
            deletes[where[action.instance]].append(number)
    yield from held
    yield f"placed {len(where)} hosts {len(hosts)}"


def control_case(actions: list[Action]) -> tuple[str, list[str]]:
    """Each action is ordered, done and acknowledged in turn, as long as the script has room."""
    script, answers = "", []
    count = 0
    while True:
        k = count + 1
        more = f"order {k}\ndeliver {2 * k - 1}\ndeliver {2 * k}\n"
        if len(script) + len(more) > SCRIPT_BYTES:
            break
        script += more
        answers += [f"sent {2 * k - 1}", f"executed {k} sent {2 * k}", f"noted {k}"]
        count = k
    answers.append(" ".join(["ran", *map(str, range(1, count + 1))]))
    answers.append(f"executed {count} of {len(actions)} acknowledged {count}")
    return script, answers


def session_case() -> tuple[str, list[str]]:
    """As many instances as the script has room for are made, and each is taken back."""
    count = 3_000
    script = "".join(f"new {z} t0\n" for z in range(count)) + "undo\n" * count + "undo\nshow\n"
    assert len(script) <= SCRIPT_BYTES
    return script, ["ok"] * count + ["undone"] * count + ["nothing", "instances 0 bindings 0"]


# ---- the cases


def cases(program: Program) -> Iterator[Case]:
    targets = [f"t{k}:s63" for k in range(31)]
    plan = program.answer("plan", UNIVERSE, *targets)
    path = program.file("plan.txt", "\n".join(plan.lines) + "\n")
    actions = actions_of(plan.lines)
    news = sum(action.verb == "new" for action in actions)
    yield "plan", plan.lines[:2], ["metis plan 1", f"instances {news} actions 504930 dups 1830"], plan.status

    replay = program.answer("replay", UNIVERSE, path, *targets)
    standing = news - sum(action.verb == "delete" for action in actions)
    yield "replay", replay.lines, [f"good standing {standing} actions {len(actions)}"], replay.status

    waves = program.answer("waves", UNIVERSE, path, *(str(DURATIONS[it]) for it in ("new", "delete", "bind", "unbind", "move")))
    yield "waves", waves.lines, list(wave_lines(actions, waves.lines)), waves.status

    drawn = random.Random(SEED)
    ahead = [action.instance for action in actions[:TURNS]]
    for turns in (ahead, [drawn.choice(ahead) for _ in range(TURNS)]):
        crew = program.answer("crew", UNIVERSE, path, program.file("turns", " ".join(map(str, turns))))
        yield "crew", crew.lines, list(crew_lines(actions, turns)), crew.status

    live = most = 0
    for action in actions:
        live += {"new": 1, "delete": -1}.get(action.verb, 0)
        most = max(most, live)
    hosts = [("one", most // 3), ("two", most // 3), ("three", most - 2 * (most // 3))]
    text = "metis hosts 1\n" + "".join(f"host {name} {room}\n" for name, room in hosts) + "end\n"
    place = program.answer("place", UNIVERSE, path, program.file("hosts", text))
    yield "place", place.lines, list(place_lines(actions, hosts)), place.status

    script, answers = control_case(actions)
    control = program.answer("control", UNIVERSE, path, program.file("script", script))
    yield "control", control.lines, answers, control.status

    script, answers = session_case()
    session = program.answer("sim", UNIVERSE, program.file("session", script))
    yield "sim", session.lines, answers, session.status

    yield from rollout_cases(program, path, actions)
    yield from universe_cases(program)


def rollout_cases(program: Program, path: str, old: list[Action]) -> Iterator[Case]:
    """The old actions, those of the plan for the targets, and one deletion for each old instance that stands. It replays as good."""
    targets = ["t30:s63", "t0:s1"]
    fresh = actions_of(program.answer("plan", UNIVERSE, *targets).lines)
    rollout = program.answer("rollout", UNIVERSE, path, *targets)
    actions = actions_of(rollout.lines)
    yield "rollout", [str(it) for it in actions[: len(old)]], [str(it) for it in old], rollout.status
    new = actions[len(old) : len(old) + len(fresh)]
    yield "rollout: the new", [it.verb for it in new], [it.verb for it in fresh], rollout.status
    standing = {it.instance for it in old if it.verb == "new"} - {it.instance for it in old if it.verb == "delete"}
    removed = [it.instance for it in actions[len(old) + len(fresh) :] if it.verb == "delete"]
    yield "rollout: the removal", sorted(map(str, removed)), sorted(map(str, standing)), rollout.status
    kept = sum({"new": 1, "delete": -1}.get(it.verb, 0) for it in fresh)
    text = program.file("rollout.txt", "\n".join(rollout.lines) + "\n")
    replay = program.answer("replay", UNIVERSE, text, *targets)
    yield "rollout: replay", replay.lines, [f"good standing {kept} actions {len(actions)}"], replay.status


def universe_cases(program: Program) -> Iterator[Case]:
    """A life line that goes on holds one pair of a type that the type above it needs, and each other one is doubled."""
    sizes = [64] * 31 + [16]
    targets = [f"t{k}:s{size - 1}" for k, size in enumerate(sizes)]
    dups = sum(size - 2 for size in sizes[:-1])
    yield from whole_case(program, "tower", tower(sizes), targets, len(sizes) + dups, dups)

    # Each slot of each pair of all types but the last is an instance. One of them is the target's, and the last type has its own.
    count, serving = 130, 8
    instances = (count - 1) * serving * 16 + 1
    yield from whole_case(program, "slots", slots(count, 7, serving), [f"t{k}:s7" for k in range(count)], instances, (count - 1) * 7)

    # The same with more types of fewer states. The graph of its first round has 5,058,525 edges (`metis_probe`, `graph`).
    count = 160
    instances = (count - 1) * serving * 16 + 1
    yield from whole_case(program, "edges", slots(count, 4, serving), [f"t{k}:s7" for k in range(count)], instances, (count - 1) * 7)

    # A life line whose last pair is needed holds none of those that it goes on from: each of them is doubled.
    sizes = [64] * 31 + [14, 2]
    targets = [f"t{k}:s{size - 1}" for k, size in enumerate(sizes)]
    dups = sum(size - 1 for size in sizes[:-1])
    yield from whole_case(program, "serving tower", serving_tower(sizes), targets, len(sizes) + dups, dups)

    # What is canonical is printed as it was read.
    text = long_document()
    assert 4_000_000 < len(text) < 4_194_304
    printed = program.answer("print", program.file("long.json", text))
    yield "a line of 4.1 MB", printed.lines, [text], printed.status
    yield from why_cases(program)


def why_cases(program: Program) -> Iterator[Case]:
    """Each pair but the first of a type waits for the one before it, and the second of a type for the last of the next type."""
    sizes = [64] * 31 + [16]
    universe = program.file("ring.json", json.dumps(ring(sizes)))
    lines = []
    for k, size in enumerate(sizes):
        below = (k + 1) % len(sizes)
        lines += [f"t{k}:s{j} comes from t{k}:s{j - 1}" for j in range(size - 1, 1, -1)]
        lines.append(f"t{k}:s1 needs p{below} from t{below}:s{sizes[below] - 1}")
    told = program.answer("why", universe, "t0:s63")
    due = ["status 1", "metis why 1", "lacks t0:s63", f"lines {len(lines)}", *lines, "end"]
    yield "why", [f"status {told.status}", *told.lines], due, 0
    text = program.file("why.txt", "\n".join(told.lines) + "\n")
    confirm = program.answer("confirm", universe, text, "t0:s63")
    yield "confirm", confirm.lines, ["confirmed lacks t0:s63"], confirm.status


def whole_case(program: Program, name: str, universe: dict, targets: list[str], instances: int, dups: int) -> Iterator[Case]:
    """The counts of a plan, its audit and its replay."""
    path = program.file(f"{name}.json", json.dumps(universe))
    plan, status = program.into(f"{name}.txt", "plan", path, *targets)
    with open(plan) as lines:
        head = [next(lines).rstrip("\n") for _ in range(2)]
        verbs = collections.Counter(line.split(" ", 2)[1] for line in lines if line[0].isdigit())
    actions = sum(verbs.values())
    yield f"{name}: plan", head, ["metis plan 1", f"instances {instances} actions {actions} dups {dups}"], status
    yield f"{name}: instances", [str(verbs["new"])], [str(instances)], status
    audit = program.answer("audit", path, plan, *targets)
    yield f"{name}: audit", audit.lines, [f"justified instances {instances} dups {dups}"], audit.status
    replay = program.answer("replay", path, plan, *targets)
    yield f"{name}: replay", replay.lines, [f"good standing {instances - verbs['delete']} actions {actions}"], replay.status


def first_difference(printed: list[str], due: list[str]) -> str:
    for number, (one, other) in enumerate(zip(printed, due), start=1):
        if one != other:
            return f"line {number} is {one[:80]!r}, and {other[:80]!r} is due"
    return f"{len(printed)} lines, and {len(due)} are due"


def main() -> int:
    given = sys.argv[1] if len(sys.argv) > 1 else TOP / "crates" / "metis" / "out" / "metis"
    passed = failed = 0
    with tempfile.TemporaryDirectory() as folder:
        for name, printed, due, status in cases(Program(str(pathlib.Path(given).resolve()), folder)):
            if status == 0 and printed == due:
                passed += 1
                continue
            failed += 1
            print(f"{name}: status {status}, {first_difference(printed, due)}", file=sys.stderr)
    print(f"{passed} passed, {failed} failed")
    return 1 if failed else 0


if __name__ == "__main__":
    sys.exit(main())
