#!/usr/bin/env python3
"""Counts the instructions of `why` over universes of growing size, beside those of `plan`, and checks each explanation.

    why.py PROGRAM [KIND ..]

PROGRAM is the built program, as crates/metis/out/metis; valgrind has to be there. Counted are the instructions of whole runs, by
its callgrind, which do not depend on what else the machine does. The goal is lacking in each universe. The kinds:

    chain        each type's on requires the port of the next one's, and the last a port that nothing provides
    packages     packages that depend on later ones, most of which can be had, and two circles of two near the goal
    ladder       two pairs on each rung, both of which require a port of each of the two on the next rung; so each has two reasons
    windows      each type's on requires 120 ports, and the next one's provides them, of which all but one others provide too; so
                 each has 120 reasons, and none can be left out
    laden        windows whose types also provide 250 ports each that none requires, so that a document is near its limit
    forks        two types on each rung, both of which require 60 ports of types of the one side and 60 of the other; one side can be left out
    providers    the ladder, beside 60 pairs that can be had and provide some 2,000 other ports each

What has to be printed is known from how a universe is made, and in small ones of the same kind it is what tools/second_why.py finds.
The status is 1 where an answer is not the one that has to come, or where a run takes more than it may: for `chain` ten times what
`plan` takes and 2.3 times the size before, and for each kind BOUND instructions. A kind that goes past BOUND is not tried any
larger. docs/dev/BENCHMARKS.md says how to read the table.
"""

import importlib.util
import random
import sys
from pathlib import Path

from measure import Table, counted, program_and_words, ratio, switch, temporary_folder, usage, write_universe

SECOND = importlib.util.spec_from_file_location("second_why", Path(__file__).resolve().parent.parent / "tools" / "second_why.py")
second = importlib.util.module_from_spec(SECOND)
SECOND.loader.exec_module(second)

SIZES = (250, 500, 1000, 2000)
SMALL = 40
BOUND = 2_000_000_000
MOST_TO_PLAN, MOST_GROWTH = 10, 2.3
WINDOW, MOST_STATES, MOST_PORTS = 120, 64, 4000
GIVERS = 60
USELESS, USELESS_EACH = 2800, 250

TABLE = Table((
    "kind `{}`", "pairs {:,}", "lines {:,}", "reading {:,.1f}", "plan {:,.1f}", "why {:,.1f}", "confirm {:,.1f}", "why to plan {:.2f}",
    "why to the size before {:.2f}"))


def chain(pairs):
    count = pairs // 2
    types = [switch(f"t{i}", [f"p{i}"], [f"p{i + 1}"]) for i in range(count)]
    return types, "t0:on", [f"t{i}:on" for i in range(count)]


def packages(pairs):
    """Packages in the shape that the importers give them. What is lacking is what leads to the two circles; None says that it is sought."""
    count, draw = pairs // 2, random.Random(1)
    needs = [set(draw.sample(range(i + 1, count), min(draw.randint(0, 8), count - i - 1))) for i in range(count)]
    first, second_one = count // 5, count // 3
    for one, other in ((0, first), (0, second_one), (first, first + 1), (first + 1, first), (second_one, second_one + 1), (second_one + 1, second_one)):
        needs[one].add(other)
    types = []
    for i, others in enumerate(needs):
        installed = {"name": "installed", "provide": [f"p{i}"], "require": [f"p{other}" for other in sorted(others)], "next": ["absent"]}
        types.append({"name": f"p{i}", "initial": "absent", "states": [{"name": "absent", "next": ["installed"]}, installed]})
    return types, "p0:installed", None


def rungs(pairs):
    """The types of a ladder: states that all follow the first one, 63 a type, of which each two are a rung."""
    sizes = [MOST_STATES] * (pairs // MOST_STATES) + [pairs % MOST_STATES]
    places = [(kind, state) for kind, size in enumerate(sizes) for state in range(1, size)]
    count = len(places) // 2
    types = [{"name": f"t{kind}", "initial": "s0", "states": [{"name": "s0", "next": []}]} for kind in range(len(sizes))]
    for at, (kind, state) in enumerate(places[: 2 * count]):
        rung = at // 2
        require = [f"a{rung + 1}", f"b{rung + 1}"] if rung + 1 < count else ["lost"]
        states = types[kind]["states"]
        states.append({"name": f"s{state}", "provide": [f"{'ab'[at % 2]}{rung}"], "require": require})
        states[0]["next"].append(f"s{state}")
    return types, "t0:s1", [f"t{kind}:s{state}" for kind, state in places[: 2 * count : 2]]


def ladder(pairs):
    return rungs(pairs)


def windows(pairs):
    """The last type stands first in the document, so that ports are numbered in the order in which they come to be provided."""
    count = pairs // 2
    types = []
    for i in reversed(range(count)):
        provide = [f"p{port}" for port in reversed(range(i - 1, i - 1 + WINDOW))] if i else []
        require = [f"p{port}" for port in reversed(range(i, i + WINDOW))] if i + 1 < count else ["lost"]
        types.append(switch(f"t{i}", provide, require))
    return types, "t0:on", [f"t{i}:on" for i in range(count)]


def laden(pairs):
    types, goal, needed = windows(pairs)
    for at, row in enumerate(types):
        row["states"][1]["provide"] += [f"q{(7 * at + port) % USELESS}" for port in range(USELESS_EACH)]
    return types, goal, needed


def forks(pairs):
    count, half = pairs // 4, WINDOW // 2
    types = []
    for i in reversed(range(count)):
        require = [f"{side}{port}" for port in reversed(range(i, i + half)) for side in "ba"] if i + 1 < count else ["lost"]
        for side in "ba":
            provide = [f"{side}{port}" for port in reversed(range(i - 1, i - 1 + half))] if i else []
            types.append(switch(f"{side}t{i}", provide, require))
    return types, "at0:on", ["at0:on", *(f"bt{i}:on" for i in range(1, count))]


def providers(pairs):
    types, goal, needed = rungs(pairs - GIVERS - 1)
    own = {port for row in types for state in row["states"] for key in ("provide", "require") for port in state.get(key, [])}
    others = [f"f{port}" for port in range(MOST_PORTS - len(own))]
    states = [{"name": "w0", "next": [f"w{at}" for at in range(1, GIVERS + 1)]}]
    states += [{"name": f"w{at}", "provide": others} for at in range(1, GIVERS + 1)]
    return [*types, {"name": "giver", "initial": "w0", "states": states}], goal, needed


KINDS = {made.__name__: made for made in (chain, packages, ladder, windows, laden, forks, providers)}


def explanation(document, word, needed):
    """The text that has to come: the lines of the pairs that are known to be needed, or else those that the second reading finds."""
    u = second.Universe(document)
    goal = u.goal_named(word)
    lines = second.lines_of(u, {u.pair_at[name] for name in needed}, goal) if needed else second.why(u, goal)
    return second.text_of(u, goal, lines), len(lines)


def is_as_found(kind):
    """Whether in a small universe of the kind the second reading finds the same."""
    small = SMALL + (GIVERS + 1 if kind == "providers" else 0)
    types, word, needed = KINDS[kind](small)
    document = {"aeolus": 1, "types": types}
    return explanation(document, word, needed) == explanation(document, word, None)


def measured(program, file, document, word, needed):
    """The instructions of each command by its name, how many lines there are, and what is wrong with the answers."""
    write_universe(file, document["types"])
    text, lines = explanation(document, word, needed)
    runs = {
        "reading": (["why", file], None, lambda put, status: (put, status) == ("attained\n", 0)),
        "plan": (["plan", file, word], None, lambda put, status: put.startswith(f"metis refusal 1\nlacks {word}\n") and status == 1),
        "why": (["why", file, word], None, lambda put, status: (put, status) == (text, 1)),
        "confirm": (["confirm", file, "-", word], text.encode(), lambda put, status: (put, status) == (f"confirmed lacks {word}\n", 0)),
    }
    counts, wrong = {}, []
    for name, (words, given, is_right) in runs.items():
        counts[name], put, status = counted([program, *words], given)
        if not is_right(put, status):
            wrong.append(f"{name} answers {put[:200]!r} with status {status}")
    return counts, lines, wrong


def past_bounds(kind, counts, before):
    """What took more than it may."""
    if counts["why"] > BOUND:
        yield f"more than {BOUND // 1_000_000:,} million instructions"
    if kind == "chain" and counts["why"] > MOST_TO_PLAN * counts["plan"]:
        yield f"more than {MOST_TO_PLAN} times what `plan` takes"
    if kind == "chain" and before and counts["why"] > MOST_GROWTH * before:
        yield f"more than {MOST_GROWTH} times the size before"


def try_kind(program, file, kind):
    """Measures one kind, size after size. Returns what is wrong."""
    wrong = [] if is_as_found(kind) else ["in a small universe the second reading finds something else"]
    before = None
    for size in SIZES:
        types, word, needed = KINDS[kind](size)
        document = {"aeolus": 1, "types": types}
        pairs = sum(len(row["states"]) for row in types)
        counts, lines, faults = measured(program, file, document, word, needed)
        faults += past_bounds(kind, counts, before)
        wrong += [f"{pairs:,} pairs: {fault}" for fault in faults]
        millions = [counts[name] / 1e6 for name in ("reading", "plan", "why", "confirm")]
        TABLE.row(kind, pairs, lines, *millions, ratio(counts["why"], counts["plan"]), ratio(counts["why"], before))
        before = counts["why"]
        if before > BOUND:
            break
    return [f"{kind}: {fault}" for fault in wrong]


def main():
    program, kinds = program_and_words(__doc__, None)
    if not set(kinds) <= set(KINDS):
        usage(__doc__)
    TABLE.head()
    with temporary_folder() as folder:
        wrong = [fault for kind in kinds or KINDS for fault in try_kind(program, folder / "universe.json", kind)]
    print(*(f"why.py: {fault}" for fault in wrong), sep="\n", end="\n" if wrong else "", file=sys.stderr)
    sys.exit(1 if wrong else 0)


if __name__ == "__main__":
    main()
