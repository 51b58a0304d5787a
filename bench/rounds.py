#!/usr/bin/env python3
"""Times plans over the universes that need the most rounds, and shows the memory that they take.

    rounds.py PROGRAM [PLAIN WORDS ..]

PROGRAM is the built program, as crates/metis/out/metis, and PLAIN another that does the same, with words that stand before the
command, to be timed beside it; then the two texts are compared. The universes are of four kinds; the types are alike but for the
ports, and their states follow one another.

    tower    64 states. Each but the first and the last provides two ports, and the second requires all ports of the type before it
    pairs    the same with one port in place of two, and two providers of each
    slots    9 states. Each but the first provides a port, and the second requires sixteen providers of each of the type before it
    ring     64 states. The second requires a late port of the type before it, and late states require early ports of all types

So each type's early states serve the next type while its line goes on, and all but one of them have to be doubled. The targets are
256 instances in last states. The script works out how many instances and dups there are, and looks at the last line; the status is
1 where one is not what it has to be. docs/dev/BENCHMARKS.md says how to read the table.
"""

import filecmp
import sys

from measure import Table, counts_of, last_states, line_of, place_of, program_and_words, run, temporary_folder, write_universe

TARGETS = 256
TABLE = Table((
    "kind {}", "types {}", "rounds {}", "instances {}", "actions {}", "MB of text {:.1f}", "seconds {:.2f}",
    "MB of memory {:.0f}", "seconds of the other {:.2f}"), is_framed=False)


def row(types, states_of):
    """The types, each of these states in a row: a state is the ports that it provides and those that it requires."""
    return [line_of(f"t{kind}", [(f"s{number}", *ports) for number, ports in enumerate(states_of(kind))]) for kind in range(types)]


def tower(types, states, ports, demand, last):
    """Types whose second state requires all ports of the type before it; the last state provides none, unless `last` says so."""

    def named(kind, number):
        return [f"p{kind}.{number}.{port}" for port in range(ports)]

    def states_of(kind):
        given = range(1, states if last else states - 1)
        needs = [port for number in given for port in named(kind - 1, number)] if kind > 0 else []
        wanted = [port if demand == 1 else {"port": port, "count": demand} for port in needs]
        return [(named(kind, n) if n in given else [], wanted if n == 1 else []) for n in range(states)]

    return row(types, states_of), 1 if demand == 1 else 2


def ring(types, states):
    """Types whose late states require early ports of all types, so that cycles go through all lines."""
    wanted = {}
    early = [(kind, number) for number in range(1, states - 2) for kind in range(types)]
    for kind in range(types - 1, -1, -1):
        free = [p for p in early if p not in wanted and (p[0] < kind or (p[0] == kind and p[1] < states - 3))]
        for pair in free[:126]:
            wanted[pair] = kind

    def states_of(kind):
        made = []
        for number in range(states):
            require = [f"p{kind - 1}.{states - 2}"] if number == 1 and kind > 0 else []
            if number == states - 2:
                require += [f"p{k}.{n}" for (k, n), by in wanted.items() if by == kind]
            made.append(([f"p{kind}.{number}"] if 1 <= number <= states - 2 else [], require))
        return made

    return row(types, states_of), 1


# how many types there are, and how the types of a universe and its version are made
KINDS = {
    "tower": ((8, 16, 31), lambda types: tower(types, 64, 2, 1, False)),
    "pairs": ((8, 16, 31), lambda types: tower(types, 64, 1, 2, False)),
    "slots": ((28, 56, 111, 222), lambda types: tower(types, 9, 1, 16, True)),
    "ring": ((8, 16, 31), lambda types: ring(types, 64)),
}


def counts(kind, types):
    """How many instances and dups there are; of a ring, only how many instances are no dups."""
    stages = types - 1
    if kind == "slots":
        return TARGETS + stages * (8 * 15 + 7), stages * 7
    if kind == "pairs":
        return TARGETS + stages * (62 + 61), stages * 61
    return TARGETS + stages * 61, stages * 61


def main():
    program, other = program_and_words(__doc__, None)
    other = [place_of(word) for word in other[:1]] + other[1:]
    failed = False
    TABLE.head()
    for kind, (sizes, made) in KINDS.items():
        for types in sizes:
            with temporary_folder() as folder:
                rows, version = made(types)
                write_universe(folder / "u.json", rows, version)
                words = ["plan", "u.json", *last_states(rows), *last_states(rows)[-1:] * (TARGETS - types)]
                plan, theirs, taken = folder / "plan.txt", folder / "other.txt", None
                mine = run([program, *words], plan, folder)
                found = counts_of(plan) if mine.status == 0 else None
                instances, actions, dups = found or (0, 0, 0)
                right = instances - dups == TARGETS if kind == "ring" else (instances, dups) == counts(kind, types)
                if other:
                    run_beside = run([*other, *words], theirs, folder)
                    taken = run_beside.seconds
                    right = right and run_beside.status == 0 and filecmp.cmp(plan, theirs, shallow=False)
                TABLE.row(kind, types, dups + 1, instances, actions, plan.stat().st_size / 1e6, mine.seconds, mine.megabytes, taken)
                if not right:
                    print(f"not as it has to be: {kind} {types}")
                    failed = True
    sys.exit(1 if failed else 0)


if __name__ == "__main__":
    main()
