#!/usr/bin/env python3
"""Times the planner on universes of growing size, and checks what it answers.

    run.py PROGRAM

PROGRAM is the built planner, as crates/metis/out/metis. For each kind of universe and each size the command
`PROGRAM plan FILE TARGET` is run a few times, where the target is the last type's state on. The least time counts.
The status is 1 where an answer is not the one that has to come, and docs/dev/BENCHMARKS.md says how to read the table.
"""

import sys

from measure import KINDS, Table, best, counts_of, last_states, program_and_words, ratio, temporary_folder, width_of, write_universe

SIZES = (500, 1000, 2000)
RUNS = 3
TABLE = Table(("kind {}", "pairs {}", "instances {}", "actions {}", "to 500 pairs {:.2f}", "to the size before {:.2f}", "ms {:.1f}"))


def expected(kind, pairs):
    """How many instances and actions the plan has to have.

    There is one instance for the target and one for each pair that serves it. Here each of them is made in off and moved to
    on: one `new`, one `move`, and one `bind` for each port that on requires. Nothing is unbound, since off requires nothing, and
    nothing is doubled, since no on goes on.
    """
    types = pairs // 2
    if kind == "chain":
        # Each type's on serves that of the next one, and all but the first type's bind one port.
        instances, binds = types, types - 1
    else:
        # Each port that the target requires is of another provider, whose on binds nothing.
        instances, binds = width_of(types) + 1, width_of(types)
    return instances, 2 * instances + binds


def main():
    (program, _), right = program_and_words(__doc__), True
    TABLE.head()
    with temporary_folder() as folder:
        universe, out = folder / "u.json", folder / "out"
        for kind, made in KINDS.items():
            first = before = None
            for pairs in SIZES:
                types, (instances, actions) = made(pairs // 2), expected(kind, pairs)
                write_universe(universe, types)
                run = best(RUNS, [program, "plan", universe, last_states(types)[-1]], out)
                if run.status != 0 or counts_of(out) != (instances, actions, 0):
                    print(f"{kind} with {pairs} pairs: status {run.status}, and the text begins with {out.read_text()[:100]!r}", file=sys.stderr)
                    right, before = False, None
                    continue
                first = run.clock if pairs == SIZES[0] else first
                TABLE.row(kind, pairs, instances, actions, ratio(run.clock, first), ratio(run.clock, before), 1000 * run.clock)
                before = run.clock
    sys.exit(0 if right else 1)


if __name__ == "__main__":
    main()
