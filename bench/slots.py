#!/usr/bin/env python3
"""Times plans over universes whose ports need sixteen providers, of growing size, and shows the memory that they take.

    slots.py PROGRAM [PLAIN]

PROGRAM is the built program, as crates/metis/out/metis, and PLAIN another that does the same, to be timed beside it. A type has 17
states in a row. Those of odd number provide a port each, and require sixteen providers of the port of the same state of the type
before it; the others have no ports. So each provider pair has sixteen slots, and each instance lets go of what it took before it
takes the next, so that nothing has to be doubled. The targets are 256 instances of the last type in its last state. The script
works out the second line of the plan and looks at the last one; the status is 1 where one is not what it has to be.
docs/dev/BENCHMARKS.md says how to read the table.
"""

import sys

from measure import Table, counts_of, line_of, place_of, program_and_words, run, temporary_folder, write_universe

SIZES = (15, 30, 59, 117)
TARGETS, STATES, DEMAND = 256, 17, 16
COLUMNS = (
    "types {:,}", "pairs {:,}", "instances {:,}", "actions {:,}", "MB of text {:.1f}", "seconds {:.2f}", "MB of memory {:,.0f}",
    "seconds of the other {:.2f}", "MB of memory {:,.0f}")


def types_of(count):
    """This many types."""

    def ports(kind, number):
        require = [{"port": f"p{kind - 1}.{number}", "count": DEMAND}] if kind > 0 else []
        return ([f"p{kind}.{number}"], require) if number % 2 == 1 else ([], [])

    return [line_of(f"t{kind}", [(f"s{number}", *ports(kind, number)) for number in range(STATES)]) for kind in range(count)]


def actions_to(last, binds, deleted):
    """How many actions take an instance to the state of this number."""
    taken, left = (last + 1) // 2, last // 2
    return 1 + last + (DEMAND * (taken + left) if binds else 0) + (1 if deleted else 0)


def counts(types):
    """How many instances and actions the plan has."""
    instances, actions = TARGETS, TARGETS * actions_to(STATES - 1, types > 1, False)
    providers = range(1, STATES, 2)
    for kind in range(types - 1):
        instances += 1 + (DEMAND - 1) * len(providers)
        actions += actions_to(STATES - 2, kind > 0, True)
        actions += sum((DEMAND - 1) * actions_to(last, kind > 0, True) for last in providers)
    return instances, actions


def main():
    program, others = program_and_words(__doc__, 2)
    programs = [program, *map(place_of, others)]
    good, table = True, Table(COLUMNS[: 5 + 2 * len(programs)], is_ruled=False)
    table.head()
    for types in SIZES:
        instances, actions = counts(types)
        cells = []
        with temporary_folder() as folder:
            out = folder / "plan.txt"
            write_universe(folder / "u.json", types_of(types), 2)
            for program in programs:
                made = run([program, "plan", "u.json", *[f"t{types - 1}:s{STATES - 1}"] * TARGETS], out, folder)
                good = good and made.status == 0 and counts_of(out) == (instances, actions, 0)
                cells += [made.seconds, made.megabytes]
            size = out.stat().st_size / 1e6
        table.row(types, types * STATES, instances, actions, size, *cells)
    if not good:
        print("an answer is not what it has to be")
    sys.exit(0 if good else 1)


if __name__ == "__main__":
    main()
