#!/usr/bin/env python3
"""Counts the instructions of `reconfigure` where one instance is added to many, beside those of `plan` and `rollout`, and checks it.

    reconfigure.py PROGRAM

PROGRAM is the built program, as crates/metis/out/metis; valgrind has to be there. What stands is a chain, in which each instance
requires a port of the one before it, and the first those of two roots; what is added requires one of the last. All three commands get
the same targets. Counted are the instructions of whole runs, by valgrind's callgrind, which do not depend on what else the machine does.

The status is 1 where what stands is not kept as it is, where a run takes twice what `plan` takes or more, or where it takes more than
2.3 times what it takes for half as many. docs/dev/BENCHMARKS.md says how to read the table.
"""

import sys
from pathlib import Path

from measure import Table, Type, chain, counted, fail, line_of, program_and_words, ratio, switch, temporary_folder, write_universe

SIZES = (125, 250, 500, 1000)
MOST_TO_PLAN, MOST_GROWTH = 2.0, 2.3
NO_WISHES = "metis wishes 1\nend\n"
TABLE = Table(("standing {:,}", "plan {:.1f}", "rollout {:.1f}", "reconfigure {:.1f}", "to plan {:.2f}", "growth {:.2f}"))


def standing_types(size: int) -> list[Type]:
    """As many types as instances. The roots have one state, so that a chain of 1,000 is within the pairs that a universe may have."""
    roots = [line_of(f"Root{number}", [("on", [f"root{number}"], [])]) for number in range(2)]
    return [*roots, switch("T0", ["p0"], ["root0", "root1"]), *chain(size - 2)[1:]]


def added(standing: int, port: str, actions: int) -> str:
    """The lines that follow those of the plan: one instance is made, bound to the end of the chain, and goes on. The plan makes that end
    first, as instance 0, and moves it last."""
    rows = [f"new {standing} Added", f"bind {port} {standing} 0 after {actions}", f"move {standing} off on"]
    return "".join(f"{number} {row}\n" for number, row in enumerate(rows, actions + 1)) + "end\n"


def measured(program: str, folder: Path, size: int) -> list[int]:
    """The instructions of `plan`, `rollout` and `reconfigure` for the chain's targets and one more."""
    universe, old, wishes = folder / "universe.json", folder / "old.plan", folder / "wishes"
    port, top, more = f"p{size - 3}", f"T{size - 3}:on", "Added:on"
    write_universe(universe, [*standing_types(size), switch("Added", [], [port])])
    wishes.write_text(NO_WISHES)
    _, standing, status = counted([program, "plan", universe, top])
    if status != 0:
        fail(f"{size} instances: no plan of what stands")
    old.write_text(standing)
    runs = [("plan", [universe]), ("rollout", [universe, old]), ("reconfigure", [universe, old, wishes])]
    answers = [counted([program, word, *files, top, more]) for word, files in runs]
    # What stands is left as it is: the plan's own lines come first, with nothing but the new instance behind them.
    rows = standing.removesuffix("end\n").split("\n", 2)[2]
    actions = rows.count("\n")
    expected = f"metis plan 1\ninstances {size + 1} actions {actions + 3} dups 0\n{rows}{added(size, port, actions)}"
    if [status for _, _, status in answers] != [0, 0, 0] or answers[2][1] != expected:
        fail(f"{size} instances: a wrong answer")
    return [count for count, _, _ in answers]


def main() -> None:
    (program, _), before, wrong = program_and_words(__doc__), None, []
    TABLE.head()
    with temporary_folder() as folder:
        for size in SIZES:
            plan, rollout, reconfigure = measured(program, folder, size)
            to_plan, growth = reconfigure / plan, ratio(reconfigure, before)
            TABLE.row(size, plan / 1e6, rollout / 1e6, reconfigure / 1e6, to_plan, growth)
            wrong += [f"{size} instances: {to_plan:.2f} times what `plan` takes"] if to_plan >= MOST_TO_PLAN else []
            wrong += [f"{size} instances: {growth:.2f} times the size before"] if growth and growth > MOST_GROWTH else []
            before = reconfigure
    print(*(f"reconfigure.py: {fault}" for fault in wrong), sep="\n", end="\n" if wrong else "", file=sys.stderr)
    sys.exit(1 if wrong else 0)


if __name__ == "__main__":
    main()
