#!/usr/bin/env python3
"""Times how long plans are written, read and replayed, against the bytes of their texts, and checks what is answered.

    replay.py PROGRAM

PROGRAM is the built planner, as crates/metis/out/metis. The universe is near the limits, and the plans are for up to as many
targets as there may be. Each plan is printed by `plan`, then read by `replay` with its last line cut off, which ends the run before the
replay, and at last replayed whole. The least time of three runs counts, and it is that of the processor. The status is 1 where an answer
is not the one that has to come. docs/dev/BENCHMARKS.md says how to read the table.
"""

import os

from measure import LARGE, Table, best, fail, large_plan, program_and_words, ratio, temporary_folder

RUNS = 3
TABLE = Table((
    "targets {}", "actions {:,}", "MB {:.1f}", "written {:.2f}", "read {:.2f}", "read and replayed {:.2f}",
    "to the size before, by the action {:.2f}"))


def replayed(program, plan, status, said):
    """The seconds of a replay, which has to end so and say so."""
    out = plan.file.parent / "v.txt"
    run = best(RUNS, [program, "replay", plan.universe, plan.file, *plan.targets], out)
    if (run.status, out.read_text()) != (status, said):
        fail(f"{plan.size} targets: status {run.status}, {out.read_text()!r} in place of {said!r}")
    return run.seconds


def main():
    (program, _), before = program_and_words(__doc__), None
    TABLE.head()
    with temporary_folder() as folder:
        for targets in LARGE:
            plan = large_plan(folder, targets)
            written = plan.written(program, RUNS).seconds
            whole = replayed(program, plan, 0, f"good standing {plan.instances} actions {plan.actions}\n")
            size = plan.file.stat().st_size
            os.truncate(plan.file, size - len("end\n"))
            read = replayed(program, plan, 3, "bad plan short\n")
            each = whole / plan.actions
            TABLE.row(targets, plan.actions, size / 1e6, written, read, whole, ratio(each, before))
            before = each


if __name__ == "__main__":
    main()
