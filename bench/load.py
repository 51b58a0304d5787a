#!/usr/bin/env python3
"""Times `load` at growing sizes, and checks its line.

    load.py PROGRAM

PROGRAM is the built planner, as crates/metis/out/metis. Each run makes the generated universe of the size, plans for its targets,
replays the plan, and prints its counts. The script makes three runs and takes the least time of the processor. The status is 1
where an answer is not the one that has to come. docs/dev/BENCHMARKS.md says how to read the table.
"""

from measure import Table, best, fail, program_and_words, ratio, temporary_folder

SIZES = (8, 16, 32, 64, 128)
RUNS = 3
TABLE = Table(("size {}", "pairs {}", "instances {}", "actions {}", "seconds {:.3f}", "to the size before {:.2f}"), is_framed=False)


def main():
    (program, _), before = program_and_words(__doc__), None
    TABLE.head()
    with temporary_folder() as folder:
        out = folder / "out"
        for size in SIZES:
            run = best(RUNS, [program, "load", str(size)], out)
            counts = {"load": size, "pairs": 8 * size, "targets": 2 * size, "instances": 3 * size, "actions": 18 * size - 3, "dups": size}
            if run.status != 0 or out.read_text().split() != [word for name, count in counts.items() for word in (name, str(count))] + ["good"]:
                fail(f"{size}: status {run.status}: {out.read_text()}")
            TABLE.row(size, counts["pairs"], counts["instances"], counts["actions"], run.seconds, ratio(run.seconds, before))
            before = run.seconds


if __name__ == "__main__":
    main()
