#!/usr/bin/env python3
"""Times how a controller and its agents answer the longest scripts, over plans up to one near the largest, and checks the answers.

    control.py PROGRAM [TARGETS ..]

PROGRAM is the built planner, as crates/metis/out/metis. The plans are those of replay.py. Each script has as many lines as fit into the
65,536 bytes that are read. What has to be answered is known from how a script is made. The least time of eight runs counts, and it is
that of the processor. The status is 1 where an answer is not one that has to come. docs/dev/BENCHMARKS.md says how to read the table.
"""

from measure import LARGE, LIMIT, Table, best, fail, large_plans, lines_in, program_and_sizes, temporary_folder, text_of

RUNS = 8
TABLE = Table(("kind `{}`", "actions {:,}", "lines {:,}", "seconds {:.2f}", "megabytes {:,.0f}", "seconds without a script {:.2f}"))


def empty(count):
    """No line."""
    return [], ["ran", f"executed 0 of {count} acknowledged 0"]


def orders(count):
    """The first action is ordered again and again."""
    lines = lines_in(LIMIT, [], lambda _: ["order 1"])
    return lines, [*(f"sent {number}" for number in range(1, len(lines) + 1)), "ran", f"executed 0 of {count} acknowledged 0"]


def arrivals(count):
    """The order of the first action arrives again and again."""
    lines = lines_in(LIMIT, ["order 1"], lambda _: ["deliver 1"])
    said = ["sent 1", "executed 1 sent 2", *(f"again 1 sent {number}" for number in range(3, len(lines) + 1))]
    return lines, [*said, "ran 1", f"executed 1 of {count} acknowledged 0"]


def restarts(count):
    """The first action is acknowledged and forgotten, again and again."""
    lines = lines_in(LIMIT, ["order 1", "deliver 1"], lambda _: ["deliver 2", "restart 0"])
    said = ["sent 1", "executed 1 sent 2", *["noted 1", "restarted 0"] * (len(lines) // 2 - 1)]
    return lines, [*said, "ran 1", f"executed 1 of {count} acknowledged 0"]


def carried_out(count):
    """The actions are ordered, done and acknowledged in the order of the text, as far as there is room."""
    lines = lines_in(LIMIT, [], lambda at: [f"order {at + 1}", f"deliver {2 * at + 1}", f"deliver {2 * at + 2}"])[: 3 * count]
    done = range(1, len(lines) // 3 + 1)
    said = [line for number in done for line in (f"sent {2 * number - 1}", f"executed {number} sent {2 * number}", f"noted {number}")]
    return lines, [*said, " ".join(["ran", *map(str, done)]), f"executed {len(done)} of {count} acknowledged {len(done)}"]


def main():
    program, sizes = program_and_sizes(__doc__, LARGE)
    TABLE.head()
    with temporary_folder() as folder:
        script, out = folder / "s.txt", folder / "out"
        for plan in large_plans(program, folder, sizes):
            count, without = plan.actions, None
            for kind in (empty, orders, arrivals, restarts, carried_out):
                lines, said = kind(count)
                script.write_text(text_of(lines))
                run = best(RUNS, [program, "control", plan.universe, plan.file, script], out)
                if run.status != 0 or out.read_text() != text_of(said):
                    fail(f"{plan.size} targets, {kind.__name__}: a wrong answer")
                if kind is empty:
                    without = run.seconds
                else:
                    TABLE.row(kind.__name__, count, len(lines), run.seconds, run.megabytes, without)


if __name__ == "__main__":
    main()
