#!/usr/bin/env python3
"""Times rollouts from large plans and from many instances that are bound in a cycle, and checks what is answered.

    rollout.py PROGRAM

PROGRAM is the built planner, as crates/metis/out/metis. The plans are those of replay.py, rolled out to the same targets, and torn down.
The rings are instances that each are bound to the next, and the last to the first: they need a scaffold. How many actions have to come
is known from how a plan is made. The least time of a few runs counts, and it is that of the processor. The status is 1 where an answer
is not the one that has to come. docs/dev/BENCHMARKS.md says how to read the table.
"""

from measure import LARGE, Table, best, counts_of, fail, large_plans, line_of, plan_of, program_and_words, temporary_folder, write_universe

RINGS = (1000, 10000, 100000)
RUNS = 2
TABLE = Table(("from {}", "old actions {:,}", "actions {:,}", "seconds {:.2f}", "megabytes {:,.0f}"))
# Each member of a ring is made where it provides `next`, and goes on to where it requires it too.
NODE = line_of("Node", [("off", [], []), ("on", ["next"], []), ("joined", ["next"], ["next"])])


def ring(size):
    """The actions of a plan that closes a ring. Member k is bound to member k + 1, which was on first, and the last to a spare that is
    let go for the first one."""
    rows = [f"new {size} Node", f"move {size} off on"]
    for number in reversed(range(size)):
        rows += [f"new {number} Node", f"move {number} off on", f"bind next {number} {number + 1}", f"move {number} on joined"]
    return rows + [f"bind next {size - 1} 0", f"unbind next {size - 1} {size}", f"delete {size}"]


def roll_out(program, files, name, old, targets, instances, actions):
    """Times a rollout, which has to have these counts, and puts its row."""
    out = files[0].parent / "out"
    run = best(RUNS, [program, "rollout", *files, *targets], out)
    if run.status != 0 or counts_of(out) != (instances, actions, 0):
        fail(f"{name}, {old} actions: a wrong answer")
    TABLE.row(name, old, actions, run.seconds, run.megabytes)


def main():
    program, _ = program_and_words(__doc__)
    TABLE.head()
    with temporary_folder() as folder:
        for plan in large_plans(program, folder, LARGE):
            files, instances, actions = (plan.universe, plan.file), plan.instances, plan.actions
            roll_out(program, files, "a plan, to nothing", actions, [], instances, actions + instances)
            roll_out(program, files, "a plan, to its targets", actions, plan.targets, 2 * instances, 2 * actions + instances)
        universe, plan = folder / "ring.json", folder / "ring.plan"
        write_universe(universe, [NODE])
        for size in RINGS:
            rows = ring(size)
            plan.write_text(plan_of(rows))
            # The scaffold is one instance, of two actions and a delete; each member is bound, unbound and deleted.
            roll_out(program, (universe, plan), f"a ring of {size:,}, to nothing", len(rows), [], size + 2, len(rows) + 3 + 3 * size)


if __name__ == "__main__":
    main()
