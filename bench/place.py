#!/usr/bin/env python3
"""Times how the instances of long plans are put on as many hosts as a text can tell, and checks the lines.

    place.py PROGRAM [ACTIONS ..]

PROGRAM is the built planner, as crates/metis/out/metis. The plans and the hosts are made here, and each line that has to come is known from
how they are made. The least time of two runs counts, and it is that of the processor. The status is 1 where a line is not one that has
to come. docs/dev/BENCHMARKS.md says how to read the table.
"""

import itertools

from measure import LIMIT, Table, best, fail, line_of, plan_of, program_and_sizes, ratio, temporary_folder, text_of, write_universe

SIZES = (100_000, 200_000, 400_000)
RUNS = 2
TABLE = Table(("kind `{}`", "actions {:,}", "hosts {:,}", "seconds {:.2f}", "to the size before, by the action {:.2f}"))


def hosts_of(count, room):
    """This many hosts, all of no room but the last."""
    names = [f"{place:x}" for place in range(count)]
    text = text_of(["metis hosts 1", *(f"host {name} 0" for name in names[:-1]), f"host {names[-1]} {room}", "end"])
    assert len(text) <= LIMIT
    return names, text


def many(count, hosts):
    """All instances on the last of the hosts, and none is deleted."""
    names, text = hosts_of(hosts, count)
    said = [*(f"on {z} {names[-1]}" for z in range(count)), f"placed {count} hosts {hosts}"]
    return plan_of([f"new {z} A" for z in range(count)]), text, said


def one_after_the_other(count, hosts):
    """Each instance is deleted before the next is made. The last host has room for all but eight of them, so only the last eight wait."""
    pairs = count // 2
    names, text = hosts_of(hosts, pairs - 8)
    rows = [row for z in range(pairs) for row in (f"new {z} A", f"delete {z}")]
    last = [pairs - 8 + k for k in range(8)]
    holds = [f"hold {2 * z + 1} after " + " ".join(str(2 * m + 2) for m in range(k + 1)) for k, z in enumerate(last)]
    return plan_of(rows), text, [*(f"on {z} {names[-1]}" for z in range(pairs)), *holds, f"placed {pairs} hosts {hosts}"]


def main():
    program, sizes = program_and_sizes(__doc__, SIZES)
    TABLE.head()
    with temporary_folder() as folder:
        universe, plan, hosts, out = (folder / part for part in ("u.json", "p.txt", "h.txt", "out"))
        write_universe(universe, [line_of("A", [("s", [], [])])])
        for kind, count in itertools.product((many, one_after_the_other), (1, 5_500)):
            before = None
            for size in sizes:
                text, machines, said = kind(size, count)
                plan.write_text(text)
                hosts.write_text(machines)
                run = best(RUNS, [program, "place", universe, plan, hosts], out)
                if run.status != 0 or out.read_text() != text_of(said):
                    fail(f"{size} actions, {kind.__name__}: a wrong line")
                TABLE.row(kind.__name__, size, count, run.seconds, ratio(run.seconds / size, before))
                before = run.seconds / size


if __name__ == "__main__":
    main()
