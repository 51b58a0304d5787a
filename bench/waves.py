#!/usr/bin/env python3
"""Times when actions may start, over plans up to one near the largest that is read, and checks each start.

    waves.py PROGRAM

PROGRAM is the built planner, as crates/metis/out/metis. The texts of the plans are made here, larger ones than are printed within the
limits. What the lines have to be is worked out from the texts alone: an action waits for the numbers behind its `after` and for the
previous one of its instance. The least time of two runs counts, and it is that of the processor. The status is 1 where an answer is
not the one that has to come. docs/dev/BENCHMARKS.md says how to read the table.
"""

from measure import (
    STATES, Table, actors_and_waits, best, common_port, fail, large_types, line_of, long_name, plan_of, program_and_words, ratio,
    temporary_folder, text_of, write_universe)

SIZES = (100_000, 200_000, 391_000)
RUNS = 2
DURATIONS = {"new": 20, "delete": 5, "bind": 1, "unbind": 1, "move": 60}
TABLE = Table(("kind `{}`", "actions {:,}", "MB {:.1f}", "seconds {:.2f}", "megabytes {:,.0f}", "to the size before, by the action {:.2f}"))


def lone(size):
    """Many instances that go through a long life each, and meet only what provides for all."""
    lines = [f"new 0 {long_name('common')}"]
    instance = 0
    while len(lines) < size:
        instance += 1
        lines.append(f"new {instance} {long_name('t0')}")
        for place in range(1, STATES):
            pair, before = ((0, 1), (2, 3)) if place % 2 == 0 else ((2, 3), (0, 1))
            lines += [f"bind {common_port(one)} {instance} 0 after 1" for one in pair]
            lines.append(f"move {instance} {long_name(f's{place - 1}')} {long_name(f's{place}')}")
            if place > 1:
                lines += [f"unbind {common_port(one)} {instance} 0" for one in before]
    return large_types(), lines[:size]


def crowd(size):
    """Many users of one server, which goes on once all have let it go."""
    server = line_of("server", [("off", [], []), ("on", ["http"], []), ("old", [], [])])
    user = line_of("user", [("off", [], []), ("on", [], ["http"]), ("old", [], [])])
    users = range(1, (size - 3) // 5 + 1)
    lines = ["new 0 server", "move 0 off on"]
    ends = []
    for instance in users:
        lines += [f"new {instance} user", f"bind http {instance} 0 after 2", f"move {instance} off on", f"move {instance} on old",
                  f"unbind http {instance} 0"]
        ends.append(len(lines))
    lines.append("move 0 on old after " + " ".join(map(str, ends)))
    return [server, user], lines


def schedules(text):
    """The lines that have to come: each start as early as what it waits for lets it be, and as late as what waits for it does."""
    actors, after = actors_and_waits(text)
    takes = [DURATIONS[line.split(" ", 2)[1]] for line in text.split("\n")[2:-2]]
    last, waits = {}, []
    for number, (actor, others) in enumerate(zip(actors, after), 1):
        waits.append(sorted(set(others) | ({last[actor]} if actor in last else set())))
        last[actor] = number
    early = []
    for row in waits:
        early.append(max((early[other - 1] + takes[other - 1] for other in row), default=0))
    ends = [start + long for start, long in zip(early, takes)]
    finish = max(ends, default=0)
    late_ends = [finish] * len(takes)
    for number in range(len(takes), 0, -1):
        start = late_ends[number - 1] - takes[number - 1]
        for other in waits[number - 1]:
            late_ends[other - 1] = min(late_ends[other - 1], start)
    chain = [ends.index(finish) + 1] if ends else []
    while chain and waits[chain[0] - 1]:
        chain.insert(0, next(other for other in waits[chain[0] - 1] if ends[other - 1] == early[chain[0] - 1]))
    rows = [f"{number} at {first} to {end - long}" for number, (first, end, long) in enumerate(zip(early, late_ends, takes), 1)]
    return text_of([*rows, f"finish {finish}", " ".join(map(str, ["chain", *chain]))])


def main():
    program, _ = program_and_words(__doc__)
    TABLE.head()
    with temporary_folder() as folder:
        universe, plan, out = (folder / name for name in ("u.json", "p.txt", "out"))
        for kind in (lone, crowd):
            before = None
            for size in SIZES:
                types, lines = kind(size)
                text = plan_of(lines)
                write_universe(universe, types)
                plan.write_text(text)
                run = best(RUNS, [program, "waves", universe, plan, *map(str, DURATIONS.values())], out)
                if run.status != 0 or out.read_text() != schedules(text):
                    fail(f"{kind.__name__}, {size}: a wrong answer")
                each = run.seconds / len(lines)
                TABLE.row(kind.__name__, len(lines), len(text) / 1e6, run.seconds, run.megabytes, ratio(each, before))
                before = each


if __name__ == "__main__":
    main()
