#!/usr/bin/env python3
"""Times how the life lines, the graph of their events and its order or cycle are made, over generated universes of growing size.

    graph.py PROBE

PROBE is the built program of probes, as crates/metis_probe/out/metis_probe. For each size it makes one probe, `graph`, over the
universe that `load` generates, with the same targets: the universe is read, the layers are counted, a support is chosen, and the
lines, the graph and its sort are made once. The script makes three runs and takes the least time of the processor. The status is
1 where the counts are not those that have to come. docs/dev/BENCHMARKS.md says how to read the table.
"""

import re

from measure import Table, best, fail, generated, last_states, program_and_words, ratio, temporary_folder, write_universe

SIZES = (8, 16, 32, 64, 128)
RUNS = 3
TABLE = Table(
    ("size {}", "pairs {}", "lines {}", "events {}", "edges {}", "seconds {:.3f}", "to the size before {:.2f}"), is_framed=False)


def expected(size):
    """What the probe has to put: each place has two lines of four stations, each held pair goes on but the last port's."""
    lines, events = 2 * size, 8 * size + 1
    # A line has a go edge to each of its four next events; each supply has a start edge, and a return edge but into the end.
    supplies = 3 * size - 1
    edges = 4 * lines + supplies + 2 * size
    return lines, events, edges


def main():
    (probe, _), before = program_and_words(__doc__), None
    TABLE.head()
    for size in SIZES:
        types, (lines, events, edges) = generated(size), expected(size)
        with temporary_folder() as folder:
            write_universe(folder / "universe.json", types)
            (folder / "probes.txt").write_text(" ".join(["graph universe.json", *last_states(types)]) + "\n")
            run = best(RUNS, [probe], folder / "out", folder)
            told = (folder / "out").read_text()
        wanted = rf".*\nlines {lines} loose .*\nevents {events} edges {edges}\n"
        if run.status != 0 or not re.match(wanted, told):
            fail(f"size {size}: status {run.status}, and {told[:200]!r} in place of lines {lines} events {events} edges {edges}")
        TABLE.row(size, 8 * size, lines, events, edges, run.seconds, ratio(run.seconds, before))
        before = run.seconds


if __name__ == "__main__":
    main()
