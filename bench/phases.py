#!/usr/bin/env python3
"""Where the time goes for a document near all limits.

    phases.py PROGRAM

The universe has 2,000 pairs, 4,000 ports and names of 64 bytes, and its document nearly 4 MiB. It is given to the program in
forms that end the run after one more phase each: a wrong form in the last type, an unknown initial state in the last type,
the command print, and the command plan for one target.
"""

from measure import Table, best, document, fail, last_states, program_and_words, temporary_folder

TYPES = 1000
MOST_BYTES = 4_194_304
REQUIRED = 48
RUNS = 3
TABLE = Table(("up to and with {}", "to the first {:.2f}", "ms {:.1f}"))


def name(kind, number):
    """A name of 64 bytes."""
    return f"{kind}{number}".ljust(64, "_")


def ports_below(kind):
    """Ports of types that stand before half of the type's place, spread over them."""
    below = 4 * (kind // 2)
    if below == 0:
        return []
    return [name("p", number) for number in sorted({(k * 13) % below for k in range(REQUIRED)})]


def types_near_the_limits():
    """Each type provides four ports of its own, and requires ports of earlier types."""
    types = []
    for kind in range(TYPES):
        on = {"name": name("on", 0), "provide": [name("p", 4 * kind + k) for k in range(4)], "require": ports_below(kind)}
        off = {"name": name("off", 0), "next": [on["name"]]}
        types.append({"name": name("T", kind), "initial": off["name"], "states": [off, on]})
    return types


def main():
    program, _ = program_and_words(__doc__)
    types = types_near_the_limits()
    last, target = TYPES - 1, last_states(types)[-1]
    # each: the types, the words, the status, and how the text begins
    phases = {
        "read as JSON, and the forms looked at": (types[:-1] + [5], ["plan", "u.json"], 3, f"bad universe U3 type {last}\n"),
        "and what the rows say": (types[:-1] + [{**types[-1], "initial": "gone"}], ["plan", "u.json"], 3, f"bad universe U9 type {last}\n"),
        "and the universe made and printed": (types, ["print", "u.json"], 0, '{"aeolus":1'),
        "and the universe made and planned for": (types, ["plan", "u.json", target], 0, "metis plan 1\n"),
    }
    print(f"document of {len(document(types))} bytes, {2 * TYPES} pairs, {4 * TYPES} ports")
    TABLE.head()
    first = None
    with temporary_folder() as folder:
        universe, out = folder / "u.json", folder / "out"
        for what, (rows, words, status, front) in phases.items():
            assert len(document(rows)) <= MOST_BYTES
            universe.write_text(document(rows))
            run = best(RUNS, [program, *words], out, folder)
            if run.status != status or not out.read_text().startswith(front):
                fail(f"{words[0]}: status {run.status}, {out.read_text()[:80]!r}")
            first = first or run.clock
            TABLE.row(what, run.clock / first, 1000 * run.clock)


if __name__ == "__main__":
    main()
