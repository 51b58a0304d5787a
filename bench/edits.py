#!/usr/bin/env python3
"""Times how plans are replayed whose actions touch few of many bindings, and checks the verdict.

    edits.py PROGRAM [SIZE ..]

PROGRAM is the built planner, as crates/metis/out/metis. Each text is well formed and a run, so that its verdict is good;
how many instances stand and how many actions there are is worked out here. The least time of two runs counts, and it is
that of the processor. The status is 1 where an answer is not the one that has to come. docs/dev/BENCHMARKS.md says how to read the table.
"""

from measure import Table, best, fail, plan_of, program_and_sizes, ratio, temporary_folder, text_of, write_universe

SIZES = (20_000, 40_000, 80_000)
RUNS = 2
TABLE = Table(("kind {}", "size {:,}", "actions {:,}", "MB {:.1f}", "seconds {:.2f}", "to the size before {:.2f}"))

SERVER = [{"name": "idle", "next": ["rest", "on"]}, {"name": "rest", "next": ["idle"]}, {"name": "on", "provide": ["port"], "next": ["idle"]}]
USER = [{"name": "off", "next": ["run"]}, {"name": "run", "require": ["port"], "next": ["off"]}]
TYPES = [{"name": "Server", "initial": "idle", "states": SERVER}, {"name": "User", "initial": "off", "states": USER}]


def bound(hub, other, bind, count):
    """An instance 0, and others that come and are bound with it."""
    return [f"new 0 {hub}", *(line for number in range(1, count + 1) for line in (f"new {number} {other}", f"bind port {bind.format(number)}"))]


def deleted(size):
    return [f"delete {number}" for number in range(1, size + 1)]


def leaving(size):
    """Users of one server come, are bound to it and go: all are there before the first goes. One instance stands."""
    return bound("Server", "User", "{} 0", size) + deleted(size)


def closing(size):
    """One user is bound to many servers, which go one by one. The user is in off, and stands alone."""
    return bound("User", "Server", "0 {}", size) + deleted(size)


def bound_user(size):
    """A user that is bound to many idle servers and to a last one, which is on."""
    return [*bound("User", "Server", "0 {}", size + 1), f"move {size + 1} idle on"]


def idling(size):
    """The user runs, and each of the idle servers moves once. None of them gives the port before or after."""
    return [*bound_user(size), "move 0 off run", *(f"move {server} idle rest" for server in range(1, size + 1))]


def running(size):
    """The user goes into run and back to off again and again, so each time some server has to be found that gives the port."""
    return bound_user(size) + ["move 0 off run", "move 0 run off"] * (size // 2)


def main():
    program, sizes = program_and_sizes(__doc__, SIZES)
    TABLE.head()
    with temporary_folder() as folder:
        universe, plan, out = (folder / name for name in ("u.json", "p.txt", "out"))
        write_universe(universe, TYPES)
        for kind in (leaving, closing, idling, running):
            before = None
            for size in sizes:
                actions = kind(size)
                verbs = [action.split(" ")[0] for action in actions]
                plan.write_text(plan_of(actions))
                run = best(RUNS, [program, "replay", universe, plan], out)
                wanted = text_of([f"good standing {verbs.count('new') - verbs.count('delete')} actions {len(actions)}"])
                if run.status != 0 or out.read_text() != wanted:
                    fail(f"{kind.__name__} {size}: {out.read_text()!r} and status {run.status} in place of {wanted!r}")
                TABLE.row(kind.__name__, size, len(actions), plan.stat().st_size / 1e6, run.seconds, ratio(run.seconds, before))
                before = run.seconds


if __name__ == "__main__":
    main()
