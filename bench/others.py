#!/usr/bin/env python3
"""Times Metis beside what a user might take instead, over the generated universes, in one run.

    others.py PROGRAM [SECONDS]

PROGRAM is the built program, as crates/metis/out/metis; SECONDS is how long clingo may search, 60 where it is not given. clingo
(Debian's package `gringo`) and terraform are run where they are there, and left out where they are not.

    metis       `plan` over the universe of the size and its targets: providers, doubles, waits and a tidy end are found
    clingo      the same search for a general solver, step by step: two instances a type are given by hand, in each step each
                instance does at most one action, and nothing is bound by name. It finds no waits and no tidy end, and where
                there is no plan it searches on
    terraform   `terraform plan` over one resource for each pair, with the order given by hand: it chooses no provider, makes no
                double, and answers a cycle with an error

The seconds are by the clock, for the whole run of each, the least of three; of one that takes over five seconds one run. The script
looks at each answer, and its status is 1 where one is not what has to come. docs/dev/BENCHMARKS.md says how to read the table.
"""

import json
import os
import shutil
import subprocess

from measure import (
    Table,
    counts_of,
    fail,
    generated,
    last_states,
    program_and_words,
    run,
    temporary_folder,
    usage,
    write_universe,
)

SIZES = (1, 2, 3, 4, 8, 16, 32, 64, 128)
RUNS, LONG = 3, 5
TABLE = Table(("size {}", "pairs {}", "metis {:.3f}", "clingo {}", "steps {}", "terraform {:.2f}"), is_framed=False)
CLINGO = """
#program step(t).
% Each instance does at most one action a step.
{ act(T,I,new,t); act(T,I,del,t); act(T,I,mv(S,Q),t) : next(T,S,Q) } 1 :- inst(T,I).
:- act(T,I,new,t), st(T,I,_,t-1).
:- act(T,I,del,t), not st(T,I,_,t-1).
:- act(T,I,mv(S,Q),t), not st(T,I,S,t-1).
st(T,I,S,t) :- act(T,I,new,t), init(T,S).
st(T,I,Q,t) :- act(T,I,mv(S,Q),t).
ch(T,I,t) :- act(T,I,_,t).
st(T,I,S,t) :- st(T,I,S,t-1), not ch(T,I,t).
% A required port is served by another instance that provides it before the step and after it.
:- st(T,I,S,t), req(T,S,P), not served(T,I,P,t).
served(T,I,P,t) :- st(T,I,S,t), req(T,S,P), st(U,J,V,t), st(U,J,W,t-1), prov(U,V,P), prov(U,W,P), (T,I) != (U,J).
#program check(t).
:- query(t), goal(T,S), not st(T,1,S,t).
"""


def program_of(types):
    """The universe for clingo."""
    lines = ["#include <incmode>.", "#program base."]
    for row in types:
        name = row["name"]
        lines.append(f"init({name},{row['initial']}). inst({name},1..2).")
        for state in row["states"]:
            for word, key in (("prov", "provide"), ("req", "require"), ("next", "next")):
                lines += [f"{word}({name},{state['name']},{other})." for other in state.get(key, [])]
    lines += ["goal({},{}).".format(*target.split(":")) for target in last_states(types)]
    return "\n".join(lines) + CLINGO


def resources_of(types):
    """A resource for each pair, which depends on the pair before it and on those that provide what it requires."""
    givers = {port: f"{row['name']}_{state['name']}" for row in types for state in row["states"] for port in state.get("provide", [])}
    lines = ['terraform { required_version = ">= 1.4" }']
    for row in types:
        before = []
        for state in row["states"]:
            pair = f"{row['name']}_{state['name']}"
            listed = ", ".join(f"terraform_data.{it}" for it in before + [givers[port] for port in state.get("require", [])])
            lines.append(f'resource "terraform_data" "{pair}" {{\n  input      = "{state["name"]}"\n  depends_on = [{listed}]\n}}')
            before = [pair]
    return "\n".join(lines)


def timed(words, folder, limit=0):
    """The status, and the least seconds by the clock; none where it takes too long."""
    clocks, statuses = [], set()
    while not clocks or (len(clocks) < RUNS and clocks[0] < LONG):
        made = run(words, folder / "out", folder, limit, is_quiet=True)
        if limit and made.clock >= limit:
            return None, None
        clocks.append(made.clock)
        statuses.add(made.status)
    if len(statuses) > 1:
        fail(f"{words[0]}: another status when it ran again: {sorted(statuses)}")
    return made.status, min(clocks)


def time_metis(program, types, folder):
    write_universe(folder / "universe.json", types)
    status, seconds = timed([program, "plan", "universe.json", *last_states(types)], folder)
    size = len(types) // 2
    if status != 0 or counts_of(folder / "out") != (3 * size, 18 * size - 3, size):
        fail(f"metis, size {size}: status {status}: {(folder / 'out').read_text()[:200]}")
    return seconds


def time_clingo(types, folder, limit):
    """The seconds of a search, none where it took too long, and how many steps the plan that it finds has."""
    (folder / "universe.lp").write_text(program_of(types))
    status, seconds = timed(["clingo", "universe.lp", "1", "--outf=2"], folder, limit)
    if status is None:
        return None, None
    answer = json.loads((folder / "out").read_text())
    if answer["Result"] != "SATISFIABLE":
        fail(f"clingo, size {len(types) // 2}: {answer['Result']}")
    # the first call has no step
    return seconds, len(answer["Call"]) - 1


def time_terraform(types, folder):
    (folder / "main.tf").write_text(resources_of(types))
    subprocess.run(["terraform", "init", "-no-color"], cwd=folder, capture_output=True, check=True)
    status, seconds = timed(["terraform", "plan", "-no-color"], folder)
    told = (folder / "out").read_text()
    if status != 0 or f"Plan: {4 * len(types)} to add" not in told:
        fail(f"terraform, size {len(types) // 2}: status {status}: {told[-200:]}")
    return seconds


def main():
    program, words = program_and_words(__doc__, 2)
    if words and not (words[0].isascii() and words[0].isdigit() and int(words[0])):
        usage(__doc__)
    limit = int(words[0]) if words else 60
    searches, orders = (shutil.which(name) is not None for name in ("clingo", "terraform"))
    os.environ["CHECKPOINT_DISABLE"] = "1"
    TABLE.head()
    for size in SIZES:
        types, found, steps, ordered = generated(size), None, None, None
        with temporary_folder() as folder:
            metis = time_metis(program, types, folder)
            if searches:
                seconds, steps = time_clingo(types, folder, limit)
                # what one size takes too long for, a larger one does too
                searches = seconds is not None
                found = f"{seconds:.2f}" if searches else f"none in {limit}"
            if orders:
                ordered = time_terraform(types, folder)
        TABLE.row(size, 8 * size, metis, found, steps, ordered)


if __name__ == "__main__":
    main()
