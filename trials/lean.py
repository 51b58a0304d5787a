#!/usr/bin/env python3
"""Plans with few instances, beside all there are: python3 -m trials lean [--metis PROGRAM] [--seeds N] [--tangles N]

For N seeds (50) of each size, services whose later states go on offering what the earlier ones did: how many instances `plan` makes,
how many `lean`, how many there are at least, and how many plans were tried. Then N tangles (500) of alternatives, demands of several
providers and cycles: whether `lean` has as few instances as any list of actions, which a search over whole configurations finds out.

Each plan is held against the whole universe by the program's `replay` and `waits`. What is worse than `plan`, or than the least while
the bound says that no plan has fewer, ends the trial with status 1; tangles in which there is a smaller plan are listed.
"""

import argparse
import json
import os
import pathlib
import random
import sys
import tempfile
from typing import NamedTuple

from metis_planner.lean.calls import Calls
from metis_planner.lean.leanest import DEFAULT_CALLS, Leanest
from metis_planner.program import COMMAND, Said
from tests.lean.shapes import Drawn, fewest, services, tangle
from trials.trial import expect

SIZES = ((5, 2), (10, 2), (20, 2), (40, 3), (80, 3))
SHIM = '#!/bin/sh\n[ "$1" = --plain ] && shift\nexec "{program}" "$@"\n'


class Counted(Calls):
    """Calls that are counted."""

    count = 0

    def plan(self, document: str) -> Said:
        self.count += 1
        return super().plan(document)


class Row(NamedTuple):
    """Instances of the plan of `plan`, of that of `lean`, the bound, and how many plans were tried."""

    first: int
    lean: int
    least: int
    tried: int


def row_of(drawn: Drawn) -> Row | None:
    """What comes of it; nothing if the targets are refused."""
    text = json.dumps(drawn.document)
    with Counted(drawn.targets) as calls:
        first = calls.plan(text)
        if first.status:
            return None
        lean = Leanest(text, "the universe", drawn.targets, first.text)
        lean.search(calls, DEFAULT_CALLS, lambda _: None)
        calls.check(text, lean.best.made.text)
        expect(lean.best.made.cost <= lean.first.cost, f"worse than plan: {drawn}")
        return Row(lean.first.cost.instances, lean.best.made.cost.instances, lean.bound.instances, calls.count)


def try_services(seeds: int) -> None:
    for count, requirements in SIZES:
        rows = [row_of(services(count, requirements, random.Random(seed))) for seed in range(seeds)]
        known = [row for row in rows if row]
        means = [sum(each) / len(known) for each in zip(*known)]
        above = [seed for seed, row in enumerate(rows) if row and row.lean > row.least]
        print(f"{count} services: plan {means[0]:.2f}, lean {means[1]:.2f}, at least {means[2]:.2f}, {means[3]:.1f} plans tried", end="")
        print(f"; above the bound: seeds {above}" if above else "; the bound is reached in each", flush=True)


def try_tangles(count: int) -> None:
    least, refused, above = 0, 0, []
    for seed in range(count):
        drawn = tangle(random.Random(seed))
        row = row_of(drawn)
        fewer = fewest(drawn, row.lean if row else 4)
        if row is None:
            expect(fewer is None, f"refused, and there is a way: {seed}")
            refused += 1
            continue
        expect(fewer is not None and row.least <= fewer <= row.lean, f"no bound, or no plan: {seed}")
        least += row.lean == fewer
        if fewer is not None and row.lean > fewer:
            above.append((seed, row.lean, fewer))
    print(f"{count} tangles: {refused} refused, {least} with the fewest instances that there can be, {len(above)} with more")
    for seed, made, fewer in above:
        print(f"  seed {seed}: {made}, where {fewer} would do")


def main() -> int:
    parser = argparse.ArgumentParser(description=__doc__, formatter_class=argparse.RawDescriptionHelpFormatter)
    parser.add_argument("--metis", metavar="PROGRAM", default="crates/metis/out/metis")
    parser.add_argument("--seeds", type=int, default=50)
    parser.add_argument("--tangles", type=int, default=500)
    arguments = parser.parse_args()
    with tempfile.TemporaryDirectory() as folder:
        shim = pathlib.Path(folder, "metis")
        shim.write_text(SHIM.format(program=pathlib.Path(arguments.metis).resolve()))
        shim.chmod(0o755)
        os.environ[COMMAND] = str(shim)
        try_services(arguments.seeds)
        try_tangles(arguments.tangles)
    return 0


if __name__ == "__main__":
    sys.exit(main())
