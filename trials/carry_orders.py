#!/usr/bin/env python3
"""Carries plans out in many orders, by make and by ninja, and has the order that really happened judged by the program:

    python3 -m trials carry_orders [--metis PROGRAM] [--seeds N]

Each step waits for a random moment, and then writes its action down. What was written is made a plan text again, and
`replay` has to find it good, with each action in it once. In four passes of ten some steps fail at random; the next
pass goes on. The engine, the number of jobs and the order of the goals are drawn. In a rollout each front of what was
written, from where the old plan is done, has to hold the old targets or the new ones by `replay`. Half of the rollouts
are exported into the folder of the old plan, and half into an empty one, with --from. make and ninja have to be there.
"""

import argparse
import dataclasses
import pathlib
import random
import sys
import tempfile


from trials import trial
from trials.trial import TOP, Failed, expect

WHENS = ("*: new", "*: delete", "*: bind *", "*: unbind *", "*: * -> *")
BODY = f"""
sleep 0.00$(( $(od -An -N1 -tu1 /dev/urandom) % 9 ))
if [ -e "$TRACE.failing" ] && [ $(( $(od -An -N1 -tu1 /dev/urandom) % 8 )) -eq 0 ]; then exit 3; fi
{trial.TRACED}
echo "$line" >>"$TRACE"
"""
FAILING = 0.4
MOST_JOBS = 8


@dataclasses.dataclass(frozen=True)
class Case:
    """A universe with the targets of a plan, and those of a rollout, if there is one."""

    name: str
    universe: str
    targets: tuple[str, ...]
    later: tuple[str, ...] | None = None


CASES = (
    Case("blog", "blog.json", ("haproxy:run",)),
    Case("blog rolled out", "blog.json", ("haproxy:run",), ("haproxy:run", "wordpress:run")),
    Case("blog taken down", "blog.json", ("haproxy:run",), ()),
    Case("crossed, one doubled", "crossed.json", ("A:a3", "B:b3")),
    Case("balanced, three of a kind", "balanced.json", ("Balancer:up",), ("Balancer:up",)),
    Case("lvm2", "lvm2.json", ("port:lvm2",)),
)


class Run:
    """A case carried out once, by what a seed draws."""

    def __init__(self, program: str, case: Case, seed: int, top: pathlib.Path) -> None:
        self.program, self.case, self.top = program, case, top
        self.draw = random.Random(f"{case.name} {seed}")
        self.universe = TOP / "examples" / case.universe
        self.trace, self.folder = top / "trace", top / "f"
        self.engine = self.draw.choice(["make", "make", "ninja"])
        self.failed = 0
        steps = "".join(f"[[step]]\nwhen = \"{when}\"\nrun = '''{BODY}'''\n" for when in WHENS)
        (top / "c.toml").write_text(f'[env]\nTRACE = "{self.trace}"\n{steps}')

    def go(self) -> tuple[str, ...]:
        """Does it all, and gives the order that happened."""
        plan = self.planned("plan", self.universe, *self.case.targets)
        goals, last = self.case.targets, plan
        if self.case.later is None:
            self.carry_out(plan)
        else:
            goals, last = self.case.later, self.planned("rollout", self.universe, plan, *self.case.later)
            if self.draw.random() < 0.5:
                self.carry_out(plan)
                self.carry_out(last)
            else:
                self.carry_out(last, "--from", plan)
        lines = self.trace.read_text().splitlines()
        self.judge(lines, goals, self.count(last))
        if self.case.later:
            self.judge_fronts(lines, self.count(plan))
        return tuple(lines)

    def planned(self, *words: object) -> pathlib.Path:
        path = self.top / f"{words[0]}.txt"
        path.write_text(trial.printed(self.program, *words))
        return path

    def count(self, plan: pathlib.Path) -> int:
        return int(plan.read_text().splitlines()[1].split()[3])

    def carry_out(self, plan: pathlib.Path, *more: object) -> None:
        trial.exporters(self.engine, plan, "--commands", self.top / "c.toml", "--to", self.folder, *more)
        if self.engine == "make":
            trial.shuffle_goals(self.folder, self.draw)
        words = trial.engine_words(self.engine, self.folder, self.draw.randint(1, MOST_JOBS))
        if self.draw.random() < FAILING:
            failing = self.top / "trace.failing"
            failing.touch()
            keep = self.draw.choice([[], ["-k"] if self.engine == "make" else ["-k", "0"]])
            self.failed += trial.carry_out([*words, *keep]).returncode != 0
            failing.unlink()
        done = trial.carry_out(words)
        expect(done.returncode == 0, done.stdout)

    def judge(self, lines: list[str], goals: tuple[str, ...], count: int) -> None:
        verdict = trial.printed(self.program, "replay", self.universe, "-", *goals, text=trial.plan_text(lines))
        expect(verdict.startswith("good "), f"{verdict}{lines}")
        expect(len(lines) == len(set(lines)) == count, f"{len(lines)} lines of {count} actions")

    def judge_fronts(self, lines: list[str], old: int) -> None:
        """Whether the old targets are held, or the new ones, at each moment from where the old plan is done."""
        old_lines = {
            line.split(" ", 1)[1].partition(" after")[0]
            for line in (self.top / "plan.txt").read_text().splitlines()[2 : 2 + old]
        }
        begin = max(place for place, line in enumerate(lines) if line in old_lines)
        for place in range(begin, len(lines)):
            text = trial.plan_text(lines[: place + 1])
            verdicts = (
                trial.printed(self.program, "replay", self.universe, "-", *goals, text=text)
                for goals in (self.case.targets, self.case.later)
            )
            expect(
                any(verdict.startswith("good ") for verdict in verdicts), f"nothing stands behind {lines[: place + 1]}"
            )


def main() -> int:
    parser = argparse.ArgumentParser(description=__doc__, formatter_class=argparse.RawDescriptionHelpFormatter)
    parser.add_argument("--metis", default=str(TOP / "metis"), metavar="PROGRAM")
    parser.add_argument(
        "--seeds", type=int, default=40, metavar="N", help="how often each of the six cases is carried out (40)"
    )
    arguments = parser.parse_args()
    for case in CASES:
        orders, failed = set(), 0
        for seed in range(arguments.seeds):
            with tempfile.TemporaryDirectory() as top:
                run = Run(arguments.metis, case, seed, pathlib.Path(top))
                try:
                    orders.add(run.go())
                except Failed as fault:
                    print(f"{case.name}, seed {seed}, by {run.engine}: {fault}")
                    return 1
                failed += run.failed
        print(
            f"{case.name}: {arguments.seeds} times good, in {len(orders)} orders; {failed} passes failed and were resumed",
            flush=True,
        )
    return 0


if __name__ == "__main__":
    sys.exit(main())
