#!/usr/bin/env python3
"""Times how a crew takes turns over plans, up to one near the largest, with as many turns as actions, and checks the answers.

    crew.py PROGRAM [TARGETS ..]

PROGRAM is the built planner, as crates/metis/out/metis. The plans are those of replay.py. Each is printed by `plan`, and then a
crew takes turns over it in three orders. Whose turn it is, and what an answer may be, is told by the plan's text. The least time of
two runs counts, and it is that of the processor. The status is 1 where an answer is not one that has to come. docs/dev/BENCHMARKS.md
says how to read the table.
"""

from measure import LARGE, Table, actors_and_waits, best, fail, large_plans, program_and_sizes, ratio, temporary_folder

RUNS = 2
TABLE = Table(("kind `{}`", "actions {:,}", "turns {:,}", "seconds {:.2f}", "megabytes {:,.0f}", "to the size before, by the action {:.2f}"))


def own(actors):
    """The turns in the order of the text: each one does its action."""
    return actors


def waiting(actors):
    """Turns of the last instance alone. It is made, and then it waits for the others."""
    return [actors[-1]] * len(actors)


def rounds(actors):
    """One instance after the other, and so on in rounds."""
    instances = max(actors) + 1
    return [turn % instances for turn in range(len(actors))]


def answers_are_right(turns, actors, after, lines):
    """Whether each line is what the crew has to answer: an instance does its actions in their order, each once all behind its
    `after` are done, and waits for the least of these that is not."""
    numbers = {}
    for number, actor in enumerate(actors, 1):
        numbers.setdefault(actor, []).append(number)
    count = dict.fromkeys(numbers, 0)
    done = set()
    for turn in turns:
        mine = numbers[turn]
        if count[turn] == len(mine):
            answer = "done"
        else:
            number = mine[count[turn]]
            left = [other for other in after[number - 1] if other not in done]
            if left:
                answer = f"waits {number} {left[0]}"
            else:
                answer = f"did {number}"
                done.add(number)
                count[turn] += 1
        if next(lines) != answer + "\n":
            return False
    return list(lines) == [f"progress {len(done)} of {len(actors)}\n"]


def main():
    program, sizes = program_and_sizes(__doc__, LARGE)
    TABLE.head()
    before = {}
    with temporary_folder() as folder:
        script, out = folder / "t.txt", folder / "out"
        for plan in large_plans(program, folder, sizes):
            actors, after = actors_and_waits(plan.file.read_text())
            for kind in (own, waiting, rounds):
                turns = kind(actors)
                script.write_text(" ".join(map(str, turns)) + "\n")
                run = best(RUNS, [program, "crew", plan.universe, plan.file, script], out)
                with open(out) as lines:
                    if run.status != 0 or not answers_are_right(turns, actors, after, lines):
                        fail(f"{plan.size} targets, {kind.__name__}: a wrong answer")
                each = run.seconds / len(actors)
                TABLE.row(kind.__name__, len(actors), len(turns), run.seconds, run.megabytes, ratio(each, before.get(kind)))
                before[kind] = each


if __name__ == "__main__":
    main()
