#!/usr/bin/env python3
"""Tries `why` and `confirm` of the built program on random universes: tools/try_why.py [PROGRAM [SEED [COUNT]]]

The gate does not run this: its cases are few, and these are many. COUNT universes are drawn, 5,000 where no number is given,
half of them of version 2. In most of them states wait for one another, so that much cannot be attained. What has to be printed
is worked out by tools/second_why.py, which knows nothing of the program. For each universe:

- A list of targets is explained and planned for. The text has to be the one that is worked out, byte for byte, or `attained`, and
  both commands have to end with one status.
- Up to two goals that are lacking are explained, those of a few whose explanations are the longest. The text has to be the right
  one; each line has to hold, and none may be one that can be left out.
- Each of these texts has to be confirmed. It is then spoilt in two ways (a word or a line is another one, a line is missing, moved
  or added, the end is cut off), and each time the answer has to be the one that is worked out.

The last line counts all this. The status is 1 where an answer is not the one that has to come, or a kind of answer never came.
"""

import collections
import json
import random
import subprocess
import sys
import tempfile
from pathlib import Path

sys.dont_write_bytecode = True

import second_why as second

PROGRAM = Path(__file__).resolve().parent.parent / "crates" / "metis" / "out" / "metis"
COUNT = 5_000
GOALS, AMONG = 2, 5
# Where there are more ports than this, a state provides and requires a smaller part of them.
MANY = 5
SHOWN = 10
# Words of the texts, which may be names too.
TRICKY = ("needs", "from", "none", "comes", "starts", "needing", "and", "lacks", "lines", "end", "port", "metis", "why", "1")
UNKNOWN = ("T0:gone", "port:gone", "gone:s0", "gone", "port:p0", "", "0", "2", "01", "4294967296", "x!", "T0:s0:s1")
# How the answers of `confirm` begin, each of which has to come.
ANSWERS = ("confirmed lacks", "unfounded line", "lacksnone", "bad why line", "bad why name", "bad why number", "bad why short")


def drawn_names(draw, count, plain):
    """So many different names: plain ones, and now and then words of the texts."""
    odd = draw.sample(TRICKY, count) if count <= len(TRICKY) else []
    return [odd[at] if odd and draw.random() < 0.15 else f"{plain}{at}" for at in range(count)]


def drawn_universe(draw):
    """A document: a few types, whose states lead to one another, provide and require at random. One in a hundred is a large one."""
    version, is_large = draw.choice((1, 2)), draw.random() < 0.01
    ports = drawn_names(draw, draw.randint(15, 30) if is_large else draw.randint(1, 10), "p")
    share = min(1, MANY / len(ports))
    chances = {"provide": draw.uniform(0.05, 0.5) * share, "require": draw.uniform(0.05, 0.6) * share, "next": draw.uniform(0.2, 0.9)}
    names = drawn_names(draw, draw.randint(10, 20) if is_large else draw.randint(1, 9), "T")
    types = [drawn_type(draw, version, name, ports, chances) for name in names]
    give_ports(draw, types, ports)
    return {"aeolus": version, "types": types}


def give_ports(draw, types, ports):
    """Most ports that nothing provides get somebody who does, so that more is lost by circles than by what is not there."""
    states = [state for row in types for state in row["states"]]
    given = {port for state in states for port in state["provide"]}
    for port in ports:
        if port not in given and draw.random() < 0.8:
            draw.choice(states)["provide"].append(port)


def drawn_type(draw, version, name, ports, chances):
    names = drawn_names(draw, draw.randint(1, 4), "s")
    initial = names[0] if draw.random() < 0.8 else draw.choice(names)
    states = []
    for place, state in enumerate(names):
        given = {key: [one for one in among if draw.random() < chances[key]] for key, among in (("provide", ports), ("require", ports), ("next", names))}
        if state == initial and draw.random() < 0.8:
            given["require"] = []
        # Most states lead to the next one, for the same reason.
        if place + 1 < len(names) and names[place + 1] not in given["next"] and draw.random() < 0.8:
            given["next"].append(names[place + 1])
        given["require"] = [drawn_need(draw, version, port) for port in shuffled(draw, given["require"])]
        given["provide"] = shuffled(draw, given["provide"])
        states.append({"name": state, **given})
    return {"name": name, "initial": initial, "states": states}


def drawn_need(draw, version, port):
    return {"port": port, "count": draw.randint(1, 3)} if version == 2 and draw.random() < 0.5 else port


def shuffled(draw, items):
    return draw.sample(items, len(items))


def all_goals(u):
    """All goals for which there is a word."""
    ports = [] if "port" in u.types else [("port", port) for port in range(len(u.ports))]
    return [("pair", pair) for pair in range(len(u.names))] + ports


# Texts that are spoilt. Each function is given the lines of a text without their line feeds.


def with_other_word(draw, u, rows):
    at = draw.randrange(len(rows))
    words = rows[at].split(" ")
    words[draw.randrange(len(words))] = draw.choice(draw.choice(([*u.names, *u.ports], TRICKY, UNKNOWN)))
    return [*rows[:at], " ".join(words), *rows[at + 1 :]]


def with_other_line(draw, u, rows):
    """A line becomes that of some pair with some reason."""
    if len(rows) < 5:
        return with_other_word(draw, u, rows)
    at, pair = draw.randrange(3, len(rows) - 1), draw.randrange(len(u.names))
    ports = list(range(len(u.ports)))
    reasons = ports + ([] if u.is_free(pair) else [second.COMES] * 2)
    if not reasons:
        return with_other_word(draw, u, rows)
    return [*rows[:at], second.line_text(u, pair, draw.choice(reasons)), *rows[at + 1 :]]


def without_line(draw, _, rows):
    at = draw.randrange(len(rows))
    return rows[:at] + rows[at + 1 :]


def with_fewer_lines(draw, u, rows):
    """One of the lines goes, and is not counted any more."""
    if len(rows) < 5:
        return without_line(draw, u, rows)
    at, left = draw.randrange(3, len(rows) - 1), len(rows) - 5
    return [*rows[:2], f"lines {left}", *(row for place, row in enumerate(rows[3:], 3) if place != at)]


def with_other_count(draw, _, rows):
    """The third line says another number."""
    count = draw.choice(["0", "1", str(len(rows) - 3), str(len(rows) - 5), "4294967295", "4294967296", "01", "", "-1"])
    return [*rows[:2], f"lines {count}", *rows[3:]]


def with_lines_swapped(draw, _, rows):
    made = list(rows)
    one, other = draw.sample(range(len(rows)), 2)
    made[one], made[other] = made[other], made[one]
    return made


def with_line_added(draw, _, rows):
    made = list(rows)
    made.insert(draw.randrange(len(rows) + 1), draw.choice([*rows, ""]))
    return made


SPOILS = (
    with_other_word,
    with_other_word,
    with_other_line,
    with_other_line,
    without_line,
    with_fewer_lines,
    with_fewer_lines,
    with_other_count,
    with_lines_swapped,
    with_line_added,
)


def spoilt(draw, u, text):
    if draw.random() < 0.1:
        return text[: draw.randrange(len(text))]
    return "".join(row + "\n" for row in draw.choice(SPOILS)(draw, u, text.split("\n")[:-1]))


class Tried:
    """The program over one universe after the other, and what came of it."""

    def __init__(self, program, folder, draw):
        self.program, self.draw = program, draw
        self.file = Path(folder) / "universe.json"
        self.counts, self.answers, self.lengths, self.failed = collections.Counter(), collections.Counter(), [], 0

    def ask(self, words, given=""):
        """What the program puts, and its status."""
        done = subprocess.run([self.program, *words], input=given.encode("latin-1"), stdout=subprocess.PIPE, close_fds=False, check=False)
        return done.stdout.decode("latin-1"), done.returncode

    def expect(self, words, given, wanted):
        """Whether the program gives this text and this status."""
        self.counts[words[0]] += 1
        got = self.ask(words, given)
        if got != wanted:
            self.fail(words, given, f"it put {got[0]!r} with status {got[1]}, and not {wanted[0]!r} with status {wanted[1]}")

    def fail(self, words, given, what):
        self.failed += 1
        if self.failed <= SHOWN:
            print(f"FAILED: metis {' '.join(map(str, words))}: {what}")
            print(f"  over {self.file.read_text()}" + (f"  with {given!r}" if given else ""))

    def try_universe(self, document):
        self.file.write_text(json.dumps(document) + "\n")
        u = second.Universe(document)
        attained = u.attained()
        lacking = set(range(len(u.names))) - attained
        goals = all_goals(u)
        lost = [goal for goal in goals if second.covers(u, lacking, goal)]
        self.counts["universes"] += 1
        self.counts["lacking"] += len(lost)
        self.try_list(u, [goal for goal in goals if goal not in lost], lost)
        some = self.draw.sample(lost, min(AMONG, len(lost)))
        told = sorted(((second.why(u, goal), goal) for goal in some), key=lambda it: len(it[0]))
        for lines, goal in told[-GOALS:]:
            self.try_goal(u, goal, lines, goals)

    def try_list(self, u, found, lost):
        """A list of targets, explained and planned for: some that are attained, and now and then some that are not."""
        listed = self.draw.sample(found, min(len(found), self.draw.randint(0, 3)))
        if lost and self.draw.random() < 0.5:
            listed = shuffled(self.draw, listed + [self.draw.choice(lost) for _ in range(self.draw.randint(1, 2))])
        words = [u.goal_word(goal) for goal in listed]
        text, status = second.explained(u, listed)
        self.expect(["why", self.file, *words], "", (text, status))
        planned = self.ask(["plan", self.file, *words])[1]
        self.counts["plan"] += 1
        if planned != status:
            self.fail(["plan", self.file, *words], "", f"status {planned}, and `why` has to have {status}")

    def try_goal(self, u, goal, lines, goals):
        text, word = second.text_of(u, goal, lines), u.goal_word(goal)
        self.expect(["why", self.file, word], "", (text, second.NO))
        self.lengths.append(len(lines))
        x = {pair for pair, _ in lines}
        if any(second.covers(u, second.settled(u, x - {pair}), goal) for pair in x) or second.verdict(u, lines, [goal])[1] != second.DONE:
            self.fail(["why", self.file, word], "", "these are not lines of which none can be left out")
        self.try_text(u, text, [goal])
        for _ in range(2):
            self.try_text(u, spoilt(self.draw, u, text), [self.draw.choice(goals), goal])

    def try_text(self, u, text, goals):
        wanted = second.confirmed(u, text.encode("latin-1"), goals)
        self.answers[next(begin for begin in ANSWERS if wanted[0].startswith(begin))] += 1
        self.expect(["confirm", self.file, "-", *map(u.goal_word, goals)], text, wanted)

    def last_line(self):
        told = ", ".join(f"{begin} {self.answers[begin]:,}" for begin in ANSWERS)
        lengths = sorted(self.lengths)
        spread = f"{lengths[len(lengths) // 2]} on the median, {lengths[-1]} at most" if lengths else "none"
        return (
            f"{self.counts['universes']:,} universes, {self.counts['lacking']:,} goals that are lacking, {len(lengths):,} of them explained (lines: {spread}); "
            f"{self.counts['why']:,} calls of why, {self.counts['plan']:,} of plan, {self.counts['confirm']:,} of confirm ({told}); "
            f"{self.failed} otherwise than they have to be"
        )


def main(words):
    program = Path(words[0] if words else PROGRAM).resolve()
    seed, count = int(words[1]) if len(words) > 1 else 1, int(words[2]) if len(words) > 2 else COUNT
    if not program.is_file():
        print(f"there is no program {program}", file=sys.stderr)
        return 2
    draw = random.Random(seed)
    with tempfile.TemporaryDirectory() as folder:
        tried = Tried(program, folder, draw)
        for _ in range(count):
            tried.try_universe(drawn_universe(draw))
    missing = [begin for begin in ANSWERS if not tried.answers[begin]]
    if missing:
        print(f"FAILED: no answer begins with: {', '.join(missing)}")
    print(tried.last_line())
    return 1 if tried.failed or missing else 0


if __name__ == "__main__":
    sys.exit(main(sys.argv[1:]))
