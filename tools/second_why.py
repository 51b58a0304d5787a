#!/usr/bin/env python3
"""Why a goal is never attained: a second reading of `why` and `confirm`, in plain Python, from the definitions alone.

    tools/second_why.py why UNIVERSE T:s ..
    tools/second_why.py confirm UNIVERSE TEXT T:s ..

It prints what the program has to print over the same files and words, and ends with the same status. It takes universes
that are in order and words of the right form; of others it tells no fault. tools/try_why.py compares the two.

A set x of pairs bars a pair that is not free for one of two reasons. The pair requires a port, and each pair that provides
the port is in x. Or each pair from which a move leads to it is in x. The set is barred where it bars each of its pairs. It
covers a goal where it has the pair, or each pair that provides the port. What a barred set covers no list of actions
attains (docs/dev/MODEL.md). Which lines are printed, where several would do, is settled by three rules:

- Pairs are tried one after the other, the farthest from the goal first, and left out where the rest still covers it. Of pairs
  that are as far the last by number comes first. The pairs that the goal wants are at no distance. Each reason that a pair has
  among those that are not attained leads to the pairs that it names, and these are farther by as many as it names.
- Of a pair's reasons a port is told before its moves. Of several ports it is the one that the fewest pairs provide, and of
  these the first.
- The pairs that the goal wants come first. Behind them come, line after line, those that the line names, each once.

A reason is a port's number, or COMES.
"""

import json
import re
import sys
from pathlib import Path

COMES = None
NAME = re.compile(r"[A-Za-z0-9_./@-]{1,64}")
NUMBER = re.compile(r"0|[1-9][0-9]*")
LONGEST = 1_073_741_824
DONE, NO, BAD_WORDS, BAD_INPUT = range(4)


class Universe:
    """The pairs and ports of a document that is in order, by their numbers."""

    def __init__(self, document):
        self.types = [row["name"] for row in document["types"]]
        self.names, self.is_initial, self.provided, self.required, self.next = [], [], [], [], []
        self.ports, self.port_at = [], {}
        for row in document["types"]:
            self.add_type(row)
        self.pair_at = {name: pair for pair, name in enumerate(self.names)}
        self.providers, self.before = [[] for _ in self.ports], [[] for _ in self.names]
        for pair in range(len(self.names)):
            for port in self.provided[pair]:
                self.providers[port].append(pair)
            for following in self.next[pair]:
                self.before[following].append(pair)

    def add_type(self, row):
        first = len(self.names)
        place = {state["name"]: first + at for at, state in enumerate(row["states"])}
        for state in row["states"]:
            self.names.append(row["name"] + ":" + state["name"])
            self.is_initial.append(state["name"] == row["initial"])
            self.provided.append(self.numbers(state.get("provide", [])))
            self.required.append(self.numbers(state.get("require", [])))
            self.next.append(sorted({place[name] for name in state.get("next", [])}))

    def numbers(self, entries):
        """The ports that entries name, ascending. Ports are numbered as they are seen first."""
        found = set()
        for entry in entries:
            name = entry if isinstance(entry, str) else entry["port"]
            if name not in self.port_at:
                self.port_at[name] = len(self.ports)
                self.ports.append(name)
            found.add(self.port_at[name])
        return sorted(found)

    def is_free(self, pair):
        return self.is_initial[pair] and not self.required[pair]

    def attained(self):
        """The attainable pairs: those that are free, and those to which a move leads from one of them and whose ports are provided."""
        reached = {pair for pair in range(len(self.names)) if self.is_free(pair)}
        while True:
            given = {port for pair in reached for port in self.provided[pair]}
            led = {following for pair in reached for following in self.next[pair]}
            more = {pair for pair in led - reached if given.issuperset(self.required[pair])}
            if not more:
                return reached
            reached |= more

    def goal_named(self, word):
        """The goal that a word asks for: a pair's or a port's number with its kind; None where it names nothing."""
        kind, _, name = word.partition(":")
        if kind == "port" and "port" not in self.types:
            return ("port", self.port_at[name]) if name in self.port_at else None
        return ("pair", self.pair_at[word]) if word in self.pair_at else None

    def goal_word(self, goal):
        kind, number = goal
        return self.names[number] if kind == "pair" else "port:" + self.ports[number]


def read_universe(path):
    return Universe(json.loads(Path(path).read_bytes()))


# Barred sets.


def wanted(u, goal):
    """The pair that a goal is, or those that provide the port."""
    kind, number = goal
    return [number] if kind == "pair" else u.providers[number]


def named(u, pair, reason):
    """The pairs for which a pair waits by this reason."""
    return u.before[pair] if reason is COMES else u.providers[reason]


def holds(u, x, pair, reason):
    """Whether this is a reason of the pair in the set x."""
    is_own = not u.is_free(pair) if reason is COMES else reason in u.required[pair]
    return is_own and all(other in x for other in named(u, pair, reason))


def covers(u, x, goal):
    return all(pair in x for pair in wanted(u, goal))


def reasons(u, x, pair):
    """All reasons that the pair has in the set x: ports in order, and then moves."""
    return [reason for reason in [*u.required[pair], COMES] if holds(u, x, pair, reason)]


def told_reason(u, x, pair):
    """The reason that is told of the pair."""
    ports = [reason for reason in reasons(u, x, pair) if reason is not COMES]
    return min(ports, key=lambda port: len(u.providers[port])) if ports else COMES


def settled(u, x):
    """The greatest barred set inside x."""
    x = set(x)
    while True:
        out = {pair for pair in x if not reasons(u, x, pair)}
        if not out:
            return x
        x -= out


def distances(u, x, goal):
    """What a way from the goal to a pair costs at least: a step by a reason costs as many as the pairs that the reason names."""
    far = {pair: 0 for pair in wanted(u, goal)}
    nearer = list(far)
    for pair in nearer:  # grows as it goes
        for reason in reasons(u, x, pair):
            others = named(u, pair, reason)
            cost = far[pair] + len(others)
            for other in others:
                if other not in far or cost < far[other]:
                    far[other] = cost
                    nearer.append(other)
    return far


def by_distance(u, x, goal):
    """The pairs behind the goal from near to far, and those that are as near by their numbers."""
    far = distances(u, x, goal)
    return sorted(far, key=lambda pair: (far[pair], pair))


def needed(u, x, goal):
    """What is left of a barred set that covers the goal, when all is left out that can be."""
    order = by_distance(u, x, goal)
    x = set(order)
    for pair in reversed(order):
        rest = settled(u, x - {pair})
        if covers(u, rest, goal):
            x = rest
    return x


def lines_of(u, x, goal):
    pairs, lines = list(wanted(u, goal)), []
    for pair in pairs:  # grows as it goes
        lines.append((pair, told_reason(u, x, pair)))
        pairs += [other for other in named(u, *lines[-1]) if other not in pairs]
    return lines


def why(u, goal):
    """The lines that tell why the goal is never attained, or None where it is."""
    x = set(range(len(u.names))) - u.attained()
    return lines_of(u, needed(u, x, goal), goal) if covers(u, x, goal) else None


# The text.


def list_text(u, pairs):
    return "from " + (" ".join(u.names[pair] for pair in pairs) or "none")


def line_text(u, pair, reason):
    if reason is not COMES:
        return f"{u.names[pair]} needs {u.ports[reason]} {list_text(u, u.providers[reason])}"
    start = f"starts needing {u.ports[u.required[pair][0]]} and " if u.is_initial[pair] else ""
    return f"{u.names[pair]} {start}comes {list_text(u, u.before[pair])}"


def goal_text(u, goal):
    return u.goal_word(goal) + (" " + list_text(u, wanted(u, goal)) if goal[0] == "port" else "")


def text_of(u, goal, lines):
    rows = ["metis why 1", "lacks " + goal_text(u, goal), f"lines {len(lines)}", *(line_text(u, *line) for line in lines), "end"]
    return "".join(row + "\n" for row in rows)


class Fault(Exception):
    """What is wrong with a text."""


class Rows:
    """The lines of a text, one after the other."""

    def __init__(self, data):
        self.rest, self.number = data.decode("latin-1"), 0

    def next(self):
        row, feed, rest = self.rest.partition("\n")
        if not feed:
            raise Fault("bad why short")
        self.rest, self.number = rest, self.number + 1
        return row

    def refuse(self, kind):
        raise Fault(f"bad why {kind} {self.number}")

    def expect(self, text):
        if self.next() != text:
            self.refuse("line")


def is_word(word):
    """Whether it is two names with a colon between them."""
    first, colon, second = word.partition(":")
    return bool(colon and NAME.fullmatch(first) and NAME.fullmatch(second))


def read_goal(u, rows):
    row = rows.next()
    words = row.split(" ")
    if words[0] != "lacks" or len(words) < 2 or not is_word(words[1]):
        rows.refuse("line")
    goal = u.goal_named(words[1])
    if goal is None:
        rows.refuse("name")
    if row != "lacks " + goal_text(u, goal):
        rows.refuse("line")
    return goal


def read_count(rows):
    words = rows.next().split(" ")
    if len(words) != 2 or words[0] != "lines" or not NUMBER.fullmatch(words[1]):
        rows.refuse("line")
    if len(words[1]) > 10 or int(words[1]) >= 2**32:
        rows.refuse("number")
    return int(words[1])


def read_line(u, rows):
    """A pair with its reason. The form of the words that name them comes first, then the names; then the line has to be their text."""
    row = rows.next()
    words = row.split(" ")
    is_need = words[1:2] == ["needs"]
    if not is_word(words[0]) or words[1:2] not in (["needs"], ["comes"], ["starts"]):
        rows.refuse("line")
    if is_need and (len(words) < 3 or not NAME.fullmatch(words[2])):
        rows.refuse("line")
    if words[0] not in u.pair_at or (is_need and words[2] not in u.port_at):
        rows.refuse("name")
    pair, reason = u.pair_at[words[0]], u.port_at[words[2]] if is_need else COMES
    if (reason is COMES and u.is_free(pair)) or row != line_text(u, pair, reason):
        rows.refuse("line")
    return pair, reason


def read_text(u, data):
    """The goal and the lines that a text says; a Fault tells what is wrong with it."""
    rows = Rows(data)
    rows.expect("metis why 1")
    goal = read_goal(u, rows)
    lines = []
    for _ in range(read_count(rows)):
        lines.append(read_line(u, rows))
    rows.expect("end")
    if rows.rest:
        raise Fault(f"bad why line {rows.number + 1}")
    return goal, lines


def verdict(u, lines, goals):
    """What lines from any source come to, and the status."""
    x = {pair for pair, _ in lines}
    for number, line in enumerate(lines, 4):
        if not holds(u, x, *line):
            return f"unfounded line {number}", NO
    for goal in goals:
        if covers(u, x, goal):
            return f"confirmed lacks {u.goal_word(goal)}", DONE
    return "lacksnone", NO


# The commands.


def explained(u, goals):
    """What `why` prints for these goals, and the status."""
    for goal in goals:
        lines = why(u, goal)
        if lines is not None:
            return text_of(u, goal, lines), NO
    return "attained\n", DONE


def confirmed(u, data, goals):
    """What `confirm` prints for a text and these goals, and the status."""
    if len(data) > LONGEST:
        return "too long 3\n", BAD_INPUT
    try:
        line, status = verdict(u, read_text(u, data)[1], goals)
    except Fault as fault:
        line, status = str(fault), BAD_INPUT
    return line + "\n", status


def main(words):
    if len(words) < 2 or words[0] not in ("why", "confirm") or (words[0] == "confirm" and len(words) < 3):
        print(__doc__, file=sys.stderr)
        return BAD_WORDS
    verb, universe, *rest = words
    u = read_universe(universe)
    text = rest.pop(0) if verb == "confirm" else None
    goals = [u.goal_named(word) for word in rest]
    if None in goals:
        put, status = f"bad word {len(words) - len(goals) + goals.index(None) + 1}\n", BAD_WORDS
    elif verb == "why":
        put, status = explained(u, goals)
    else:
        put, status = confirmed(u, Path(text).read_bytes(), goals)
    print(put, end="")
    return status


if __name__ == "__main__":
    sys.exit(main(sys.argv[1:]))
