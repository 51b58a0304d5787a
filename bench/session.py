#!/usr/bin/env python3
"""Times sessions over the longest scripts, by the clock, and takes the most memory that they hold.

    session.py PROGRAM

PROGRAM is the built planner, as crates/metis/out/metis. Each script has at most the 65,536 bytes that are read, and all of its
actions are done, so that all configurations are kept. The status is 1 where an answer is not the one that has to come.
docs/dev/BENCHMARKS.md says how to read the table.
"""

import sys

from measure import LIMIT, Table, line_of, lines_in, program_and_words, run, temporary_folder, text_of, write_universe

TABLE = Table(("kind {}", "lines {:,}", "bytes {:,}", "seconds {:.2f}", "megabytes {:,.0f}"), is_framed=False)
# Its second state requires the port that its first one provides, so that its instances may be bound.
TYPE = line_of("A", [("a", ["p"], []), ("b", ["p"], ["p"])])


def making(space=LIMIT):
    """As many instances as there is space for."""
    return lines_in(space, [], lambda number: [f"new {number} A"])


def half_made():
    """Instances until half the script is full: the last one fills it."""
    return making(LIMIT // 2 + len("new 1000 A"))


def bound(space):
    """As many bindings between a few instances as there is space for, each as the words behind the verb, with the lines that make them."""
    count = 72
    lines = [f"new {number} A" for number in range(count)]
    size, made = len(text_of(lines)), []
    for inst in range(count):
        for to in range(count):
            words = f"p {inst} {to}"
            if inst != to and size + len(words) + 6 <= space:
                made.append(words)
                size += len(words) + 6
    return lines + [f"bind {words}" for words in made], size, made


def binding():
    """A few instances, and as many bindings between them as the script has room for."""
    return bound(LIMIT)[0]


def unbinding():
    """Bindings, and then each of them ended: before each end the session keeps a copy."""
    lines, size, made = bound(LIMIT * 11 // 24)
    for words in reversed(made):
        if size + len(words) + 8 <= LIMIT:
            lines.append(f"unbind {words}")
            size += len(words) + 8
    return lines


def rebinding():
    """Bindings, of which one is ended again and again, and each end undone at once."""
    lines, _, made = bound(LIMIT // 2)
    return lines_in(LIMIT, lines, lambda _: [f"unbind {made[-1]}", "undo"])


def showing():
    """Half the script makes instances, and the other half shows them all again and again."""
    return lines_in(LIMIT, half_made(), lambda _: ["show"])


def undoing():
    """Actions, each undone at once, after as many instances as half the script has room for."""
    lines = half_made()
    return lines_in(LIMIT, lines, lambda _: [f"new {len(lines)} A", "undo"])


def answer_is_right(lines, out):
    """Whether each action was done, each undo undone, and each configuration shown with all that was made."""
    made, last = 0, ""
    with open(out) as text:
        for line in lines:
            if line == "show":
                if text.readline() != f"instances {made} bindings 0\n":
                    return False
                for number in range(made):
                    if text.readline() != f"{number} A:a\n":
                        return False
            elif line == "undo":
                made -= last.startswith("new")
                if text.readline() != "undone\n":
                    return False
            else:
                made += line.startswith("new")
                if text.readline() != "ok\n":
                    return False
            last = line
        return text.read() == ""


def main():
    (program, _), right = program_and_words(__doc__), True
    TABLE.head()
    with temporary_folder() as folder:
        universe, script, out = (folder / name for name in ("universe.json", "script", "out"))
        write_universe(universe, [TYPE])
        for kind in (making, binding, unbinding, rebinding, showing, undoing):
            lines = kind()
            script.write_text(text_of(lines))
            made = run([program, "sim", universe, script], out)
            if made.status != 0 or not answer_is_right(lines, out):
                right = False
                print(f"{kind.__name__}: a wrong answer")
            TABLE.row(kind.__name__, len(lines), script.stat().st_size, made.clock, made.megabytes)
    sys.exit(0 if right else 1)


if __name__ == "__main__":
    main()
