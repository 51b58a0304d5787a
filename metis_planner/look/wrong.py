"""What is wrong with the words or the files of a call, for whoever typed it: which file or word, what is near, and what to do."""

import dataclasses
import difflib
import errno
import os
import pathlib
from collections.abc import Collection, Iterable

from metis_planner.answers import Refused
from metis_planner.program import STANDARD_INPUT, UNIVERSE, WORDS
from metis_planner.text import documents, plans, universes, verdicts, wishes
from metis_planner.text.kinds import Kind, kind_of
from metis_planner.text.reading import read_bytes
from metis_planner.text.terminal import plain
from metis_planner.text.universes import Rows

# Which file a fault speaks of, by the word that the program has for it.
FILE_OF_A_TEXT = {"plan": "PLAN", "refusal": "REFUSAL", "why": "EXPLANATION", "hosts": "HOSTS", "wishes": "WISHES", "turns": "TURNS"}
# More names than these nobody reads in a line.
MOST_NAMES = 8
# As much of a file as is looked at to say what is wrong with it; universes and plans are read whole.
MOST_BYTES = 268_435_456
LONGEST_SHOWN = 60
MOST_TARGETS = 256
EXPECTED = {
    UNIVERSE: (Kind.UNIVERSE,),
    "PLAN": (Kind.PLAN,),
    "REFUSAL": (Kind.REFUSAL,),
    "EXPLANATION": (Kind.EXPLANATION,),
    "HOSTS": (Kind.HOSTS,),
    "WISHES": (Kind.WISHES,),
    "TURNS": (Kind.TURNS,),
    "SCRIPT": (Kind.SESSION, Kind.CONTROL),
}
# Words for files of which one speaks as of many.
PLURALS = ("HOSTS", "WISHES", "TURNS")
# What to do with a file that is something else than a universe.
INTO_A_UNIVERSE = {
    Kind.SKETCH: "metis sketch {path} >universe.json turns it into one, and so does a name that ends in .sketch",
    Kind.COMPOSE: "metis import compose {path} >universe.json makes a universe of it",
    Kind.MANIFESTS: "metis import kubernetes {path} >universe.json makes a universe of it",
    Kind.FAULT: "the command that wrote it had failed",
}


@dataclasses.dataclass(frozen=True)
class Call:
    """A call of the program: its word, and the words behind it."""

    word: str
    rest: tuple[str, ...]

    @property
    def files(self) -> dict[str, str]:
        """The files that are named, by what they are to be."""
        return dict(zip(WORDS[self.word].files, self.rest))

    @property
    def targets(self) -> tuple[str, ...]:
        return self.rest[len(WORDS[self.word].files) :] if WORDS[self.word].has_targets else ()

    def at(self, place: int) -> str | None:
        """The word at a place, as the program counts: the command is the first."""
        words = (self.word, *self.rest)
        return words[place - 1] if 1 <= place <= len(words) else None

    def reads_standard_input(self) -> bool:
        return STANDARD_INPUT in self.files.values()


def shown(text: str) -> str:
    """A word as it stands, without what a terminal would obey, and not all of a long one."""
    return plain(text, LONGEST_SHOWN)


def nearest(word: str, known: Collection[str]) -> str | None:
    """The known word that is meant, perhaps: one that differs in case alone comes first."""
    alike = [each for each in known if each.lower() == word.lower()]
    found = alike or difflib.get_close_matches(word, list(known)[: universes.MOST_KNOWN], 1, 0.6)
    return found[0] if found else None


def listed(names: Iterable[str]) -> str:
    """The first of some names, and that there are more."""
    found = list(names)
    more = f" and {len(found) - MOST_NAMES} more" if len(found) > MOST_NAMES else ""
    return ", ".join(found[:MOST_NAMES]) + more


def rows_at(path: str) -> Rows | None:
    """What the universe in a file says, if it is one."""
    if path == STANDARD_INPUT:
        return None
    try:
        reading = universes.read_document(read_bytes(path, documents.MOST_BYTES))
    except Refused:
        return None
    return None if reading.faults else reading.rows


def targets_of(rows: Rows) -> list[str]:
    """What may be asked for in a universe: its pairs."""
    return [f"{row.name.name}:{state.name.name}" for row in rows.types for state in row.states]


def ports_of(rows: Rows) -> list[str]:
    ports = (port.name for row in rows.types for state in row.states for port in (*state.provide, *state.require))
    return list(dict.fromkeys(ports))


def said(call: Call, answer: str | None) -> list[str]:
    """What a fault means. Without an answer, since standard input cannot be read again, that is what can be said all the same."""
    if answer is None:
        return without_an_answer(call)
    line = answer.split("\n", 1)[0]
    found = verdicts.read(line)
    kind = found.kind if found else ""
    if found and kind == "badword":
        return of_a_word(call, int(found.fields["word"]))
    if found and kind == "readfault":
        return of_reading(call, call.at(int(found.fields["word"])) or "")
    if found and kind == "toolong":
        return of_length(call, call.at(int(found.fields["word"])) or "")
    if kind == "baduniverse":
        return of_a_universe(call)
    return of_a_text(call, found, line) if found else []


def without_an_answer(call: Call) -> list[str]:
    """What can be said where a file was standard input: what is seen in the words, and in the files that have names."""
    dashes = [place for place, word in enumerate(call.files.values(), 2) if word == STANDARD_INPUT]
    if len(dashes) > 1:
        return [f"standard input can be read once, and word {dashes[1]} is a second '-'"]
    for place, word in enumerate(call.rest, 2):
        if place < 2 + len(WORDS[call.word].files) and word != STANDARD_INPUT and not pathlib.Path(word).is_file():
            return of_reading(call, word)
    for name, path in call.files.items():
        if path != STANDARD_INPUT and name == UNIVERSE and rows_at(path) is None:
            return of_a_universe(call)
    rows = rows_at(call.files.get(UNIVERSE, STANDARD_INPUT))
    for target in call.targets:
        if fault := target_fault(target, rows, call.files.get(UNIVERSE, "")):
            return fault
    which = next(name for name, path in call.files.items() if path == STANDARD_INPUT)
    return [f"the {which.lower()} came from standard input, which cannot be read again: kept in a file, more can be said of it"]


def of_a_word(call: Call, place: int) -> list[str]:
    """What is wrong with the word at a place."""
    form, word = WORDS[call.word], call.at(place)
    usage = f"usage: {form.usage(call.word)}"
    if word is None:
        names = [*form.files, *form.numbers]
        wanted = names[place - 2] if place - 2 < len(names) else "word"
        return [f"{call.word} wants one word more: {wanted}", usage]
    if word == "" and place - 2 < len(form.files):
        return [f"word {place} is empty, where the name of a file has to stand: {form.files[place - 2]}", usage]
    if place - 2 < len(form.files):
        return [usage]
    if word in ("-h", "--help"):
        return [f"metis help {call.word} says more", usage]
    if word.startswith("--"):
        return [f"{shown(word)}: the words of the program have no options", usage]
    if not form.has_targets:
        most = ", 1 to 128" if call.word == "load" else ", 0 to 1000000 each"
        is_more = place - 2 >= len(form.files) + len(form.numbers)
        return [f"{shown(word)} is one word too many" if is_more else f"{shown(word)} is no such number{most}", usage]
    if len(call.targets) > MOST_TARGETS and place == len(form.files) + 2 + MOST_TARGETS:
        return [f"there are {len(call.targets)} targets, and at most {MOST_TARGETS} are planned for"]
    rows = rows_at(call.files.get(UNIVERSE, STANDARD_INPUT))
    return target_fault(word, rows, call.files.get(UNIVERSE, "")) or [usage]


def target_fault(word: str, rows: Rows | None, path: str) -> list[str]:
    """Why a word is no target of the universe; nothing if it is one, or if that is not known."""
    if pathlib.Path(word).is_file() and ":" not in word:
        return [f"{shown(word)} is a file, and targets stand here: TYPE:STATE or port:PORT"]
    kind, colon, state = word.partition(":")
    if not colon and rows is not None:
        return [f"{shown(word)} is no target: a type and its state are, as {of_a_type_alone(kind, rows, path)}"]
    if not plans.PAIR.fullmatch(word):
        return [f"{shown(word)} is no target: TYPE:STATE or port:PORT, of letters, digits and _ - . / @"]
    return [] if rows is None else unknown_target(word, kind, state, rows, path)


def of_a_type_alone(kind: str, rows: Rows, path: str) -> str:
    """What may have been meant by a type without a state."""
    row = next((each for each in rows.types if each.name.name == kind), None)
    if row is not None:
        return listed(f"{kind}:{state.name.name}" for state in row.states)
    target = nearest(kind, targets_of(rows)) or targets_of(rows)[-1] if rows.types else "TYPE:STATE"
    return f"{target} in {path}"


def unknown_target(word: str, kind: str, state: str, rows: Rows, path: str) -> list[str]:
    row = next((each for each in rows.types if each.name.name == kind), None)
    if row is None and kind == "port":
        ports = ports_of(rows)
        if state in ports:
            return []
        near = nearest(state, ports)
        return [f"no port {state} in {path}: " + (f"did you mean port:{near}?" if near else f"it has {listed(ports) or 'none'}")]
    if row is None:
        kinds = [each.name.name for each in rows.types]
        near = nearest(kind, kinds)
        return [f"no type {kind} in {path}: " + (f"did you mean {near}?" if near else f"it has {listed(kinds) or 'none'}")]
    states = [each.name.name for each in row.states]
    if state in states:
        return []
    near = nearest(state, states)
    return [f"no target {word}: {kind} has {listed(states)}" + (f"; did you mean {kind}:{near}?" if near else "")]


def of_reading(call: Call, path: str) -> list[str]:
    """Why a file cannot be read."""
    file = pathlib.Path(path)
    if file.is_dir():
        return [f"{shown(path)} is a folder: name a file in it"]
    try:
        with file.open("rb"):
            return [f"{shown(path)}: it could not be read to its end"]
    except OSError as fault:
        if fault.errno != errno.ENOENT:
            return [f"{shown(path)}: {fault.strerror}"]
    except ValueError:
        return [f"{shown(path)} is no name of a file"]
    beside = sorted(it.name for it in file.parent.iterdir()) if file.parent.is_dir() else []
    near = nearest(file.name, beside)
    if near:
        return [f"no such file: {shown(path)}; did you mean {shown(str(file.parent / near))}?"]
    if path.startswith("-"):
        return [f"no such file: {shown(path)}. The words of the program have no options", f"usage: {WORDS[call.word].usage(call.word)}"]
    if file.parent.is_dir():
        return [f"no such file: {shown(path)}"]
    return [f"no such file: {shown(path)}; there is no folder {shown(str(file.parent))}"]


def of_length(call: Call, path: str) -> list[str]:
    size = os.path.getsize(path) if pathlib.Path(path).is_file() else 0
    which = next((name for name, each in call.files.items() if each == path), "file")
    what = which.lower() if which in PLURALS else f"a {which.lower()}"
    return [f"{shown(path)} has {size} bytes, more than is read of {what} (docs/FORMATS.md has the limits)"]


def named_file(call: Call, name: str) -> str:
    return call.files.get(name, "")


def other_kind(call: Call, name: str) -> list[str]:
    """What is said if a file is something else than its place asks for; nothing if it looks like what it is to be."""
    path = named_file(call, name)
    kind = kind_of(read_bytes(path, MOST_BYTES))
    if kind in EXPECTED[name] or kind is Kind.OTHER and name == "TURNS":
        return []
    what = f"{shown(path)} is {kind.value}, and the {name.lower()} {'stand' if name in PLURALS else 'stands'} here"
    for other, each in call.files.items():
        if kind in EXPECTED[other] and each != path and each != STANDARD_INPUT:
            if kind_of(read_bytes(each, MOST_BYTES)) in EXPECTED[name]:
                return [f"{what}: {shown(each)} and it have changed places", f"usage: {WORDS[call.word].usage(call.word)}"]
    if name == UNIVERSE and kind in INTO_A_UNIVERSE:
        return [f"{shown(path)} is {kind.value}: {INTO_A_UNIVERSE[kind].format(path=shown(path))}"]
    if name == "WISHES" and kind is Kind.EMPTY:
        return [f"{what}: a text without a wish is the lines '{wishes.HEAD}' and 'end'"]
    return [what, f"usage: {WORDS[call.word].usage(call.word)}"]


def of_a_universe(call: Call) -> list[str]:
    """The first fault of a universe, with its place."""
    path = named_file(call, UNIVERSE)
    if found := other_kind(call, UNIVERSE):
        return found
    reading = universes.read_document(read_bytes(path, MOST_BYTES))
    if not reading.faults:
        return []
    fault = reading.faults[0]
    line, column = reading.lines.place(fault.at)
    more = len(reading.faults) - 1
    lines = [f"{shown(path)}:{line}:{column}: {fault.text()}"]
    return [*lines, f"metis check {shown(path)} lists {more} more"] if more else lines


def of_a_text(call: Call, found: verdicts.Verdict, line: str) -> list[str]:
    """What is wrong with a plan, a refusal, an explanation, turns, hosts or wishes."""
    name = FILE_OF_A_TEXT.get(str(found.fields.get("text", "turns")), "TURNS")
    path = named_file(call, name)
    if other := other_kind(call, name):
        return other
    data = read_bytes(path, MOST_BYTES).decode("utf-8", errors="replace")
    if "token" in found.fields:
        token = (data.split() + [""] * int(found.fields["token"]))[int(found.fields["token"]) - 1]
        return [f"{shown(path)}: {shown(token)} is no number of an instance (token {found.fields['token']})"]
    if "line" not in found.fields:
        return [f"{shown(path)} was cut off: it ends before the line 'end'. Did the command that wrote it fail?"]
    number, fault = int(found.fields["line"]), str(found.fields["what"])
    return of_a_wish(call, data, number, fault) if name == "WISHES" else of_a_line(path, data, number, fault)


def of_a_wish(call: Call, data: str, number: int, what: str) -> list[str]:
    """What is wrong with a line of a text of wishes."""
    path, lines, known = named_file(call, "WISHES"), data.split("\n"), wishes.wishes_in(data)
    text = lines[number - 1] if number <= len(lines) else ""
    own = next((wish for wish in known if wish.line == number), None)
    reason = WHATS[what]
    if what == "line" and number == 1:
        reason = f"a text of wishes begins with '{wishes.HEAD}'"
    elif what == "line":
        reason = f"no wish, which is {wishes.FORMS}" if "end" not in lines[: number - 1] else "the text goes on behind 'end'"
    elif what == "name" and own:
        kind, _, state = own.word.partition(":")
        rows, universe = rows_at(named_file(call, UNIVERSE)), named_file(call, UNIVERSE)
        reason = unknown_pair(kind, state, rows, universe) if rows else reason
    elif what == "twice" and own:
        earlier = next((wish for wish in known if wish.line < number and is_of_the_same(wish, own)), None)
        reason = f"line {earlier.line} says {earlier.text} already" if earlier else reason
    return [f"{shown(path)}:{number}: {reason}: {shown(text)}"]


def unknown_pair(kind: str, state: str, rows: Rows, path: str) -> str:
    """Why a word is neither a type nor a pair of the universe."""
    row = next((each for each in rows.types if each.name.name == kind), None)
    if row is not None:
        states = [each.name.name for each in row.states]
        near = nearest(state, states)
        return f"no state {state} of {kind}, which has {listed(states)}" + (f"; did you mean {kind}:{near}?" if near else "")
    kinds = [each.name.name for each in rows.types]
    near = nearest(kind, kinds)
    return f"no type {kind} in {shown(path)}, " + (f"did you mean {near}?" if near else f"which has {listed(kinds) or 'none'}")


def is_of_the_same(one: wishes.Wish, other: wishes.Wish) -> bool:
    """Whether two lines speak of the same instance, or avoid the same."""
    return one.text == other.text or one.instance is not None and one.instance == other.instance


WHATS = {
    "line": "does not have a form that may stand here",
    "number": "has a number that is too large or not in order",
    "name": "names what the universe has not, or an instance that no line before it made",
    "twice": "names what an earlier line has named",
}


def of_a_line(path: str, data: str, number: int, what: str) -> list[str]:
    """What is wrong with a line of a text: in the words of its reader, if that finds it too."""
    lines = data.split("\n")
    text = lines[number - 1] if number <= len(lines) else ""
    reason = WHATS[what]
    try:
        plans.read(data)
    except plans.NoText as fault:
        at, _, why = str(fault).partition(": ")
        reason = why if at == f"line {number}" else reason
    return [f"{shown(path)}:{number}: {reason}: {shown(text)}"]
