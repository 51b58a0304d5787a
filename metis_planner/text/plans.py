"""Reads what Metis prints: plans, refusals and explanations; and other orders of a plan that keep its waits."""

import re
from collections.abc import Callable, Mapping, Sequence
from typing import TYPE_CHECKING, NamedTuple, NoReturn

from metis_planner.answers import Refused
from metis_planner.text.actions import Action, Bind, Delete, Move, New, Unbind
from metis_planner.text.reading import read_text

if TYPE_CHECKING:
    from random import Random

# Names and numbers, as docs/FORMATS.md has them.
NAME = re.compile(r"[A-Za-z0-9_./@-]{1,64}")
PAIR = re.compile(rf"{NAME.pattern}:{NAME.pattern}")
NUMBER = re.compile(r"0|[1-9][0-9]{0,9}")
MOST_NUMBER = 4_294_967_295
# How many words stand behind the verb of an action, and which of them are instances; the others are names.
FORMS: dict[str, tuple[int, tuple[int, ...]]] = {
    "new": (2, (0,)),
    "delete": (1, (0,)),
    "bind": (3, (1, 2)),
    "unbind": (3, (1, 2)),
    "move": (3, (0,)),
}
# How much of a word is shown where it is refused.
LONGEST_SHOWN = 80
# The longest plan that the program reads.
MOST_BYTES = 268_435_456


class NoText(ValueError):
    """Why something is no text of Metis, with its line."""


def refuse(line: int, reason: str) -> NoReturn:
    raise NoText(f"line {line}: {reason}")


def shown(text: str) -> str:
    """A text in quotes, without what a terminal would obey, and not all of a long one."""
    return ascii(text if len(text) <= LONGEST_SHOWN else f"{text[:LONGEST_SHOWN]}..")


class Dup(NamedTuple):
    """A pair that has an instance of its own, and the events that would have to wait for each other."""

    pair: str
    cycle: tuple[str, ...]


class Plan(NamedTuple):
    """What `plan` and `rollout` print: actions, and the pairs that have an instance of their own to get round a cycle."""

    actions: tuple[Action, ...]
    dups: tuple[Dup, ...]


class Refusal(NamedTuple):
    """A closed set of pairs, and the target that it lacks."""

    lacks: str
    pairs: tuple[str, ...]


class Reason(NamedTuple):
    """A line of an explanation: why a pair is never attained."""

    pair: str
    needs: str | None
    is_start: bool
    comes: bool
    names: tuple[str, ...]


class Explanation(NamedTuple):
    """Why a target is not attained: for each pair that it needs the reason why that never comes."""

    lacks: str
    providers: tuple[str, ...] | None  # of a port that is lacking
    reasons: tuple[Reason, ...]


def read(text: str) -> Plan | Refusal | Explanation:
    """The plan, refusal or explanation that a text is."""
    lines = text.split("\n")
    if lines[0] not in READERS:
        refuse(1, f"no plan, refusal or explanation, but {shown(lines[0])}")
    if lines[-1] != "":
        refuse(len(lines), "the text ends inside a line")
    return READERS[lines[0]](lines[:-1])


def line_at(lines: Sequence[str], number: int) -> list[str]:
    if number > len(lines):
        refuse(number, "the text ends before it")
    return lines[number - 1].split(" ")


def check_end(lines: Sequence[str], number: int) -> None:
    if line_at(lines, number) != ["end"]:
        refuse(number, "not the line 'end'")
    if len(lines) > number:
        refuse(number + 1, "the text goes on behind its end")


def numbers(line: int, words: Sequence[str]) -> tuple[int, ...]:
    for word in words:
        if not NUMBER.fullmatch(word) or int(word) > MOST_NUMBER:
            refuse(line, f"no number: {shown(word)}")
    return tuple(map(int, words))


def name(line: int, word: str, known: dict[str, str]) -> str:
    """The word, where it is a name. Each name is looked at once, and kept once however often it stands in a text."""
    kept = known.get(word)
    if kept is None:
        if not NAME.fullmatch(word):
            refuse(line, f"no name: {shown(word)}")
        kept = known[word] = word
    return kept


def read_plan(lines: Sequence[str]) -> Plan:
    head = line_at(lines, 2)
    if head[::2] != ["instances", "actions", "dups"] or len(head) != 6:
        refuse(2, "not 'instances I actions A dups D'")
    instances, action_count, dup_count = numbers(2, head[1::2])
    type_of: dict[int, str] = {}
    known: dict[str, str] = {}
    actions = tuple(read_action(lines, number, type_of, known) for number in range(1, action_count + 1))
    if sum(isinstance(action, New) for action in actions) != instances:
        refuse(2, "not the number of instances that are made")
    first_dup = action_count + 3
    dups = tuple(read_dup(lines, first_dup + place, place + 1) for place in range(dup_count))
    check_end(lines, first_dup + dup_count)
    return Plan(actions, dups)


def read_action(lines: Sequence[str], number: int, type_of: dict[int, str], known: dict[str, str]) -> Action:
    """An action; `type_of` has the type of each instance that the lines before it made, and `known` the names so far."""
    line = number + 2
    words = line_at(lines, line)
    if len(words) < 2 or words[1] not in FORMS:
        refuse(line, "no action")
    length, instances = FORMS[words[1]]
    own, rest = words[2 : 2 + length], words[2 + length :]
    if numbers(line, words[:1]) != (number,):
        refuse(line, f"not the number {number}")
    if len(own) < length or (rest and (rest[0] != "after" or len(rest) == 1)):
        refuse(line, f"not the form of '{words[1]}'")
    named = numbers(line, [own[place] for place in instances])
    after = numbers(line, rest[1:])
    if any(not 1 <= each < number for each in after):
        refuse(line, "an action waits for earlier ones alone")
    if any(one >= other for one, other in zip(after, after[1:])):
        refuse(line, "the numbers behind 'after' do not ascend")
    own_words = tuple(name(line, word, known) for word in own)
    if words[1] == "new":
        type_of[named[0]] = own_words[1]
    for instance in named:
        if instance not in type_of:
            refuse(line, f"no line before made instance {instance}")
    return action_of((words[1], *own_words), type_of, number, after)


def action_of(words: Sequence[str], type_of: Mapping[int, str], number: int, after: tuple[int, ...]) -> Action:
    """An action by the words that a plan has for it; `type_of` has the types of the instances that they name."""
    match words:
        case ["new", own, kind]:
            return New(int(own), kind, number=number, after=after)
        case ["delete", own]:
            return Delete(int(own), type_of[int(own)], number=number, after=after)
        case ["bind", port, own, to]:
            return Bind(int(own), type_of[int(own)], port, int(to), type_of[int(to)], number=number, after=after)
        case ["unbind", port, own, to]:
            return Unbind(int(own), type_of[int(own)], port, int(to), type_of[int(to)], number=number, after=after)
        case ["move", own, start, end]:
            return Move(int(own), type_of[int(own)], start, end, number=number, after=after)
    raise NoText(f"no action: {shown(' '.join(words))}")


def read_dup(lines: Sequence[str], line: int, number: int) -> Dup:
    words = line_at(lines, line)
    if words[:2] != ["dup", str(number)] or words[3:4] != ["cycle"] or len(words) < 6:
        refuse(line, f"not 'dup {number} TYPE:STATE cycle' and two or more events")
    if not PAIR.fullmatch(words[2]):
        refuse(line, f"no pair: {shown(words[2])}")
    for event in words[4:]:
        if not NAME.fullmatch(event):
            refuse(line, f"no event: {shown(event)}")
    return Dup(words[2], tuple(words[4:]))


def counted(lines: Sequence[str], word: str) -> Sequence[str]:
    """The number of lines that the third line tells, and these."""
    head = line_at(lines, 3)
    if head[0] != word or len(head) != 2:
        refuse(3, f"not '{word} N'")
    (count,) = numbers(3, head[1:])
    check_end(lines, count + 4)
    return lines[3 : count + 3]


def lacking(lines: Sequence[str]) -> tuple[str, list[str]]:
    head = line_at(lines, 2)
    if head[0] != "lacks" or len(head) < 2 or not PAIR.fullmatch(head[1]):
        refuse(2, "not 'lacks TARGET'")
    return head[1], head[2:]


def read_refusal(lines: Sequence[str]) -> Refusal:
    goal, rest = lacking(lines)
    if rest:
        refuse(2, "not 'lacks TARGET'")
    pairs = counted(lines, "pairs")
    for place, pair in enumerate(pairs):
        if not PAIR.fullmatch(pair):
            refuse(place + 4, f"no pair: {shown(pair)}")
    return Refusal(goal, tuple(pairs))


def names_in(line: int, words: Sequence[str]) -> tuple[str, ...]:
    """The pairs behind `from`: one or more, or `none`."""
    if words[:1] != ["from"] or len(words) < 2:
        refuse(line, "no list behind 'from'")
    if words[1:] == ["none"]:
        return ()
    for word in words[1:]:
        if not PAIR.fullmatch(word):
            refuse(line, f"no pair: {shown(word)}")
    return tuple(words[1:])


def read_explanation(lines: Sequence[str]) -> Explanation:
    goal, rest = lacking(lines)
    providers = names_in(2, rest) if rest else None
    reasons = counted(lines, "lines")
    return Explanation(goal, providers, tuple(read_reason(each, place + 4) for place, each in enumerate(reasons)))


def read_reason(text: str, line: int) -> Reason:
    words = text.split(" ")
    pair, rest = words[0], words[1:]
    if not PAIR.fullmatch(pair):
        refuse(line, f"no pair: {shown(pair)}")
    if rest[:1] == ["needs"] and len(rest) > 2:
        return Reason(pair, name(line, rest[1], {}), False, False, names_in(line, rest[2:]))
    if rest[:1] == ["comes"]:
        return Reason(pair, None, False, True, names_in(line, rest[1:]))
    if rest[:2] == ["starts", "needing"] and rest[3:5] == ["and", "comes"]:
        return Reason(pair, name(line, rest[2], {}), True, True, names_in(line, rest[5:]))
    refuse(line, "no reason")


# How each text begins, with its reader.
READERS: dict[str, Callable[[Sequence[str]], Plan | Refusal | Explanation]] = {
    "metis plan 1": read_plan,
    "metis refusal 1": read_refusal,
    "metis why 1": read_explanation,
}


def random_order(plan: Plan, random: "Random") -> list[Action]:
    """The actions of a plan in an order that is drawn among those that keep the waits and each instance's own order."""
    before: dict[int, set[int]] = {}
    last: dict[int, int] = {}
    for action in plan.actions:
        before[action.number] = set(action.after)
        if action.instance in last:
            before[action.number].add(last[action.instance])
        last[action.instance] = action.number
    after: dict[int, list[int]] = {number: [] for number in before}
    for number, others in before.items():
        for other in others:
            after[other].append(number)
    waits_for = {number: len(others) for number, others in before.items()}
    ready = [number for number, count in waits_for.items() if count == 0]
    order = []
    while ready:
        place = random.randrange(len(ready))
        ready[place], ready[-1] = ready[-1], ready[place]
        number = ready.pop()
        order.append(plan.actions[number - 1])
        for other in after[number]:
            waits_for[other] -= 1
            if waits_for[other] == 0:
                ready.append(other)
    return order


def plan_of(text: str, path: str) -> Plan:
    """The plan that a text is; the path is for what is said where it is none."""
    try:
        found = read(text)
    except NoText as fault:
        raise Refused(f"{path}: {fault}") from fault
    if not isinstance(found, Plan):
        raise Refused(f"{path}: no plan, but a text that says that {found.lacks} is not attained")
    return found


def plan_at(path: str) -> Plan:
    """The plan in a file, or on standard input for `-`."""
    return plan_of(read_text(path, MOST_BYTES), path)
