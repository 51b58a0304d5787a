"""Shows what the program printed, with names in place of numbers, one line an action, or with --json as one JSON object.

It reads every text that the program prints: plans and rollouts, refusals, explanations, schedules of `waves` and placements of
`place` (where --plan names their plan), one-line verdicts, and what a crew, a controller or a session answered. Of a plan that
goes on from another one, with --from OLD, it says what is kept, new and going, and shows what there is left to do.
"""

import argparse
import fnmatch
import functools
import json
import os
import re
import shutil
import sys
import textwrap
from collections.abc import Callable, Iterator, Mapping, Sequence
from typing import TYPE_CHECKING, Any, assert_never

from metis_planner.answers import Answer, Refused
from metis_planner.text import configurations, plans
from metis_planner.text.actions import VERBS, Action, Bind, Delete, Move, New, Unbind, in_words
from metis_planner.text.doubles import told_doubles
from metis_planner.text.reading import read_bytes
from metis_planner.text.roles import GOING, KEPT, NEW, count_of, roles_of

if TYPE_CHECKING:
    from metis_planner.text import over_plans, verdicts

OTHER_BYTE = re.compile(rb"[^\x20-\x7e\n]")
# What is drawn dim, green, red and bold on a terminal.
COLOURS = {"new": "32", "delete": "31", "bind": "2", "unbind": "2", "move": "1", "wait": "2"}
COLOUR_OF_A_ROLE = {KEPT: "move", NEW: "new", GOING: "delete"}
WIDTH_OF_A_ROLE = 7
WIDEST_STAGE = 120
# A text in words, for a set of hidden verbs and a way to colour; and the same as a value for JSON.
Lines = Callable[[Any, "Look"], Iterator[str]]
Value = Callable[[Any], dict[str, Any]]


class Look:
    """How lines are shown: which verbs are left out, whether there are colours, and how many first actions stand already."""

    def __init__(self, hidden: frozenset[str] = frozenset(), has_colours: bool = False, old: int | None = None) -> None:
        self.hidden, self.has_colours, self.old = hidden, has_colours, old
        self.only: Sequence[str] = ()  # patterns for the names of instances
        self.by_stage = False
        self.columns = 0  # as wide as a line may be; 0 if that is open

    def coloured(self, text: str, name: str) -> str:
        return f"\x1b[{COLOURS[name]}m{text}\x1b[0m" if self.has_colours and text else text

    def is_shown(self, action: Action) -> bool:
        return action.verb not in self.hidden and self.is_named(action)

    def is_named(self, action: Action) -> bool:
        name = f"{action.type}#{action.instance}"
        return not self.only or any(fnmatch.fnmatchcase(each, pattern) for pattern in self.only for each in (name, action.type))

    def in_room(self, columns: int) -> "Look":
        found = Look()
        found.columns = columns
        return found

    def fitted(self, text: str) -> str:
        """A text that is cut in its middle where a line has less room."""
        if not self.columns or len(text) <= self.columns:
            return text
        left = max(1, (self.columns - 4) // 2)
        return f"{text[:left]} .. {text[len(text) - max(1, self.columns - 4 - left) :]}"

    def wrapped(self, text: str, indent: int) -> list[str]:
        """A text in as many lines as it takes, of which all but the first are indented; one line where the width is open."""
        if self.columns <= indent + 10:
            return [text]
        return textwrap.wrap(text, self.columns, subsequent_indent=" " * indent, break_on_hyphens=False)


def width_of(actions: list[Action]) -> int:
    return max((len(in_words(action)) for action in actions), default=0)


def plan_lines(plan: plans.Plan, look: Look) -> Iterator[str]:
    if look.columns:
        yield look.fitted(head_line(plan))
    left = plan.actions[look.old or 0 :]
    roles = {} if look.old is None else roles_of(plan.actions, look.old)
    if look.old is not None:
        yield from role_lines(plan, roles, look)
    actions = [action for action in left if look.is_shown(action)]
    if look.by_stage:
        yield from stage_lines(plan, actions, look)
    else:
        yield from action_lines(actions, roles, look)
    by_verb = sum(action.verb in look.hidden for action in left)
    if by_verb:
        hidden = ", ".join(verb for verb in VERBS if verb in look.hidden)
        yield from look.wrapped(f"      and {by_verb} that are hidden: {hidden}", 6)
    others = len(left) - len(actions) - by_verb
    if others:
        yield f"      and {others} of other instances"
    for double in told_doubles(plan, {"universe": None, "first": first_states(plan)}):
        why = "Without it these would wait for each other:"
        yield from look.wrapped(f"{double.name} is one more {double.type} for {double.state}. {why}", 0)
        for number, event in enumerate(double.events, 1):
            yield from look.wrapped(f"      {number}. {event.text} {event.behind}", 9)


def action_lines(actions: list[Action], roles: Mapping[int, str], look: Look) -> Iterator[str]:
    width = width_of(actions)
    for action in actions:
        words = in_words(action)
        role = "" if look.old is None else f"{roles.get(action.instance, ''):<{WIDTH_OF_A_ROLE}}"
        after = f"after {', '.join(map(str, action.after))}" if action.after else ""
        gap = " " * (width - len(words) + 2) if after else ""
        if look.columns and len(f"{action.number:>4}  {role}{words}{gap}{after}") > look.columns:
            # First the gap goes, then what it waits for beyond the first few, and then the middle of the name.
            gap = "  " if after else ""
            room = max(8, look.columns - len(f"{action.number:>4}  {role}{gap}"))
            if after and len(words) + len(after) > room:
                after = first_of(after, max(12, room - len(words)))
            words = Look.fitted(look.in_room(room - len(after)), words)
        yield f"{action.number:>4}  {role}{look.coloured(words, action.verb)}{gap}{look.coloured(after, 'wait')}"


def first_of(after: str, room: int) -> str:
    """As many of the numbers that are waited for as there is room, and how many are left out."""
    numbers = after.removeprefix("after ").split(", ")
    for count in range(len(numbers), 0, -1):
        left = len(numbers) - count
        text = f"after {', '.join(numbers[:count])}" + (f" and {left} more" if left else "")
        if len(text) <= room:
            return text
    return f"after {len(numbers)}"


def stages_of(plan: plans.Plan) -> dict[int, int]:
    """By the number of each action its stage, from 1: one more than the last of what it waits for and of its own instance."""
    stages: dict[int, int] = {}
    last: dict[int, int] = {}
    for action in plan.actions:
        before = [stages[number] for number in action.after] + [last.get(action.instance, 0)]
        stages[action.number] = last[action.instance] = 1 + max(before)
    return stages


def stage_lines(plan: plans.Plan, actions: list[Action], look: Look) -> Iterator[str]:
    """What may go on at once, side by side."""
    stages = stages_of(plan)
    shown: dict[int, list[str]] = {}
    for action in actions:
        shown.setdefault(stages[action.number], []).append(f"{action.number} {in_words(action)}")
    most = look.columns or WIDEST_STAGE
    for stage, texts in sorted(shown.items()):
        line = f"stage {stage}:"
        for text in texts:
            if len(line) + 3 + len(text) > most and line.strip():
                yield look.fitted(line)
                line = "     "
            line += f"{'' if line.endswith(':') or not line.strip() else ';'} {text}"
        yield look.fitted(line)


def first_states(plan: plans.Plan) -> list[tuple[str, str]]:
    found: dict[str, str] = {}
    for action in plan.actions:
        if isinstance(action, Move):
            found.setdefault(action.type, action.start)
    return list(found.items())


def head_line(plan: plans.Plan) -> str:
    """How much a plan is: its instances, its actions, and in how many stages these can be done."""
    made = sum(isinstance(action, New) for action in plan.actions)
    stages = max(stages_of(plan).values(), default=0)
    counts = ((made, "instance"), (len(plan.actions), "action"), (stages, "stage"))
    return ", ".join(f"{count} {what}{'' if count == 1 else 's'}" for count, what in counts)


def role_lines(plan: plans.Plan, roles: dict[int, str], look: Look) -> Iterator[str]:
    """Which instances are kept, new and going, a line each kind, with the states in which they are before or after it."""
    before = configurations.after(plan.actions[: look.old])
    end = configurations.after(plan.actions)
    for role in (KEPT, NEW, GOING):
        there = before if role == GOING else end
        names = [named(there, instance) for instance, each in roles.items() if each == role]
        if names:
            for line in look.wrapped(f"{role:<{WIDTH_OF_A_ROLE}}{', '.join(names)}", WIDTH_OF_A_ROLE):
                yield look.coloured(line, COLOUR_OF_A_ROLE[role])
    count = len(plan.actions) - (look.old or 0)
    yield from look.wrapped(f"the first {look.old} actions are done, and {count} are left" if count else "nothing is left to do", 0)


def named(there: configurations.Configuration, instance: int) -> str:
    """An instance with the state in which it is, if a move has named one."""
    found = there.instances[instance]
    return f"{found.type}#{instance}" + (f" ({found.state})" if found.state else "")


def refusal_lines(refusal: plans.Refusal, _: Look) -> Iterator[str]:
    yield f"{refusal.lacks} is not attained; these {len(refusal.pairs)} pairs are:"
    for pair in refusal.pairs:
        yield f"  {pair}"


def provided(names: tuple[str, ...]) -> str:
    return f"provided by {' and '.join(names)} alone" if names else "which nothing provides"


def reached_from(names: tuple[str, ...]) -> str:
    return f"from {' or '.join(names)} alone" if names else "from nowhere"


def reason_in_words(reason: plans.Reason) -> str:
    if reason.is_start:
        start = f"{reason.pair} is where its type starts, but needs {reason.needs}"
        return f"{start}; else it is reached {reached_from(reason.names)}"
    if reason.comes:
        return f"{reason.pair} is reached {reached_from(reason.names)}"
    return f"{reason.pair} needs {reason.needs}, {provided(reason.names)}"


def explanation_lines(explanation: plans.Explanation, _: Look) -> Iterator[str]:
    goal = explanation.lacks
    if explanation.providers is not None:
        goal += f", {provided(explanation.providers)},"
    yield f"{goal} is not attained" + (", since" if explanation.reasons else "")
    for reason in explanation.reasons:
        yield f"  {reason_in_words(reason)}"


def change_value(plan: plans.Plan, old: int) -> dict[str, Any]:
    """A plan that goes on from another one: how many actions are done, and the instances by what becomes of them."""
    roles, type_of = roles_of(plan.actions, old), {each.instance: each.type for each in plan.actions if isinstance(each, New)}
    rows = [{"instance": instance, "type": type_of[instance], "role": role} for instance, role in roles.items()]
    return {**plan_value(plan), "done": old, "instances": sorted(rows, key=lambda row: int(row["instance"]))}


def plan_value(plan: plans.Plan) -> dict[str, Any]:
    return {
        "kind": "plan",
        "actions": [action_value(action) for action in plan.actions],
        "dups": [{"pair": dup.pair, "cycle": list(dup.cycle)} for dup in plan.dups],
    }


def action_value(action: Action) -> dict[str, Any]:
    value: dict[str, Any] = {
        "number": action.number,
        "action": action.verb,
        "instance": action.instance,
        "type": action.type,
    }
    match action:
        case New() | Delete():
            pass
        case Move():
            value |= {"from": action.start, "to": action.end}
        case Bind() | Unbind():
            value |= {"port": action.port, "provider": action.provider, "provider_type": action.provider_type}
        case _:
            assert_never(action)
    return {**value, "after": list(action.after)}


def refusal_value(refusal: plans.Refusal) -> dict[str, Any]:
    return {"kind": "refusal", "lacks": refusal.lacks, "pairs": list(refusal.pairs)}


def explanation_value(explanation: plans.Explanation) -> dict[str, Any]:
    return {
        "kind": "explanation",
        "lacks": explanation.lacks,
        "providers": None if explanation.providers is None else list(explanation.providers),
        "lines": [reason_value(reason) for reason in explanation.reasons],
    }


def reason_value(reason: plans.Reason) -> dict[str, Any]:
    value: dict[str, Any] = {"pair": reason.pair, "starts": reason.is_start}
    if reason.needs:
        value["needs"] = reason.needs
    value["comes_from" if reason.comes else "provided_by"] = list(reason.names)
    return value


def schedule_lines(schedule: "over_plans.Schedule", look: Look) -> Iterator[str]:
    rows = [(action, start) for action, start in zip(schedule.plan.actions, schedule.starts) if look.is_shown(action)]
    chain, width = set(schedule.chain), width_of([action for action, _ in rows])
    starts = [f"at {early}" if early == late else f"at {early} to {late}" for _, (early, late) in rows]
    breadth = max(map(len, starts), default=0)
    for (action, _), start in zip(rows, starts):
        words = in_words(action)
        mark = "chain" if action.number in chain else ""
        gap = " " * (width - len(words) + 2)
        yield f"{action.number:>4}  {look.coloured(words, action.verb)}{gap}{start:<{breadth}}  {mark}".rstrip()
    yield f"all is done at {schedule.finish}, which the actions of the chain take one after the other"


def schedule_value(schedule: "over_plans.Schedule") -> dict[str, Any]:
    rows = zip(schedule.plan.actions, schedule.starts)
    return {
        "kind": "schedule",
        "finish": schedule.finish,
        "chain": list(schedule.chain),
        "actions": [{**action_value(action), "earliest": early, "latest": late} for action, (early, late) in rows],
    }


def placement_lines(placement: "over_plans.Placement", _: Look) -> Iterator[str]:
    made = [(action, f"{action.type}#{action.instance}") for action in placement.plan.actions if isinstance(action, New)]
    width = max((len(who) for _, who in made), default=0)
    for action, who in made:
        yield f"{who:<{width}}  on {placement.host_of[action.instance]}"
    for number, others in placement.holds.items():
        after = ", ".join(map(str, others))
        yield f"{number:>4}  {in_words(placement.plan.actions[number - 1])} waits for room, after {after}"


def placement_value(placement: "over_plans.Placement") -> dict[str, Any]:
    made = [action for action in placement.plan.actions if isinstance(action, New)]
    rows = [{"instance": each.instance, "type": each.type, "host": placement.host_of[each.instance]} for each in made]
    holds = [{"action": number, "after": list(others)} for number, others in placement.holds.items()]
    return {"kind": "placement", "instances": rows, "holds": holds}


def no_room_lines(refused: "over_plans.NoRoom", _: Look) -> Iterator[str]:
    who = f"{refused.action.type}#{refused.action.instance}"
    which = f"of size {refused.size}, which action {refused.action.number} makes"
    yield f"no host has room for {who}, {which}; the most that is free is {refused.free}"


def no_room_value(refused: "over_plans.NoRoom") -> dict[str, Any]:
    return {"kind": "noroom", "action": action_value(refused.action), "size": refused.size, "free": refused.free}


def verdict_lines(verdict: "verdicts.Verdict", _: Look) -> Iterator[str]:
    yield verdict.words


def verdict_value(verdict: "verdicts.Verdict") -> dict[str, Any]:
    return {"kind": verdict.kind, **verdict.fields}


def transcript_lines(transcript: "verdicts.Transcript", _: Look) -> Iterator[str]:
    for line in transcript.lines:
        yield line.words


def transcript_value(transcript: "verdicts.Transcript") -> dict[str, Any]:
    return {"kind": transcript.kind, "answers": [verdict_value(line) for line in transcript.lines]}


# By the name of the type, since readers of rarer texts are imported when one is there.
SHOWN: dict[str, tuple[Lines, Value]] = {
    "Plan": (plan_lines, plan_value),
    "Refusal": (refusal_lines, refusal_value),
    "Explanation": (explanation_lines, explanation_value),
    "Schedule": (schedule_lines, schedule_value),
    "Placement": (placement_lines, placement_value),
    "NoRoom": (no_room_lines, no_room_value),
    "Verdict": (verdict_lines, verdict_value),
    "Transcript": (transcript_lines, transcript_value),
}


def text_of(path: str) -> str:
    """A text of Metis, which has the printable bytes of ASCII and line feeds alone."""
    found = read_bytes(path, plans.MOST_BYTES)
    other = OTHER_BYTE.search(found)
    if other:
        line = found.count(b"\n", 0, other.start()) + 1
        raise Refused(f"{path}: line {line}: a byte that no text of Metis has")
    return found.decode("ascii")


def read(text: str, plan_path: str | None) -> object:
    """What a text is, with the plan that it speaks of, where its numbers are those of another text."""
    if text.startswith("metis "):
        return plans.read(text)
    from metis_planner.text import over_plans, verdicts

    if over_plans.is_over_a_plan(text):
        if plan_path is None:
            raise Refused("its numbers are those of a plan: name it, --plan PLAN")
        return over_plans.read(text, plans.plan_of(text_of(plan_path), plan_path))
    if not text.endswith("\n"):
        return plans.read(text)
    lines = text[:-1].split("\n")
    found = verdicts.read(lines[0]) if len(lines) == 1 else None
    return found or verdicts.read_transcript(lines) or plans.read(text)


def colours_are_wanted(choice: str) -> bool:
    """By --color, and if that leaves it open by NO_COLOR and whether standard output is a terminal."""
    if choice != "auto":
        return choice == "always"
    return not os.environ.get("NO_COLOR") and os.environ.get("TERM") != "dumb" and bool(sys.stdout and sys.stdout.isatty())


def add_arguments(parser: argparse.ArgumentParser) -> None:
    parser.add_argument("file", metavar="FILE", nargs="?", default="-", help="what was printed; standard input if none is named")
    parser.add_argument("--plan", metavar="PLAN", help="the plan that `waves` or `place` was asked about")
    help_text = "the plan from which this one goes on: says what is kept, new and going"
    parser.add_argument("--from", metavar="OLD", dest="old", help=help_text)
    parser.add_argument("--json", action="store_true", help="one JSON object in place of lines")
    help_text = "leave such actions out; may be given several times"
    parser.add_argument("--hide", action="append", choices=VERBS, default=[], metavar="VERB", help=help_text)
    help_text = "of a plan only what instances or types of this name do, as 'php*'; may be given several times"
    parser.add_argument("--only", action="append", default=[], metavar="PATTERN", help=help_text)
    parser.add_argument("--stage", action="store_true", help="of a plan what may go on at once, side by side")
    help_text = "auto: on a terminal, unless NO_COLOR is set"
    parser.add_argument("--color", choices=("auto", "always", "never"), default="auto", help=help_text)


def run(arguments: argparse.Namespace) -> Answer:
    if [arguments.file, arguments.plan, arguments.old].count("-") > 1:
        raise Refused("standard input cannot be both texts")
    try:
        found = read(text_of(arguments.file), arguments.plan)
    except plans.NoText as fault:
        raise Refused(str(fault)) from None
    lines, value = SHOWN[type(found).__name__]
    old = None
    if arguments.old is not None:
        if not isinstance(found, plans.Plan):
            raise Refused("--from OLD is for a plan, and this is none")
        old = count_of(arguments.old, found, arguments.file)
        value = functools.partial(change_value, old=old)
    if arguments.json:
        return Answer(json.dumps(value(found)) + "\n")
    look = Look(frozenset(arguments.hide), colours_are_wanted(arguments.color), old)
    look.only, look.by_stage = arguments.only, arguments.stage
    look.columns = shutil.get_terminal_size().columns if sys.stdout and sys.stdout.isatty() else 0
    return Answer("".join(f"{line}\n" for line in lines(found, look)))
