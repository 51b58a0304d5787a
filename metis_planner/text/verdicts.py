"""The one-line answers of the program: verdicts, and the lines with which a run ends before its work."""

import dataclasses
import re

from metis_planner.text import plans

N = r"(?:0|[1-9][0-9]{0,18})"
NAME = plans.NAME.pattern
PAIR = plans.PAIR.pattern
FIELD = re.compile(r"\{(\w+)\}")


@dataclasses.dataclass(frozen=True)
class Verdict:
    """A verdict: of which kind, what it names, and what it says in words, in the numbers of its text."""

    kind: str
    fields: dict[str, int | str]
    words: str


@dataclasses.dataclass(frozen=True)
class Form:
    """How a verdict is written, with the patterns of what it names, and how it is said."""

    kind: str
    pattern: re.Pattern[str]
    words: str

    def read(self, text: str) -> Verdict | None:
        found = self.pattern.fullmatch(text)
        if not found:
            return None
        fields = {key: int(value) if re.fullmatch(N, value) else value for key, value in found.groupdict().items() if value}
        return Verdict(self.kind, fields, self.words.format(**fields))


def form(kind: str, line: str, words: str, **patterns: str) -> Form:
    """A form from its line, in which `{name}` stands for a number, or for what the pattern of that name says."""
    parts = [
        f"(?P<{part}>{patterns.get(part, N)})" if place % 2 else re.escape(part)
        for place, part in enumerate(FIELD.split(line))
    ]
    return Form(kind, re.compile("".join(parts)), words)


# Why an action is refused, in the order in which the program looks.
REASONS = (
    form("A1", "A1 {instance}", "instance {instance} is to be made, and is there already"),
    form("A2", "A2 {instance}", "instance {instance} is not there"),
    form("A3", "A3 {instance} {pair}", "instance {instance} is in {pair}, and is to move from another state", pair=PAIR),
    form("A4", "A4", "its type has no such move"),
    form("A5", "A5", "an instance is to be bound to itself"),
    form("A6", "A6", "no state of the requirer's type requires the port, or none of the provider's type provides it"),
    form("A7", "A7", "the binding is there already"),
    form("A8", "A8", "the binding is not there"),
    form("A9", "A9 {instance} {port}", "instance {instance} would lack {port} that it requires", port=NAME),
)
REASON = r"A[1-9](?: [^ ]+)*"
VERDICTS = (
    form(
        "good",
        "good standing {standing} actions {actions}",
        "good: all {actions} actions are allowed, and {standing} instances stand at the end, the targets among them",
    ),
    form("bad", "bad {action} {reason}", "action {action} is refused: {reason}", reason=REASON),
    form(
        "missing",
        "missing {target} have {have} want {want}",
        "all actions are allowed, and at the end {have} of {want} wanted instances serve {target}",
        target=PAIR,
    ),
    form("loose", "loose {action}", "the order of action {action} does not follow from what the actions say"),
    form("after", "after {action}", "action {action} does not say exactly what it has to wait for"),
    form("notattained", "notattained {target}", "{target} cannot be attained at all", target=PAIR),
    form("nocycle", "nocycle {dup}", "the extra instance of dup line {dup} is not justified by the cycle it names"),
    form("count", "count have {have} want {want}", "the plan makes {have} instances, and the planner's rules make {want}"),
    form("path", "path {instance}", "instance {instance} does not go through the states that the planner's rules give it"),
    form(
        "justified",
        "justified instances {instances} dups {dups}",
        "justified: the rules make these {instances} instances, {dups} of them to get round a cycle",
    ),
    form("closed", "closed lacks {target}", "the refusal is right: nothing leads out of its set, which lacks {target}", target=PAIR),
    form("notfree", "notfree {pair}", "the refusal is wrong: {pair} can be made at once, and is not in its set", pair=PAIR),
    form(
        "open",
        "open {pair} {next}",
        "the refusal is wrong: from {pair} in its set a move leads to {next}, which is not in it",
        pair=PAIR,
        next=PAIR,
    ),
    form("lacksnone", "lacksnone", "what it says is right, and rules no target out"),
    form("confirmed", "confirmed lacks {target}", "the explanation is right: it rules out {target}", target=PAIR),
    form("unfounded", "unfounded line {line}", "line {line} of the explanation does not hold"),
    form("attained", "attained", "all targets can be attained: `metis plan` prints how"),
    form(
        "load",
        "load {size} pairs {pairs} targets {targets} instances {instances} actions {actions} dups {dups} good",
        "size {size}: {pairs} pairs, {targets} targets, a plan of {actions} actions for {instances} instances, replayed as good",
    ),
    form("absent", "absent {instance}", "a wish names instance {instance}, which does not stand"),
    form("kept", "kept {instance} on {root}", "instance {instance} is to stay, and instance {root}, on which that depends, goes"),
    form("unavoidable", "unavoidable {target}", "no new instance reaches {target} without what is to be avoided", target=PAIR),
    form("unmet", "unmet {instance} {port}", "instance {instance} is to take {port} from another, and none can be had", port=NAME),
    form("needs", "needs {count}", "{count} targets are missing, and at most 256 are planned for at a time"),
)
TEXTS = "plan|refusal|why|hosts|wishes"
FAULTS = (
    form("badword", "bad word {word}", "word {word} of the command does not fit"),
    form("toolong", "too long {word}", "the file that word {word} names is too long"),
    form("readfault", "read fault {word}", "the file that word {word} names cannot be read"),
    form("baduniverse", "bad universe {fault}", "the universe is refused: {fault}", fault=r"U[0-9]+(?: [a-z]+ [0-9]+)*"),
    form("badtext", "bad {text} {what} {line}", "{text}: line {line} has a wrong {what}", text=TEXTS, what="line|number|name|twice"),
    form("badturns", "bad turns {token}", "token {token} of the turns is no number"),
    form("badshort", "bad {text} short", "{text}: it ends before the line `end`", text=TEXTS),
)
# What a crew, a controller and a session answer, a line each.
CREW = (
    form("did", "did {action}", "did action {action}"),
    form("waits", "waits {action} {for_}", "action {action} has to wait for {for_}"),
    form("done", "done", "has done all its actions"),
    form("nobody", "nobody", "no such instance"),
    form("progress", "progress {done} of {actions}", "{done} of {actions} actions are done"),
)
CONTROL = (
    form("noaction", "no action {action}", "there is no action {action}"),
    form("acked", "acked {action}", "action {action} is acknowledged already"),
    form("held", "held {action} {for_}", "action {action} is held back: {for_} is not acknowledged"),
    form("sent", "sent {packet}", "the order went out as packet {packet}"),
    form("nopacket", "no packet {packet}", "there is no packet {packet}"),
    form("again", "again {action} sent {packet}", "action {action} was done before; acknowledged once more by packet {packet}"),
    form("executed", "executed {action} sent {packet}", "action {action} is done; acknowledged by packet {packet}"),
    form("known", "known {action}", "that action {action} is done was known"),
    form("noted", "noted {action}", "the controller notes that action {action} is done"),
    form("norestart", "no restart {count}", "fewer than {count} actions are acknowledged"),
    form("restarted", "restarted {count}", "the controller starts anew, and knows {count} acknowledgements"),
    form("badline", "bad line", "no line of a script"),
    form("ran", "ran{actions}", "done in this order:{actions}", actions=rf"(?: {N})*"),
    form(
        "end",
        "executed {executed} of {actions} acknowledged {acknowledged}",
        "{executed} of {actions} actions are done, and {acknowledged} acknowledged",
    ),
)
SESSION = (
    form("ok", "ok", "done"),
    form("refused", "refused {reason}", "refused: {reason}", reason=REASON),
    form("unknown", "unknown", "it names what the universe has not"),
    form("undone", "undone", "taken back"),
    form("nothing", "nothing", "there is nothing to take back"),
    form("holds", "holds", "the targets are there"),
    VERDICTS[2],
    form("counts", "instances {instances} bindings {bindings}", "{instances} instances and {bindings} bindings stand:"),
    form("instance", "{instance} {pair}", "  instance {instance} is in {pair}", pair=PAIR),
    form("binding", "{port} {requirer} {provider}", "  {requirer} takes {port} from {provider}", port=NAME),
    form("bye", "bye", "the session is over"),
    CONTROL[11],
)


def reason_in_words(text: str) -> str:
    """Why an action is refused, in the numbers of its text."""
    return next((found.words for each in REASONS if (found := each.read(text))), text)


def among(forms: tuple[Form, ...], line: str) -> Verdict | None:
    """What a line is among these forms; a reason in it is put in words too."""
    found = next((found for each in forms if (found := each.read(line))), None)
    if found is None or "reason" not in found.fields:
        return found
    reason = str(found.fields["reason"])
    return dataclasses.replace(found, words=found.words.replace(reason, reason_in_words(reason)))


def read(line: str) -> Verdict | None:
    """The verdict or fault that a line is, or nothing."""
    return among((*VERDICTS, *FAULTS), line)


@dataclasses.dataclass(frozen=True)
class Transcript:
    """What a crew, a controller or a session answered, line by line."""

    kind: str
    lines: tuple[Verdict, ...]


def read_transcript(lines: list[str]) -> Transcript | None:
    """The transcript that lines are: each is a line of the same one of the three."""
    for kind, forms in (("crew", CREW), ("control", CONTROL), ("session", SESSION)):
        found = [among(forms, line) for line in lines]
        if lines and all(found):
            return Transcript(kind, tuple(each for each in found if each))
    return None
