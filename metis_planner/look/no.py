"""What a 'no' of the program means, which is an answer and no fault: which action, which instance, and what to do."""

from metis_planner.look import wishes
from metis_planner.look.show import reason_in_words
from metis_planner.look.standing import MOST_BYTES, plan_of, types_at, who
from metis_planner.look.wrong import Call, listed, rows_at, shown, targets_of
from metis_planner.program import UNIVERSE
from metis_planner.text import configurations, plans, verdicts
from metis_planner.text.actions import Action, Bind, Delete, Move, New, in_words
from metis_planner.text.configurations import Configuration
from metis_planner.text.reading import read_text

# Of a long explanation so many reasons are said here.
MOST_REASONS = 2


def without_targets(call: Call) -> list[str]:
    """A plan for no target is empty, which is right, and is hardly ever meant."""
    path = call.files.get(UNIVERSE, "")
    rows = rows_at(path)
    if rows is None:
        return ["no target was named, so the plan is empty"]
    targets = targets_of(rows)
    if not targets:
        return [f"no target was named, and {shown(path)} has no type"]
    example = f"metis plan {shown(path)} {targets[-1]}"
    return [f"no target was named, so the plan is empty. {shown(path)} has {listed(targets)}", f"name one, as in: {example}"]


def said(call: Call, answer: str | None) -> list[str]:
    """What a 'no' means; nothing if the program's answer cannot be had again, and for what says it by itself."""
    if answer is None:
        return []
    first = answer.split("\n", 1)[0]
    if first == "metis refusal 1":
        return of_a_refusal(call, answer)
    if first == "metis why 1":
        return of_an_explanation(answer)
    found = verdicts.read(first)
    if found is None:
        return [of_no_room(call, first)] if first.startswith("noroom ") else []
    if found.kind in ("bad", "loose", "after"):
        return of_an_action(call, found)
    if found.kind == "missing":
        return of_what_is_missing(found)
    if found.kind == "unfounded":
        return of_a_line(call, int(found.fields["line"]))
    if found.kind in wishes.KINDS:
        return wishes.said(call, found)
    return [found.words + ADVICE.get(found.kind, "")]


ADVICE = {
    "notattained": ": metis why says why",
    "count": ", by which target and dup lines it may have them; a plan that was written by hand mostly has others",
    "lacksnone": "",
}


def of_a_refusal(call: Call, answer: str) -> list[str]:
    target = answer.split("\n", 2)[1].removeprefix("lacks ")
    path = shown(call.files[UNIVERSE])
    return [f"{target} cannot be attained, so there is no plan", f"metis why {path} {target} says why"]


def of_an_explanation(answer: str) -> list[str]:
    try:
        found = plans.read(answer)
    except plans.NoText:
        return []
    if not isinstance(found, plans.Explanation) or not found.reasons:
        return []
    reasons = [reason_in_words(reason) for reason in found.reasons[:MOST_REASONS]]
    more = len(found.reasons) - len(reasons)
    tail = f", and {more} more lines" if more else ""
    return [f"{found.lacks} cannot be attained: {'; '.join(reasons)}{tail}"]


def of_an_action(call: Call, found: verdicts.Verdict) -> list[str]:
    """What an action would do that it may not, with the names of instances and the providers that are left."""
    number, plan = int(found.fields["action"]), plan_of(call)
    if plan is None or not 1 <= number <= len(plan.actions):
        return [found.words]
    action = plan.actions[number - 1]
    before = configurations.after(plan.actions[: number - 1], types_at(call.files[UNIVERSE]))
    step = f"step {number}, {in_words(action)}"
    if found.kind == "after":
        return [f"{step}, says behind 'after' something else than it has to wait for"]
    if found.kind == "loose":
        return [f"{step}, {why_loose(action, before)}"]
    return [f"{step}, {why_refused(action, before, str(found.fields['reason']))}"]


def why_refused(action: Action, before: Configuration, reason: str) -> str:
    code, *rest = reason.split(" ")
    if code == "A9":
        instance, port = int(rest[0]), rest[1]
        before.do(action)
        have, want = before.served(instance, port), before.required(instance, port)
        return f"would leave {who(instance, before)} with {have} of {want} {port}"
    if code == "A3":
        return f"cannot be done: {who(int(rest[0]), before)} is in {rest[1]} by then"
    if code == "A4" and isinstance(action, Move):
        return f"cannot be done: {action.type} has no move from {action.start} to {action.end}"
    if code == "A6" and isinstance(action, Bind):
        return f"cannot be done: {action.type} requires {action.port} in no state, or {action.provider_type} provides it in none"
    return f"cannot be done: {verdicts.reason_in_words(reason)}"


def why_loose(action: Action, before: Configuration) -> str:
    """What a steadfast list does not do: another order of the actions could go wrong."""
    if isinstance(action, New):
        return "uses the number of an earlier instance once more: give it a number of its own"
    if isinstance(action, Bind):
        return f"binds to {action.provider_type}#{action.provider} while that does not provide {action.port}: bind it later"
    users = sorted({who(own, before) for _, own, to in before.bindings if to == action.instance})
    verb = "goes" if isinstance(action, Delete) else "moves"
    return f"{verb} while {listed(users) or 'others'} {'is' if len(users) == 1 else 'are'} bound to it: unbind first"


def of_what_is_missing(found: verdicts.Verdict) -> list[str]:
    target, have, want = (found.fields[key] for key in ("target", "have", "want"))
    return [f"all steps can be done, but at the end {have} of {want} instances serve {target}"]


def of_a_line(call: Call, number: int) -> list[str]:
    lines = read_text(call.files["EXPLANATION"], MOST_BYTES).split("\n")
    text = lines[number - 1] if number <= len(lines) else ""
    why = "it names a pair that no line explains, or a port that its pair does not require"
    return [f"line {number} does not hold: {shown(text)}", why]


def of_no_room(call: Call, line: str) -> str:
    _, number, _, size, _, free = (line.split(" ") + [""] * 6)[:6]
    plan = plan_of(call)
    what = f"step {number}"
    if plan is not None and number.isdigit() and 1 <= int(number) <= len(plan.actions):
        what += f", {in_words(plan.actions[int(number) - 1])}"
    return f"{what}, wants room for {size}, and no host has more than {free} left: add room or a host in {shown(call.files['HOSTS'])}"
