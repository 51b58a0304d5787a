"""What a call of `up` would do: the plan from nothing, what was begun, or the way on from what stands to what is wanted now."""

import dataclasses
from collections.abc import Iterable, Sequence

from metis_planner.answers import Refused
from metis_planner.carry import refresh
from metis_planner.carry.ahead import UNIVERSE, Ahead, answered, plan_ahead
from metis_planner.carry.calling import Call, made_in
from metis_planner.carry.evolve import evolved
from metis_planner.carry.going_over import known_of, marks_of
from metis_planner.carry.lost import lost_in, moves_of
from metis_planner.carry.rebase import NoList
from metis_planner.carry.request import FIRST
from metis_planner.carry.seating import hosts_of
from metis_planner.carry.stands import Stands, first_free, stands_in
from metis_planner.carry.steps import Step, steps_of, who
from metis_planner.carry.telling import Proposal, rows_of, shown
from metis_planner.carry.ways import GOING, IN_PLACE, Evolution, Way
from metis_planner.lean.calls import Calls
from metis_planner.lean.leanest import DEFAULT_CALLS, Leanest
from metis_planner.text import plans
from metis_planner.text.actions import Delete, Move, New, in_words
from metis_planner.text.roles import roles_of
from metis_planner.text.terminal import say


def proposed(call: Call, protect: tuple[str, ...]) -> Proposal:
    """What is to be done by this call."""
    stands = standing(call)
    if stands is not None:
        if call.request.is_lean and not call.is_begun():
            say(f"lean is for a first plan, and {call.request.to} has one already: it does not apply")
        if call.request.project:
            call.lost = lost_in(call.folder, stands)
        try:
            found = going_on(call, stands, protect)
            return dataclasses.replace(found, lines=(*lost_lines(call, stands), *found.lines))
        except NoList as why:
            reason = f"no list of what stands was found over {call.request.universe}, so its history is gone on with: {why}"
            say(f"{call.request.to}: {reason}")
    return planned(call)


def lost_lines(call: Call, stands: Stands) -> Iterable[str]:
    """A line for each instance that is lost."""
    kinds = {step.action.instance: who(step.action) for step in stands.steps}
    return [f"lost     {kinds[each]}: {reason}; its steps are done again" for each, reason in sorted(call.lost.items())]


def standing(call: Call) -> Stands | None:
    """What stands in the folder, while nothing is done in it."""
    if not call.folder.has_plan():
        return None
    with call.folder.held():
        return stands_in(call.folder)


def going_on(call: Call, stands: Stands, protect: tuple[str, ...]) -> Proposal:
    """From what stands to what is wanted now; NoList, before anything is done, if that is not found."""
    if call.is_begun():
        return resumed(call, stands)
    left = [step for step in stands.steps if step.key not in stands.marks]
    if call.is_begun(FIRST) and left:
        # What was begun of it has names already: it is done to its end before anything else is planned.
        return first_resumed(call, stands, left, protect)
    return changed(call, stands, evolution(call, stands), protect)


def planned(call: Call) -> Proposal:
    """A plan from nothing, or one that goes on from the history of a folder."""
    (call.judge.texts / UNIVERSE).write_text(call.universe, errors="surrogateescape")
    is_lean = call.request.is_lean and not call.folder.has_plan()
    found = lean_ahead(call) if is_lean else plan_ahead(call.request.wanted, call.folder, call.judge.texts)
    steps = steps_of(found.plan, "the plan")
    marks = call.folder.marks() if call.folder.has_plan() else {}
    call.rules(steps, marks)
    call.placement(found.plan.actions, call.universe, made_in(step for step in steps if step.key in marks))
    roles = roles_in(found)
    left = [in_words(step.action) for step in steps if step.key not in marks]
    lines = tuple(shown(found.plan, found.old))

    def act() -> int:
        call.export(found.plan.actions, found.text, call.universe)
        return call.finish()

    return Proposal(lines, roles, tuple(left), act, losing=call.losing(roles.get(GOING, [])))


def lean_ahead(call: Call) -> Ahead:
    """A first plan with few instances, and how few there can be."""
    path, targets = str(call.judge.texts / UNIVERSE), call.request.targets
    first = answered(["plan", *targets], [path], {path: call.request.universe})
    lean = Leanest(call.universe, call.request.universe, targets, first)
    with Calls(targets) as calls:
        lean.search(calls, DEFAULT_CALLS, lambda _: None)
        calls.check(call.universe, lean.best.made.text)
    say(lean.sentence())
    plan = plans.plan_of(lean.best.made.text, "the plan")
    return Ahead(lean.best.made.text, plan, len(plan.actions))


def roles_in(found: Ahead) -> dict[str, list[str]]:
    """What becomes of each instance of a plan, by names."""
    kinds = {action.instance: action.type for action in found.plan.actions if isinstance(action, New)}
    roles: dict[str, list[str]] = {}
    for instance, role in roles_of(found.plan.actions, found.old or 0).items():
        roles.setdefault(role, []).append(f"{kinds[instance]}#{instance}")
    return roles


def resumed(call: Call, stands: Stands) -> Proposal:
    """What was begun for the same, from where it stopped; of what is done, what was done by other commands than those of now."""
    left = [step for step in stands.steps if step.key not in stands.marks]
    rules = call.rules(stands.steps, stands.marks)
    call.hosts |= hosts_of(call.folder)
    done = [step for step in stands.steps if step.key in stands.marks]
    stale = [*refresh.stale(stands.steps, stands.marks), *moves_of(call.lost, done)]
    again, notes = steps_again(call, stale, refresh.differing(rules, stands.marks))
    made = {action.instance for action in stands.done.actions if isinstance(action, New)}
    going = [who(step.action) for step in left if isinstance(step.action, Delete) and step.action.instance in made]
    words = tuple(in_words(step.action) for step in left)
    count = len(stands.done.actions)
    head = f"{count} actions are done, {len(left)} are left of what was begun" if left else f"all {count} actions are done"

    def act() -> int:
        with call.folder.held():
            refresh.mark_again(call.folder, again)
        call.export(call.folder.plan().actions, call.folder.text(), call.kept_universe())
        return call.finish()

    return Proposal(
        lines=(head, *lines_of(words, refresh.all_in_words(again))),
        roles={GOING: going},
        actions=words,
        act=act,
        again=refresh.all_in_words(again),
        changed=names_of(again),
        losing=call.losing(going),
        notes=notes,
    )


def lines_of(actions: Sequence[str], again: Sequence[str] = ()) -> tuple[str, ...]:
    """What is done, a line each, and what is done again."""
    return (*(f"  {each}" for each in actions), *(f"  again: {each}" for each in again))


def names_of(steps: Iterable[Step]) -> tuple[str, ...]:
    return tuple(dict.fromkeys(who(step.action) for step in steps))


def steps_again(call: Call, stale: Sequence[Step], differing: Sequence[Step]) -> tuple[list[Step], tuple[str, ...]]:
    """The steps that are done again, and what is only said, as long as nobody asks for it."""
    own = list({step.key: step for step in stale}.values())
    if call.request.is_again:
        return [*own, *(step for step in differing if step not in own)], ()
    if call.request.project:  # a sum says what its containers are meant to be, and each check looks at the very one
        return own, ()
    return own, tuple(f"{in_words(step.action)}: {refresh.ADVICE}" for step in differing)


def evolution(call: Call, stands: Stands) -> Evolution:
    """The way on from what stands; where that is refused, the program may say why the targets alone are."""
    try:
        return evolved(stands, call.aim, call.judge, first_free(call.folder))
    except Refused:
        path = call.judge.path(call.universe)
        answered(["plan", *call.request.targets], [path], {path: call.request.universe})
        raise


def first_resumed(call: Call, stands: Stands, left: Sequence[Step], protect: tuple[str, ...]) -> Proposal:
    """The first part of a change, which was begun, and then the second one, as it follows when that is done."""
    call.rules(stands.steps, stands.marks)
    later = changed(call, stands.when_done(), evolution(call, stands.when_done()), protect)
    words = tuple(in_words(step.action) for step in left)

    def act() -> int:
        call.hosts |= hosts_of(call.folder)
        call.export(call.folder.plan().actions, call.folder.text(), call.kept_universe(), FIRST)
        if call.carry_out(FIRST):
            return 1
        now = stands_in(call.folder)
        assert now is not None
        return changed(call, now, evolution(call, now), protect).act()

    lines = ("what was begun is done to its end before:", *lines_of(words), *later.lines)
    return dataclasses.replace(later, lines=lines, actions=(*words, *later.actions), act=act)


def changed(call: Call, stands: Stands, found: Evolution, protect: tuple[str, ...]) -> Proposal:
    """The way on to a changed description, in one part or in two."""
    call.hosts |= hosts_of(call.folder)
    last, again, notes = with_steps_again(call, stands, found)
    for way in (found.first, last):
        if way:
            made = {action.instance for action in way.plan.actions[: way.done] if isinstance(action, New)}
            call.placement(way.plan.actions, way.universe, made)
    words = tuple(in_words(action) for action in found.fresh)
    names = names_of(again)

    def act() -> int:
        now, lines = stands, found.names
        if found.first:
            call.turn_to(now, found.first, lines, FIRST)
            if call.carry_out(FIRST):
                return 1
            now, lines = stands_in(call.folder) or now, {}
        call.turn_to(now, last, lines)
        return call.finish()

    return Proposal(
        lines=(*rows_of(found, protect), *lines_of(words, refresh.all_in_words(again))),
        roles={role: found.named(role) for role in found.roles},
        actions=words,
        act=act,
        again=refresh.all_in_words(again),
        changed=tuple(dict.fromkeys((*found.named(IN_PLACE), *names))),
        losing=call.losing(found.named(GOING)),
        notes=(*begun_in_vain(stands, found), *notes),
    )


def begun_in_vain(stands: Stands, found: Evolution) -> list[str]:
    """What was begun and is not gone on with."""
    steps = [step for step in stands.steps if step.key in stands.begun and step.action.instance not in found.halves.going]
    words = [f"action {step.action.number} was begun and is not done: {in_words(step.action)}" for step in steps]
    return [f"{each}; what it has done so far counts as nothing" for each in words]


def with_steps_again(call: Call, stands: Stands, found: Evolution) -> tuple[Way, list[Step], tuple[str, ...]]:
    """The last way with what is done again in it, these steps, and what is only said."""
    parts = [(way, steps_of(way.plan, "the way on")) for way in (found.first, found.last) if way]
    for way, steps in parts:
        call.rules(steps, {step.key: None for step in steps[: way.done]})
    way, steps = parts[-1]
    marks = marks_of(known_of(stands, way, steps, found.names))
    rules = call.rules(steps, {step.key: None for step in steps[: way.done]})
    end = [pair for pair in rules[: way.done] if pair[0].action.instance in found.end]
    standing = [step for step, _ in end]
    again, notes = steps_again(call, [*refresh.stale(steps, marks), *moves_of(call.lost, standing)], refresh.differing(end, marks))
    places = {(it.instance, it.end) for step in again if isinstance(it := step.action, Move)}
    return way._replace(stale=frozenset(places)), again, notes
