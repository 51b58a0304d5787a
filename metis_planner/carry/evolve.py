"""The way on from what stands in a folder, where the description may be another one than before.

What stands is told by the plan in the folder and its marks. For that a list is made anew over the description as it is now
(`rebase`), with the old forms of what does not fit it (`forms`), and the folder goes over to it (`going_over`). If an instance
that stays lacks something by the new description, there is a change before that, which makes it and binds it. What is half made
goes on behind what stands (`halfway`), before the program goes on from there to the targets. The program replays each list
before anything depends on it.
"""

from collections.abc import Iterable, Sequence

from metis_planner.carry import forms, halfway
from metis_planner.carry.course import Aim, Course
from metis_planner.carry.forms import CHANGED, SAME, Change
from metis_planner.carry.fronts import Front
from metis_planner.carry.judging import Judge
from metis_planner.carry.rebase import NoList, paths_in
from metis_planner.carry.stands import Stands, in_forms
from metis_planner.carry.ways import Evolution, Way, roles_in
from metis_planner.text.actions import Action, Move
from metis_planner.text.configurations import Configuration, after
from metis_planner.text.documents import ComponentType


def evolved(stands: Stands, aim: Aim, judge: Judge, free: int) -> Evolution:
    """The way on from what stands to targets of a description. What cannot be made any more by it has an old form too."""
    course = Course(stands, aim, judge, free)
    while True:
        course.free = free
        try:
            found = evolved_but(course)
        except NoList as why:
            if why.instance is None or why.instance in course.beyond:
                raise
            course.beyond[why.instance] = f"it cannot be made any more: {why}"
            continue
        again, early = course.outcome(found)
        if not again and not early:
            return found
        course.left |= again
        course.early |= early


def evolved_but(course: Course) -> Evolution:
    """The same, where some instances are known to be beyond the description, or not to go on."""
    halves = course.halves()
    points = {each: half.point for each, half in halves.going.items() if half.state is not None}
    held = in_forms(after(course.done, course.before), course.before, points)
    there = in_forms(held, course.before, {})
    there.bindings = held.bindings - halves.loose
    cut = halfway.cut_in(halves.loose, course.changes(there), course.types)
    there.bindings = held.bindings - cut
    changes = course.changes(there)
    front = Front.of(course, halves, there, changes)
    meant = front.meant(there)
    base, first = front.completed(meant, course.paths(meant)), None
    if after(base.actions, front.forms.types).bindings != meant.bindings or base.added or cut:
        # The list that was tried is given up, with its numbers.
        course.free = course.first_free
        first, base = front.first_way(held, cut)
    last, left = front.last_way(base, first)
    last = with_steps_again(last, first, front, base.actions)
    told = halves._replace(left={**halves.left, **left})
    return told_of(front, there, first, last)._replace(halves=told)


def told_of(front: Front, there: Configuration, first: Way | None, last: Way) -> Evolution:
    """What is told of the two parts of a way on."""
    types, going = front.forms.types, front.halves.going
    stood, end = after(last.plan.actions[: last.done], types), after(last.plan.actions, types)
    type_of = {each: half.kind for each, half in going.items()}
    type_of |= {each: it.type for found in (there, stood, end) for each, it in found.instances.items()}
    users = {each: frozenset(own for _, own, to in there.bindings if to == each) for each in there.instances}
    return Evolution(
        changes=tuple(front.changes),
        first=first,
        last=last,
        roles=roles_in(there, end, front.changes, going),
        names=front.course.lines_now(),
        type_of=type_of,
        users=users,
        halves=front.halves,
        end=frozenset(end.instances),
    )


def with_steps_again(last: Way, first: Way | None, front: Front, base: Sequence[Action]) -> Way:
    """The way with what is to be done again, and what is only said: that a state has changed through which an instance came."""
    before, types = front.course.before, front.forms.types
    stale = stale_in(front.changed, base, before, types)
    passed = stale_in([each for each in front.changes if each.fate == SAME], base, before, types)
    went = {(action.instance, action.end) for action in (first.fresh if first else ()) if isinstance(action, Move)}
    return last._replace(stale=stale, passed=passed - went)


def stale_in(
    changes: Iterable[Change],
    actions: Iterable[Action],
    before: Sequence[ComponentType],
    types: Sequence[ComponentType],
) -> frozenset[tuple[int, str]]:
    """The states of instances from the first one on that is not as it was when they came into it; of a changed one at least the
    last one.
    """
    had, have = forms.by_name(before), forms.by_name(types)
    paths = paths_in(actions, {kind.name: kind for kind in types})
    found: set[tuple[int, str]] = set()
    for change in changes:
        path, kind = paths[change.instance], change.kind
        is_old = change.is_other or forms.OLD.fullmatch(change.state) is not None
        other = [place for place, name in enumerate(path) if is_old or not forms.is_alike(had[kind].get(name), have[kind][name])]
        last = len(path) - (change.fate == CHANGED)
        found.update((change.instance, name) for name in path[min(other, default=last) :])
    return frozenset(found)
