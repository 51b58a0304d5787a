"""Which plan `up` carries out: one from nothing, the one that was begun, or the way on from what stands in the folder.

A folder keeps the plan of all that was ever done in it, and what of that is done. What is done is a part of the plan with all
that its actions wait for, so it is a plan too: from that one `metis reconfigure` goes on to other targets. What it prints begins
with these same actions, so their marks stay, and only what follows them is carried out.
"""

import json
import os
import pathlib
from collections.abc import Mapping, Sequence
from typing import NamedTuple

from metis_planner.answers import Refused
from metis_planner.carry.folder import Folder, part_of, sum_of, written
from metis_planner.look import no, wrong
from metis_planner.program import Status, ask
from metis_planner.text import plans, wishes
from metis_planner.text.actions import in_words
from metis_planner.text.reading import read_text
from metis_planner.text.terminal import say

UNIVERSE, REQUEST, STANDING, WISHES = "universe.json", "request.json", "standing.txt", "wishes.txt"


class Wanted(NamedTuple):
    """What is to stand: targets, in a universe that is called so where it was named, and wishes, if there are any."""

    universe: str
    targets: tuple[str, ...]
    wishes: str | None


class Ahead(NamedTuple):
    """The plan, how many of its actions are not done, and how many first ones are those of the plan that it goes on from."""

    text: str
    plan: plans.Plan
    left: int
    old: int | None = None


def answered(words: Sequence[str], paths: Sequence[str], names: Mapping[str, str] | None = None) -> str:
    """What the program prints; if it says no, or that something is wrong, that is refused in words, with these names of files."""
    found = ask([words[0], *paths, *words[1:]])
    if found.status == Status.DONE:
        return found.text
    call = wrong.Call(words[0], (*paths, *words[1:]))
    lines = no.said(call, found.text) if found.status == Status.NO else wrong.said(call, found.text)
    reason = "; ".join(lines) or found.text.split("\n", 1)[0].strip() or f"metis {words[0]} ended with status {found.status}"
    for path, name in (names or {}).items():
        reason = reason.replace(path, name)
    raise Refused(reason)


def text_of_wishes(wanted: Wanted) -> str | None:
    return read_text(wanted.wishes, wishes.MOST_BYTES + 1) if wanted.wishes else None


def kept_request(folder: Folder) -> dict[str, object]:
    """What was asked for when the folder was last written by `up`."""
    path = folder.path / REQUEST
    try:
        found = json.loads(read_text(str(path))) if path.is_file() else {}
    except (ValueError, RecursionError) as fault:
        raise Refused(f"{path}: no JSON") from fault
    return found if isinstance(found, dict) else {}


def kept_wishes(folder: Folder) -> str:
    """The wishes by which the plan in the folder was made, if `up` made it, and by some."""
    kept = kept_request(folder)
    found = kept.get("wishes") if kept.get("plan") == sum_of(folder.text().encode()) else None
    return found if isinstance(found, str) else ""


def request_text(wanted: Wanted, commands: str, folder: Folder) -> str:
    """What was asked for, and for which plan: that in the folder, unless somebody else writes another one."""
    value = {"targets": list(wanted.targets), "commands": os.path.abspath(commands), "wishes": text_of_wishes(wanted)}
    return json.dumps({**value, "plan": sum_of(folder.text().encode())}) + "\n"


def is_asked_again(folder: Folder, wanted: Wanted, universe: str) -> bool:
    """Whether the plan in the folder was made for the same: then it is gone on with, whatever of it is done."""
    kept, before = kept_request(folder), folder.path / UNIVERSE
    if kept.get("targets") != list(wanted.targets) or kept.get("plan") != sum_of(folder.text().encode()) or not before.is_file():
        return False
    same = before.read_text(errors="surrogateescape") == universe
    return same and kept.get("wishes") == text_of_wishes(wanted)


def what_is_done(folder: Folder) -> plans.Plan:
    """What of the folder's plan is done, as a plan. What was begun and is not done is said, and counts as not done."""
    if not folder.has_plan():
        return plans.Plan((), ())
    steps = folder.steps()
    with folder.held():
        done = folder.done(steps)
        for step in folder.begun(steps, done):
            words = in_words(step.action)
            say(f"action {step.action.number} was begun and is not done: {words}; what it has done so far counts as nothing")
    return part_of(steps, done)


def plan_ahead(wanted: Wanted, folder: Folder, texts: pathlib.Path) -> Ahead:
    """The plan for what is wanted, from what stands in the folder. `texts` has the universe."""
    universe = str(texts / UNIVERSE)
    done = what_is_done(folder)
    if done.actions and is_asked_again(folder, wanted, (texts / UNIVERSE).read_text(errors="surrogateescape")):
        rollouts = folder.rollouts(len(folder.plan().actions))
        return ahead(folder.text(), done, rollouts[-1].old if rollouts else None)
    if not wanted.wishes:
        text = answered(["plan", *wanted.targets], [universe], {universe: wanted.universe})
        if not done.actions or plans.plan_of(text, "the plan").actions == folder.plan().actions:
            return ahead(text, done)
        if kept_request(folder).get("wishes"):
            say("it was planned by wishes before, and these are not said again: --wishes FILE")
    return reconfigured(wanted, done, texts, str(folder.path))


def reconfigured(wanted: Wanted, done: plans.Plan, texts: pathlib.Path, place: str) -> Ahead:
    """The way on from what is done, which keeps what serves."""
    universe, standing, none = (str(texts / name) for name in (UNIVERSE, STANDING, WISHES))
    (texts / STANDING).write_text(written(done))
    (texts / WISHES).write_text(wishes.NO_WISHES)
    names = {universe: wanted.universe, standing: f"the plan of what stands in {place}", none: "no wishes"}
    text = answered(["reconfigure", *wanted.targets], [universe, standing, wanted.wishes or none], names)
    found = ahead(text, done, len(done.actions) or None)
    if found.plan.actions[: len(done.actions)] != done.actions:
        raise Refused(f"{place}: what was planned does not go on from what is done there")
    return found


def ahead(text: str, done: plans.Plan, old: int | None = None) -> Ahead:
    plan = plans.plan_of(text, "the plan")
    return Ahead(text, plan, len(plan.actions) - len(done.actions), old)
