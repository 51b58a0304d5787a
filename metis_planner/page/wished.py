"""What was wished of what stands: the whole text of wishes, and for each instance the lines of it that are about it."""

import argparse
import html
from collections.abc import Mapping, Sequence
from typing import NamedTuple

from metis_planner.answers import Refused
from metis_planner.carry import ahead
from metis_planner.carry.folder import Folder
from metis_planner.carry.rollouts import Rollout
from metis_planner.carry.steps import Step
from metis_planner.text import configurations
from metis_planner.text.actions import Move
from metis_planner.text.plans import shown
from metis_planner.text.reading import read_text
from metis_planner.text.roles import GOING, KEPT, roles_of
from metis_planner.text.wishes import ALL, FORMS, HEAD, MOST_BYTES, Wish, wishes_in

# What a wish of an instance makes of it; one that avoids its state lets it go.
ROLES = {"keep": KEPT, "rebind": KEPT, "retire": GOING, "avoid": GOING}
# A longer text is folded.
MOST_LINES = 24


class Wished(NamedTuple):
    """A text of wishes, and its lines about each instance that stands before the change."""

    text: str = ""
    about: Mapping[int, Sequence[Wish]] = {}

    @property
    def rows(self) -> list[tuple[int, str]]:
        return [(instance, ", ".join(wish.text for wish in wishes)) for instance, wishes in self.about.items()]


def of_plan(arguments: argparse.Namespace, steps: Sequence[Step], rollouts: Sequence[Rollout]) -> Wished:
    """The wishes in the file that is named: the plan has to be one that meets them."""
    if not arguments.wishes:
        return Wished()
    if not rollouts:
        raise Refused(f"{arguments.wishes}: it says what is wished of what stands: say by --from OLD from which plan")
    found = wished(checked(arguments.wishes), steps, rollouts)
    for wish in wishes_in(found.text):
        if wish.instance is not None and wish.instance not in found.about:
            raise Refused(f"{arguments.wishes}:{wish.line}: {wish.text}: no instance {wish.instance} stands before the change")
    roles = roles_of([step.action for step in steps], rollouts[-1].old)
    for instance, wish in ((instance, wish) for instance, wishes in found.about.items() for wish in wishes):
        if roles.get(instance) != ROLES[wish.verb]:
            raise Refused(
                f"{arguments.wishes}:{wish.line}: {wish.text}: instance {instance} is {roles.get(instance)} in "
                f"{arguments.plan}, which was planned by other wishes"
            )
    return found


def of_folder(folder: Folder, steps: Sequence[Step], rollouts: Sequence[Rollout]) -> Wished:
    """The wishes by which `up` made the plan in the folder."""
    return wished(ahead.kept_wishes(folder), steps, rollouts)


def checked(path: str) -> str:
    """A text of wishes, each line of which is one."""
    text = read_text(path, MOST_BYTES)
    first, *lines = text.split("\n")
    if first != HEAD or lines[-2:] != ["end", ""]:
        raise Refused(f"{path}: no text of wishes, which begins with `{HEAD}` and ends with `end`")
    known = {wish.line for wish in wishes_in(text)}
    for number, line in enumerate(lines[:-2], 2):
        if number not in known:
            raise Refused(f"{path}:{number}: no wish, which is {FORMS}: {shown(line)}")
    return text


def wished(text: str, steps: Sequence[Step], rollouts: Sequence[Rollout]) -> Wished:
    """The lines that name an instance or avoid its state; and that which keeps all, for what stays and is not named."""
    old = rollouts[-1].old if rollouts else 0
    actions = [step.action for step in steps]
    before, roles = configurations.after(actions[:old]), roles_of(actions, old)
    initial: dict[str, str] = {}
    for action in actions:
        if isinstance(action, Move):
            initial.setdefault(action.type, action.start)
    lines = {(wish.verb == "avoid", wish.word): wish for wish in wishes_in(text)}
    about: dict[int, list[Wish]] = {}
    for instance, there in sorted(before.instances.items()):
        state = there.state or initial.get(there.type)
        keys = [(False, f"{instance}"), (True, there.type), (True, f"{there.type}:{state}")]
        if roles.get(instance) == KEPT and not any(key in lines for key in keys):
            keys = [(False, ALL)]
        if own := [lines[key] for key in keys if key in lines]:
            about[instance] = own
    return Wished(text, about)


def section(text: str) -> str:
    """The whole text, as a part of the page."""
    if not text:
        return ""
    is_open = " open" if text.count("\n") <= MOST_LINES else ""
    return f'<details id="wishes"{is_open}><summary>What is wished of what stands</summary><pre>{html.escape(text)}</pre></details>'
