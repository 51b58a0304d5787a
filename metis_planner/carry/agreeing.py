"""Whether a person agrees to what would be done, or agreed by the words of the call; and what nobody may agree to."""

import sys
from collections.abc import Iterable, Sequence

from metis_planner.answers import Refused
from metis_planner.carry.configuration import CONFIGURATION
from metis_planner.carry.folder import Folder
from metis_planner.carry.request import ALL, Agreed, is_named
from metis_planner.carry.steps import who
from metis_planner.carry.telling import Proposal
from metis_planner.text import plans
from metis_planner.text.actions import New
from metis_planner.text.documents import ComponentType


def asked(question: str, is_agreed: bool) -> bool:
    """Whether a person agrees. Without one nothing is done."""
    if is_agreed:
        return True
    if not sys.stdin or not sys.stdin.isatty():
        raise Refused("standard input is no terminal, so nobody can be asked: --yes agrees")
    sys.stderr.write(f"{question} [y/N] ")
    sys.stderr.flush()
    return sys.stdin.readline().strip().lower() in ("y", "yes")


def check_known(protect: tuple[str, ...], folder: Folder, types: Iterable[ComponentType]) -> None:
    """Refuses to protect what there is not: a name that is misspelt protects nothing."""
    known = {ALL, *(kind.name for kind in types)}
    made = [step.action for step in folder.steps() if isinstance(step.action, New)] if folder.has_plan() else []
    known |= {action.type for action in made} | {who(action) for action in made}
    for each in protect:
        if each not in known:
            raise Refused(f"{CONFIGURATION}: protect names {plans.shown(each)}, which is no type and no instance here")


def check_protected(going: Sequence[str], protect: tuple[str, ...], place: str, is_down: bool = False) -> None:
    """Refuses to delete what is protected, whatever was agreed to."""
    safe = [each for each in going if is_named(each, protect)]
    if safe:
        it = "it" if len(safe) == 1 else "them"
        stay = "" if is_down else f"Say --wish 'keep {safe[0]}', or name a target for {it}. "
        raise Refused(
            f"{', '.join(safe)} would be deleted, and `protect` keeps {it} in {place}. {stay}To let {it} go, take {it} out of "
            f"`protect` in {CONFIGURATION}, and call metis up once before anything is deleted"
        )


def check_agreed(proposal: Proposal, agreed: Agreed, protect: tuple[str, ...]) -> None:
    """Refuses where nobody is asked, and something would be deleted, or something protected changed, that was not named."""
    if not agreed.is_agreed:
        return
    unsaid = [each for each in proposal.losing if not is_named(each, agreed.deletes)]
    if unsaid:
        words = " ".join(f"--delete {each}" for each in unsaid)
        raise Refused(f"{', '.join(unsaid)} would be deleted with all data, and --yes does not agree to that: {words}")
    unsaid = [each for each in proposal.changed if is_named(each, protect) and not is_named(each, agreed.changes)]
    if unsaid:
        words = " ".join(f"--change {each}" for each in unsaid)
        verb = "is" if len(unsaid) == 1 else "are"
        reason = f"{verb} protected and would be changed in place, and --yes does not agree to that"
        raise Refused(f"{', '.join(unsaid)} {reason}: {words}")
