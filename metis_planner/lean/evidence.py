"""Writes what shows that no plan has fewer instances: for each type the universe without it, and the refusal of the targets there."""

import functools
import pathlib

from metis_planner.answers import Refused
from metis_planner.carry.writing import write_whole
from metis_planner.lean.bound import Least
from metis_planner.lean.calls import Calls
from metis_planner.lean.leanest import Leanest
from metis_planner.program import Status


def write_refusals(folder: pathlib.Path, lean: Leanest, calls: Calls) -> None:
    """For each type that no target names FOLDER/TYPE.json and FOLDER/TYPE.refusal, which `metis refute` checks for the targets.

    A type of which more than one instance is needed is shown by the state that requires so many: there the universe is that in
    which no move leads to this state, and the refusal says that no plan does without it.
    """
    try:
        folder.mkdir(mode=0o755, exist_ok=True)
    except OSError as fault:
        raise Refused(f"{folder}: {fault.strerror}") from fault
    shown = {kind: least for kind, least in lean.bound.least.items() if not least.is_named}
    documents = {kind: document_without(lean, kind, least) for kind, least in shown.items()}
    answers = calls.plans([functools.partial(str, document) for document in documents.values()])
    for (kind, document), said in zip(documents.items(), answers):
        if said.status != Status.NO:
            raise Refused(f"without what is said of {kind} the targets are not refused, so its count is not shown")
        # a name of Metis has no %, so no two types have one file
        stem = kind.replace("/", "%")
        write_whole(folder / f"{stem}.json", document + "\n")
        write_whole(folder / f"{stem}.refusal", said.text)


def document_without(lean: Leanest, kind: str, least: Least) -> str:
    if least.count > 1 and least.pair is not None and not lean.universe.is_initial(least.pair):
        return lean.universe.without_state(least.pair)
    return lean.universe.without_type(kind)
