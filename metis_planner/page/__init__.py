"""A page in which a plan is stepped through, by hand or by any order that its waits allow: one HTML file with all in it.

Of a rollout or a reconfiguration, with --from OLD, it shows the phases and the barrier, and with --wishes FILE what was wished of
each instance; of a refusal and of an explanation the reasons; of a folder what is done, running and failed in it. With --serve a
browser on this machine follows the folder. With --universe the proved program replays the plan, and the page says what it answered.
"""

import argparse
import contextlib
import pathlib
import tempfile
from collections.abc import Iterator

from metis_planner.answers import Answer, Refused
from metis_planner.carry import ahead
from metis_planner.carry.folder import Folder, sum_of
from metis_planner.carry.steps import steps_of
from metis_planner.look.sketch import document_of
from metis_planner.page import changes, progress, reasons, server, sheet, times, values, verdict, wished
from metis_planner.text import plans
from metis_planner.text.reading import read_text
from metis_planner.text.terminal import plain

MOST_ACTIONS = 5_000
MOST_TARGETS = 8
ADDRESS = "page.address"
NO_UNIVERSE = "Not checked, since no universe was named: with --universe FILE the program replays each action."


def add_arguments(parser: argparse.ArgumentParser) -> None:
    parser.add_argument("plan", metavar="PLAN|REFUSAL|EXPLANATION|FOLDER", help="- is standard input")
    parser.add_argument(
        "--universe", metavar="FILE", help="has the plan replayed, and shows what each state requires and offers"
    )
    parser.add_argument(
        "--waves", metavar=("WAVES", *"NNNNN"), nargs=6, help="what `metis waves` printed for the plan and these numbers"
    )
    parser.add_argument("--unit", default="", help="of the times, as s or min")
    parser.add_argument(
        "--from", metavar="OLD", dest="olds", action="append", default=[], help="the plan from which PLAN goes on"
    )
    parser.add_argument("--wishes", metavar="FILE", help="the wishes by which it goes on from OLD")
    parser.add_argument("--placement", metavar="FILE", help="what `metis place` printed for the plan")
    parser.add_argument("--why", metavar="EXPLANATION", help="what `metis why` printed, beside a refusal")
    parser.add_argument("--title", default="", help="what is written on top, as what the plan is for")
    parser.add_argument("--logs", action="store_true", help="of a folder: the end of each log of what is not done, too")
    parser.add_argument("--serve", action="store_true", help="of a folder: serve the page on 127.0.0.1, and follow it")
    parser.add_argument("--port", type=int, metavar="N", help="of --serve: at this port, in place of that of the last time")
    parser.add_argument("--open", action="store_true", help="of --serve: open a browser there")
    parser.add_argument(
        "--most", type=int, default=MOST_ACTIONS, metavar="N", help=f"refuse to show more actions ({MOST_ACTIONS})"
    )


def run(arguments: argparse.Namespace) -> Answer:
    with universe_at_hand(arguments):
        return answered(arguments)


@contextlib.contextmanager
def universe_at_hand(arguments: argparse.Namespace) -> Iterator[None]:
    """If the universe is named as a sketch, it is made of it for as long as it is needed."""
    if not (arguments.universe or "").endswith(".sketch"):
        yield
        return
    with tempfile.TemporaryDirectory(prefix="metis-") as folder:
        path = pathlib.Path(folder) / "universe.json"
        path.write_text(document_of(arguments.universe), "utf-8")
        arguments.universe = str(path)
        yield


def answered(arguments: argparse.Namespace) -> Answer:
    if pathlib.Path(arguments.plan).is_dir():
        return of_folder(arguments)
    if arguments.serve:
        raise Refused(f"{arguments.plan}: no folder, so there is nothing to follow")
    text = read_text(arguments.plan, plans.MOST_BYTES)
    if text.startswith(("metis refusal ", "metis why ")):
        return Answer(reasons.page(arguments, text, title_of(arguments)))
    return of_plan(arguments, text)


def of_plan(arguments: argparse.Namespace, text: str) -> Answer:
    plan = plans.plan_of(text, arguments.plan)
    steps = values.checked_size(steps_of(plan, arguments.plan), arguments.most)
    rollouts, notes = changes.found(plan, steps, arguments)
    wishes = wished.of_plan(arguments, steps, rollouts)
    value: values.Value = {**values.value_of(plan, steps, rollouts, arguments), "wishes": wishes.rows}
    if arguments.waves:
        value["times"] = times.of_waves(plan, steps, rollouts, arguments)
    found = replayed(arguments, text)
    if found.kind == "bad":
        notes = [*notes, found.text]
    return Answer(sheet.of_plan(title_of(arguments), found, plan, value, wishes=wishes.text), notes)


def of_folder(arguments: argparse.Namespace) -> Answer:
    for name in ("waves", "olds", "wishes", "placement", "why"):
        if getattr(arguments, name):
            raise Refused(f"{arguments.plan}: of a folder, which has its own plan and rollouts, nothing else is read")
    known: dict[str, verdict.Verdict] = {}
    if not arguments.serve:
        return Answer(folder_page(arguments, known))
    followed = progress.Followed(Folder(arguments.plan), arguments.logs)
    server.serve(
        lambda: folder_page(arguments, known, sheet.OWN_SERVER),
        followed.state,
        pathlib.Path(arguments.plan) / ADDRESS,
        arguments.port,
        arguments.open,
    )
    return Answer()


def folder_page(arguments: argparse.Namespace, known: dict[str, verdict.Verdict], network: str = sheet.NO_NETWORK) -> str:
    """The page of a folder as it is now. What the program said of its plan is kept by the plan in `known`."""
    folder = Folder(arguments.plan)
    plan, text = folder.plan(), folder.text()
    steps = values.checked_size(steps_of(plan, arguments.plan), arguments.most)
    rollouts = folder.rollouts(len(steps))
    wishes = wished.of_folder(folder, steps, rollouts)
    value: values.Value = {**values.value_of(plan, steps, rollouts, arguments), "wishes": wishes.rows}
    value["targets"] = targets_of(folder)
    value["live"] = {**progress.state_of(folder, arguments.logs), "serves": arguments.serve}
    if text not in known:
        known.clear()
        known[text] = replayed(arguments, text)
    return sheet.of_plan(title_of(arguments), known[text], plan, value, network, wishes.text)


def targets_of(folder: Folder) -> list[str]:
    """What `up` was asked for, if the plan in the folder is still its own."""
    kept = ahead.kept_request(folder)
    found = kept.get("targets") if kept.get("plan") == sum_of(folder.text().encode()) else None
    return [plain(str(target), 100) for target in found[:MOST_TARGETS]] if isinstance(found, list) else []


def replayed(arguments: argparse.Namespace, text: str) -> verdict.Verdict:
    if not arguments.universe:
        return verdict.Verdict("none", NO_UNIVERSE)
    return verdict.of(arguments.universe, [verdict.Question("replay", text)])


def title_of(arguments: argparse.Namespace) -> str:
    """What is written on top. Of a path only the name, since a page is made to be sent on."""
    name = "standard input" if arguments.plan == "-" else pathlib.Path(arguments.plan).resolve().name
    return plain(arguments.title or name, 200)
