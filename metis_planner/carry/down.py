"""Takes away what stands in a folder, of whatever is done of its plan: metis down FOLDER. What keeps data goes too: it is asked
first.
"""

import argparse
import pathlib
import tempfile
from collections.abc import Mapping, Sequence

from metis_planner.answers import Answer, Refused
from metis_planner.carry import export, refresh
from metis_planner.carry.agreeing import asked, check_protected
from metis_planner.carry.ahead import UNIVERSE, answered, kept_request
from metis_planner.carry.configuration import MOST_JOBS, add_folder, checked_jobs, configured, folder_of, is_of
from metis_planner.carry.engines import DEFAULT, ENGINES
from metis_planner.carry.exporting import PLACED, carried_out, export_request, exported, kept_commands
from metis_planner.carry.folder import PLAN, Folder, part_of, written
from metis_planner.carry.request import DEFAULT_JOBS, Request, protected
from metis_planner.carry.seating import kept_placement
from metis_planner.carry.steps import Step, who
from metis_planner.carry.telling import shown
from metis_planner.carry.up import document
from metis_planner.text import plans
from metis_planner.text.actions import Delete, New


def add_arguments(parser: argparse.ArgumentParser) -> None:
    add_folder(parser, "what `metis up` wrote, or `metis make`")
    parser.add_argument("--universe", metavar="FILE", help="if `metis up` did not keep it")
    parser.add_argument("--commands", metavar="FILE", help="if `metis up` did not keep its name")
    parser.add_argument("--engine", choices=ENGINES, help="that of `metis up`, if nothing is said")
    parser.add_argument("-j", "--jobs", type=int, metavar="N", help=f"how many steps at the same time ({DEFAULT_JOBS})")
    parser.add_argument("--yes", action="store_true", help="do not ask")


def request_of(folder: Folder, arguments: argparse.Namespace) -> Request:
    universe = arguments.universe or str(folder.path / UNIVERSE)
    commands, kept = arguments.commands or kept_commands(folder), kept_request(folder)
    if not pathlib.Path(universe).is_file() or not commands:
        raise Refused(f"{folder.path}: it was not written by `metis up`: name the universe by --universe, and --commands")
    engine = arguments.engine or (kept["engine"] if kept.get("engine") in ENGINES else DEFAULT)
    jobs = checked_jobs(arguments.jobs, "-j") or kept_jobs(kept)
    return Request(universe, (), commands, str(folder.path), engine=str(engine), jobs=jobs)


def kept_jobs(kept: Mapping[str, object]) -> int:
    """How many steps at the same time `up` was called with, if what is kept of that makes sense."""
    jobs = kept.get("jobs")
    return jobs if isinstance(jobs, int) and not isinstance(jobs, bool) and 1 <= jobs <= MOST_JOBS else DEFAULT_JOBS


def check_standing(folder: Folder, steps: Sequence[Step], done: set[str]) -> None:
    """Refuses to take away what is protected, by metis.toml here or by what `up` has kept of one."""
    found = configured()
    said = tuple(found.get("protect", ())) if is_of(found, str(folder.path)) else ()
    gone = {step.action.instance for step in steps if isinstance(step.action, Delete) and step.key in done}
    made = [step for step in steps if isinstance(step.action, New) and step.key in done and step.action.instance not in gone]
    check_protected([who(step.action) for step in made], protected(folder, said), str(folder.path), is_down=True)


def way_back(folder: Folder, request: Request, part: plans.Plan, texts: pathlib.Path) -> plans.Plan:
    """What takes all away that stands, behind what is done."""
    (texts / PLAN).write_text(written(part))
    (texts / UNIVERSE).write_text(document(request.universe), errors="surrogateescape")
    universe, done_there = str(texts / UNIVERSE), str(texts / PLAN)
    names = {universe: request.universe, done_there: f"the plan of what stands in {folder.path}"}
    return plans.plan_of(answered(["rollout"], [universe, done_there], names), "the way back")


def run(arguments: argparse.Namespace) -> Answer:
    folder = folder_of(arguments)
    steps = folder.steps()
    with folder.held():
        done = folder.done(steps)
    if not done:
        return Answer("", (f"{folder.path}: nothing is done in it",))
    request = request_of(folder, arguments)
    check_standing(folder, steps, done)
    with tempfile.TemporaryDirectory(prefix="metis-down-") as name:
        texts = pathlib.Path(name)
        plan = way_back(folder, request, part_of(steps, done), texts)
        (texts / PLAN).write_text(written(plan))
        placement = kept_placement(steps, folder.marks(), plan.actions)
        (texts / PLACED).write_text(placement or "")
        words = (texts / PLAN, texts / UNIVERSE, texts / PLACED if placement else None)
        # What no step fits is said before anybody is asked.
        export.handed_in(export_request(request, *words))
        print("".join(f"{line}\n" for line in shown(plans.Plan(plan.actions[len(done) :], ()))), end="", flush=True)
        if not asked(f"Take all of this away, with its data, in {folder.path}?", arguments.yes):
            return Answer("", ("nothing was done",), 1)
        # What was to be done again goes, too: nothing has to be mended before all is taken away.
        refresh.forget(folder)
        exported(request, *words)
    return Answer(status=1 if carried_out(request, folder) else 0)
