"""What `up` and `down` write into a folder and carry out there: plans with their hosts, by the engine that was chosen."""

import pathlib
import subprocess
from collections.abc import Callable, Iterable, Iterator, Mapping, Sequence

from metis_planner.answers import Refused
from metis_planner.carry import export
from metis_planner.carry.ahead import kept_request
from metis_planner.carry.commands import Commands, Rule
from metis_planner.carry.engines import DEFAULT, ENGINES
from metis_planner.carry.folder import PAST, PLAN, UNIVERSE, Folder, written
from metis_planner.carry.possible import PossibleActions
from metis_planner.carry.progress import progress_of
from metis_planner.carry.request import Request
from metis_planner.carry.seating import kept_placement
from metis_planner.carry.stands import types_of
from metis_planner.carry.status import lines_of
from metis_planner.carry.steps import Step
from metis_planner.carry.ways import Way
from metis_planner.text.terminal import say

PLACED = "placement"


def exported(
    request: Request,
    plan: pathlib.Path,
    universe: pathlib.Path,
    placement: pathlib.Path | None,
    noted: Callable[[], None] = export.nothing,
) -> None:
    """Writes the plan into its folder, with what goes with it while nobody else writes there; and says what there is to say."""
    for note in export.exported(export_request(request, plan, universe, placement), ENGINES[request.engine], noted):
        say(note)


def export_request(
    request: Request, plan: pathlib.Path, universe: pathlib.Path, placement: pathlib.Path | None
) -> export.ExportRequest:
    """What is to be exported of a plan. The commands were looked at before anybody was asked."""
    return export.ExportRequest(
        plan=str(plan),
        commands=request.commands,
        to=request.to,
        universe=str(universe),
        placement=str(placement) if placement else None,
        is_up=True,
    )


def carried_out(request: Request, folder: Folder) -> int:
    """Runs the engine in the folder, whose own lines are its progress, and says at the end how far it is."""
    status = subprocess.run(ENGINES[request.engine].command(request.to, request.jobs), check=False).returncode
    for line in lines_of(progress_of(folder), str(folder.path)):
        say(line)
    return status


def possible_in(folder: Folder, universe: str, steps: Iterable[Step]) -> PossibleActions:
    """What a step may be for: all that may happen by the description, in what the folder has or had, or in these steps."""
    found = PossibleActions(types_of(universe))
    places = (folder.path, *(folder.path / PAST / each for each in folder.past()))
    for path in (place / UNIVERSE for place in places):
        if path.is_file():
            found.add_types(types_of(path.read_text(errors="surrogateescape")))
    for step in steps:
        found.add(step.action)
    return found


def checked_rules(
    request: Request, commands: Commands, possible: PossibleActions, steps: Sequence[Step], done: Mapping[str, object]
) -> Iterator[tuple[Step, Rule | None]]:
    """The rule of each step. Refused is a rule that fits nothing, and a step that is not done and has none."""
    try:
        if not request.project:  # those of a project are for all that any may have
            commands.check_fits(possible)
        rules, without = export.rules_of(steps, commands, possible, done)
    except Refused as refused:
        raise Refused(f"{request.commands}: {refused}") from refused
    if without:
        raise Refused(f"{request.commands}: {export.no_rule(without)}")
    return zip(steps, rules)


def kept_commands(folder: Folder) -> str | None:
    """The commands file by which `up` wrote a folder."""
    found = kept_request(folder).get("commands")
    return found if isinstance(found, str) else None


def written_again(folder: Folder, way: Way, texts: pathlib.Path) -> None:
    """Writes a folder for a list that is all done, by the commands, the engine and the hosts that it had."""
    commands, engine = kept_commands(folder), str(kept_request(folder).get("engine", DEFAULT))
    assert commands is not None
    request = Request("", (), commands, str(folder.path), engine=engine if engine in ENGINES else DEFAULT)
    placement = kept_placement(folder.steps(), folder.marks(), way.plan.actions)
    paths = {name: texts / name for name in (PLAN, UNIVERSE, PLACED)}
    for name, text in ((PLAN, written(way.plan)), (UNIVERSE, way.universe), (PLACED, placement or "")):
        paths[name].write_text(text, errors="surrogateescape")
    exported(request, paths[PLAN], paths[UNIVERSE], paths[PLACED] if placement else None)
