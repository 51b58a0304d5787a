"""Plans, shows what will be done, asks, and carries it out: metis up UNIVERSE TARGET .. --commands FILE --to FOLDER.

The universe, the plan and what was asked for stay in the folder. If the same was begun there before, it goes on where that
stopped. If something else stands there, also by another description, what serves the targets is kept or changed in place, what is
missing is made and bound to it, and then the rest is taken away; --wish LINE and --wishes FILE say what is to stay or to go
besides (metis help reconfigure). What becomes of each instance is shown before anything is done. --yes agrees to all but what
loses data: that is named by --delete. --dry-run shows what would be done, with a sum, and --expect SUM does just that.

metis up compose.yaml needs no more words: Compose says what the universe is, the target is project:up, the commands come with
Metis, and the folder is .metis beside the file, or --to FOLDER. metis.toml in this folder may hold the words: universe, targets,
commands, to, hosts, wishes, engine, jobs, lean, renamed, protect.
"""

import argparse
import json
import pathlib
import sys
import tempfile
import tomllib

from metis_planner.answers import Answer, Refused
from metis_planner.carry.agreeing import asked, check_agreed, check_known, check_protected
from metis_planner.carry.ahead import kept_request
from metis_planner.carry.calling import Call
from metis_planner.carry.commands import commands_of, read_commands
from metis_planner.carry.engines import ENGINES
from metis_planner.carry.folder import Folder
from metis_planner.carry.judging import Judge
from metis_planner.carry.proposing import proposed
from metis_planner.carry.request import DEFAULT_JOBS, FIRST, asked_sum, protected, request_of
from metis_planner.carry.stands import types_of
from metis_planner.carry.telling import Proposal
from metis_planner.look.sketch import document_of
from metis_planner.text import documents
from metis_planner.text.reading import read_bytes
from metis_planner.text.terminal import say

# How a dry run ends: there is nothing to do, or something.
NOTHING, SOMETHING = 0, 2


def document(path: str) -> str:
    """The universe in a file, which may be a sketch."""
    if path.endswith(".sketch"):
        return document_of(path)
    return read_bytes(path, documents.MOST_BYTES).decode("utf-8", "surrogateescape")


def add_arguments(parser: argparse.ArgumentParser) -> None:
    parser.add_argument("universe", metavar="UNIVERSE", nargs="?", help="a universe, a sketch or a Compose file")
    parser.add_argument("targets", metavar="TARGET", nargs="*", help="TYPE:STATE or port:PORT")
    parser.add_argument("--commands", metavar="FILE", help="what each step means (TOML)")
    parser.add_argument("--to", metavar="FOLDER", help="where it is carried out, and goes on")
    parser.add_argument("--hosts", metavar="FILE", help="hosts with their rooms; what stands keeps its host")
    parser.add_argument("--wishes", metavar="FILE", help="what of that which stands is to stay, to go or may be bound anew")
    parser.add_argument("--engine", choices=ENGINES, help="make, if nothing is said")
    parser.add_argument("-j", "--jobs", type=int, metavar="N", help=f"how many steps at the same time ({DEFAULT_JOBS})")
    help_text = "look for a first plan with few instances, as `metis lean` does"
    parser.add_argument("--lean", action="store_true", help=help_text)
    help_text = "await each healthcheck of a Compose project, from now on, as `docker compose up --wait` does"
    parser.add_argument("--wait", action="store_true", help=help_text)
    parser.add_argument("--yes", action="store_true", help="do not ask; what loses data has to be named by --delete all the same")
    more = parser.add_argument_group("when something stands already")
    help_text = "a wish by names, such as 'rebind prom#0', 'retire cert#4' or 'rebind all'"
    more.add_argument("--wish", action="append", default=[], metavar="LINE", help=help_text)
    help_text = "an instance, a type or `all`, which may be deleted with its data"
    more.add_argument("--delete", action="append", default=[], metavar="NAME", help=help_text)
    help_text = "a protected instance, a type or `all`, which may be changed in place"
    more.add_argument("--change", action="append", default=[], metavar="NAME", help=help_text)
    help_text = "a type, or as TYPE:OLD=NEW a state, has another name by now"
    more.add_argument("--renamed", action="append", default=[], metavar="OLD=NEW", help=help_text)
    help_text = "do the steps again whose commands have changed since they were done"
    more.add_argument("--again", action="store_true", help=help_text)
    help_text = "show what would be done, and change nothing: status 0 if that is nothing, else 2"
    more.add_argument("--dry-run", action="store_true", help=help_text)
    more.add_argument("--json", action="store_true", help="with --dry-run: one JSON object in place of lines")
    more.add_argument("--expect", metavar="SUM", help="do just what a dry run with this sum has shown, or nothing")


def run(arguments: argparse.Namespace) -> Answer:
    request = request_of(arguments)
    if arguments.json and not arguments.dry_run:
        raise Refused("--json is for --dry-run")
    folder = Folder(request.to)
    project = request.project
    commands = commands_of(tomllib.loads(project.commands)) if project else read_commands(request.commands)
    universe = project.document if project else document(request.universe)
    with tempfile.TemporaryDirectory(prefix="metis-up-") as name:
        call = Call(request, folder, Judge(pathlib.Path(name)), universe, commands)
        check_known(request.protect or (), folder, types_of(call.universe))
        protect = protected(folder, request.protect)
        proposal = proposed(call, protect)
        check_protected(proposal.going, protect, request.to)
        call.sum = proposal.sum(asked_sum(request, call.universe), repr(commands))
        if arguments.dry_run:
            return looked_at(proposal, call.sum, arguments.json)
        call.sum = expected(call, arguments.expect)
        return done(call, proposal, protect)


def looked_at(proposal: Proposal, own_sum: str, is_json: bool) -> Answer:
    """What a dry run shows."""
    status = SOMETHING if proposal.is_something else NOTHING
    if is_json:
        return Answer(json.dumps({**proposal.value(), "sum": own_sum}) + "\n", proposal.notes, status)
    words = " ".join(f"--delete {each}" for each in proposal.losing)
    needed = f"; --yes agrees to that with {words}" if words else ""
    head = f"{proposal.question('a real run')[:-1]}{needed}" if proposal.is_something else "nothing is to be done"
    lines = [*proposal.lines, head, f"sum {own_sum}"]
    return Answer("".join(f"{line}\n" for line in lines), proposal.notes, status)


def expected(call: Call, wanted: str | None) -> str:
    """The sum of what is done, which has to be the one that is wanted; what was begun by that sum goes on by it."""
    kept = kept_request(call.folder).get("sum") if call.folder.has_plan() else None
    is_begun = call.folder.has_plan() and (call.is_begun() or call.is_begun(FIRST))
    own = str(kept) if is_begun and kept else call.sum
    if wanted and wanted not in (own, call.sum):
        raise Refused(f"something else would be done than what --expect {wanted} stands for: its sum is {call.sum}")
    return own


def done(call: Call, proposal: Proposal, protect: tuple[str, ...]) -> Answer:
    """Shows what is to be done, asks, and does it."""
    request = call.request
    print("".join(f"{line}\n" for line in proposal.lines), end="")
    sys.stdout.flush()
    for note in proposal.notes:
        say(note)
    check_agreed(proposal, request.agreed, protect)
    if proposal.is_something and not asked(proposal.question(request.to), request.agreed.is_agreed):
        return Answer("", ("nothing was done",), 1)
    return Answer(status=1 if proposal.act() else 0)
