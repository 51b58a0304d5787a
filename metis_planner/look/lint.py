"""Says of manifests, a project or units what can never come up, with file and line: metis lint SOURCE .., as `metis import` has it.

It imports the source, and says why what the source wants up never comes up. Each cause is a line: something is needed that
nothing gives, some wait for one another in a circle, or the importer refuses the source. What the importer notes of a place, such
as the name of a service that is not there, is a warning. No plan is made, and nothing is carried out. The status is 0 if all can
come up, and else 1; with --strict a warning makes it 1 too.
"""

import argparse
import collections
import importlib
import json
import os
import re
from collections.abc import Iterator, Mapping, Sequence
from typing import Any, NamedTuple

from metis_planner.answers import Answer, Refused
from metis_planner.lean.bound import Bound
from metis_planner.lean.universe import Universe
from metis_planner.look.findings import FAULT, FORMATS, MORE, NOTED, Finding, written
from metis_planner.look.source_places import Place, PlaceOf, files_of, place_in, places_of
from metis_planner.program import Status, ask
from metis_planner.text import plans
from metis_planner.text.documents import Document
from metis_planner.text.notes import Note
from metis_planner.words import IMPORTERS, SOURCES, joined

# After so many causes that `why` has to be asked for, nobody reads on.
MOST_CAUSES = 100
# What a source wants up; of packages those that are named.
TARGETS: Mapping[str, tuple[str, ...]] = {
    "compose": ("project:up",),
    "kubernetes": ("manifests:up",),
    "systemd": ("boot:up",),
}
MENDED = "lint.mended"
# How the importer of manifests names a hook that is deleted before somebody needs it, and the pods behind a service.
DELETED, ENDPOINTS = "@deleted", "@endpoints"
MISSING_NAME = re.compile(r"(\S+) names (\S+), which is not here")


class Source(NamedTuple):
    """A source that was imported: its document, what it wants up, where its components stand, and what was noted."""

    document: dict[str, Any]
    targets: tuple[str, ...]
    place_of: PlaceOf
    notes: Sequence[str]
    texts: Mapping[str, str]
    begin: Place | None = None  # of the one file that it was read from

    def text(self, name: str) -> str:
        """What a name of the document stands for in the source."""
        return self.texts.get(name, name)

    def missing(self, component: str, port: str) -> Finding:
        """That a component needs a port that nothing gives."""
        own, other = self.text(component), self.text(port)
        reason = f"{own} needs {other}, which nothing gives"
        if other.endswith(DELETED):
            reason = f"{own} needs {other.removesuffix(DELETED)}, a hook that Helm deletes once it has succeeded"
        return Finding("missing", own, reason, self.place_of(own, other.removesuffix(DELETED)))


def explanation_of(document: Mapping[str, Any], targets: Sequence[str]) -> plans.Explanation | None:
    """Why the targets are not attained; nothing if they are."""
    said = ask(["why", "-", *targets], json.dumps(document))
    if said.status == Status.DONE:
        return None
    if said.status != Status.NO:
        raise Refused(f"the program refuses what was imported: {said.text.strip()}")
    found = plans.read(said.text)
    assert isinstance(found, plans.Explanation)
    return found


def type_of(pair: str) -> str:
    return pair.partition(":")[0]


def requirers(document: Mapping[str, Any]) -> dict[str, list[str]]:
    """For each port the types that require it in some state, in their order."""
    found: dict[str, dict[str, None]] = collections.defaultdict(dict)
    for kind in document["types"]:
        for state in kind["states"]:
            for entry in state.get("require", ()):
                found[entry if isinstance(entry, str) else entry["port"]][kind["name"]] = None
    return {port: list(names) for port, names in found.items()}


def surely_missing(source: Source) -> list[str]:
    """The ports that nothing gives, and without which the targets are not attained, as far as the document alone shows that."""
    universe = Universe(json.dumps(source.document), "the document")
    needed = Bound(universe, source.targets).needed
    ports = (port for pair in needed for port in universe.required(pair))
    return [port for port in dict.fromkeys(ports) if port not in universe.providers]


def circle_of(explanation: plans.Explanation) -> list[plans.Reason]:
    """The reasons that wait for one another in a circle, from the first that comes round again."""
    reason_of = {reason.pair: reason for reason in explanation.reasons}
    path: list[str] = []
    pair = explanation.reasons[0].pair
    while pair not in path:
        path.append(pair)
        pair = next(name for name in reason_of[pair].names or () if name in reason_of)
    return [reason_of[each] for each in path[path.index(pair) :]]


def with_port(document: dict[str, Any], port: str) -> None:
    """Mends a document in which nothing gives a port, so that it shows what else is wrong."""
    name = f"{MENDED}-{len(document['types'])}"
    document["types"].append({"name": name, "initial": "there", "states": [{"name": "there", "provide": [port]}]})


def causes_of(source: Source) -> Iterator[Finding]:
    """Each cause: those that the document shows at once, and then, as each counts as mended once it is told, those of `why`."""
    document = {**source.document, "types": [*source.document["types"]]}
    requiring = requirers(document)
    for port in surely_missing(source):
        yield from (source.missing(component, port) for component in requiring[port])
        with_port(document, port)
    for _ in range(MOST_CAUSES):
        explanation = explanation_of(document, source.targets)
        if explanation is None:
            return
        lacking = next((each for each in explanation.reasons if not each.names and each.needs), None)
        if lacking is not None:
            port = lacking.needs or ""
            yield from (source.missing(component, port) for component in requiring.get(port, ()))
        else:
            circle = circle_of(explanation)
            port = next((each.needs for each in circle if each.needs), "")
            yield of_a_circle(source, circle)
        with_port(document, port)
    if explanation_of(document, source.targets) is not None:
        yield Finding(MORE, "", f"and more: after {MOST_CAUSES} causes lint looks for no others", None)


def of_a_circle(source: Source, circle: Sequence[plans.Reason]) -> Finding:
    first = source.text(type_of(circle[0].pair))
    waits = [f"{source.text(type_of(each.pair))} for {source.text(each.needs)}" for each in circle if each.needs]
    reason = f"these wait for one another in a circle: {', '.join(waits)}"
    return Finding("circle", first, reason, source.place_of(first, source.text(circle[0].needs or "")))


def imported(arguments: argparse.Namespace, module: Any) -> Source:
    if arguments.source == "systemd":
        arguments.given = [*arguments.given, *module.OWN_OF_SYSTEMD]
    answer: Answer = module.run(arguments)
    targets = TARGETS.get(arguments.source) or tuple(getattr(module, "TARGETS", ()))
    if arguments.source == "debian":
        targets = tuple(map(module.target, arguments.packages))
    if not targets:
        raise Refused(f"the importer {arguments.source} does not say what it wants up")
    texts = answer.text.texts if isinstance(answer.text, Document) else {}
    files = files_of(arguments)
    begin = Place(files[0], 1) if len(files) == 1 and files[0] != "-" else None
    return Source(json.loads(answer.text), targets, places_of(arguments.source, arguments), answer.notes, texts, begin)


def noted(source: Source) -> Iterator[Finding]:
    """What the importer noted, if it is found where."""
    for note in source.notes:
        if isinstance(note, Note):
            looked_for = source.place_of(note.component, note.needed) or source.begin if note.component else None
            place = Place(note.file, note.line) if note.line is not None else looked_for
            if place is not None:
                yield Finding(FAULT if note.is_fault else NOTED, note.component, note.reason, place)


def findings_of(arguments: argparse.Namespace) -> list[Finding]:
    """All findings, each once: a source that the importer refuses has that one."""
    try:
        source = imported(arguments, importlib.import_module(arguments.importer))
    except Refused as refused:
        files = files_of(arguments)
        if not all(path == "-" or os.path.isfile(path) for path in files):
            raise
        place_of = places_of(arguments.source, arguments)
        places = [place_in(reason, files, place_of) for reason in (str(refused), *refused.more)]
        return sorted((Finding("refused", "", reason, place) for place, reason in places), key=where)
    found = list(noted(source))
    causes = once(sorted([*causes_of(source), *(each for each in found if each.level == "error")], key=where))
    warnings = sorted((each for each in found if each.level == "warning"), key=where)
    return list(dict.fromkeys([*causes, *(each for each in warnings if not is_told(each, causes))]))


def where(found: Finding) -> tuple[str, int]:
    return found.place or ("", 0)


def once(findings: Sequence[Finding]) -> list[Finding]:
    """All but those that only say more of another: that a service that is not there has no endpoints either."""
    reasons = {each.reason for each in findings}
    shorter = {each.reason: each.reason.replace(ENDPOINTS, "") for each in findings}
    return [each for each in findings if shorter[each.reason] == each.reason or shorter[each.reason] not in reasons]


def is_told(warning: Finding, causes: Sequence[Finding]) -> bool:
    """Whether an error says of the same line what a warning says: that what is named there is not there."""
    told = MISSING_NAME.match(warning.reason)
    return bool(told) and any(each.place == warning.place and f"{told[1]} needs {told[2]}," in each.reason for each in causes if told)


def add_arguments(parser: argparse.ArgumentParser) -> None:
    sources = parser.add_subparsers(dest="source", required=True, metavar="SOURCE")
    for name, word in joined(SOURCES, IMPORTERS).items():
        module = importlib.import_module(word.module)
        each = sources.add_parser(name, help=word.help, description=module.__doc__)
        module.add_arguments(each)
        help_text = "how findings are printed: as lines, as JSON, as commands of a GitHub workflow, for GitLab, or as SARIF"
        each.add_argument("--format", choices=FORMATS, default="text", help=help_text)
        # That of Debian's packages is the importer's, and there are no warnings of these.
        if name != "debian":
            each.add_argument("--strict", dest="lint_is_strict", action="store_true", help="end with status 1 for warnings too")
        each.set_defaults(importer=word.module)


def run(arguments: argparse.Namespace) -> Answer:
    found = findings_of(arguments)
    is_bad = any(each.level == "error" or getattr(arguments, "lint_is_strict", False) for each in found)
    return Answer(written(found, arguments.format), status=1 if is_bad else 0)
