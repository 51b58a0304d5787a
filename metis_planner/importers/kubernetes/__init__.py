"""Manifests of Kubernetes: the objects of a stream, and what each needs before the cluster takes it and it is well."""

import argparse
from collections.abc import Iterable, Iterator, Sequence

from metis_planner.answers import Answer, Refused
from metis_planner.importers.kubernetes import mentions
from metis_planner.importers.kubernetes.faults import Faults
from metis_planner.importers.kubernetes.given import given_names
from metis_planner.importers.kubernetes.input import is_true, Manifest, read_manifests
from metis_planner.importers.kubernetes.kinds import APPLIED, last_state
from metis_planner.importers.kubernetes.needs import DELETED, Needs
from metis_planner.importers.kubernetes.phases import ARGO_HOOK, HELM_HOOK, Steps
from metis_planner.importers.kubernetes.split import split
from metis_planner.text.documents import ComponentType, Names, State, document, one_each, two_states

WHOLE = "manifests"
STEP = "step/"
MOST_NAMED = 8


class Writer:
    """The component types of a stream of manifests."""

    def __init__(self, needs: Needs, names: Names) -> None:
        self.needs = needs
        self.steps = needs.steps
        self.names = names

    def types(self) -> list[ComponentType]:
        objects = [each for manifest in self.needs.manifests for each in self.object(manifest)]
        steps = [self.step(number) for number in range(len(self.steps) - 1)]
        return [*objects, *steps, self.whole()]

    def ports(self, texts: Iterable[str]) -> dict[str, int]:
        return one_each(dict.fromkeys(map(self.names.of, texts)))

    def object(self, manifest: Manifest) -> list[ComponentType]:
        """An object that is there or not, or that is applied first and then well."""
        key, state = manifest.key, last_state(manifest)
        before = [*self.behind(manifest), *self.needs.applying[key]]
        provided = self.provided(manifest)
        early = tuple(map(self.names.of, dict.fromkeys(self.needs.provided_early(manifest))))
        name = self.names.of(key)
        if state is None:
            return [two_states(name, "absent", "there", provided, self.ports([*before, *self.needs.running[key]]))]
        if early or self.is_apart(manifest):
            # A provider in use cannot go on, so what goes on is a component of its own.
            port = self.names.of(key + APPLIED)
            running = self.ports([key + APPLIED, *self.needs.running[key]])
            own = self.names.of(f"{key}@{state}")
            return [
                two_states(name, "absent", "applied", (port, *early), self.ports(before)),
                two_states(own, "awaited", state, provided, running),
            ]
        applied = State("applied", require=self.ports(before), next=(state, "absent"))
        last = State(state, provided, self.ports([*before, *self.needs.running[key]]), ("applied",))
        return [ComponentType(name, (State("absent", next=("applied",)), applied, last))]

    def provided(self, manifest: Manifest) -> tuple[str, ...]:
        if is_suspended(manifest):
            return ()
        return tuple(map(self.names.of, dict.fromkeys(self.needs.provided(manifest))))

    def behind(self, manifest: Manifest) -> list[str]:
        """The step before that of an object."""
        step = self.steps.step_of[manifest.key]
        return [f"{STEP}{step}"] if step else []

    def is_apart(self, manifest: Manifest) -> bool:
        """Whether others wait for it to be applied, and it goes on: its last milestone is a component of its own."""
        return not self.steps.is_last(manifest) and self.steps.is_enough_applied(manifest)

    def step(self, number: int) -> ComponentType:
        """A step is done when all its objects are as far as the next one waits for; steps are numbered from 1."""
        own = [each for each in self.needs.manifests if self.steps.step_of[each.key] == number]
        awaited = [each.key + APPLIED if last_state(each) and self.is_apart(each) else each.key for each in own]
        awaited = [port for port, each in zip(awaited, own) if port != each.key or not is_suspended(each)]
        port = self.names.of(f"{STEP}{number + 1}")
        before = [f"{STEP}{number}"] if number else []
        return two_states(port, "open", "done", (port,), self.ports([*before, *awaited]))

    def whole(self) -> ComponentType:
        """All of it is up when each object is well."""
        awaited = [each.key for each in self.needs.manifests if not is_suspended(each)]
        return two_states(WHOLE, "down", "up", (), self.ports(awaited))


def is_suspended(manifest: Manifest) -> bool:
    """Whether a job is not to run, so that it is never complete and nothing waits for that."""
    return manifest.kind == "Job" and not manifest.is_custom and is_true(manifest.spec, "suspend")


def needs_of(manifests: Sequence[Manifest], given: Sequence[str], waits: bool) -> Needs:
    """The needs of manifests in their steps, without what is given."""
    steps = Steps(manifests, waits)
    everything = Needs(manifests, steps, frozenset())
    if not given:
        return everything
    return Needs(manifests, steps, frozenset(given_names(given, everything.mentioned_names())))


def universe(manifests: Sequence[Manifest], given: Sequence[str] = (), waits: bool = False) -> tuple[str, list[str]]:
    """The document of a stream of manifests, and notes on what it lacks or leaves out."""
    needs = needs_of(manifests, given, waits)
    if not needs.manifests:
        raise Refused("all that the manifests say is given or left out, so nothing is left to apply")
    names = Names()
    types = Writer(needs, names).types()
    return document(comment(needs, given), types, names), list(notes_on(needs))


def comment(needs: Needs, given: Sequence[str]) -> str:
    standing = f", where {', '.join(given)} stands" if given else ""
    steps = f" in {len(needs.steps)} steps" if len(needs.steps) > 1 else ""
    return f"{len(needs.manifests)} objects of Kubernetes{steps}{standing}, by importers kubernetes; target: {WHOLE}:up"


def notes_on(needs: Needs) -> Iterator[str]:
    missing = list(needs.missing())
    for key, port in missing[:MOST_NAMED]:
        if port.endswith(DELETED):
            gone = port.removesuffix(DELETED)
            yield f"{key} needs {gone}, a hook that Helm deletes once it has succeeded: there will be no plan"
            continue
        hint = "which no definition here brings" if port.startswith("kind/") else "which nothing here gives"
        yield f"{key} needs {port}, {hint}: there will be no plan, unless it is given"
    if len(missing) > MOST_NAMED:
        yield f"and {len(missing) - MOST_NAMED} more needs that nothing here gives"
    yield from needs.notes
    yield from mentions.notes(needs.manifests, {*needs.known, *needs.given})
    yield from Faults(needs).notes()
    yield from made_names(needs.manifests)
    left_out = [each.key for each in needs.steps.left_out]
    if left_out:
        more = ", .." if len(left_out) > MOST_NAMED else ""
        yield f"hooks that an installation does not run, left out: {', '.join(left_out[:MOST_NAMED])}{more}"
    assumed = sorted({each.namespace for each in needs.manifests} - set(needs.namespaces) - {"", "default"})
    if assumed:
        yield f"namespaces that are not here, and taken as given: {', '.join(assumed[:MOST_NAMED])}"


def made_names(manifests: Iterable[Manifest]) -> Iterator[str]:
    """Notes on objects whose names the cluster makes, and which are no hooks: who applies them is refused."""
    for each in manifests:
        is_made = "name" not in each.told["metadata"]
        if is_made and not {ARGO_HOOK, HELM_HOOK} & each.annotations.keys():
            reason = f"{each.key} has a generateName, which `kubectl create` takes and `kubectl apply` refuses"
            yield mentions.note(each, each.told["metadata"], reason)


def add_arguments(parser: argparse.ArgumentParser) -> None:
    parser.add_argument(
        "files", metavar="FILE", nargs="*", default=["-"], help="manifests; standard input if none is named"
    )
    parser.add_argument(
        "--namespace", default="default", metavar="NAME", help="where objects lie that name no namespace"
    )
    parser.add_argument(
        "--wait", action="store_true", help="as Helm's: hooks behind an installation run when all of it is ready"
    )
    parser.add_argument(
        "--given",
        action="append",
        default=[],
        metavar="NAME",
        help="what the cluster has: KIND/NAMESPACE/NAME, KIND/NAME, or kind/KIND.GROUP for a definition of custom resources",
    )
    parser.add_argument("--split", metavar="FOLDER", help="write each object into a file of its own there, for steps that apply it")


def run(arguments: argparse.Namespace) -> Answer:
    manifests = read_manifests(arguments.files, arguments.namespace)
    text, notes = universe(manifests, arguments.given, arguments.wait)
    if arguments.split:
        count = split(needs_of(manifests, arguments.given, arguments.wait).manifests, arguments.split)
        notes.append(f"{count} files are in {arguments.split}")
    return Answer(text, notes)
