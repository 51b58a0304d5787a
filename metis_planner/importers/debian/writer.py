"""The component types of an installation: packages, cycles of them, what is set up first, and the request."""

from collections.abc import Iterable, Iterator, Sequence

from metis_planner.importers.debian.order import InstallOrder
from metis_planner.importers.debian.set_up import SetUp
from metis_planner.text.documents import ComponentType, Names, one_each, two_states

# No package's name has a `/`, so these are nobody's.
FILES, UNPACKED, CONFIGURED, CIRCLE = "/files", "/unpacked", "/configured", "/circle"
ALONE, REQUEST, SET_UP = "/alone", "/request", "/set-up"


def port_of(names: Names, name: str, part: str = "") -> str:
    """The port of a package, or of a part of it. No package's name has the `_` that stands for its `+`."""
    return names.of(name.replace("+", "_") + part)


def target(name: str) -> str:
    """The word that asks Metis for a package."""
    return f"port:{port_of(Names(), name)}"


class Writer:
    """The component types of an installation for a request."""

    def __init__(
        self, order: InstallOrder, requested: Sequence[str], unset: Sequence[str], is_strict: bool, names: Names
    ) -> None:
        self.order = order
        self.circles = {} if is_strict else order.circles
        self.names = names
        self.set_up = SetUp(order)
        self.unset = unset  # what is asked for, stands, and has only to be set up
        self.joined = order.joined(requested)
        # Where others join, what was asked for is there only with them; what needs it needs it alone.
        self.is_whole = bool(self.joined or self.set_up.before)
        self.requested = list(requested) if self.is_whole else []

    def types(self) -> list[ComponentType]:
        chosen = self.order.installation.chosen
        members = [each for name in sorted(chosen) for each in self.package(name)]
        groups = sorted({tuple(group) for group in self.circles.values()})
        first = [self.first()] if self.set_up.names else []
        whole = [self.request()] if self.is_whole else []
        return [*members, *map(self.circle, groups), *first, *whole]

    def port(self, name: str, part: str = "") -> str:
        if not part and name in self.requested:
            part = ALONE
        return port_of(self.names, name, part)

    def type_name(self, name: str, part: str = "") -> str:
        return port_of(self.names, name, part)

    def behind(self, name: str) -> list[str]:
        """The port of what is set up first, for a package that comes behind it."""
        if not self.set_up.names or name in self.set_up.before:
            return []
        return [self.port(self.set_up.names[0], SET_UP)]

    def package(self, name: str) -> list[ComponentType]:
        if name in self.circles:
            return self.member(name)
        before = [*map(self.port, (*self.order.needs(name), *self.order.before(name))), *self.behind(name)]
        return [two_states(self.type_name(name), "absent", "installed", (self.port(name),), one_each(before))]

    def member(self, name: str) -> list[ComponentType]:
        """A package of a cycle: its files, and its set-up, which asks of its mates that they are unpacked."""
        before = [*map(self.port, self.order.pre_needs(name)), *self.of_mates(name, self.order.before(name))]
        unpacked = self.port(name, UNPACKED)
        needs = self.of_mates(name, self.order.needs(name))
        configured = self.port(name, CONFIGURED)
        files = one_each([*before, *self.behind(name)])
        return [
            two_states(self.type_name(name, FILES), "absent", "unpacked", (unpacked,), files),
            two_states(self.type_name(name), "absent", "installed", (configured,), one_each([unpacked, *needs])),
        ]

    def of_mates(self, name: str, others: Iterable[str]) -> list[str]:
        """The ports of other packages: of those in the same cycle that they are unpacked."""
        mates = set(self.circles[name])
        return [self.port(other, UNPACKED if other in mates else "") for other in others]

    def circle(self, group: Sequence[str]) -> ComponentType:
        """A cycle is settled when all its members are set up, and only then others may depend on one of them."""
        required = one_each(self.port(name, CONFIGURED) for name in group)
        provided = tuple(map(self.port, group))
        return two_states(self.type_name(group[0], CIRCLE), "open", "settled", provided, required)

    def first(self) -> ComponentType:
        """The set-up of what stands without one: the first of these packages gives the name."""
        name = self.type_name(self.set_up.names[0], SET_UP)
        asked = [] if self.is_whole else [self.type_name(each) for each in self.unset]
        return two_states(name, "due", "done", (name, *asked), one_each(map(self.port, self.set_up.needs)))

    def request(self) -> ComponentType:
        """What was asked for is there when what joins is, too, and what stands is set up."""
        first = [self.port(self.set_up.names[0], SET_UP)] if self.set_up.before or self.unset else []
        required = one_each([*map(self.port, (*self.requested, *self.joined)), *first])
        asked = [*self.requested, *self.unset]
        provided = tuple(map(self.type_name, asked))
        return two_states(self.type_name(asked[0], REQUEST), "open", "met", provided, required)

    def targets(self, names: Iterable[str]) -> Iterator[str]:
        """A target for each package; one alone for those that are there together, by a cycle or by what joins."""
        asked: set[str] = set()
        for name in names:
            group = [*self.requested, *self.unset] if self.is_whole else self.circles.get(name, [])
            if asked.isdisjoint(group):
                yield target(name)
            asked.update(group)
