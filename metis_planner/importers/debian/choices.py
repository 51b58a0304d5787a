"""Which packages may meet a dependence, and which do not go together, of an index beside what stands."""

import collections
import functools
from collections.abc import Iterable, Iterator, Mapping, Sequence
from typing import NamedTuple

from metis_planner.answers import Refused
from metis_planner.importers.debian.conditions import Condition, Fields
from metis_planner.importers.debian.control import alternatives, Relation, relation
from metis_planner.importers.debian.packages import BARS, NEEDS, Pool, source_of, Standing, version_of

IN_WORDS = {"<<": "below", "<": "up-to", "<=": "up-to", "=": "exactly", ">=": "from", ">": "from", ">>": "above"}
# How many ways to meet all dependences and conflicts are gone through, and how many packages to see whether one can be had.
MOST_WAYS = 500_000
MOST_LOOKED_AT = 20_000


class TooManyWays(Refused):
    """More than is gone through in some seconds, on whatever way one goes on."""


class Options(NamedTuple):
    """What may meet one part of a dependence: packages that stand, and others of the index."""

    given: tuple[str, ...]
    names: tuple[str, ...]
    wanted: str


def in_words(wanted: Relation) -> str:
    """A relation as a name that no package has, but where it allows any version and architecture."""
    words = [wanted.name]
    if wanted.architecture is not None:
        words.append(wanted.architecture)
    if wanted.operator is not None:
        words.append(f"{IN_WORDS[wanted.operator]}-{wanted.version}")
    return "/".join(words)


class Choices:
    """An index beside what is given: which packages may meet a dependence, and which do not go together."""

    def __init__(self, index: Pool, given: Pool, standing: Standing | None = None) -> None:
        self.index = index
        self.given = given
        self.is_machine = standing is not None  # what is given is what stands somewhere, and not a base system
        self.foreign: Mapping[str, Sequence[Fields]] = standing.foreign if standing else {}
        self.half_removed: Mapping[str, Fields] = standing.half_removed if standing else {}
        self.options = functools.cache(self._options)
        self.barred_by_part = functools.cache(self._barred_by_part)
        self.ways = 0
        self.possible: dict[str, bool] = {}

    def count_ways(self, count: int) -> None:
        self.ways += count
        if self.ways > MOST_WAYS:
            raise TooManyWays(f"more than {MOST_WAYS} ways to meet the dependences and conflicts of these packages")

    def stands(self, name: str) -> bool:
        """Whether a package is given and stays so: in the version of the index or a later one, or held."""
        given = self.given.packages.get(name)
        if given is None:
            return False
        if self.index.fault(name) or self.given.fault(name):
            return True
        if self.given.condition(name) is Condition.BROKEN:
            return version_of(given) > version_of(self.index.packages[name])
        return self.given.is_held(name) or version_of(given) >= version_of(self.index.packages[name])

    def can_upgrade(self, name: str) -> bool:
        return name in self.index.packages and not self.stands(name)

    @functools.cached_property
    def parts_of_given(self) -> dict[str, list[str]]:
        """For each relation by which given packages conflict with or break others, these given ones."""
        found: dict[str, list[str]] = collections.defaultdict(list)
        for name in self.given.packages:
            for part in dict.fromkeys(self.given.sound_parts(name, *BARS)):
                found[part].append(name)
        return found

    @functools.cached_property
    def parts_barring(self) -> dict[str, list[str]]:
        """For each package of the index the relations by which given ones conflict with it or break it."""
        found: dict[str, list[str]] = collections.defaultdict(list)
        for part in self.parts_of_given:
            for name in self.barred_by_part(part):
                found[name].append(part)
        return found

    def barred_by_given(self, name: str) -> Iterator[str]:
        """The given packages that conflict with a package of the index, or break it."""
        seen = {name}
        for part in self.parts_barring.get(name, ()):
            for each in self.parts_of_given[part]:
                if each not in seen:
                    seen.add(each)
                    yield each

    @functools.cached_property
    def leaning_on(self) -> dict[str, list[tuple[str, Options]]]:
        """For each given package the given ones that depend on it, each with the part that it meets."""
        leaning: dict[str, list[tuple[str, Options]]] = collections.defaultdict(list)
        for name in self.given.packages:
            for part in self.given.sound_parts(name, *NEEDS):
                options = self.options(part)
                for other in options.given:
                    if other != name:
                        leaning[other].append((name, options))
        return leaning

    @functools.cached_property
    def upgrades_of_source(self) -> dict[tuple[str, str], list[str]]:
        """For each source of the index, with its version, the given packages that an upgrade brings to it."""
        upgrades: dict[tuple[str, str], list[str]] = collections.defaultdict(list)
        for name in self.given.packages:
            if self.can_upgrade(name):
                upgrades[source_of(name, self.index.packages[name])].append(name)
        return upgrades

    def _options(self, part: str) -> Options:
        wanted = alternatives(part)
        given = dict.fromkeys(name for each in wanted for name in self.given.meeting(each))
        names = dict.fromkeys(name for each in wanted for name in self.index.meeting(each) if not self.stands(name))
        self.count_ways(len(given) + len(names))
        return Options(tuple(given), tuple(names), in_words(wanted[0]))

    def _barred_by_part(self, part: str) -> frozenset[str]:
        """The packages of the index that one conflicts with or breaks by a relation, if it is not one of them itself."""
        found = frozenset(self.index.meeting(relation(part)))
        self.count_ways(len(found))
        return found

    def bars_by(self, name: str) -> list[str]:
        """The relations by which a package of the index conflicts with or breaks others."""
        return list(dict.fromkeys(self.index.sound_parts(name, *BARS)))

    def is_barred_by(self, other: str, name: str) -> bool:
        """Whether a package of the index is one that another one conflicts with or breaks."""
        return other != name and any(other in self.barred_by_part(part) for part in self.bars_by(name))

    def clashes(self, name: str, *fields: str) -> Iterator[str]:
        """The given packages that do not go together with this one of the index, but for its own earlier version."""
        for part in self.index.sound_parts(name, *(fields or BARS)):
            yield from (other for other in self.given.meeting(relation(part)) if other != name)

    def bars(self, name: str, other: str, field: str) -> bool:
        """Whether the standing version of a package bars one of the index by this field."""
        return any(other in self.barred_by_part(part) for part in self.given.sound_parts(name, field))

    def given_against(self, name: str) -> Iterator[str]:
        """The given packages that are barred by this one or bar it."""
        yield from self.barred_by_given(name)
        yield from self.clashes(name)

    def go_together(self, name: str, other: str) -> bool:
        return not self.is_barred_by(other, name) and not self.is_barred_by(name, other)

    def is_mended(self, name: str, other: str) -> bool:
        """Whether an upgrade of a given package ends what it has against this one, or this one against it."""
        return self.can_upgrade(other) and self.go_together(name, other)

    def stuck_against(self, name: str) -> Iterator[str]:
        """The given packages that do not go together with this one in any version that there is."""
        return (other for other in self.given_against(name) if not self.is_mended(name, other))

    def is_possible(self, name: str) -> bool:
        """Whether a package can be had at all: what it needs is there, by one way or another, and so on below."""
        if name not in self.possible:
            self.look_below(name)
        return self.possible[name]

    def look_below(self, name: str) -> None:
        """Finds which packages cannot be had, among all that one may need by any way. Of too many none is looked at."""
        needed: dict[str, list[str]] = {}
        work = [name]
        while work and len(needed) <= MOST_LOOKED_AT:
            each = work.pop()
            if each in needed or each in self.possible:
                continue
            needed[each] = self.open_parts(each)
            work += [other for part in needed[each] for other in self.options(part).names if other not in needed]
        lost = set() if work else self.impossible(needed)
        self.possible.update((each, each not in lost) for each in ([name] if work else needed))

    def open_parts(self, name: str) -> list[str]:
        """The parts of what a package needs that neither what is given meets nor the package itself."""
        parts = dict.fromkeys(self.index.sound_parts(name, *NEEDS))
        return [part for part in parts if not self.options(part).given and name not in self.options(part).names]

    def impossible(self, needed: Mapping[str, Iterable[str]]) -> set[str]:
        """Of packages with the parts that they need, those for which one part is met by no package that can be had."""
        asking: dict[str, list[str]] = collections.defaultdict(list)
        for name, parts in needed.items():
            for part in parts:
                asking[part].append(name)
        left, meeting = {}, collections.defaultdict(list)
        for part in asking:
            ways = [each for each in self.options(part).names if self.possible.get(each, True)]
            left[part] = len(ways)
            for each in ways:
                meeting[each].append(part)
        lost: set[str] = set()
        work = [part for part, count in left.items() if count == 0]
        while work:
            for name in asking[work.pop()]:
                if name not in lost:
                    lost.add(name)
                    for part in meeting[name]:
                        left[part] -= 1
                        if left[part] == 0:
                            work.append(part)
        return lost
