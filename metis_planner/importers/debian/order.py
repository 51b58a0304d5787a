"""The order in which dpkg can install the packages of an installation: what comes before what, and the cycles."""

import collections
import functools
from collections.abc import Callable, Iterable, Iterator, Mapping, Sequence

from metis_planner.answers import Refused
from metis_planner.importers.cycles import cycles
from metis_planner.importers.debian.installation import Installation
from metis_planner.importers.debian.packages import NEEDS


class InstallOrder:
    """What each package of an installation comes after.

    A package is set up after those that it depends on, also where one of them stands in an earlier version that would
    do: while that one is upgraded it is not set up. What does not go together with the standing version of a package that
    is upgraded comes behind that upgrade; in a cycle with it, it is unpacked behind it. Where the upgrade cannot be
    unpacked first, since it pre-depends on what breaks the standing version, or breaks that one's in turn, dpkg takes back
    the set-up of what is broken until its upgrade comes (`--auto-deconfigure`, as apt has it).
    """

    def __init__(self, installation: Installation) -> None:
        self.installation = installation
        self.needs = functools.cache(self._needs)
        self.pre_needs = functools.cache(self._pre_needs)

    def _pre_needs(self, name: str) -> list[str]:
        return self.installation.needs(name, "Pre-Depends")

    def _needs(self, name: str) -> list[str]:
        """What a package depends on, and given ones whose upgrade ends that they break this one."""
        return list(dict.fromkeys([*self.installation.needs(name, *NEEDS), *self.barring(name, "Breaks")]))

    def barring(self, name: str, field: str) -> Iterator[str]:
        """The packages that are upgraded and bar this one, by one field, in the version that stands."""
        choices, chosen = self.installation.choices, self.installation.chosen
        for other in choices.barred_by_given(name):
            if other in chosen and choices.bars(other, name, field):
                yield other

    def upgraded(self, name: str, field: str) -> list[str]:
        """The packages whose standing version this one does not go together with by one field, and that are upgraded."""
        found = [other for other in self.installation.choices.clashes(name, field) if other in self.installation.chosen]
        return list(dict.fromkeys(found))

    @functools.cached_property
    def conflicting_before(self) -> dict[str, list[str]]:
        """For each package those that conflict with it until they are upgraded."""
        return {
            name: [*self.upgraded(name, "Conflicts"), *self.barring(name, "Conflicts")]
            for name in self.installation.chosen
        }

    @functools.cached_property
    def broken_before(self) -> dict[str, list[str]]:
        """For each package those whose standing version it breaks, and that are upgraded, or unpacked, before it."""
        broken = {name: self.upgraded(name, "Breaks") for name in self.installation.chosen}
        broken = {name: others for name, others in broken.items() if others}
        circles = self.circles_with(broken) if broken else {}
        kept: dict[str, list[str]] = collections.defaultdict(list)
        for name in sorted(broken):
            for other in broken[name]:
                if other not in circles.get(name, ()) or not self.has_to_be_first(name, other, kept):
                    kept[name].append(other)
        circles = self.circles_with(kept) if kept else {}
        # dpkg cannot unpack the members of a cycle in which one pre-depends on another: then it takes set-ups back.
        stuck = {name for name in circles if not set(self.pre_needs(name)).isdisjoint(circles[name])}
        stuck = {mate for name in stuck for mate in circles[name]}
        return {
            name: [other for other in others if name not in stuck or other not in circles[name]]
            for name, others in kept.items()
        }

    def circles_with(self, broken: Mapping[str, Sequence[str]]) -> dict[str, list[str]]:
        """The cycles of what comes before what, with these broken packages before those that break them."""
        chosen = self.installation.chosen
        return cycles(
            {name: [*self.needs(name), *self.conflicting_before[name], *broken.get(name, ())] for name in chosen}
        )

    def has_to_be_first(self, name: str, other: str, kept: Mapping[str, Sequence[str]]) -> bool:
        """Whether a package is set up, or unpacked, before another one is unpacked."""
        first = {each for needed in self.pre_needs(other) for each in self.reached([needed], self.needs)}
        behind = self.reached([other], lambda each: [*self.conflicting_before.get(each, ()), *kept.get(each, ())])
        return name in first or name in behind

    def reached(self, names: Iterable[str], following: Callable[[str], Iterable[str]]) -> set[str]:
        """These packages and all that are reached from them."""
        found: set[str] = set()
        work = list(names)
        while work:
            name = work.pop()
            if name not in found and name in self.installation.chosen:
                found.add(name)
                work += following(name)
        return found

    @functools.cached_property
    def breaking(self) -> set[str]:
        """The packages that break a standing version whose upgrade comes only behind them."""
        return {
            name
            for name in self.installation.chosen
            if set(self.upgraded(name, "Breaks")) - set(self.broken_before.get(name, ()))
        }

    @functools.cached_property
    def circles(self) -> dict[str, list[str]]:
        return self.circles_with(self.broken_before)

    def before(self, name: str) -> list[str]:
        """The packages that are upgraded before this one, but for what it depends on; in a cycle, that are unpacked."""
        return list(dict.fromkeys([*self.conflicting_before[name], *self.broken_before.get(name, ())]))

    def check(self) -> None:
        """Refuses what dpkg cannot install in any order."""
        self.check_pre_depends()
        for name, circle in sorted(cycles(self.conflicting_before).items()):
            other = next(each for each in self.conflicting_before[name] if each in circle)
            raise Refused(
                f"a cycle of Conflicts: {name} conflicts with {other} until that is upgraded, and the other way round; "
                f"the cycle is {', '.join(circle)}"
            )

    def check_pre_depends(self) -> None:
        """A cycle in which a package pre-depends on another one is one that dpkg cannot install either."""
        for name in sorted(self.circles):
            for other in self.pre_needs(name):
                if other in self.circles[name]:
                    raise Refused(
                        f"a cycle of Pre-Depends: {name} pre-depends on {other}, which needs {name} first; "
                        f"the cycle is {', '.join(self.circles[name])}"
                    )

    def all_before(self, names: Iterable[str]) -> set[str]:
        """These packages and all that comes before one of them."""
        return self.reached(names, lambda name: [*self.needs(name), *self.before(name)])

    def unneeded(self, requested: Iterable[str]) -> list[str]:
        """The packages on which no requested one depends: what stands would not be whole without them, or they are recommended."""
        needed = self.reached(requested, lambda name: self.installation.needs(name, *NEEDS))
        return [name for name in self.installation.chosen if name not in needed]

    def joined(self, requested: Iterable[str]) -> list[str]:
        """The packages that no requested one needs: what stands would not be whole without them, or they are recommended."""
        reached = self.all_before(requested)
        return [name for name in self.installation.chosen if name not in reached]
