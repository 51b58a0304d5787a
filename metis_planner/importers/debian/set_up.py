"""The packages that stand and are not set up: dpkg sets them up first, as soon as what they need is there."""

from collections.abc import Iterator

from metis_planner.answers import Refused
from metis_planner.importers.debian import conditions
from metis_planner.importers.debian.choices import Choices
from metis_planner.importers.debian.conditions import Condition
from metis_planner.importers.debian.installation import Installation
from metis_planner.importers.debian.order import InstallOrder
from metis_planner.importers.debian.packages import named, NEEDS

BY_APT = "`apt-get --fix-broken install` sets that right"


class SetUp:
    """The set-up of all packages that stand without one and are not upgraded, as `dpkg --configure --pending` does it.

    What an installation brings comes behind it, but for what one of these packages needs, and all that comes before that.
    """

    def __init__(self, order: InstallOrder) -> None:
        self.order = order
        self.installation = order.installation
        self.choices = self.installation.choices
        unset = self.choices.given.of_condition(Condition.UNSET)
        self.names = [name for name in unset if name not in self.installation.chosen]
        self.needs, self.lacking = self.needed()
        self.before = order.all_before(self.needs)

    def needed(self) -> tuple[list[str], dict[str, str]]:
        """The chosen packages that these need, and for each that lacks something what that is."""
        needs: dict[str, None] = {}
        lacking: dict[str, str] = {}
        for name in self.names:
            for part in self.choices.given.sound_parts(name, *NEEDS):
                options = self.choices.options(part)
                if self.installation.stays(options):
                    continue
                found = next((each for each in options.names if each in self.installation.chosen), options.wanted)
                needs[found] = None
                if found not in self.installation.chosen:
                    lacking.setdefault(name, options.wanted)
        return list(needs), lacking

    def faults(self) -> Iterator[str]:
        """Why these packages cannot be set up, or not first."""
        for name, wanted in self.lacking.items():
            shown = self.choices.given.in_words([name])
            yield f"{shown} stands, and cannot be set up, since it lacks {wanted}, on which it depends; {BY_APT}"
        for name in sorted(self.before):
            for options in self.installation.options_of(name, *NEEDS):
                standing = [each for each in options.given if each not in self.installation.chosen]
                if standing and set(standing) <= set(self.names):
                    shown = self.choices.given.in_words(standing)
                    yield f"{shown} is not set up, and needs {name}, which depends on it; {BY_APT}"

    def notes(self) -> Iterator[str]:
        if self.names:
            yield f"standing, and not set up, so that comes first: {self.choices.given.in_words(self.names)}"
        lacking = [] if self.choices.foreign else list(self.whole_and_lacking())
        if lacking:
            yield f"standing, and lacking what they depend on: {named(lacking)}; {BY_APT}"

    def whole_and_lacking(self) -> Iterator[str]:
        """The packages that stand set up though something is not there on which they depend, and is not brought."""
        for name in self.choices.given.of_condition(Condition.WHOLE) if self.choices.is_machine else ():
            for part in self.choices.given.sound_parts(name, *NEEDS) if name not in self.installation.chosen else ():
                options = self.choices.options(part)
                if not options.given and not self.installation.is_met(options):
                    yield f"{name} ({options.wanted})"
                    break


def broken_packages(choices: Choices) -> list[str]:
    """The packages that stand and have to be installed again. Where the index has none for that, all is refused, as by apt."""
    broken = choices.given.of_condition(Condition.BROKEN)
    for name in broken:
        if not choices.can_upgrade(name):
            shown = conditions.in_words(name, choices.given.packages[name])
            raise Refused(f"{shown} stands: it has to be installed again, and the index has no version of it for that")
    return broken


def check_half_removed(installation: Installation) -> None:
    """Refuses a machine on which a removal failed half way, unless the package is installed again. A plan removes nothing."""
    for name, fields in sorted(installation.choices.half_removed.items()):
        if name not in installation.chosen:
            shown = conditions.in_words(name, fields)
            raise Refused(f"{shown} stands: a removal that failed half way; `dpkg --remove {name}` ends it first")
