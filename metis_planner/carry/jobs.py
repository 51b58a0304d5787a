"""The file `jobs` of a folder: the words by which `run` does each step, a line a step, in the order of the plan."""

import dataclasses
import pathlib
from collections.abc import Sequence

from metis_planner.answers import Refused
from metis_planner.carry.folder import JOBS
from metis_planner.text import plans
from metis_planner.text.reading import read_text

# What tells PORT=NAME, of what is bound, from the words of an action, whose names have none.
BINDS = "="
FIXED = 7


@dataclasses.dataclass(frozen=True, slots=True, kw_only=True)
class JobLine:
    """The words by which `run` does a step, as it takes them and as the file `jobs` has them."""

    key: str
    rule: str  # the number of the rule
    action: str  # the number of the action
    host: str
    verb: str
    instance: str
    type: str
    more: tuple[str, ...] = ()  # of the action: states, or a port with its provider
    bound: tuple[str, ...] = ()  # PORT=NAME of each provider

    @classmethod
    def read(cls, line: str) -> "JobLine":
        """What a line says. Refused is one that no export writes."""
        words = line.split(" ")
        if len(words) < FIXED:
            raise Refused(f"{plans.shown(line)} is no job")
        key, rule, action, host, verb, instance, kind, *rest = words
        count = next((place for place, word in enumerate(rest) if BINDS in word), len(rest))
        more, bound = tuple(rest[:count]), tuple(rest[count:])
        return cls(
            key=key, rule=rule, action=action, host=host, verb=verb, instance=instance, type=kind, more=more, bound=bound
        )

    def words(self) -> list[str]:
        return [self.key, self.rule, self.action, self.host, self.verb, self.instance, self.type, *self.more, *self.bound]

    def __str__(self) -> str:
        return " ".join(self.words())

    def for_instance(self, number: int, bound: Sequence[str]) -> "JobLine":
        """The same step for an instance of another number, which is bound to these. Its key is none of the plan's."""
        return dataclasses.replace(self, key=f"{number}.{self.key}", instance=str(number), bound=tuple(bound))


def job_lines_in(folder: pathlib.Path) -> list[JobLine]:
    """The jobs of a folder, as the export wrote them down."""
    path = folder / JOBS
    try:
        return [JobLine.read(line) for line in read_text(str(path), plans.MOST_BYTES).splitlines()]
    except Refused as refused:
        raise Refused(f"{path}: {refused}: export it anew") from refused
