"""The engines that carry a plan out: one table, of those in `words.py` and of those that other packages bring by entry points.

The module of an engine has `ENGINE`, which says what its file is, what stands in it, and how it is run in a folder.
"""

import dataclasses
import importlib
from collections.abc import Callable, Iterable, Iterator, Mapping
from typing import TYPE_CHECKING

from metis_planner import words
from metis_planner.answers import Refused

if TYPE_CHECKING:
    from metis_planner.carry.export import Export

DEFAULT = next(iter(words.ENGINE_WORDS))


@dataclasses.dataclass(frozen=True, kw_only=True)
class Engine:
    """An engine: the file that it reads, the text of that, and the command that does it in a folder, so many steps at once."""

    file: str
    text_of: "Callable[[Export], Iterable[str]]"
    command: Callable[[str, int], list[str]]


class Engines(Mapping[str, Engine]):
    """The engines by their names. Their modules are imported when they are asked for, and those of others are looked for only then."""

    def __contains__(self, name: object) -> bool:
        return name in words.ENGINE_WORDS or name in words.joined(words.ENGINE_WORDS, words.ENGINES)

    def __iter__(self) -> Iterator[str]:
        return iter(words.joined(words.ENGINE_WORDS, words.ENGINES))

    def __len__(self) -> int:
        return len(words.joined(words.ENGINE_WORDS, words.ENGINES))

    def __getitem__(self, name: str) -> Engine:
        word = words.ENGINE_WORDS.get(name) or words.joined(words.ENGINE_WORDS, words.ENGINES)[name]
        try:
            found = importlib.import_module(word.module).ENGINE
        except (ImportError, AttributeError) as fault:
            raise Refused(f"engine {name}: {fault}") from fault
        if not isinstance(found, Engine):
            raise Refused(f"engine {name}: {word.module}.ENGINE is no engine")
        return found

    def files(self) -> list[str]:
        """The files that engines read. One of another package that cannot be imported has written none."""
        found = []
        for name in self:
            try:
                found.append(self[name].file)
            except Refused:
                continue
        return found


ENGINES = Engines()
