"""What chosen packages bar: each package that one of them conflicts with or breaks, and a way back."""

from collections.abc import Iterable

from metis_planner.importers.debian.choices import Choices


class Barred:
    """The packages that those bar which were added. A relation that several have is gone through once."""

    def __init__(self, choices: Choices) -> None:
        self.choices = choices
        self.names: set[str] = set()
        self.owner_of: dict[str, str] = {}  # of each relation the first package that has it
        self.log: list[tuple[set[str] | dict[str, str], str]] = []  # what was added, in this order

    def add(self, name: str) -> None:
        for part in self.choices.bars_by(name):
            owner = self.owner_of.get(part)
            others = self.choices.barred_by_part(part)
            if owner is None:
                self.owner_of[part] = name
                self.log.append((self.owner_of, part))
                self.bar(other for other in others if other != name)
            elif owner in others:
                self.bar([owner])

    def bar(self, names: Iterable[str]) -> None:
        for name in names:
            if name not in self.names:
                self.names.add(name)
                self.log.append((self.names, name))

    def go_back(self, length: int) -> None:
        """Takes back what was added since the log had this length."""
        while len(self.log) > length:
            owner, key = self.log.pop()
            if isinstance(owner, set):
                owner.discard(key)
            else:
                del owner[key]
