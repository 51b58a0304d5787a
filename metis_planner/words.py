"""The words of the front that are not the program's: one line each, with the module that answers it.

A module has `add_arguments(parser)` and `run(arguments) -> Answer`. It is imported when its word is called, and not before.
Importers and engines of others join by the entry points `metis_planner.importers` and `metis_planner.engines`.
"""

from collections.abc import Mapping
from typing import NamedTuple


class Word(NamedTuple):
    """A word, the module that answers it, and what it does in one line."""

    module: str
    help: str


IMPORTERS = "metis_planner.importers"
ENGINES = "metis_planner.engines"
# The words behind `import`, which are those behind `lint` too.
SOURCES: Mapping[str, Word] = {
    "debian": Word("metis_planner.importers.debian", "packages of Debian, as dpkg installs them"),
    "compose": Word("metis_planner.importers.compose", "a Compose project"),
    "systemd": Word("metis_planner.importers.systemd", "a target of systemd with the units that it pulls in"),
    "kubernetes": Word("metis_planner.importers.kubernetes", "manifests of Kubernetes, as Helm or Argo CD applies them"),
}
ENGINE_WORDS: Mapping[str, Word] = {
    "make": Word("metis_planner.carry.engines.make", "write a folder with a Makefile that carries a plan out"),
    "ninja": Word("metis_planner.carry.engines.ninja", "write the same folder for ninja"),
    "slurm": Word("metis_planner.carry.engines.slurm", "write the same folder for Slurm: a job an action"),
}
UNIVERSE_WORDS: Mapping[str, Word] = {
    "import": Word("", "make a universe of what you have: packages, Compose, units, manifests"),
    "sketch": Word("metis_planner.look.sketch", "make a universe of a sketch, with a line a type, or a sketch of a universe"),
    "check": Word("metis_planner.look.check", "look a universe or a sketch over for faults and for what was hardly meant"),
    "lint": Word("metis_planner.look.lint", "say of manifests, projects or units what can never come up, with file and line"),
}
LEAN_WORDS: Mapping[str, Word] = {
    "lean": Word("metis_planner.lean", "plan with few instances, by a search that the program checks; say how few there can be"),
}
PLAN_WORDS: Mapping[str, Word] = {
    "show": Word("metis_planner.look.show", "show what the program printed, with names in place of numbers, or as JSON"),
    "graph": Word("metis_planner.draw.graph", "draw a plan or a universe, for Graphviz or Mermaid"),
    "gantt": Word("metis_planner.draw.gantt", "draw when each action starts, or when it really did, as SVG"),
    "page": Word("metis_planner.page", "make a page that steps through a plan, or shows why there is none"),
}
FOLDER_WORDS: Mapping[str, Word] = {
    "up": Word("metis_planner.carry.up", "plan, show what will be done, ask, and carry it out"),
    "down": Word("metis_planner.carry.down", "take away what stands in a folder"),
    **ENGINE_WORDS,
    "engine": Word("", "write a folder for an engine of another package: metis engine NAME PLAN .."),
    "status": Word("metis_planner.carry.status", "say how far a folder is, also while it runs: --watch, --json"),
    "log": Word("metis_planner.carry.log", "print what the steps of an instance printed: metis log FOLDER mysql#1"),
    "retry": Word("metis_planner.carry.retry", "let the last step of an instance be done again, and what waited for it"),
    "adopt": Word("metis_planner.carry.adopt", "mark as done what runs already, and start nothing"),
    "verify": Word("metis_planner.carry.verify", "ask whether what was done still stands, and let make heal what is lost"),
    "inventory": Word("metis_planner.carry.inventory", "print an inventory for Ansible of the hosts of a placement"),
    "done": Word("metis_planner.carry.done", "print what of a folder's plan is done, as a plan"),
    "split": Word("metis_planner.carry.split", "give up a rollout that stopped, and keep the old"),
}
OWN_WORDS: Mapping[str, Word] = {
    "help": Word("metis_planner.look.help", "list the commands, or say more of one: metis help WORD"),
    "version": Word("metis_planner.look.version", "say which version this is, and whether its program is proved"),
}
# How `help` groups them.
GROUPS: Mapping[str, Mapping[str, Word]] = {
    "Make and look over universes": UNIVERSE_WORDS,
    "Plan with few instances": LEAN_WORDS,
    "Look at plans and answers": PLAN_WORDS,
    "Carry plans out": FOLDER_WORDS,
    "More": OWN_WORDS,
}
WORDS: Mapping[str, Word] = {name: word for group in GROUPS.values() for name, word in group.items()}
# Other spellings, and all words that front.sh hands to Python.
SPELLINGS: Mapping[str, str] = {"--help": "help", "-h": "help", "--version": "version"}
FRONT_WORDS = (*WORDS, *SPELLINGS)


def joined(built_in: Mapping[str, Word], group: str) -> dict[str, Word]:
    """The words that are built in, and those that other packages bring by entry points; none of these hides a built-in one."""
    import importlib.metadata

    found = dict(built_in)
    for point in importlib.metadata.entry_points(group=group):
        found.setdefault(point.name, Word(point.value, f"from the package {point.dist.name if point.dist else '?'}"))
    return found
