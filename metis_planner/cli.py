"""The words of the front: finds the module of a word, reads what stands behind it, and prints its answer."""

import argparse
import gc
import importlib
import os
import sys
from collections.abc import Mapping, Sequence
from typing import NoReturn

from metis_planner.answers import Answer, Refused
from metis_planner.text.terminal import plain, put, say
from metis_planner.words import ENGINE_WORDS, ENGINES, IMPORTERS, SOURCES, SPELLINGS, WORDS, Word, joined

# A large plan is millions of objects of which none becomes garbage: to look for it after each thousand takes a third of the time.
OBJECTS_BEFORE_A_LOOK = 200_000
OVER_A_SKETCH = "over-sketch"


class Parser(argparse.ArgumentParser):
    """A parser of words whose complaints are safe to show, whatever the words are."""

    def error(self, message: str) -> NoReturn:
        self.exit(2, f"metis: {plain(message)}\nmetis: {self.prog} --help says more\n")


def answer_of(word: Word, name: str, rest: Sequence[str]) -> Answer:
    """What the module of a word answers to the words behind it."""
    module = importlib.import_module(word.module)
    parser = Parser(prog=f"metis {name}", description=module.__doc__, formatter_class=argparse.RawDescriptionHelpFormatter)
    module.add_arguments(parser)
    answer: Answer = module.run(parser.parse_args(rest))
    return answer


def answer_among(name: str, built_in: Mapping[str, Word], group: str, rest: Sequence[str]) -> Answer:
    """What a word of a family answers, as `import compose`: those of other packages are looked for only if it is not built in."""
    found = dict(built_in)
    if not rest or rest[0] not in found:
        found = joined(built_in, group)
    if rest and rest[0] in found:
        return answer_of(found[rest[0]], f"{name} {rest[0]}", rest[1:])
    lines = "".join(f"  {each:<12}{word.help}\n" for each, word in found.items())
    text = f"usage: metis {name} NAME ..\n\n{lines}\nmetis {name} NAME --help says more of each.\n"
    if rest and rest[0] in ("-h", "--help"):
        return Answer(text)
    what = f"{name} has no {rest[0]}" if rest else f"{name} wants a name behind it"
    return Answer("", (f"{what}: {', '.join(found)}", f"metis {name} --help has a line on each"), 2)


def answer(words: Sequence[str]) -> Answer:
    """What the front answers to its words."""
    name, rest = (words[0], words[1:]) if words else ("help", [])
    name = SPELLINGS.get(name, name)
    if name == "import":
        return answer_among(name, SOURCES, IMPORTERS, rest)
    if name == "engine":
        return answer_among(name, ENGINE_WORDS, ENGINES, rest)
    if name == OVER_A_SKETCH:
        return answer_of(Word("metis_planner.look.over_sketch", ""), name, ["--", *rest])
    if name not in WORDS:
        return Answer("", (f"no word {name}", "metis help lists the commands"), 2)
    return answer_of(WORDS[name], name, rest)


def restore_environment() -> None:
    """Leaves to what is started from here the environment that the caller had, without what front.sh put into it for Python."""
    before = os.environ.pop("METIS_PYTHONPATH", None)
    if before is not None:
        os.environ.pop("PYTHONSAFEPATH", None)
        os.environ.pop("PYTHONPATH", None)
        if before:
            os.environ["PYTHONPATH"] = before


def main() -> int:
    gc.set_threshold(OBJECTS_BEFORE_A_LOOK)
    restore_environment()
    try:
        found = answer(sys.argv[1:])
    except Refused as refused:
        found = Answer("", (str(refused),), 1)
    except OSError as fault:
        found = Answer("", (f"{fault.filename or 'a file'}: {fault.strerror}",), 1)
    except (MemoryError, RecursionError):
        found = Answer("", ("the input takes more memory than there is",), 1)
    except KeyboardInterrupt:
        return 130
    for note in found.notes:
        say(note)
    return put(found.text) or found.status
