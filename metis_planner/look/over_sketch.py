"""Runs a word of the program over a sketch, which stands where a universe does: it is turned into one that is kept meanwhile."""

import argparse
import os
import pathlib
import subprocess
import tempfile
from collections.abc import Sequence

from metis_planner import front
from metis_planner.answers import Answer, Refused
from metis_planner.look.sketch import document_of
from metis_planner.program import PLAIN, Status, command
from metis_planner.text.reading import HANDED


def add_arguments(parser: argparse.ArgumentParser) -> None:
    parser.add_argument("words", nargs="+", metavar="WORD")


def called(words: Sequence[str]) -> int:
    """The status of the program, which gets what a shell has opened for it, as for `<(command)`."""
    places = (word.removeprefix(prefix) for word in words for prefix in HANDED if word.startswith(prefix))
    handed = [int(place) for place in places if place.isdecimal() and os.path.exists(f"/dev/fd/{place}")]
    return subprocess.run([command(), PLAIN, *words], check=False, pass_fds=handed).returncode


def run(arguments: argparse.Namespace) -> Answer:
    words: Sequence[str] = arguments.words
    path = words[1]
    if not pathlib.Path(path).is_file():
        status = called(words)
        return Answer("", front.sentences(status, words)[: front.MOST_LINES], status)
    try:
        text = document_of(path)
    except Refused as refused:
        return Answer("", (str(refused),), Status.BAD_INPUT)
    with tempfile.TemporaryDirectory(prefix="metis-") as folder:
        # The name is the sketch's, so that what is said of it leads there.
        universe = os.path.join(folder, pathlib.Path(path).name)
        pathlib.Path(universe).write_text(text)
        inner = [words[0], universe, *words[2:]]
        status = called(inner)
        is_silent = status == Status.DONE and (words[0] != "plan" or len(words) > 2)
        notes = [] if is_silent else front.sentences(status, inner)[: front.MOST_LINES]
    return Answer("", [note.replace(f"{folder}/", path.removesuffix(pathlib.Path(path).name)) for note in notes], status)
