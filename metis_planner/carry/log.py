"""Prints what the steps of an instance printed, in their order: metis log FOLDER mysql#1. An action's number will do too."""

import argparse
import os
import subprocess

from metis_planner.answers import Answer, Refused
from metis_planner.carry.configuration import add_folder, folder_of
from metis_planner.carry.folder import LOG, is_filled
from metis_planner.carry.progress import step_named
from metis_planner.text import plans
from metis_planner.text.actions import in_words
from metis_planner.text.terminal import plain

MOST_BYTES = 1_048_576
LONGEST = 10_000


def add_arguments(parser: argparse.ArgumentParser) -> None:
    add_folder(parser)
    parser.add_argument("name", metavar="INSTANCE", help="an instance, as mysql#1; or the number of an action")
    parser.add_argument("-f", "--follow", action="store_true", help="go on with what the last of them prints")


def run(arguments: argparse.Namespace) -> Answer:
    folder = folder_of(arguments)
    steps = [step for step in step_named(folder, arguments.name, folder.steps()) if is_filled(folder.path / LOG / step.key)]
    if not steps:
        raise Refused(f"{folder.path}: nothing of {plans.shown(arguments.name)} was begun that prints")
    if arguments.follow:
        last = folder.path / LOG / steps[-1].key
        return Answer(status=subprocess.run(["tail", "-n", "+1", "-F", "--", os.fspath(last)], check=False).returncode)
    lines = []
    for step in steps:
        lines.append(f"# {step.action.number} {in_words(step.action)}")
        data = (folder.path / LOG / step.key).read_bytes()[-MOST_BYTES:]
        # A terminal gets no character that it would obey; blanks stay as they are.
        lines += [plain(line.replace(" ", "\N{NO-BREAK SPACE}"), LONGEST) for line in data.decode(errors="replace").splitlines()]
    return Answer("".join(f"{line}\n" for line in lines).replace("\N{NO-BREAK SPACE}", " "))
