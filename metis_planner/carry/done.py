"""Prints what of the plan in a folder is done, as a plan: `metis replay` says what stands, `metis rollout` takes it
away. It may be asked while the plan is carried out.
"""

import argparse

from metis_planner.answers import Answer
from metis_planner.carry.configuration import add_folder, folder_of
from metis_planner.carry.folder import part_of, written
from metis_planner.text.actions import in_words


def add_arguments(parser: argparse.ArgumentParser) -> None:
    add_folder(parser)


def run(arguments: argparse.Namespace) -> Answer:
    folder = folder_of(arguments)
    steps = folder.steps()
    done = folder.settled(steps)
    begun = folder.begun(steps, done)
    notes = [f"action {step.action.number} was begun and is not done: {in_words(step.action)}" for step in begun]
    return Answer(written(part_of(steps, done)), notes)
