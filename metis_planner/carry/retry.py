"""Lets a step be done again: metis retry FOLDER mysql#1 takes away the mark of the instance's last step, and of all that waits
for it. The next call of make does them again.
"""

import argparse

from metis_planner.answers import Answer, Refused
from metis_planner.carry.configuration import add_folder, folder_of
from metis_planner.carry.folder import Folder
from metis_planner.carry.going_over import without_the_gone
from metis_planner.carry.progress import step_named
from metis_planner.carry.taking_back import take_back, with_followers
from metis_planner.text import plans
from metis_planner.text.actions import in_words


def add_arguments(parser: argparse.ArgumentParser) -> None:
    add_folder(parser)
    parser.add_argument("name", metavar="INSTANCE", help="an instance, as mysql#1; or the number of an action")


def check_not_begun(folder: Folder, name: str) -> None:
    """Refuses where a step was begun and is not done: make does that one again, and what worked before it stays."""
    steps = folder.steps()
    begun = folder.begun(step_named(folder, name, steps), folder.done(steps))
    if begun:
        words = in_words(begun[-1].action)
        raise Refused(f"{folder.path}: nothing is taken back, since this is not done, and make does it again: {words}")


def run(arguments: argparse.Namespace) -> Answer:
    folder = folder_of(arguments)
    with folder.held():
        check_not_begun(folder, arguments.name)
    notes = ["what is gone is no part of the plan any more; metis up plans what is left"] if without_the_gone(folder) else []
    steps = folder.steps()
    with folder.held():
        done = folder.done(steps)
        named = step_named(folder, arguments.name, steps)
        own = [step for step in named if step.key in done]
        if not own:
            raise Refused(f"{folder.path}: nothing of {plans.shown(arguments.name)} is done, so make does it in any case")
        back = with_followers(steps, done, {own[-1].action.number})
        take_back(folder, back)
    return Answer("", notes + [f"will be done again: {in_words(step.action)}" for step in back])
