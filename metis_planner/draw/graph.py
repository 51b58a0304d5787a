"""Draws a plan or a universe: `metis graph plan.txt | dot -Tsvg -o plan.svg`, or for Mermaid, which many sites draw in Markdown.

Of a plan: a lane an instance, its actions from left to right, and dashed arrows to what waits for them. Of a universe:
a box a type with its states, and arrows from the state that provides a port over the port to the states that require it.
"""

import argparse

from metis_planner.answers import Answer
from metis_planner.draw import dot, mermaid, picture

FORMS = {"dot": dot, "mermaid": mermaid}


def add_arguments(parser: argparse.ArgumentParser) -> None:
    help_text = "for Graphviz (dot, which is meant if nothing is said) or for Mermaid"
    parser.add_argument("--as", dest="form", choices=FORMS, default="dot", help=help_text)
    picture.add_arguments(parser)


def run(arguments: argparse.Namespace) -> Answer:
    form = FORMS[arguments.form]
    return Answer(picture.drawn(arguments, form.universe_lines, form.instance_lines, form.plan_lines))
