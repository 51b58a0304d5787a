"""Lists the commands, or says more of one."""

import argparse
import importlib

from metis_planner.answers import Answer, Refused
from metis_planner.program import WORDS as PROGRAM_WORDS
from metis_planner.words import GROUPS, SOURCES, WORDS

WIDTH = 13
HEAD = """\
Metis plans how components are deployed: in which order, and which steps may go on at the same time.

  metis import compose compose.yaml >app.json       a universe of what you have; or write a sketch
  metis plan app.json project:up >plan.txt          a plan, or a refusal that anyone can check
  metis show plan.txt                               the plan with names
  metis why app.json project:up                     why there is none, if there is none

"""
TAIL = """\
metis help WORD says more of one. A file that ends in .sketch may stand wherever a universe does, and - is standard input.
Statuses: 0 done, 1 no, 2 a wrong word, 3 a wrong file, 4 a file that cannot be read, 5 one that cannot be written, 6 no memory.
"""


OF_WISHES = (
    "PLAN is what stands, as `metis done FOLDER` prints it. TARGETs are all that is wanted: what none of them and no wish leads to",
    "is deleted, a database too. WISHES is a text with a wish in a line, in any order:",
    "",
    "  metis wishes 1",
    "  keep Z               instance Z stays, with all that it stands on",
    "  keep all             all that does not have to go stays",
    "  rebind Z             Z stays, and may be bound to others where its own go",
    "  retire Z             nothing that is wanted stands on Z, and it goes once the new stands",
    "  avoid TYPE:STATE     it serves nothing new, and what is in this state goes",
    "  avoid TYPE           the same of each state of the type",
    "  end",
    "",
    "Without a wish it is the first and the last line. `metis show PLAN --from OLD` says what is kept, new and going; `metis up",
    "--wishes WISHES` carries it out.",
)


def line_of(name: str, text: str) -> str:
    return f"  {name:<{WIDTH}}{text}\n"


def listing() -> str:
    """All commands, by what they are for."""
    parts = [HEAD, "Plan (the program, proved)\n"]
    parts += [line_of(name, form.help) for name, form in PROGRAM_WORDS.items()]
    for group, words in GROUPS.items():
        parts += [f"\n{group}\n", *(line_of(name, word.help) for name, word in words.items())]
    return "".join([*parts, "\n", TAIL])


def of_the_program(name: str) -> str:
    form = PROGRAM_WORDS[name]
    lines = [f"usage: {form.usage(name)}", "", f"{form.help[0].upper()}{form.help[1:]}."]
    if form.has_targets:
        lines += ["", "A TARGET is TYPE:STATE, an instance of the type in that state, or port:PORT, one that provides the port."]
    if name == "reconfigure":
        lines += ["", *OF_WISHES]
    if name == "waves":
        lines += ["", "The numbers say how long an action of each kind takes, in any unit: 0 to 1000000."]
    return "\n".join([*lines, "", "docs/FORMATS.md has the texts that it reads and prints.", ""])


def of_a_word(name: str) -> str:
    if name == "import":
        lines = "".join(line_of(source, word.help) for source, word in SOURCES.items())
        return f"usage: metis import SOURCE ..\n\nMakes a universe of what you have:\n\n{lines}\nmetis import SOURCE --help says more.\n"
    if not WORDS[name].module:
        return f"{WORDS[name].help}\n"
    module = importlib.import_module(WORDS[name].module)
    parser = argparse.ArgumentParser(
        prog=f"metis {name}", description=module.__doc__, formatter_class=argparse.RawDescriptionHelpFormatter
    )
    module.add_arguments(parser)
    return parser.format_help()


def add_arguments(parser: argparse.ArgumentParser) -> None:
    parser.add_argument("word", metavar="WORD", nargs="?", help="a command")


def run(arguments: argparse.Namespace) -> Answer:
    name = arguments.word
    if name is None:
        return Answer(listing())
    if name in PROGRAM_WORDS:
        return Answer(of_the_program(name))
    if name not in WORDS:
        raise Refused(f"no command {name}: metis help lists them")
    return Answer(of_a_word(name))
