"""What the trials share: the program, what carries plans out and the engines, as others call them."""

import os
import pathlib
import random
import re
import subprocess
import sys

TOP = pathlib.Path(__file__).resolve().parent.parent
TRACED = r"""
case $METIS_VERB in
new) line="new $METIS_INSTANCE $METIS_TYPE" ;;
delete) line="delete $METIS_INSTANCE" ;;
move) line="move $METIS_INSTANCE $METIS_FROM $METIS_TO" ;;
*) line="$METIS_VERB $METIS_PORT $METIS_INSTANCE $METIS_PROVIDER" ;;
esac
"""


class Failed(Exception):
    """What was otherwise than it has to be."""


def expect(is_so: bool, otherwise: object) -> None:
    if not is_so:
        raise Failed(otherwise)


def printed(program: str, *words: object, text: str | None = None) -> str:
    """What the program answers, by itself or behind its front, which has nothing to say here."""
    words = [program, *map(str, words)]
    quiet = {**os.environ, "METIS_PLAIN": "1"}
    return subprocess.run(words, input=text, stdout=subprocess.PIPE, text=True, check=False, env=quiet).stdout


def exporters(*words: object) -> str:
    """What the exporters print, which have to have nothing against the words."""
    words = [sys.executable, "-m", "metis_planner", *map(str, words)]
    done = subprocess.run(words, cwd=TOP, capture_output=True, text=True, check=False)
    expect(done.returncode == 0, f"{' '.join(words[2:])}: {done.stderr}")
    return done.stdout


def engine_words(engine: str, folder: pathlib.Path, jobs: int) -> list[str]:
    return (
        ["make", "-s", f"-j{jobs}", "-C", str(folder)]
        if engine == "make"
        else ["ninja", f"-j{jobs}", "-C", str(folder)]
    )


def carry_out(words: list[str]) -> subprocess.CompletedProcess[str]:
    return subprocess.run(words, stdout=subprocess.PIPE, stderr=subprocess.STDOUT, text=True, check=False)


def shuffle_goals(folder: pathlib.Path, draw: random.Random) -> None:
    """make 4.3 has no --shuffle, so the goals of `all` are put in another order."""
    path = folder / "Makefile"
    text = path.read_text()
    found = re.search(r"^all: \|(.*)$", text, re.MULTILINE)
    goals = found[1].split()
    draw.shuffle(goals)
    path.write_text(text.replace(found[0], f"all: | {' '.join(goals)}", 1))


def plan_text(lines: list[str]) -> str:
    """The text of a plan of these actions, in their order, without what they wait for."""
    made = sum(line.startswith("new ") for line in lines)
    actions = "".join(f"{number} {line}\n" for number, line in enumerate(lines, 1))
    return f"metis plan 1\ninstances {made} actions {len(lines)} dups 0\n{actions}end\n"
