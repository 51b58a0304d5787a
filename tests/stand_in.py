"""A program that answers as it is told: for what the proved one does not know yet, or where a test has to have its answer by hand."""

import json
import pathlib
import sys
from collections.abc import Sequence
from typing import NamedTuple

TOP = pathlib.Path(__file__).resolve().parents[1]
SCRIPT = """\
#!{python}
import json, os, sys
words = [open(word).read() if os.path.isfile(word) else word for word in sys.argv[1:] if word != "--plain"]
with open({log!r}, "a") as log:
    log.write(json.dumps(words) + "\\n")
for given, text, status in json.load(open({answers!r})):
    if given == words:
        sys.stdout.write(text)
        sys.exit(status)
if words[0] in {judged!r}:
    os.execve(sys.executable, [sys.executable, "-m", "tests.judge", *sys.argv[1:]], {{**os.environ, "PYTHONPATH": {top!r}}})
sys.exit(f"the stand-in has no answer to {{words}}")
"""


class Answer(NamedTuple):
    """What is answered to these words, with the contents of files in place of their names."""

    words: Sequence[str]
    text: str
    status: int = 0


def stand_in(folder: pathlib.Path, answers: Sequence[Answer], judged: Sequence[str] = ()) -> pathlib.Path:
    """The path of a program that has these answers and no others. It lists what it was asked in `asked` beside it.

    Words that are judged have no answers by hand: `tests.judge` follows the list of actions.
    """
    program, table, log = folder / "stand-in", folder / "answers", folder / "asked"
    table.write_text(json.dumps([[list(each.words), each.text, each.status] for each in answers]))
    log.touch()
    program.write_text(SCRIPT.format(python=sys.executable, log=str(log), answers=str(table), judged=list(judged), top=str(TOP)))
    program.chmod(0o755)
    return program


def asked(folder: pathlib.Path) -> list[list[str]]:
    """The words of each call so far."""
    return [json.loads(line) for line in (folder / "asked").read_text().splitlines()]
