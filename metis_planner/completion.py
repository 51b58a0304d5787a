"""Makes the completion of bash and zsh from the tables of words: python3 -m metis_planner.completion bash|zsh.

completion/metis.bash and completion/_metis are what it prints; a test compares them.
"""

import argparse
import importlib
import sys
from collections.abc import Sequence
from typing import NamedTuple

from metis_planner.program import WORDS as PROGRAM_WORDS
from metis_planner.words import ENGINE_WORDS, SOURCES, WORDS, Word


class Row(NamedTuple):
    """What may stand behind a word: how many files, whether targets follow them, names, and options."""

    files: int
    has_targets: bool = False
    names: Sequence[str] = ()
    options: Sequence[str] = ()


# A front's word may have any number of files behind it.
ANY = 99


def options_of(word: Word) -> list[str]:
    """The long options of the module of a word."""
    parser = argparse.ArgumentParser(add_help=True)
    importlib.import_module(word.module).add_arguments(parser)
    found = [option for action in parser._actions for option in action.option_strings if option.startswith("--")]
    return sorted(found)


def row_of(name: str, word: Word) -> Row:
    names = SOURCES if name in ("import", "lint") else ENGINE_WORDS if name == "engine" else {}
    if name == "help":
        return Row(0, names=[*PROGRAM_WORDS, *WORDS])
    if names or not word.module:
        return Row(ANY, names=list(names))
    return Row(ANY, options=options_of(word))


def rows() -> dict[str, Row]:
    """A row for each word, those of the program first."""
    found = {name: Row(len(form.files), form.has_targets) for name, form in PROGRAM_WORDS.items()}
    return {**found, **{name: row_of(name, word) for name, word in WORDS.items()}}


TARGETS = """\
import json, sys
types = json.load(open(sys.argv[1], encoding="utf-8"))["types"]
states = [(row["name"], state) for row in types for state in row["states"]]
ports = dict.fromkeys(port for _, state in states for port in state.get("provide", []))
print(*[f"{name}:" + state["name"] for name, state in states], *[f"port:{port}" for port in ports], sep="\\n")
"""
BASH = r"""# Completion of metis in bash: commands, names, options, files, and the targets of the universe that is named. Without Python
# no targets. Made by `python3 -m metis_planner.completion bash`.
#
#     source completion/metis.bash

# How many words of a command name files; which have targets behind them; names and options that may follow.
declare -A _metis_files=(
@FILES@
)
_metis_with_targets=' @TARGETS@ '
declare -A _metis_names=(
@NAMES@
)
declare -A _metis_options=(
@OPTIONS@
)

# The targets of a universe, one a line: its pairs, and the ports that some state provides.
_metis_targets() {
    [ -f "$1" ] && python3 -I -S -c '
@CODE@' "$1" 2>/dev/null
}

_metis() {
    local word words=() current command place files
    # bash takes a colon for a word of its own, and a target has one.
    for word in "${COMP_WORDS[@]:0:COMP_CWORD + 1}"; do
        if [ "${#words[@]}" -gt 0 ] && { [ "$word" = : ] || [[ ${words[-1]} == *: ]]; }; then
            words[-1]+=$word
        else
            words+=("$word")
        fi
    done
    place=$((${#words[@]} - 1)) current=${words[-1]} command=${words[1]}
    COMPREPLY=()
    if [ "$place" -eq 1 ]; then
        mapfile -t COMPREPLY < <(compgen -W "${!_metis_files[*]}" -- "$current")
        return
    fi
    if [ "$place" -eq 2 ] && [ -n "${_metis_names[$command]-}" ]; then
        mapfile -t COMPREPLY < <(compgen -W "${_metis_names[$command]}" -- "$current")
        return
    fi
    if [[ $current == -* ]] && [ -n "${_metis_options[$command]-}" ]; then
        mapfile -t COMPREPLY < <(compgen -W "${_metis_options[$command]}" -- "$current")
        return
    fi
    files=${_metis_files[$command]:-0}
    if [ "$place" -le $((files + 1)) ]; then
        compopt -o filenames 2>/dev/null
        mapfile -t COMPREPLY < <(compgen -f -- "$current")
    elif [[ $_metis_with_targets == *" $command "* ]]; then
        mapfile -t COMPREPLY < <(_metis_targets "${words[2]}" | grep -F -- "$current" | while read -r word; do
            [[ $word == "$current"* ]] && printf '%s\n' "$word"
        done)
        # What stands before the last colon is on the line already.
        [[ $current == *:* && $COMP_WORDBREAKS == *:* ]] && COMPREPLY=("${COMPREPLY[@]#"${current%:*}":}")
    fi
}

complete -F _metis metis
"""
ZSH = r"""#compdef metis
# Completion of metis in zsh: commands, names, options, files, and the targets of the universe that is named. Without Python no
# targets. It is found where its folder stands in fpath. Made by `python3 -m metis_planner.completion zsh`.

local -A files names flags
# How many words of a command name files; which have targets behind them; names and options that may follow.
files=(
@FILES@
)
names=(
@NAMES@
)
flags=(
@OPTIONS@
)
local -a with_targets targets
with_targets=(@TARGETS@)

if (( CURRENT == 2 )); then
    compadd -- ${(ko)files}
elif (( CURRENT == 3 )) && [[ -n ${names[$words[2]]} ]]; then
    compadd -- ${=names[$words[2]]}
elif [[ $words[CURRENT] == -* && -n ${flags[$words[2]]} ]]; then
    compadd -- ${=flags[$words[2]]}
elif (( CURRENT <= ${files[$words[2]]:-0} + 2 )); then
    _files
elif (( ${with_targets[(Ie)$words[2]]} )) && [[ -f $words[3] ]]; then
    targets=(${(f)"$(python3 -I -S -c '
@CODE@' $words[3] 2>/dev/null)"})
    compadd -- $targets
fi
"""


def filled(template: str, entry: str) -> str:
    """The template with the rows in it; an entry is how a shell writes a key and a value."""
    found = rows()
    tables = {
        "@FILES@": {name: str(row.files) for name, row in found.items()},
        "@NAMES@": {name: f"'{' '.join(row.names)}'" for name, row in found.items() if row.names},
        "@OPTIONS@": {name: f"'{' '.join(row.options)}'" for name, row in found.items() if row.options},
    }
    for mark, table in tables.items():
        template = template.replace(mark, "\n".join(f"    {entry.format(key, value)}" for key, value in table.items()))
    targets = " ".join(name for name, row in found.items() if row.has_targets)
    return template.replace("@TARGETS@", targets).replace("@CODE@", TARGETS)


def text_for(shell: str) -> str:
    return filled(BASH, "[{}]={}") if shell == "bash" else filled(ZSH, "{} {}")


if __name__ == "__main__":
    sys.stdout.write(text_for(sys.argv[1]))
