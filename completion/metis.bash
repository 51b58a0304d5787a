# Completion of metis in bash: commands, names, options, files, and the targets of the universe that is named. Without Python
# no targets. Made by `python3 -m metis_planner.completion bash`.
#
#     source completion/metis.bash

# How many words of a command name files; which have targets behind them; names and options that may follow.
declare -A _metis_files=(
    [plan]=1
    [why]=1
    [replay]=2
    [rollout]=2
    [reconfigure]=3
    [audit]=2
    [refute]=2
    [confirm]=2
    [waits]=2
    [waves]=2
    [place]=3
    [crew]=3
    [control]=3
    [sim]=2
    [print]=1
    [load]=0
    [import]=99
    [sketch]=99
    [check]=99
    [lint]=99
    [lean]=99
    [show]=99
    [graph]=99
    [gantt]=99
    [page]=99
    [up]=99
    [down]=99
    [make]=99
    [ninja]=99
    [slurm]=99
    [engine]=99
    [status]=99
    [log]=99
    [retry]=99
    [adopt]=99
    [verify]=99
    [inventory]=99
    [done]=99
    [split]=99
    [help]=0
    [version]=99
)
_metis_with_targets=' plan why replay rollout reconfigure audit refute confirm '
declare -A _metis_names=(
    [import]='debian compose systemd kubernetes'
    [lint]='debian compose systemd kubernetes'
    [engine]='make ninja slurm'
    [help]='plan why replay rollout reconfigure audit refute confirm waits waves place crew control sim print load import sketch check lint lean show graph gantt page up down make ninja slurm engine status log retry adopt verify inventory done split help version'
)
declare -A _metis_options=(
    [sketch]='--from --help'
    [check]='--help --json'
    [lean]='--calls --help --left-out --refusals --universe --why'
    [show]='--color --from --help --hide --json --only --plan --stage'
    [graph]='--as --from --help --instances --most'
    [gantt]='--help --most --unit'
    [page]='--from --help --logs --most --open --placement --port --serve --title --unit --universe --waves --why --wishes'
    [up]='--again --change --commands --delete --dry-run --engine --expect --help --hosts --jobs --json --lean --renamed --to --wait --wish --wishes --yes'
    [down]='--commands --engine --help --jobs --universe --yes'
    [make]='--commands --from --help --lax --placement --skeleton --to --universe --waits-alone'
    [ninja]='--commands --from --help --lax --placement --skeleton --to --universe --waits-alone'
    [slurm]='--commands --from --help --lax --placement --skeleton --to --universe --waits-alone'
    [status]='--help --json --watch'
    [log]='--follow --help'
    [retry]='--help'
    [adopt]='--commands --help --hosts --look --number --on --plan --to --trust --yes'
    [verify]='--help --json --take-back'
    [inventory]='--commands --help'
    [done]='--help'
    [split]='--help'
    [version]='--help'
)

# The targets of a universe, one a line: its pairs, and the ports that some state provides.
_metis_targets() {
    [ -f "$1" ] && python3 -I -S -c '
import json, sys
types = json.load(open(sys.argv[1], encoding="utf-8"))["types"]
states = [(row["name"], state) for row in types for state in row["states"]]
ports = dict.fromkeys(port for _, state in states for port in state.get("provide", []))
print(*[f"{name}:" + state["name"] for name, state in states], *[f"port:{port}" for port in ports], sep="\n")
' "$1" 2>/dev/null
}

_metis() {
    local word words=() current command place files
    # bash takes a colon for a word of its own, and a target has one.
    for word in "${COMP_WORDS[@]:0:COMP_CWORD + 1}"; do
        if [ "${#words[@]}" -gt 0 ] && { [ "$word" = : ] || [[ ${words[-1]} == *: ]]; }; then
            words[-1]+=$word
        else
            words+=("$word")
        fi
    done
    place=$((${#words[@]} - 1)) current=${words[-1]} command=${words[1]}
    COMPREPLY=()
    if [ "$place" -eq 1 ]; then
        mapfile -t COMPREPLY < <(compgen -W "${!_metis_files[*]}" -- "$current")
        return
    fi
    if [ "$place" -eq 2 ] && [ -n "${_metis_names[$command]-}" ]; then
        mapfile -t COMPREPLY < <(compgen -W "${_metis_names[$command]}" -- "$current")
        return
    fi
    if [[ $current == -* ]] && [ -n "${_metis_options[$command]-}" ]; then
        mapfile -t COMPREPLY < <(compgen -W "${_metis_options[$command]}" -- "$current")
        return
    fi
    files=${_metis_files[$command]:-0}
    if [ "$place" -le $((files + 1)) ]; then
        compopt -o filenames 2>/dev/null
        mapfile -t COMPREPLY < <(compgen -f -- "$current")
    elif [[ $_metis_with_targets == *" $command "* ]]; then
        mapfile -t COMPREPLY < <(_metis_targets "${words[2]}" | grep -F -- "$current" | while read -r word; do
            [[ $word == "$current"* ]] && printf '%s\n' "$word"
        done)
        # What stands before the last colon is on the line already.
        [[ $current == *:* && $COMP_WORDBREAKS == *:* ]] && COMPREPLY=("${COMPREPLY[@]#"${current%:*}":}")
    fi
}

complete -F _metis metis
