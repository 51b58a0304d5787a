# The command `metis` itself: the checkout's script and the package's both read this file. They set `top`, the folder that
# has metis_planner/, and `find_program`, a function that sets `program` to what is run.
#
# Words of the program go to it with nothing in between, so what it prints and its status are its own. If it then says no, or
# that something is wrong, the front says in words what that was, on standard error. With METIS_PLAIN=1, or --plain as the first
# word, nothing is said, and words of the front are left to the program, which knows none of them.

fail() {
    echo "metis: $1" >&2
    exit 70
}

has_python() {
    command -v python3 >/dev/null
}

# Runs a module of metis_planner, whatever folder the caller is in.
python() {
    METIS_COMMAND=$script METIS_PYTHONPATH=${PYTHONPATH-} PYTHONPATH=$top${PYTHONPATH:+:$PYTHONPATH} PYTHONSAFEPATH=1 python3 -m "$@"
}

run_front() {
    has_python || fail "'$1' needs Python 3.11 or later, which is not there; the words of the program do without"
    python metis_planner "$@"
    exit
}

# What the program's answer means, for people. Nothing of it goes to standard output.
explain() {
    has_python && python metis_planner.front "$@" </dev/null >/dev/null
}

run_program() {
    find_program
    "$program" "$@"
    status=$?
    case $status in
    0)
        # A plan for nothing is right, and is hardly ever meant.
        [ "${1-}" = plan ] && [ $# -eq 2 ] && explain 0 "$@"
        ;;
    [1-6]) explain "$status" "$@" ;;
    esac
    exit "$status"
}

if [ "${1-}" = --plain ]; then
    METIS_PLAIN=1
    shift
fi
if [ "${METIS_PLAIN:-0}" != 0 ]; then
    find_program
    exec "$program" "$@"
fi
case ${1-} in
plan | why | replay | rollout | reconfigure | audit | refute | confirm | waits | waves | place | crew | control | sim | print | load)
    case ${2-} in
    *.sketch) run_front over-sketch "$@" ;;
    *) run_program "$@" ;;
    esac
    ;;
help | --help | -h | version | --version | import | sketch | check | show | lint | lean | up | adopt | down | make | ninja | slurm | engine | status | log | retry | \
    verify | inventory | done | split | graph | gantt | page)
    run_front "$@"
    ;;
*) run_program "$@" ;;
esac
