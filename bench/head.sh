# The head of the scripts beside this file: each begins with `. "$(dirname -- "$0")/head.sh"`.
#
# It sets `top`, the top of the repository, and `scratch`, a folder in memory (or wherever ROOM says) that goes when the script
# ends, and gives these functions. Times are milliseconds of the processor, user and system, so that other work on the machine
# counts little; each is the best of several runs.
set -eu
top=$(CDPATH='' cd -- "$(dirname -- "$0")/.." && pwd -P)
scratch=$(mktemp -d -p "${ROOM:-/dev/shm}")
trap 'rm -rf -- "$scratch"' EXIT
trap 'exit 1' HUP INT TERM
aims=0
missed=0

# built NAME sets `program` to what the gate built of crates/NAME.
built() {
    program=${PROGRAM:-$top/crates/$1/out/$1}
    if [ ! -x "$program" ]; then
        echo "there is no program at $program: the gate builds it" >&2
        exit 1
    fi
}

# spent FOLDER COMMAND.. prints the milliseconds of one run of a command in a folder, whatever it prints and answers.
spent() {
    (cd -- "$1" && shift && exec bash -c 'TIMEFORMAT="%3U %3S"; { time "$@" >/dev/null 2>&1; } 2>&1' bash "$@") |
        awk '{ print ($1 + $2) * 1000 }'
}

# best RUNS FOLDER COMMAND.. prints the least of so many runs.
best() {
    runs=$1
    shift
    while [ "$runs" -gt 0 ]; do
        spent "$@"
        runs=$((runs - 1))
    done | sort -n | head -n 1
}

# aim NAME CONDITION VALUE.. counts an aim: prints the name, and fails it where the condition, for awk over v1, v2 .., doesn't hold.
aim() {
    name=$1
    holds=$2
    shift 2
    aims=$((aims + 1))
    set -- $(number=1; for value in "$@"; do echo "-v v$number=$value"; number=$((number + 1)); done)
    awk "$@" "BEGIN { exit !($holds) }" </dev/null || {
        missed=$((missed + 1))
        echo "missed: $name ($holds)"
    }
}

# The last line, and the script's status.
finish() {
    echo "$missed of $aims aims missed"
    [ "$missed" -eq 0 ]
}
