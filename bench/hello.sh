#!/bin/sh
# How long a run of examples/hello takes, against a plain `sh -c` with the same body and one sync of its file. No part of the gate.
#
# Both run in a folder in memory, many times, and are timed by the clock. Prints both times and their ratio, which is to be at most 5.
# The sync is that of `sync FILE`, a program of its own, so its start counts for the plain side; the second ratio leaves the sync out,
# and so counts against the program. Usage: bench/hello.sh [RUNS] (300 if left out)
. "$(dirname -- "$0")/head.sh"
built bitbake_cli
runs=${1:-300}
cp -R "$top/examples/hello" "$scratch/hello" && rm -rf "$scratch/hello/build" && mkdir "$scratch/plain"

# measure COMMAND.. sets `each` to the microseconds of one run.
measure() {
    left=$runs
    begun=$(date +%s%N)
    while [ "$left" -gt 0 ]; do
        "$@" >/dev/null || { echo "failed: $*" >&2; exit 1; }
        left=$((left - 1))
    done
    each=$((($(date +%s%N) - begun) / runs / 1000))
}

body='echo hello > hello.txt'
cd "$scratch/plain"
measure sh -c "$body; sync hello.txt"
synced=$each
measure sh -c "$body"
plain=$each
cd "$scratch/hello"
measure "$program" hello
run=$each
measure "$top/bin/bitbake" hello
launched=$each
echo "plain sh -c and a sync: $synced us; without the sync: $plain us"
echo "bitbake hello: $run us; by bin/bitbake: $launched us"
awk -v run="$run" -v synced="$synced" -v plain="$plain" \
    'BEGIN { printf "ratio: %.2f; without the sync: %.2f\n", run / synced, run / plain }'
aim 'hello' 'v2 <= 5 * v1' "$synced" "$run"
finish
