#!/bin/sh
# How fast a project is read: `bitbake -p`, `-s` and `-e` over 200 and 1,000 recipes of bench/project.sh. No part of the gate.
#
# Prints the processor time of the whole program, the best of five runs, how many times longer the large project takes, and the most
# memory that the program held. Each is to take less than two and a half seconds, and at most six times as long.
# With a number, as `bench/modes.sh 2000`, the large project has so many recipes, and only the times are told.
. "$(dirname -- "$0")/head.sh"
. "$top/bench/project.sh"
built bitbake_cli
count=${1:-1000}
project "$scratch/small" 200
project "$scratch/large" "$count"
for words in '-p' '-s' '-e recipe-100'; do
    # (words are split on purpose)
    small=$(best 5 "$scratch/small" "$program" $words)
    large=$(best 5 "$scratch/large" "$program" $words)
    awk -v words="$words" -v count="$count" -v small="$small" -v large="$large" 'BEGIN {
        printf "%-14s 200 recipes %7.0f ms, %d recipes %7.0f ms, %5.2f times\n", words, small, count, large, large / (small > 0 ? small : 1)
    }'
    if [ "$count" -eq 1000 ]; then
        aim "$words" 'v1 > 0 && v2 <= 6 * v1 && v2 < 2500' "$small" "$large"
    fi
done
if command -v /usr/bin/time >/dev/null; then
    memory=$(cd "$scratch/large" && /usr/bin/time -f '%M' "$program" -p 2>&1 >/dev/null | tail -n 1)
    echo "memory of -p over $count recipes: $((memory / 1024)) MB"
fi
finish
