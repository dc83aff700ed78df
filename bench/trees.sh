#!/bin/sh
# How fast trees are laid over each other, and how fast bytes are digested. It is no part of the gate.
#
# A tree of 16,384 entries is laid over one of the same size, with all, half and none of its paths the same; 64 MiB are
# digested by `Hash::of` and by the plain loop of `sha2`. Prints the best of seven runs of each. An overlay is to take less
# than 20 ms, and `Hash::of` to reach 80% of the loop's speed.
. "$(dirname -- "$0")/head.sh"
built tree_bench

for _ in 1 2 3 4 5 6 7; do
    "$program" 16384 64 time
done | sed -n 's/ us$//p' > "$scratch/times"

# least NAME prints the least number of microseconds behind the name
least() {
    sed -n "s/^$1: //p" "$scratch/times" | sort -n | head -n 1
}

printf '%-32s %10s\n' 'overlay of 16,384 on 16,384' 'ms'
for row in '0:all paths the same' '8192:half of them' '16384:none'; do
    took=$(least "overlay ${row%%:*}")
    awk -v name="${row#*:}" -v took="$took" 'BEGIN { printf "%-32s %10.1f\n", name, took / 1000 }'
    aim "${row#*:}" 'v1 < 20000' "$took"
done
hash=$(least 'Hash::of')
plain=$(least 'sha2 loop')
awk -v hash="$hash" -v plain="$plain" 'BEGIN {
    printf "%-32s %10.1f\n", "Hash::of 64 MiB", hash / 1000
    printf "%-32s %10.1f\n", "the loop of sha2", plain / 1000
    printf "%-32s %9.0f%%\n", "speed against the loop", 100 * plain / hash
}'
aim 'Hash::of' 'v2 >= 0.8 * v1' "$hash" "$plain"
finish
