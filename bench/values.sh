#!/bin/sh
# How fast entries are applied and values given: `bitbake -e` over configurations of 2,000 and of 20,000 assignments to 500 and 5,000
# names, a fourth each plain, with `+=`, with `:append` and with an override. No part of the gate.
#
# Prints the processor time of the whole program, the best of nine runs, from which `-p` over an empty project is taken away. The
# large configuration is to take less than half a second, and at most 14 times as long as the small one.
. "$(dirname -- "$0")/head.sh"
built bitbake_cli

# configuration FOLDER ASSIGNMENTS
configuration() {
    mkdir -p "$1/conf"
    awk -v count="$2" 'BEGIN {
        print "OVERRIDES = \"linux:${MACHINE}\""
        print "MACHINE = \"x86\""
        for (i = 0; i < count; i++) {
            name = int(i / 4)
            if (i % 4 == 0) printf "NAME_%d = \"a value of some words, number %d\"\n", name, i
            if (i % 4 == 1) printf "NAME_%d += \"and ${MACHINE}\"\n", name
            if (i % 4 == 2) printf "NAME_%d:append = \" more\"\n", name
            if (i % 4 == 3) printf "NAME_%d:linux = \"a value of %d\"\n", name, i
        }
    }' >"$1/conf/bitbake.conf"
}
mkdir "$scratch/empty"
configuration "$scratch/small" 2000
configuration "$scratch/large" 20000
empty=$(best 9 "$scratch/empty" "$program" -p)
small=$(best 9 "$scratch/small" "$program" -e)
large=$(best 9 "$scratch/large" "$program" -e)
awk -v empty="$empty" -v small="$small" -v large="$large" 'BEGIN {
    printf "2,000 assignments %6.1f ms, 20,000 assignments %6.1f ms, %5.1f times\n", small - empty, large - empty, (large - empty) / (small > empty ? small - empty : 1)
}'
aim 'values' 'v3 - v1 < 500 && v3 - v1 <= 14 * (v2 - v1)' "$empty" "$small" "$large"
finish
