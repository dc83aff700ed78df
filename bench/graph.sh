#!/bin/sh
# How fast the graph and the plan of tasks are made: `-n` of the last of 200 and of 2,000 recipes, 6,500 and 65,000 tasks, of which each needs
# eight others on average. No part of the gate.
#
# Prints the processor time of the whole program from which `-p` over the same project is taken away, the best of five runs, and how
# many times longer the large graph takes. It is to take less than two seconds, and at most 14 times as long.
. "$(dirname -- "$0")/head.sh"
built bitbake_cli

# graph FOLDER RECIPES makes a project in which each recipe has 32 tasks and depends on up to eight recipes before it
graph() {
    mkdir -p "$1/classes" "$1/recipes"
    awk 'BEGIN {
        for (i = 1; i <= 31; i++) {
            printf "do_t%d() {\n    :\n}\naddtask t%d%s\ndo_t%d[deptask] = \"do_t%d\"\n", i, i, (i > 1 ? " after do_t" (i - 1) : ""), i, i
        }
        print "do_build() {\n    :\n}\naddtask build after do_t31"
    }' >"$1/classes/tasks.bbclass"
    awk -v folder="$1/recipes" -v count="$2" 'BEGIN {
        for (r = 1; r <= count; r++) {
            file = sprintf("%s/r%d.bb", folder, r)
            printf "inherit tasks\nDEPENDS = \"" >file
            for (i = 1; i <= 7 && i < r; i++) printf "r%d ", r - i >file
            print "\"" >file
            close(file)
        }
    }'
}
graph "$scratch/small" 200
graph "$scratch/large" 2000
for size in small large; do
    targets=r200
    [ "$size" = small ] || targets=r2000
    whole=$(best 5 "$scratch/$size" "$program" -n "$targets")
    read=$(best 5 "$scratch/$size" "$program" -p)
    each=$(awk -v whole="$whole" -v read="$read" 'BEGIN { print whole - read }')
    echo "$size: $each ms, beside $read ms of reading"
    eval "$size=$each"
done
aim 'graph' 'v2 < 2000 && v2 <= 14 * v1' "$small" "$large"
finish
