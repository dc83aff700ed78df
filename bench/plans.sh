#!/bin/sh
# How fast plans are made: `bitbake -n` over the recipes of bench/project.sh with five tasks each, all of which the last recipe
# needs, against `-p` over the same project. No part of the gate.
#
# Prints the processor time of the whole program, the best of five runs, and the most memory that it held. Over 1,000 recipes the
# plan is to take at most half a second more than reading, over 2,000 at most 2.4 times that, in at most 400 MB.
. "$(dirname -- "$0")/head.sh"
. "$top/bench/project.sh"
built bitbake_cli

# tasks FOLDER adds a chain of five tasks to each recipe, the second of which needs the last of the recipe before
tasks() {
    cat >> "$1/classes/build.bbclass" <<'END'
addtask configure
addtask compile after do_configure
addtask install after do_compile
addtask package after do_install
addtask populate after do_package before do_build
do_compile[deptask] = "do_populate"
END
    echo 'DEPENDS = ""' > "$1/recipes/recipe-1_1.1.bbappend"
}

before=0
for count in 200 1000 2000; do
    project "$scratch/$count" "$count"
    tasks "$scratch/$count"
    read=$(best 5 "$scratch/$count" "$program" -p)
    made=$(best 5 "$scratch/$count" "$program" -n "recipe-$count")
    first=$(cd "$scratch/$count" && "$program" -n "recipe-$count" | head -n 1)
    memory=
    if command -v /usr/bin/time >/dev/null; then
        memory=$(cd "$scratch/$count" && /usr/bin/time -f '%M' "$program" -n "recipe-$count" 2>&1 >/dev/null | tail -n 1)
    fi
    awk -v count="$count" -v read="$read" -v made="$made" -v first="$first" -v memory="$memory" 'BEGIN {
        printf "%4d recipes: -p %5.0f ms, -n %5.0f ms (%s), %d MB\n", count, read, made, first, memory / 1024
    }'
    if [ "$count" -eq 1000 ]; then
        aim '-n over 1,000 recipes' 'v2 - v1 < 500' "$read" "$made"
        before=$(awk -v read="$read" -v made="$made" 'BEGIN { print made - read }')
    fi
    if [ "$count" -eq 2000 ]; then
        aim '-n over 2,000 recipes' 'v2 - v1 <= 2.4 * v3' "$read" "$made" "$before"
        [ -z "$memory" ] || aim 'memory of -n over 2,000 recipes' 'v1 < 400 * 1024' "$memory"
    fi
done
finish
