#!/bin/sh
# What forms cost: the plan (`bitbake -n`) of the 200 recipes of bench/project.sh with ten values more each that ask by `bb.utils.contains` and
# `bb.utils.filter` for words of a value of 200 words, and of the same with the texts that the forms give in their place. No part of the gate.
#
# Prints the processor time of the whole program, the best of nine runs; with `instructions` as its word, what callgrind counts. The plan with forms
# is to take at most 1.3 times as long as that without.
. "$(dirname -- "$0")/head.sh"
. "$top/bench/project.sh"
built bitbake_cli

# asking FOLDER forms|texts makes a project of 200 recipes with ten more values each, and a task that prints them.
asking() {
    project "$1" 200
    awk 'BEGIN {
        printf "FEATURES = \""
        for (i = 0; i < 200; i++) printf "%sfeature-%d", i ? " " : "", i
        print "\""
    }' >>"$1/conf/bitbake.conf"
    awk -v folder="$1/recipes" -v kind="$2" 'BEGIN {
        for (r = 1; r <= 200; r++) {
            file = folder "/recipe-" r "_1." r ".bb"
            body = ""
            for (k = 0; k < 10; k++) {
                word = (r * 10 + k) % 400
                if (k % 2) {
                    form = sprintf("${@bb.utils.contains(\047FEATURES\047, \047feature-%d\047, \047--enable-%d\047, \047--disable-%d\047, d)}", word, word, word)
                    text = sprintf("%s-%d", word < 200 ? "--enable" : "--disable", word)
                } else {
                    form = sprintf("${@bb.utils.filter(\047FEATURES\047, \047feature-%d feature-%d\047, d)}", word, word + 1)
                    text = word < 200 ? sprintf("feature-%d%s", word, word + 1 < 200 ? sprintf(" feature-%d", word + 1) : "") : ""
                }
                printf "VALUE_%d = \"%s\"\n", k, kind == "forms" ? form : text >>file
                body = body " ${VALUE_" k "}"
            }
            printf "do_configure() {\n    echo%s >out\n}\naddtask configure before do_compile\n", body >>file
            close(file)
        }
    }'
}

# counted FOLDER COMMAND.. prints the instructions of one run of a command in a folder.
counted() {
    (cd -- "$1" && shift && valgrind --tool=callgrind --callgrind-out-file=/dev/null "$@" 2>&1 >/dev/null) | awk '/Collected/ { print $4 }'
}

targets=$(awk 'BEGIN { for (r = 1; r <= 200; r++) printf " recipe-%d", r }')
asking "$scratch/forms" forms
asking "$scratch/texts" texts
if [ "${1-}" = instructions ]; then
    # (words are split on purpose)
    texts=$(counted "$scratch/texts" "$program" -n $targets)
    forms=$(counted "$scratch/forms" "$program" -n $targets)
    echo "with texts $texts, with forms $forms instructions"
else
    texts=$(best 9 "$scratch/texts" "$program" -n $targets)
    forms=$(best 9 "$scratch/forms" "$program" -n $targets)
    echo "with texts $texts ms, with forms $forms ms"
fi
aim 'forms' 'v1 > 0 && v2 <= 1.3 * v1' "$texts" "$forms"
finish
