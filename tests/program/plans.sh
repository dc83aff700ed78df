# Plans that several threads make. A part of tests/program.sh, which has the functions.

# A hundred tasks of 25 recipes, of which each may have a line more (the second argument, for the recipe with the first one's number).
many_recipes() {
    project "$1"
    mkdir -p classes conf
    cat >classes/base.bbclass <<'END'
addtask fetch
addtask compile after do_fetch
addtask install after do_compile
addtask build after do_install
do_compile[deptask] = "do_install"
do_fetch[file-checksums] = "files/${PN}.txt:True"
do_fetch() {
    ls > fetched.txt
}
do_compile() {
    tool "${PN}" "${FLAGS}" > compiled.txt
}
tool() {
    echo "$@" "${PV}"
}
do_install() {
    cp compiled.txt installed.txt
}
do_build() {
    echo "${PN} is built"
}
FLAGS = "-O2 ${EXTRA}"
END
    mkdir -p files
    for number in $(seq 10 34); do
        printf 'EXTRA = "-D%s=${NAME}"\nNAME = "name of ${PN}"\nDEPENDS = "%s"\n' "$number" "$(test "$number" -gt 10 && echo "r$((number - 1))")" >"recipes/r$number.bb"
        echo "file of $number" >"files/r$number.txt"
    done
    echo 'file of all' >files/all.txt
    printf 'DEPENDS = "%s"\n' "$(seq -f 'r%g' -s ' ' 10 34)" >recipes/all.bb
}

# Sets how many threads there are.
threads() {
    printf 'BB_NUMBER_THREADS = "%s"\n' "$1" >conf/bitbake.conf
}

# What a command prints, but for the number of threads.
printed() {
    "$@" 2>"$room/said" </dev/null | sed 's/, [0-9]* threads$//'
}

# A command prints the same with one thread and with more.
same_by_threads() {
    what=$1
    shift
    threads 1
    printed "$@" >"$room/by_one"
    grep -v '^bitbake: try' "$room/said" >"$room/said_by_one"
    for count in 2 3 4 7 16; do
        threads "$count"
        printed "$@" >"$room/by_many"
        grep -v '^bitbake: try' "$room/said" >"$room/said_by_many"
        holds "$what with $count threads" cmp -s "$room/by_one" "$room/by_many"
        holds "what is said of $what with $count threads" cmp -s "$room/said_by_one" "$room/said_by_many"
    done
}

many_recipes plans
same_by_threads "a plan" "$bitbake" -n all
holds "a plan of all tasks" test "$(grep -c '^task ' "$room/by_one")" -eq 79
same_by_threads "a plan of one task each" "$bitbake" -n -c compile r34 r20
same_by_threads "a plan of fewer tasks than threads are used for" "$bitbake" -n r12

# What a run with one thread made, one with four finds, and the other way round.
threads 1
"$bitbake" all >"$room/text" 2>/dev/null
threads 4
"$bitbake" all >"$room/text" 2>/dev/null
holds "what one thread planned four find" grep -qx 'ok 1 found, 0 restored, 0 started' "$room/text"
rm -rf build
"$bitbake" all >"$room/text" 2>/dev/null
threads 1
"$bitbake" all >"$room/text" 2>/dev/null
holds "and the other way round" grep -qx 'ok 1 found, 0 restored, 0 started' "$room/text"

# Each refusal is that of the first task in order that has one, whoever met one first.
refused() {
    refusal=$1 first=$2 line=$3
    many_recipes "refused$first"
    printf '%s\n' "$line" >>"recipes/r$first.bb"
    printf '%s\n' "$line" >>recipes/r33.bb
    same_by_threads "$refusal" "$bitbake" -n all
    holds "$refusal is refused" grep -q "^fault 3 recipes/r$first.bb" "$room/by_one"
    same_by_threads "$refusal in a run" "$bitbake" all
    same_by_threads "$refusal before a run" "$bitbake" --why all
}
# shellcheck disable=SC2016
refused "a value without an end" 17 'EXTRA = "${EXTRA}"'
# shellcheck disable=SC2016
refused "a flag that is no place" 21 'do_install[dirs] = "/nowhere/${PN}"'
refused "a file that isn't there" 26 'do_fetch[file-checksums] = "files/none.txt:True"'
