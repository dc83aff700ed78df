#!/bin/sh
# Refuses each allocation of the program once, apart from the gate, over examples/library_and_application (`-e app`, `-s`, `-p`, and a
# target that nothing provides), examples/hello (a run), and a run behind an edit that changes no output. It needs a C compiler and the program that the gate leaves, or the one that
# is named: `sh tests/refusals.sh [PROGRAM]`.
#
# A run with a refused allocation has to answer as with ample memory, or with status 11 and `fault 11 memory` as its last line: in a
# reading mode that is all it prints. After each run of tasks, a run with ample memory has to leave the clean files.
top=$(CDPATH='' cd -- "$(dirname -- "$0")/.." && pwd -P) || exit 1
program=${1:-$top/crates/bitbake_cli/out/bitbake_cli}
if [ ! -x "$program" ]; then
    echo "there is no program at $program: the gate builds it" >&2
    exit 1
fi
room=$(mktemp -d -p /dev/shm) || exit 1
trap 'rm -rf -- "$room"' EXIT
trap 'exit 1' HUP INT TERM
"${CC:-cc}" -shared -fPIC -O2 -o "$room/fail_alloc.so" "$top/tests/fail_alloc.c" -ldl || exit 1
cp -R "$top/examples/library_and_application" "$room/library" && cp -R "$top/examples/hello" "$room/hello" || exit 1
rm -rf "$room/library/build" "$room/hello/build"
passed=0
failed=0

# Counts a run: the test holds.
holds() {
    name=$1
    shift
    if "$@"; then
        passed=$((passed + 1))
    else
        failed=$((failed + 1))
        echo "FAILED: $name"
    fi
}

# Whether the run before answered as with ample memory, or said that memory was wanting.
is_answer() {
    if [ "$status" -eq "$wanted" ] && cmp -s "$room/text" "$room/wanted"; then
        return 0
    fi
    [ "$status" -eq 11 ] && [ "$(tail -n 1 "$room/text")" = 'fault 11 memory' ] &&
        { [ "$kind" = run ] || [ "$(wc -l <"$room/text")" -eq 1 ]; }
}

# Lays the store over which a run of the project begins: none, or the one that is kept beside it.
lay() {
    rm -rf build
    [ ! -d "../$store" ] || cp -R "../$store" build
}

# Refuses each allocation of a run with these words in the project, of the kind `run` or `mode`.
refuse_each() {
    kind=$1
    store=$2.store
    cd "$room/$2" || exit 1
    shift 2
    lay
    LD_PRELOAD="$room/fail_alloc.so" COUNT_ALLOC=1 "$program" "$@" >"$room/wanted" 2>"$room/count"
    wanted=$?
    count=$(tail -n 1 "$room/count")
    holds "allocations of '$*' are counted" test "$count" -gt 10
    rm -rf "$room/clean"
    [ "$kind" = mode ] || cp -R build/work "$room/clean"
    number=1
    while [ "$number" -le "$count" ]; do
        lay
        FAIL_ALLOC=$number LD_PRELOAD="$room/fail_alloc.so" "$program" "$@" >"$room/text" 2>/dev/null
        status=$?
        holds "allocation $number of '$*' is refused" is_answer
        if [ "$kind" = run ]; then
            "$program" "$@" >"$room/text" 2>/dev/null
            holds "the run after allocation $number of '$*'" test $? -eq 0
            holds "its files after allocation $number of '$*'" diff -r build/work "$room/clean"
        fi
        number=$((number + 1))
    done
}

# A recipe with this line in its first task, whose output that doesn't change.
noted() {
    printf 'do_gen() {\n%s    echo 1 > n.txt\n}\ndo_build() {\n    cat n.txt > m.txt\n}\naddtask gen\naddtask build after gen\n' "$1" >"$room/noted/recipes/c.bb"
}
mkdir -p "$room/noted/recipes" && noted '' && cd "$room/noted" && "$program" c >/dev/null && mv build ../noted.store || exit 1
noted '    # note
'

refuse_each mode library -e app
refuse_each mode library -s
refuse_each mode library -p
refuse_each mode library nosuch
refuse_each mode library --nope
refuse_each run hello hello
refuse_each run noted c
echo "$passed passed, $failed failed"
[ "$failed" -eq 0 ]
