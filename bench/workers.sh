#!/bin/sh
# How much several workers gain, in a folder in memory. No part of the gate. By the clock, the best of three:
# - 1,000 recipes with two tasks each, in a row, that sleep 10 ms, with 1, 2, 4, 8 and 16 threads. The ideal is what their scripts take by
#   hand, one after the other in a folder and a shell each, divided by the threads: at least 0.9 of it to 4 threads, and 0.75 to 16. Printed
#   beside it is the sleeping alone, which no tool that starts a shell and `sleep` can come near;
# - 100 recipes with two tasks each that compute, with as many threads as there are processors, against `ninja -j` of the same number over the
#   same scripts, where ninja is installed. At least 0.8 times as fast;
# - processor time of a chain of 200 tasks with 16 threads, against one: at most 1.5 times.
# Usage: bench/workers.sh [RECIPES] (1,000 if left out)
. "$(dirname -- "$0")/head.sh"
built bitbake_cli
count=${1:-1000}

# recipes FOLDER COUNT BODY: so many recipes over one class with two tasks of that body, and one that needs them all.
recipes() {
    mkdir -p "$1/conf" "$1/classes" "$1/recipes"
    printf 'addtask compile\naddtask build after do_compile\ndo_compile() {\n    %s\n}\ndo_build() {\n    %s\n}\n' "$3" "$3" >"$1/classes/two.bbclass"
    awk -v folder="$1/recipes" -v count="$2" 'BEGIN {
        for (n = 1; n <= count; n++) { file = folder "/r" n ".bb"; print "inherit two" > file; close(file); all = all " r" n }
        file = folder "/all.bb"
        printf "DEPENDS = \"%s\"\naddtask build\ndo_build[deptask] = \"do_build\"\ndo_build[noexec] = \"1\"\n", all > file
    }'
}

# fastest FOLDER COMMAND.. sets `least` to the milliseconds of the fastest of three runs, each over no store.
fastest() {
    least=
    folder=$1
    shift
    for _ in 1 2 3; do
        rm -rf "$folder/build" "$folder/ninja" "$folder/.ninja_log" "$folder/.ninja_deps"
        begun=$(date +%s%N)
        (cd "$folder" && "$@" >/dev/null) || { echo "failed: $*" >&2; exit 1; }
        each=$((($(date +%s%N) - begun) / 1000000))
        if [ -z "$least" ] || [ "$each" -lt "$least" ]; then least=$each; fi
    done
}

recipes "$scratch/sleep" "$count" 'sleep 0.01'
echo 'sleep 0.01' >"$scratch/sleep/script"
# (a shell for each script, as a task has one)
fastest "$scratch/sleep" sh -c 'mkdir build && cd build && seq '$((2 * count))' | xargs mkdir && for n in *; do (cd $n && exec sh ../../script); done'
hand=$least
for threads in 1 2 4 8 16; do
    echo "BB_NUMBER_THREADS = \"$threads\"" >"$scratch/sleep/conf/bitbake.conf"
    fastest "$scratch/sleep" "$program" all
    ideal=$((hand / threads))
    echo "$count recipes that sleep, $threads threads: $least ms; by hand, divided: $ideal ms; the sleeping alone: $((2 * count * 10 / threads)) ms"
    part=0.9
    [ "$threads" -le 4 ] || part=0.75
    aim "$threads threads over tasks that sleep" "v1 * $part <= v2" "$least" "$ideal"
done

# What a shell adds up in some 50 ms.
work='i=0; while test $i -lt 30000; do i=$((i + 1)); done; echo $i > counted.txt'
recipes "$scratch/work" 100 "$work"
threads=$(nproc)
[ "$threads" -le 16 ] || threads=16
echo "BB_NUMBER_THREADS = \"$threads\"" >"$scratch/work/conf/bitbake.conf"
fastest "$scratch/work" "$program" all
ours=$least
if command -v ninja >/dev/null; then
    printf '%s\n' "$work" >"$scratch/work/work.sh"
    awk 'BEGIN {
        print "rule work\n  command = mkdir -p $dir && cd $dir && sh ../../work.sh && sync counted.txt ."
        for (n = 1; n <= 100; n++) {
            printf "build ninja/c%d/counted.txt: work\n  dir = ninja/c%d\nbuild ninja/b%d/counted.txt: work | ninja/c%d/counted.txt\n  dir = ninja/b%d\n", n, n, n, n, n
        }
    }' >"$scratch/work/build.ninja"
    fastest "$scratch/work" ninja -j "$threads"
    echo "100 recipes that compute, $threads threads: $ours ms; ninja -j $threads: $least ms"
    aim 'tasks that compute' 'v1 * 0.8 <= v2' "$ours" "$least"
else
    echo "100 recipes that compute, $threads threads: $ours ms; ninja isn't installed"
fi

mkdir -p "$scratch/chain/conf" "$scratch/chain/recipes"
awk 'BEGIN {
    for (n = 1; n <= 200; n++) printf "do_t%d() {\n    echo %d > out\n}\naddtask t%d%s\n", n, n, n, (n > 1 ? " after do_t" n - 1 : "")
    print "do_build[noexec] = \"1\"\naddtask build after do_t200"
}' >"$scratch/chain/recipes/chain.bb"
for threads in 1 16; do
    echo "BB_NUMBER_THREADS = \"$threads\"" >"$scratch/chain/conf/bitbake.conf"
    each=$(for _ in 1 2 3; do rm -rf "$scratch/chain/build"; spent "$scratch/chain" "$program" chain; done | sort -n | head -n 1)
    echo "a chain of 200 tasks, $threads threads: $each ms of processor time"
    [ "$threads" -ne 1 ] || alone=$each
done
aim 'a chain with 16 threads' 'v1 <= 1.5 * v2' "$each" "$alone"
finish
