#!/bin/sh
# What a real disk costs a run: the same projects in a folder on a disk and in a folder in memory. No part of the gate. By the clock, each the
# best of some runs; a disk that others use too is slower by what they do, so each aim stands beside what `sync -f` takes in the same minute.
# - small tasks (one `echo`, one file), with 4 and with 16 threads: a task more than in memory, against three `sync -f`; and by hand, with
#   ninja, each script behind a `sync -f` of its own
# - 500 objects restored, against their copying by hand
# - a chain of 101 of them
# - 5,000 small files through six tasks
# - a task of 16,384 files and 32 MiB, and again with one file changed; and, while it is published, the longest time in which no other task ended
# - how often a task syncs, by strace, where that is installed; and a found run, which must not sync at all
# Usage: bench/disk.sh [TASKS] (480 if left out). DISK is the folder on the disk (/var/tmp if left out); the one in memory is /dev/shm.
. "$(dirname -- "$0")/head.sh"
built bitbake_cli
tasks=${1:-480}
disk=$(mktemp -d -p "${DISK:-/var/tmp}")
trap 'rm -rf -- "$scratch" "$disk"' EXIT

# clock COMMAND.. sets `took` to the microseconds of one run.
clock() {
    begun=$(date +%s%N)
    "$@" >/dev/null 2>"$scratch/said" || { echo "failed: $*" >&2; cat "$scratch/said" >&2; exit 1; }
    took=$((($(date +%s%N) - begun) / 1000))
}

# least RUNS COMMAND.. sets `took` to the least of so many runs, before each of which the function `fresh` is called.
least() {
    runs=$1
    shift
    best=
    while [ "$runs" -gt 0 ]; do
        fresh
        clock "$@"
        if [ -z "$best" ] || [ "$took" -lt "$best" ]; then best=$took; fi
        runs=$((runs - 1))
    done
    took=$best
}

# in_folder FOLDER COMMAND.. runs a command there.
in_folder() {
    (cd "$1" && shift && exec "$@")
}

fresh() {
    :
}

# syncs prints the microseconds of one `sync -f` of the disk behind a small write: the middle of nine.
syncs() {
    for n in 1 2 3 4 5 6 7 8 9; do
        echo "$n" >"$disk/synced"
        begun=$(date +%s%N)
        sync -f "$disk"
        echo $((($(date +%s%N) - begun) / 1000))
    done | sort -n | sed -n 5p
}

# project FOLDER THREADS: an empty project with so many threads.
project() {
    mkdir -p "$1/conf" "$1/classes" "$1/recipes"
    echo "BB_NUMBER_THREADS = \"$2\"" >"$1/conf/bitbake.conf"
}

# small FOLDER THREADS: so many recipes of one small task, and one that needs them all.
small() {
    project "$1" "$2"
    printf 'addtask build\ndo_build() {\n    echo "${PN}" > out.txt\n}\n' >"$1/classes/small.bbclass"
    awk -v folder="$1/recipes" -v count="$tasks" 'BEGIN {
        for (n = 1; n <= count; n++) { file = folder "/r" n ".bb"; print "inherit small" > file; close(file); all = all " r" n }
        printf "DEPENDS = \"%s\"\naddtask build\ndo_build[deptask] = \"do_build\"\ndo_build[noexec] = \"1\"\n", all > (folder "/all.bb")
    }'
}

# both NAME TARGET: runs a project that stands in both places, each without a store, and sets `on_disk` and `in_memory`.
both() {
    fresh() { rm -rf "$scratch/$name/build"; }
    name=$1
    least 3 in_folder "$scratch/$1" "$program" "$2"
    in_memory=$took
    fresh() { rm -rf "$disk/$name/build"; sync -f "$disk"; }
    least 3 in_folder "$disk/$1" "$program" "$2"
    on_disk=$took
    fresh() { :; }
    echo "$1: $((on_disk / 1000)) ms on the disk, $((in_memory / 1000)) ms in memory"
}

# twice NAME COMMAND..: makes a project in both places.
twice() {
    name=$1
    shift
    made=$1
    shift
    "$made" "$scratch/$name" "$@"
    "$made" "$disk/$name" "$@"
}

for threads in 4 16; do
    twice "small-$threads" small "$threads"
    one=$(syncs)
    both "small-$threads" all
    more=$(((on_disk - in_memory) / tasks))
    echo "  a task more: $more us; a sync -f: $one us"
    if [ "$threads" -eq 4 ]; then
        aim "a small task more than in memory, 4 threads" 'v1 <= 1.5 * 3 * v2 / 4' "$more" "$one"
        aim "$tasks small tasks, 4 threads, on the disk" 'v1 <= 2 * v2' "$on_disk" "$in_memory"
        at_four=$more
    else
        aim "a small task more than in memory, 16 threads" 'v1 <= 0.8 * v2' "$more" "$at_four"
    fi
done

# A found run, and how often it syncs.
clock in_folder "$disk/small-4" "$program" all
echo "found: $((took / 1000)) ms on the disk"
if command -v strace >/dev/null; then
    calls() {
        (cd "$1" && strace -f -qq -e trace=fsync,fdatasync,sync,syncfs,sync_file_range -o "$scratch/calls" "$program" "$2" >/dev/null)
        grep -cE 'sync' "$scratch/calls" || true
    }
    found=$(calls "$disk/small-4" all)
    echo "syncs of a found run: $found"
    aim 'a found run syncs nothing' 'v1 == 0' "$found"
    rm -rf "$disk/small-4/build"
    first=$(calls "$disk/small-4" all)
    echo "syncs of a first run of $tasks tasks: $first"
    aim 'syncs of a task' 'v1 <= 4 * v2 + 8' "$first" "$tasks"
else
    echo "strace isn't installed: how often a task syncs isn't counted"
fi

# The same scripts by hand and by ninja, each file behind a sync of the file system.
by_hand() {
    mkdir "$1" && cd "$1" || exit 1
    seq "$tasks" | xargs -P 4 -I N sh -c 'mkdir N && cd N && echo N > out.txt && sync -f .'
}
fresh() { rm -rf "$disk/hand"; }
least 3 by_hand "$disk/hand"
echo "by hand, four at once, a sync -f each: $((took / 1000)) ms"
if command -v ninja >/dev/null; then
    mkdir "$disk/ninja"
    awk -v count="$tasks" 'BEGIN {
        print "rule small\n  command = mkdir -p $dir && cd $dir && sh -c \"echo $dir > out.txt\" && sync -f ."
        for (n = 1; n <= count; n++) printf "build out/%d/out.txt: small\n  dir = out/%d\n", n, n
    }' >"$disk/ninja/build.ninja"
    fresh() { rm -rf "$disk/ninja/out" "$disk/ninja/.ninja_log" "$disk/ninja/.ninja_deps"; }
    least 3 in_folder "$disk/ninja" ninja -j 4
    echo "ninja -j 4, a sync -f each: $((took / 1000)) ms"
fi
fresh() { :; }

# Tasks whose outputs are there as shared state objects, restored; and as many folders copied by hand, made durable by one sync.
objects() {
    small "$1" 4
    printf 'SSTATETASKS = "do_build"\n' >>"$1/classes/small.bbclass"
}
tasks_before=$tasks
tasks=500
twice objects objects
for place in "$scratch" "$disk"; do
    clock in_folder "$place/objects" "$program" all
    fresh() { rm -rf "$place/objects/build/work" "$place/objects/build/stamp"; sync -f "$place"; }
    least 3 in_folder "$place/objects" "$program" all
    if [ "$place" = "$scratch" ]; then in_memory=$took; fi
done
on_disk=$took
fresh() { rm -rf "$disk/copy"; sync -f "$disk"; }
copied() {
    cp -r "$disk/objects/build/work" "$disk/copy" && sync -f "$disk"
}
least 3 copied
fresh() { :; }
echo "500 objects restored: $((on_disk / 1000)) ms on the disk, $((in_memory / 1000)) ms in memory; copied by hand: $((took / 1000)) ms"
aim '500 objects restored' 'v1 <= 2 * v2' "$on_disk" "$took"
tasks=$tasks_before

# A chain, where nothing can be done beside anything else.
chain() {
    project "$1" 4
    awk 'BEGIN {
        for (n = 1; n <= 100; n++) printf "do_t%d() {\n    echo %d > out\n}\naddtask t%d%s\n", n, n, n, (n > 1 ? " after do_t" n - 1 : "")
        print "do_build() {\n    echo built > built\n}\naddtask build after do_t100"
    }' >"$1/recipes/chain.bb"
}
twice chain chain
both chain chain

# Many small files through a row of tasks.
files() {
    project "$1" 4
    awk 'BEGIN {
        print "do_t1() {\n    mkdir d; n=0; while test $n -lt 5000; do echo $n > d/$n; n=$((n + 1)); done\n}\naddtask t1"
        for (n = 2; n <= 5; n++) printf "do_t%d() {\n    echo %d > step\n}\naddtask t%d after do_t%d\n", n, n, n, n - 1
        print "do_build() {\n    echo built > built\n}\naddtask build after do_t5"
    }' >"$1/recipes/files.bb"
}
twice files files
both files files

# One large output beside small tasks: the longest time in which none of these ended.
large() {
    project "$1" 4
    cat >"$1/recipes/large.bb" <<'END'
do_build() {
    head -c 33554432 /dev/zero > all; split -a 5 -b 2048 -d all f; rm all; echo "${WHICH}" > f00000
}
addtask build
WHICH = "one"
END
    printf 'do_build[noexec] = "1"\naddtask build\n' >"$1/recipes/all.bb"
    awk 'BEGIN {
        for (n = 1; n <= 400; n++) {
            printf "do_s%d() {\n    echo %d > out\n}\naddtask s%d%s\n", n, n, n, (n > 1 ? " after do_s" n - 1 : "")
        }
        print "addtask build after do_s400\ndo_build() {\n    echo end > end\n}"
    }' >"$1/recipes/beside.bb"
}
twice large large
both large large
first=$on_disk
sed -i 's/WHICH = "one"/WHICH = "two"/' "$disk/large/recipes/large.bb"
clock in_folder "$disk/large" "$program" large
again=$took
echo "large, again with one file changed: $((again / 1000)) ms on the disk"
fresh() { rm -rf "$disk/hand"; }
# (the program's bench removes what the script made, so this does, too)
splits() {
    mkdir "$1" && cd "$1" && head -c 33554432 /dev/zero >all && split -a 5 -b 2048 -d all f && rm all && cd / && rm -r "$1"
}
least 3 splits "$disk/hand"
script=$took
echo "  its script by hand, with the removal of what it made: $((script / 1000)) ms"
aim 'one file of 16,384 changed' 'v1 - v3 <= 0.05 * (v2 - v3)' "$again" "$first" "$script"
rm -rf "$disk/large/build"
(cd "$disk/large" && "$program" large beside) | awk '{
    if ("date +%s%N" | getline now) close("date +%s%N")
    if ($1 != "ended" || $2 !~ /^beside:/) next
    if (before && now - before > longest) longest = now - before
    before = now
} END { printf "%d\n", longest / 1000 }' >"$scratch/longest"
longest=$(cat "$scratch/longest")
echo "the longest time without an end beside it: $((longest / 1000)) ms"
finish
