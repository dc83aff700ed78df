#!/bin/sh
# How fast recipes are parsed: `bitbake -p` over 16 recipes of almost 1 MiB and over 16 of 100 KiB, in five shapes: long bodies; short
# assignments; one joined line; a text of quotes; a long name. No part of the gate.
#
# Prints the megabytes in a second of processor time, from which `-p` over an empty project is taken away, and how many times longer
# the large recipes take. (What is parsed is applied and frozen too, and all recipes are held to the end, so the first touch of memory
# counts.) Large ones are to reach 20 MB in a second, and to take at most 18 times as long: they have 10.2 times the bytes.
#
# The allocator is told to keep memory: it would else give each text of over 128 KiB back to the kernel, and take it again.
. "$(dirname -- "$0")/head.sh"
export MALLOC_MMAP_THRESHOLD_=1073741824 MALLOC_TRIM_THRESHOLD_=1073741824
built bitbake_cli

# make SHAPE BYTES writes a recipe of at most that size
make() {
    awk -v shape="$1" -v bytes="$2" 'BEGIN {
        if (shape == "bodies") {
            for (size = 12000; size < bytes; n++) {
                printf "do_task%d() {\n", n
                for (i = 0; i < 200; i++) printf "    echo \"a line of the body, number %d\" >> out.txt\n", i
                printf "}\n"
                size += 200 * 55
            }
        }
        if (shape == "assignments") {
            for (size = 104; size < bytes; size += 108) {
                printf "NAME_%09d = \"", size
                for (i = 0; i < 8; i++) printf "some words "
                printf "\"\n"
            }
        }
        if (shape == "joined") {
            printf "A = \"begin \\\n"
            for (size = 64; size < bytes; size += 34) printf "  a part of a long joined text \\\n"
            printf "end\"\n"
        }
        if (shape == "quotes") {
            printf "A = \""
            for (size = 32; size < bytes; size += 16) printf "\"\"\"\"\"\"\"\"\"\"\"\"\"\"\"\""
            printf "\"\n"
        }
        if (shape == "name") {
            for (size = 32; size < bytes; size += 16) printf "a_long_name_part"
            printf " = \"x\"\n"
        }
    }'
}

# fill FOLDER SHAPE BYTES makes a project of 16 such recipes
fill() {
    rm -rf "$1" && mkdir -p "$1/recipes"
    for number in 1 2 3 4 5 6 7 8 9 10 11 12 13 14 15 16; do
        make "$2" "$3" >"$1/recipes/r${number}_1.0.bb"
    done
}

mkdir "$scratch/empty"
empty=$(best 9 "$scratch/empty" "$program" -p)
for shape in bodies assignments joined quotes name; do
    fill "$scratch/large" "$shape" 1048576
    fill "$scratch/small" "$shape" 102400
    large=$(best 9 "$scratch/large" "$program" -p)
    small=$(best 9 "$scratch/small" "$program" -p)
    bytes=$(cat "$scratch"/large/recipes/* | wc -c)
    awk -v shape="$shape" -v empty="$empty" -v large="$large" -v small="$small" -v bytes="$bytes" 'BEGIN {
        printf "%-12s %7.1f MB a second, %5.1f times the time of 100 KiB\n", shape, bytes / 1000 / (large - empty), (large - empty) / (small > empty ? small - empty : 1)
    }'
    aim "$shape" 'v4 / 1000 / (v3 - v1) >= 20 && v3 - v1 <= 18 * (v2 - v1)' "$empty" "$small" "$large" "$bytes"
done
finish
