#!/bin/sh
# How the program behaves at the size of a distribution: 2,000 recipes with eight tasks each (16,000 tasks), one of them an image of all others,
# with five classes and 500 lines of configuration; and how each measure grows from 500 recipes. No part of the gate.
#
# Each recipe depends on up to five earlier ones, most of them among the first, as on a C library and on tools; one class in five has its own
# configure and compile. Measured are reading (`-p`), the plan (`-n`), a first run on four threads, a run that finds its image, and runs behind an edit
# of a recipe in the middle, of a class that a fifth of the recipes inherit, and of a line of the configuration that one task of each
# recipe reads: processor time in all (of runs with the scripts' own), by the clock, the most memory, and the tasks that started.
# Asked are, of one quiet core, 3 s and 600 MB for `-n`, and for the run that finds its image at most 1.3 times that time.
# Usage: bench/distribution.sh [RECIPES ..] (500 2000 if left out)
. "$(dirname -- "$0")/head.sh"
built bitbake_cli

# distribution FOLDER RECIPES writes a distribution.
distribution() {
    mkdir -p "$1/conf" "$1/classes" "$1/recipes"
    awk 'BEGIN {
        print "OVERRIDES = \"linux:${MACHINE}:pn-${PN}\"\nMACHINE ?= \"qemu\"\nBB_NUMBER_THREADS = \"4\""
        print "DISTRO_VERSION = \"1.0\"\nCFLAGS = \"-O2 -pipe ${CFLAGS_${MACHINE}}\"\nCFLAGS_qemu = \"-fPIC\""
        print "S = \"${WORKDIR}/${PN}-${PV}\"\nD = \"${WORKDIR}/image\"\nDEPENDS ??= \"\"\nprefix = \"/usr\"\nlibdir = \"${prefix}/lib\""
        for (i = 1; i <= 200; i++) printf "SETTING_%d = \"the value of setting %d for ${MACHINE}\"\n", i, i
        for (i = 1; i <= 150; i++) printf "FEATURE_%d ?= \"${SETTING_%d} ${prefix}\"\n", i, i
        for (i = 1; i <= 139; i++) printf "PACKAGECONFIG_%d:append:qemu = \" option-%d\"\n", i, i
    }' > "$1/conf/bitbake.conf"
    cat > "$1/classes/base.bbclass" <<'END'
addtask unpack
addtask patch after do_unpack
addtask configure after do_patch
addtask compile after do_configure
addtask install after do_compile
addtask sysroot after do_install
addtask package after do_install
addtask build after do_sysroot do_package
do_configure[deptask] = "do_sysroot"
do_unpack[dirs] = "${S}"
do_unpack() {
    echo "source of ${PN} ${PV}" > source.c
    echo "all: source.c" > Makefile
}
do_patch[dirs] = "${S}"
do_patch() {
    echo "patched" >> source.c
}
do_configure[dirs] = "${S}"
do_configure() {
    echo "prefix=${prefix} ${EXTRA_OECONF}" > config.status
}
do_compile[dirs] = "${S}"
do_compile() {
    oe_make all
}
oe_make() {
    echo "$1 ${CFLAGS} ${FEATURE_7}" > program.o
}
do_install[cleandirs] = "${D}"
do_install[dirs] = "${S}"
do_install() {
    mkdir -p "${D}${libdir}"
    cp program.o "${D}${libdir}/${PN}.o"
}
do_sysroot() {
    cp -R "${D}" "${WORKDIR}/sysroot"
}
SSTATETASKS += "do_sysroot do_package"
do_sysroot[sstate-inputdirs] = "${WORKDIR}/sysroot"
do_sysroot[sstate-outputdirs] = "."
do_package() {
    mkdir packages
    echo "${PN} ${PV} ${DISTRO_VERSION} ${FEATURE_3}" > packages/control
    cp "${D}${libdir}/${PN}.o" packages
}
do_package[sstate-inputdirs] = "${WORKDIR}/packages"
do_package[sstate-outputdirs] = "."
do_build[noexec] = "1"
END
    for class in autotools cmake meson image; do
        awk -v name="$class" 'BEGIN {
            for (i = 1; i <= 12; i++) printf "%s_OPTION_%d ?= \"--with-option-%d=${PN} ${SETTING_%d}\"\n", toupper(name), i, i, i
            printf "EXTRA_OECONF = \""
            for (i = 1; i <= 12; i++) printf "${%s_OPTION_%d} ", toupper(name), i
            printf "\"\ndo_configure() {\n    # by %s\n    echo \"${EXTRA_OECONF}\" > config.status\n}\n", name
            printf "do_compile() {\n    for step in one two; do\n        oe_make \"$step\"\n    done\n}\n"
        }' > "$1/classes/$class.bbclass"
    done
    cat >> "$1/classes/image.bbclass" <<'END'
do_build[recrdeptask] = "do_package do_build"
END
    awk -v folder="$1/recipes" -v count="$2" 'BEGIN {
        split("autotools cmake meson", classes)
        for (r = 1; r < count; r++) {
            file = folder "/recipe-" r "_1." r ".bb"
            if (r % 5 > 1) printf "inherit %s\n", classes[r % 5 - 1] > file
            printf "SUMMARY = \"The recipe with number %d\"\nLICENSE = \"MIT\"\nDEPENDS = \"", r > file
            needed = 1 + r % 5
            for (i = 1; i <= needed && r > 1; i++) {
                seed = (r * 7919 + i * 104729) % 1000 / 1000
                printf "%srecipe-%d", (i > 1 ? " " : ""), 1 + int(seed * seed * seed * (r - 1)) > file
            }
            printf "\"\nRDEPENDS:${PN} = \"recipe-%d\"\n", 1 + int(r / 2) % (r > 1 ? r - 1 : 1) > file
            for (i = 1; i <= 12; i++) printf "NAME_%d = \"a value of some words, number %d, for ${PN}\"\n", i, i > file
            printf "CFLAGS:append = \" -DNUMBER=%d\"\nEXTRA_OECONF:append = \" --with-name=${NAME_1}\"\n", r > file
            printf "do_install:append() {\n    echo ${NAME_%d} > \"${D}${libdir}/${PN}.txt\"\n}\n", 1 + r % 12 > file
            close(file)
        }
        file = folder "/image_1.0.bb"
        printf "inherit image\nDEPENDS = \"" > file
        for (r = 1; r < count; r++) printf "recipe-%d ", r > file
        print "\"" > file
    }'
}

# The columns of a line: what is measured, milliseconds of the processor and by the clock, MB, tasks started.
row() {
    printf '%-44s %8s ms %8s ms %6s MB %7s\n' "$@"
}

# measure NAME RUNS COMMAND.. prints a line of the least of so many runs, before each of which `before` is called, and sets `spent_ms` and
# `memory`.
measure() {
    name=$1
    runs=$2
    shift 2
    spent_ms=
    clock_ms=
    memory=0
    while [ "$runs" -gt 0 ]; do
        before
        begun=$(date +%s%N)
        (cd "$room" && /usr/bin/time -o "$scratch/time" -f '%U %S %M' "$@" >"$scratch/text") || { echo "failed: $*" >&2; exit 1; }
        clock=$((($(date +%s%N) - begun) / 1000000))
        spent=$(awk '{ printf "%d", ($1 + $2) * 1000 }' "$scratch/time")
        memory=$(awk '{ printf "%d", $3 / 1024 }' "$scratch/time")
        if [ -z "$spent_ms" ] || [ "$spent" -lt "$spent_ms" ]; then spent_ms=$spent; fi
        if [ -z "$clock_ms" ] || [ "$clock" -lt "$clock_ms" ]; then clock_ms=$clock; fi
        runs=$((runs - 1))
    done
    started=$(grep -c '^started ' "$scratch/text" || true)
    row "$name" "$spent_ms" "$clock_ms" "$memory" "$started"
}

before() { :; }
[ $# -gt 0 ] || set -- 500 2000
command -v /usr/bin/time >/dev/null || { echo "there is no /usr/bin/time" >&2; exit 1; }
printf '%-44s %11s %11s %9s %7s\n' '' processor clock memory started
for count in "$@"; do
    room=$scratch/$count
    distribution "$room" "$count"
    middle=$((count / 2))
    measure "$count recipes: -p" 3 "$program" -p
    measure "$count recipes: -n image" 3 "$program" -n image
    dry=$spent_ms
    plan=$(head -n 1 "$scratch/text")
    if [ "$count" -eq 2000 ]; then
        aim '-n over 2,000 recipes' 'v1 <= 3000' "$dry"
        aim 'memory of -n over 2,000 recipes' 'v1 <= 600' "$memory"
    fi
    measure "$count recipes: a first run ($plan)" 1 "$program" image
    tail -n 1 "$scratch/text"
    measure "$count recipes: found" 3 "$program" image
    [ "$count" -ne 2000 ] || aim 'a run that finds its image' 'v1 <= 1.3 * v2' "$spent_ms" "$dry"
    sed -i "s/-DNUMBER=$middle/-DNUMBER=0/" "$room/recipes/recipe-${middle}_1.$middle.bb"
    measure "$count recipes: an edit of a recipe" 1 "$program" image
    tail -n 1 "$scratch/text"
    sed -i 's/    # by cmake/    # edited, by cmake/' "$room/classes/cmake.bbclass"
    measure "$count recipes: an edit of a class" 1 "$program" image
    tail -n 1 "$scratch/text"
    sed -i 's/^DISTRO_VERSION = .*/DISTRO_VERSION = "1.1"/' "$room/conf/bitbake.conf"
    measure "$count recipes: an edit of the configuration" 1 "$program" image
    tail -n 1 "$scratch/text"
    rm -rf "$room"
done
finish
