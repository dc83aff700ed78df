# Real software: a distribution in C, and software that holds the path of its place. A part of tests/program.sh, which has the functions.

# A distribution in C, built by one thread and by eight; what an edit starts.
built_distribution='== report ==
3 words
A WELL-KNOWN TEXT!'
# Counts a case: a run of the image is Ok, starts just these tasks, and its programs print this.
starts() {
    runs "$bitbake" image
    sed -n 's/^started //p' "$room/text" | LC_ALL=C sort >"$room/told"
    printf '%s\n' $3 | sed '/^$/d' | LC_ALL=C sort >"$room/wanted"
    if ! cmp -s "$room/wanted" "$room/told"; then
        cat "$room/text"
    fi
    holds "$1" test "$status" -eq 0 -a "$(cat "$room/told")" = "$(cat "$room/wanted")"
    holds "$1, what it prints" test "$(cat build/work/image/do_build/report.txt)" = "$2"
}
# Counts a case: build/why says just this of the tasks whose reason isn't another task's output.
because() {
    grep -v -e ' gives another output$' -e '^    ' build/why | LC_ALL=C sort >"$room/told"
    printf '%s\n' "$2" >"$room/wanted"
    holds "why: $1" sh -c 'cmp -s "$1" "$2" || { cat "$2"; false; }' sh "$room/wanted" "$room/told"
}
tasks_of() {
    recipe=$1
    shift
    printf " $recipe:do_%s" "$@"
}
if command -v cc >/dev/null 2>&1 && command -v ar >/dev/null 2>&1 && command -v make >/dev/null 2>&1 && command -v tar >/dev/null 2>&1; then
    all=$(for recipe in banner image shout text wordcount; do tasks_of "$recipe" unpack configure compile install sysroot; done)
    for threads in 1 8; do
        cp -R "$top/examples/c_distribution" "$room/distribution-$threads" && cd "$room/distribution-$threads" && rm -rf build || exit 1
        printf 'BB_NUMBER_THREADS = "%s"\n' "$threads" >>conf/bblayers.conf
        starts "a distribution by $threads threads" "$built_distribution" "$all image:do_build"
        holds "its plan, $threads threads" test "$(head -n 1 "$room/text")" = "plan 26 tasks, $threads threads"
    done
    holds "one thread and eight leave the same files" diff -r "$room/distribution-1/build/work" build/work
    starts "a distribution without an edit" "$built_distribution" ''
    sed -i 's/^# .*/# other words/' meta-base/classes/base.bbclass meta-base/recipes-libs/text/text_1.0.bb
    starts "comments of metadata" "$built_distribution" ''
    sed -i 's|^/\* .* \*/$|/* other words */|' meta-product/recipes-tools/shout/shout.c
    starts "a comment of a source" "$built_distribution" "$(tasks_of shout unpack configure compile install sysroot)"
    because "a comment of a source" 'shout:do_unpack: shout.c changed'
    sed -i 's/HYPHENS=1/HYPHENS=2/' meta-product/recipes-libs/text/text_%.bbappend
    starts "a flag that changes no program" "$built_distribution" "$(tasks_of text configure compile install sysroot)"
    because "a flag in an append" 'text:do_configure: CFLAGS changed, as below'
    holds "and which" grep -q '^    + .*HYPHENS=2' build/why
    sed -i 's/HYPHENS=2/HYPHENS=0/' meta-product/recipes-libs/text/text_%.bbappend
    above=$(for recipe in shout wordcount image; do tasks_of "$recipe" configure compile install sysroot; done)
    starts "a flag that changes a library" '== report ==
4 words
A WELL-KNOWN TEXT!' "$(tasks_of text configure compile install sysroot) $above image:do_build"
    sed -i 's/HYPHENS=0/HYPHENS=2/' meta-product/recipes-libs/text/text_%.bbappend
    starts "the flag as it was" "$built_distribution" image:do_build
    holds "the rest is restored" grep -qx 'restored image:do_sysroot' "$room/text"
    printf 'FEATURES = "hyphens network"\n' >>conf/bblayers.conf
    starts "a feature that nobody asks for" "$built_distribution" ''
    sed -i '/^FEATURES/s/hyphens //' conf/bblayers.conf
    starts "a feature that one recipe asks for" '== report ==
4 words
A WELL-KNOWN TEXT!' 'text:do_configure image:do_build'
    holds "it was built with just that before, so it is restored" grep -qx 'restored image:do_sysroot' "$room/text"
    sed -i '/^FEATURES/s/network/hyphens fast/' conf/bblayers.conf
    each=$(for recipe in banner image shout text wordcount; do tasks_of "$recipe" configure compile install sysroot; done)
    starts "a feature that a class asks for" "$built_distribution" "$each image:do_build"
    because "a feature that a class asks for" 'banner:do_configure: @FEATURES fast: "" -> "fast"
text:do_configure: @FEATURES fast: "" -> "fast"; @FEATURES hyphens: "" -> "hyphens"'
    sed -i '/^FEATURES/d' conf/bblayers.conf
    starts "the features as they were" "$built_distribution" image:do_build
    (cd meta-base/recipes-libs/text && tar -xf text-1.0.tar && sed -i 's/toupper/tolower/' text-1.0/text.c && tar -cf text-1.0.tar text-1.0 && rm -r text-1.0) || exit 1
    starts "a source in an archive" '== report ==
3 words
a well-known text!' "$(tasks_of text unpack configure compile install sysroot) $above image:do_build"
    because "a source in an archive" 'text:do_unpack: text-1.0.tar changed'
    sed -i 's/-Wall/-Wall -O3/' meta-base/conf/*.conf meta-base/classes/*
    runs "$bitbake" image
    holds "why: a flag that all read" grep -q '^banner:do_configure: .*CFLAGS: "-O1 -Wall.*" -> "-O1 -Wall -O3' build/why
    holds "what an earlier run gave in between counts" grep -q '^banner:do_configure: @FEATURES fast: "fast" -> ""' build/why
    rm -r build/work/image/do_build
    runs "$bitbake" image
    because "an output that was removed" 'image:do_build: its output is gone, or was changed by hand'
    rm -r build/work/image build/obj
    runs "$bitbake" image
    holds "objects that were removed" grep -q '^image:do_sysroot: its output is gone, or was changed by hand$' build/why
    # Images for two machines by one run, with one thread and with eight; an edit of what one of them reads.
    for threads in 1 8; do
        cp -R "$top/examples/c_distribution" "$room/machines-$threads" && cd "$room/machines-$threads" && rm -rf build || exit 1
        printf 'BB_NUMBER_THREADS = "%s"\n' "$threads" >>conf/bblayers.conf
        runs "$bitbake" mc:desk:image mc:panel:image
        holds "two machines by $threads threads" test "$status" -eq 0 -a "$(grep -e '^mc ' -e '^plan ' -e '^ok ' "$room/text")" = "mc desk
plan 26 tasks, $threads threads
ok 0 found, 0 restored, 26 started
mc panel
plan 26 tasks, $threads threads
ok 0 found, 0 restored, 26 started"
        holds "the one machine's image, $threads threads" test "$(cat build/mc/desk/work/image/do_build/report.txt)" = '== desk ==
3 words
A WELL-KNOWN TEXT!'
        holds "the other one's, $threads threads" test "$(cat build/mc/panel/work/image/do_build/report.txt)" = '== panel ==
4 words
A WELL-KNOWN TEXT!'
        holds "flags of one machine, $threads threads" grep -q -e '-Os' build/log/mc/panel/text/do_compile
        holds "flags of the other one, $threads threads" grep -q -e '-O2' build/log/mc/desk/text/do_compile
        holds "nothing of the default one, $threads threads" test ! -e build/rec2 -a ! -e build/work -a ! -e build/log/text
    done
    holds "one thread and eight leave the same files of both machines" diff -r -x rec2 -x stamp -x why -x trace.json "$room/machines-1/build/mc" build/mc
    sed -i 's/-Os/-Os -DPANEL/' conf/multiconfig/panel.conf
    runs "$bitbake" mc:desk:image mc:panel:image
    sed '/^mc panel$/,$d' "$room/text" >"$room/told"
    holds "an edit of what one machine reads starts nothing in the other" test "$status" -eq 0 -a "$(cat "$room/told")" = "mc desk
plan 26 tasks, 8 threads
found image:do_build
ok 1 found, 0 restored, 0 started"
    each=$(for recipe in banner image shout text wordcount; do tasks_of "$recipe" configure compile install sysroot; done)
    holds "and just what reads it there" test "$(sed -n 's/^started //p' "$room/text" | LC_ALL=C sort)" = "$(printf '%s\n' $each | LC_ALL=C sort)"
    holds "why: flags of one machine" grep -q '^banner:do_configure: CFLAGS: "-Os -Wall' build/mc/panel/why
    holds "and nothing of the other one" test ! -s build/mc/desk/why
    runs "$bitbake" image mc:panel:image
    holds "the machine that is here beside one of them" test "$status" -eq 0 -a "$(cat build/work/image/do_build/report.txt)" = "$built_distribution"
else
    echo "skipped the distribution in C: there is no cc, ar, make or tar"
fi

# Software that holds the path of its place: built over several tasks, the same on each bench, and found in a moved copy of the project.
if command -v cc >/dev/null 2>&1 && command -v make >/dev/null 2>&1; then
    cp -R "$top/examples/configured" "$room/configured" && cd "$room/configured" && rm -rf build || exit 1
    targets=greet
    if command -v cmake >/dev/null 2>&1; then
        targets='greet answer'
    else
        rm -r recipes/answer
        echo "skipped software that CMake builds: there is no cmake"
    fi
    # (targets are split on purpose)
    runs "$bitbake" $targets
    holds "configured software" test "$status" -eq 0 -a "$(tail -n 1 "$room/text")" = "ok 0 found, 0 restored, $(($(echo $targets | wc -w) * 5)) started"
    if [ -s "$room/no_sandbox" ]; then
        echo "skipped moved copies of configured software: no sandbox can be made here"
    else
        holds "it knows its place" test "$(build/work/greet/do_install/image/usr/bin/greet)" = 'hello from /bitbake/work/build'
        mkdir "$room/elsewhere" && cp -R "$room/configured" "$room/elsewhere/moved" && cd "$room/elsewhere/moved" || exit 1
        runs "$bitbake" $targets
        holds "it is found in a moved copy" grep -qx "ok $(echo $targets | wc -w) found, 0 restored, 0 started" "$room/text"
        printf '/* more */\n' >>recipes/greet/greet.c
        runs "$bitbake" greet
        holds "and built on there" test "$status" -eq 0 -a "$(build/work/greet/do_install/image/usr/bin/greet)" = 'hello from /bitbake/work/build'
    fi
    for number in 1 2 3 4 5 6 7 8 9 10 11 12 13 14 15 16; do
        sed "s|\${THISDIR}|recipes/greet|g" recipes/greet/greet_1.0.bb >"recipes/greet/greet$number.bb"
    done
    all=$(seq -f 'greet%.0f' 16)
    for task in configure compile install; do
        runs "$bitbake" $all -c $task
        for _ in 1 2 3 4 5 6 7 8 9 10; do
            runs "$bitbake" -f $all -c $task
            holds "sixteen that are forced give the same, $task" test "$status" -eq 0
        done
    done
else
    echo "skipped configured software: there is no cc or make"
fi
