# Clearings of the store. A part of tests/program.sh, which has the functions.

usage_text='usage: bitbake [-c TASK] [-f] [-k] [-n] [-e] [-s] [-p] [--no-setscene] [--sample N] [--clean N] [TARGET..]'

# What the records, keys and objects of the store here take, in bytes of files.
kept_bytes() {
    find build/rec2 build/key build/obj -type f -printf '%s\n' 2>/dev/null | awk '{ n += $1 } END { print n + 0 }'
}

# How many records there are.
records_here() {
    find build/rec2 -type f 2>/dev/null | wc -l
}

# What standard error said of a clearing.
cleared_so() {
    sed -n 's/^bitbake: clean: //p' "$room/said"
}

# A store that isn't there.
project cleared
recipe hello 'echo hello > hello.txt'
runs "$bitbake" --clean 0
wants "a store that isn't there" 0 'cleaned: 0 kept, 0 gone'
runs "$bitbake" -n --clean 0 hello
wants "a store that isn't there, of which nothing would go" 0 'would clean: 0 kept, 0 gone'

# An object, an edit, and what goes: the words beside the numbers, the bytes of the files, and what stands then.
printf 'BB_NUMBER_THREADS = "1"\nSSTATETASKS = "do_build"\n' >conf.new && mkdir -p conf && mv conf.new conf/bitbake.conf
runs "$bitbake" hello
recipe hello 'echo hello, > hello.txt'
runs "$bitbake" hello
holds "two records" test "$(records_here)" -eq 2
before=$(kept_bytes)
all_of . >"$room/before"
runs "$bitbake" -n --clean 0 hello
wants "what would go" 0 'would clean: 1 kept, 1 gone'
would=$(cleared_so)
all_of . >"$room/after"
holds "it is looked at, and nothing is touched" cmp -s "$room/before" "$room/after"
runs "$bitbake" --clean 0 hello
wants "what nothing needs goes" 0 'cleaned: 1 kept, 1 gone'
freed=$((before - $(kept_bytes)))
holds "how many bytes that are is said: $(cleared_so)" test "$(cleared_so)" = "$freed bytes are free that files had: 1 objects and 1 keys went, and what names them"
holds "and was said before: $would" test "$would" = "$freed bytes would be free that files have: 1 objects and 1 keys would go, and what names them"
holds "one record, key and object" test "$(records_here) $(find build/key -type f | wc -l) $(find build/obj -mindepth 1 -maxdepth 1 | wc -l)" = '1 1 1'
holds "nothing under tmp" test -z "$(find build/tmp -not -type d 2>/dev/null)"
runs "$bitbake" hello
wants "the rest is found" 0 "plan 1 tasks, 1 threads
found hello:do_build
ok 1 found, 0 restored, 0 started"
recipe hello 'echo hello > hello.txt'
runs "$bitbake" hello
wants "what went is made anew" 0 "plan 1 tasks, 1 threads
started hello:do_build
ended hello:do_build
ok 0 found, 0 restored, 1 started"

# Work folders of tasks that no recipe has any more are named, with the command that removes them; odd names are quoted.
recipe gone 'echo gone > gone.txt'
runs "$bitbake" hello gone
holds "two recipes" test "$status" -eq 0
rm recipes/gone.bb
mkdir -p build/work/hello/do_other "build/work/it's" || exit 1
runs "$bitbake" --clean 0 hello
wants "records of a recipe that is gone" 0 'cleaned: 1 kept, 2 gone'
command=$(sed -n 's/^bitbake: clean: these are of tasks that no recipe has any more; this removes them: //p' "$room/said")
holds "the command is $command" test "$command" = "rm -r build/work/gone build/work/hello/do_other 'build/work/it'\\''s'"
sh -c "$command"
holds "it removes them" test "$(ls build/work) $(ls build/work/hello)" = 'hello do_build'
runs "$bitbake" --clean 0 hello
holds "then nothing is named" test "$status" -eq 0 -a "$(cleared_so | grep -c rm)" -eq 0
runs "$bitbake" hello
holds "and all is found" test "$(tail -n 1 "$room/text")" = 'ok 1 found, 0 restored, 0 started'

# An old store is moved before, and what it had of the first format goes; with -n beside it, it isn't.
project cleared-old
recipe hello 'echo hello > hello.txt'
old_store
mkdir -p "build/obj/$old_name" && echo hello >"build/obj/$old_name/hello.txt" || exit 1
all_of . >"$room/before"
runs "$bitbake" -n --clean 0 hello
all_of . >"$room/after"
holds "an old store that is looked at" cmp -s "$room/before" "$room/after"
holds "that it is old is said" grep -q '^bitbake: clean: the store has records of the first format' "$room/said"
moves "$bitbake" --clean 0 hello
wants "an old store is cleared" 0 'cleaned: 1 kept, 0 gone'
holds "nothing of the first format is left" test ! -e build/rec -a ! -e "build/obj/$old_name" -a -f "build/rec2/$new_name" -a -f "build/key/$key_name"
runs "$bitbake" hello
wants "what it had is found" 0 "$found_text"
cd "$room/cleared" || exit 1

# Words, a store that a run holds, and one that can't be changed.
runs "$bitbake" --clean
wants "no number" 2 "$usage_text"
runs "$bitbake" --clean 0 --why hello
wants "no other mode of this kind beside it" 2 "$usage_text"
runs "$bitbake" -q --clean 0 hello
wants "quietly" 0 'cleaned: 1 kept, 0 gone'
if command -v flock >/dev/null 2>&1; then
    flock build/bench/lock sh -c '"$0" --clean 0 hello >"$1" 2>"$2" </dev/null' "$bitbake" "$room/text" "$room/said"
    status=$?
    wants "while a run holds the store" 4 'fault 4 disk'
    flock build/bench/lock sh -c '"$0" -n --clean 0 hello >"$1" 2>"$2" </dev/null' "$bitbake" "$room/text" "$room/said"
    status=$?
    wants "that is only looked at meanwhile" 0 'would clean: 1 kept, 0 gone'
else
    echo "skipped a clearing while a run holds the store: there is no flock"
fi

# A distribution: ten edits, a clearing, a run that starts nothing, and one of an old edit, which starts what it must.
if command -v cc >/dev/null 2>&1 && command -v ar >/dev/null 2>&1 && command -v make >/dev/null 2>&1 && command -v tar >/dev/null 2>&1; then
    cp -R "$top/examples/c_distribution" "$room/cleared-distribution" && cd "$room/cleared-distribution" && rm -rf build || exit 1
    for n in 1 2 3 4 5 6 7 8 9 10; do
        sed -i "s/HYPHENS=[0-9]*/HYPHENS=$n/" "meta-product/recipes-libs/text/text_%.bbappend"
        runs "$bitbake" image
        [ "$status" -eq 0 ] || echo "FAILED edit $n: $(tail -n 1 "$room/text")"
    done
    cp -R build/work/image/do_build "$room/clean-image" && cp -R build "$room/edited" || exit 1
    before=$(records_here)
    runs "$bitbake" --clean 0 image
    holds "a distribution behind ten edits: $(cat "$room/text")" test "$status" -eq 0 -a "$(cat "$room/text")" = "cleaned: $(records_here) kept, $((before - $(records_here))) gone"
    holds "records of its edits went" test "$(records_here)" -lt "$before" -a "$(records_here)" -ge 26
    runs "$bitbake" image
    holds "its image is found" test "$status" -eq 0 -a "$(tail -n 1 "$room/text")" = 'ok 1 found, 0 restored, 0 started'
    runs "$bitbake" --clean 0 image
    holds "a second clearing finds nothing" test "$status" -eq 0 -a "$(cat "$room/text")" = "cleaned: $(records_here) kept, 0 gone"
    sed -i "s/HYPHENS=[0-9]*/HYPHENS=3/" "meta-product/recipes-libs/text/text_%.bbappend"
    runs "$bitbake" image
    holds "an old edit starts what went: $(sed -n 's/^started //p' "$room/text" | tr '\n' ' ')" test "$status" -eq 0 -a \
        "$(sed -n 's/^started //p' "$room/text" | LC_ALL=C sort | tr '\n' ' ')" = 'text:do_compile text:do_configure text:do_install text:do_sysroot '
    holds "and gives the clean files" diff -r "$room/clean-image" build/work/image/do_build
    sed -i "s/HYPHENS=[0-9]*/HYPHENS=10/" "meta-product/recipes-libs/text/text_%.bbappend"

    # A clearing that is killed at any moment leaves a store in which nothing starts that wouldn't have.
    wrong=
    for moment in 1 2 3 4 5 6 7 8 9 10 11 12 13 14 15 16 17 18 19 20 21 22 23 24; do
        rm -rf build && cp -R "$room/edited" build || exit 1
        (timeout -s KILL "$(awk -v moment="$moment" 'BEGIN { printf "%.4f", moment * 0.0025 }')" "$program" --clean 0 image >/dev/null </dev/null; :) 2>/dev/null
        runs "$bitbake" image
        [ "$status" -eq 0 ] && [ "$(tail -n 1 "$room/text")" = 'ok 1 found, 0 restored, 0 started' ] || wrong="$wrong $moment:$(tail -n 1 "$room/text")"
        diff -r "$room/clean-image" build/work/image/do_build >/dev/null || wrong="$wrong $moment:files"
        runs "$bitbake" --clean 0 image
        [ "$status" -eq 0 ] && [ -z "$(find build/tmp -not -type d 2>/dev/null)" ] || wrong="$wrong $moment:$(cat "$room/text")"
    done
    holds "a clearing that is killed:$wrong" test -z "$wrong"
else
    echo "skipped clearings of the distribution in C: there is no cc, ar, make or tar"
fi

# In memory: a clearing that is stopped behind each call of the disk, each with four images of a crash then, and what runs make of it.
stopped=$room/stopped
mkdir "$stopped" && python3 "$top/tests/stopped_clearings.py" "$stopped" 33 || exit 1
if [ -x "$top/crates/cases/out/cases" ]; then
    (cd "$stopped" && "$top/crates/cases/out/cases") >"$room/text" 2>&1
    holds "clearings that are stopped: $(tail -n 1 "$room/text")" test "$(cat "$room/text")" = '136 cases'
else
    echo "FAILED clearings that are stopped: there is no program crates/cases/out/cases"
    failed=$((failed + 1))
fi
