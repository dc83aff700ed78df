# Runs that are killed at any moment. A part of tests/program.sh, which has the functions.

# Kills: a run that is killed at any moment leaves a store in which the next run is Ok with the clean files, and starts nothing that had
# ended. Fifty moments of a first run, and fifty of a run behind an edit.
cp -R "$top/examples/library_and_application" "$room/killed" && rm -rf "$room/killed/build" || exit 1
cd "$room/killed" || exit 1

# A run behind a killed one. Where that one or its script is still on its way out, which the locks tell, it is tried again.
behind() {
    for _ in 1 2 3 4 5 6 7 8 9 10; do
        "$program" app >"$room/text" 2>"$room/said" </dev/null && return 0
        grep -q -e 'another run is at work' -e 'is still at work' "$room/said" || return 1
        sleep 0.1
    done
    return 1
}

# Counts a case: of the project here with this store, a run killed at each of fifty moments, each time from that store, and a run behind it.
kills() {
    begun=$(date +%s%N)
    rm -rf build && cp -R "$2" build || exit 1
    "$program" app >"$room/text" 2>"$room/said" </dev/null || { echo "FAILED $1: the run that isn't killed"; failed=$((failed + 1)); }
    took=$((($(date +%s%N) - begun) / 1000000))
    rm -rf "$room/clean" && cp -R build/work/app/do_build "$room/clean" || exit 1
    wrong=
    moment=0
    while [ "$moment" -lt 50 ]; do
        moment=$((moment + 1))
        rm -rf build && cp -R "$2" build || exit 1
        after=$(awk -v took="$took" -v moment="$moment" 'BEGIN { printf "%.4f", took * moment / 50000 }')
        (timeout -s KILL "$after" "$program" app >"$room/first" </dev/null; :) 2>/dev/null
        behind || wrong="$wrong $moment:status"
        diff -r "$room/clean" build/work/app/do_build >/dev/null || wrong="$wrong $moment:files"
        sed -n 's/^ended //p' "$room/first" | while read -r task; do grep -qx "started $task" "$room/text" && echo "$task"; done >"$room/again"
        [ ! -s "$room/again" ] || wrong="$wrong $moment:$(head -n 1 "$room/again")"
    done
    if [ -z "$wrong" ]; then
        passed=$((passed + 1))
    else
        echo "FAILED $1: at the moments$wrong"
        failed=$((failed + 1))
    fi
}
mkdir "$room/nothing" || exit 1
kills "a first run that is killed" "$room/nothing"
rm -rf build && "$program" app >/dev/null 2>&1 </dev/null && cp -R build "$room/built" || exit 1
sed -i 's/hello/goodbye/' meta/recipes-core/greet/greet_1.2.bb
kills "a run behind an edit that is killed" "$room/built"

# The same with many tasks at once, of which several are published when the run is killed: eight moments with one worker, with four and with
# sixteen. Each recipe gives a folder of the shared state and what it makes of another one's.
project crowded
mkdir -p classes conf
cat >classes/base.bbclass <<'END'
do_install() {
    mkdir image
    for n in 1 2 3 4 5; do echo "$n of ${PN}" > image/$n; done
}
do_build() {
    cat image/* "$DEPSDIR"/*/do_install/image/* > all
}
addtask install
addtask build after do_install
do_build[deptask] = "do_install"
SSTATETASKS = "do_install"
do_install[sstate-inputdirs] = "image"
do_install[sstate-outputdirs] = "image"
END
all=
for n in 1 2 3 4 5 6 7 8 9 10 11 12; do
    all="$all r$n"
    echo "DEPENDS = \"r$((n % 12 + 1))\"" >"recipes/r$n.bb"
done

# A run behind a killed one, and a clean one, of all targets.
behind_all() {
    for _ in 1 2 3 4 5 6 7 8 9 10; do
        # shellcheck disable=SC2086
        "$program" $all >"$room/text" 2>"$room/said" </dev/null && return 0
        grep -q -e 'another run is at work' -e 'is still at work' "$room/said" || return 1
        sleep 0.1
    done
    return 1
}
# shellcheck disable=SC2086
"$program" $all >/dev/null 2>&1 </dev/null && rm -rf "$room/clean" && cp -R build/work "$room/clean" || exit 1
for threads in 1 4 16; do
    echo "BB_NUMBER_THREADS = \"$threads\"" >conf/bitbake.conf
    rm -rf build
    begun=$(date +%s%N)
    behind_all
    took=$((($(date +%s%N) - begun) / 1000000))
    wrong=
    moment=0
    while [ "$moment" -lt 8 ]; do
        moment=$((moment + 1))
        rm -rf build
        after=$(awk -v took="$took" -v moment="$moment" 'BEGIN { printf "%.4f", took * moment / 8500 }')
        # shellcheck disable=SC2086
        (timeout -s KILL "$after" "$program" $all >"$room/first" </dev/null; :) 2>/dev/null
        behind_all || wrong="$wrong $moment:status"
        diff -r "$room/clean" build/work >/dev/null || wrong="$wrong $moment:files"
        sed -n 's/^ended //p' "$room/first" | while read -r task; do grep -qx "started $task" "$room/text" && echo "$task"; done >"$room/again"
        [ ! -s "$room/again" ] || wrong="$wrong $moment:$(head -n 1 "$room/again")"
    done
    holds "many tasks that are killed with $threads threads:$wrong" test -z "$wrong"
done

# A sync that fails, or is killed, while several tasks wait for it: the run ends with status 4 and says what the sync said; nothing that it told as ended
# runs again, and the next run is Ok with the clean files. One process makes all syncs; where the machine has no perl each has a process of its own.
sync=$(readlink -f "$(command -v sync)")
perl=$(readlink -f "$(PATH=/usr/sbin:/usr/bin:/sbin:/bin command -v perl || echo /dev/null)")

# failing NAME END SAID MOUNTS NTH: a run of all targets in which these programs stand in the place of others, `PROGRAM NAME` for each, and the sync of this
# number ends so.
failing() {
    rm -rf build "$room/syncs"
    # shellcheck disable=SC2016,SC2086
    unshare -rm sh -c 'while [ "$1" != -- ]; do mount --bind "$1" "$2" || exit 99; shift 2; done; shift; exec "$@"' sh $4 -- "$program" $all \
        >"$room/first" 2>"$room/said" </dev/null
    status=$?
    if [ "$(cat "$room/syncs" 2>/dev/null | grep -c "")" -lt "$5" ]; then
        echo "skipped syncs that fail ($1): a file is durable at once here, so nobody waits for one"
        return
    fi
    holds "$1: status 4 ($2)" test "$status" -eq 4 -a "$(tail -n 1 "$room/first")" = "fault 4 disk"
    holds "$1: what it said ($2)" grep -q "^bitbake: disk: sync of build: $3" "$room/said"
    holds "$1: the next run ($2)" behind_all
    holds "$1: the clean files ($2)" diff -r "$room/clean" build/work
    sed -n 's/^ended //p' "$room/first" | while read -r task; do grep -qx "started $task" "$room/text" && echo "$task"; done >"$room/again"
    holds "$1: nothing runs again ($2)" test ! -s "$room/again"
}
if [ "$(stat -f -c %T .)" = tmpfs ]; then
    echo "skipped syncs that fail: in memory nobody waits for one"
elif ! unshare -rm true 2>/dev/null; then
    echo "skipped syncs that fail: no other program can be put in the place of sync here"
else
    cp -- "$sync" "$room/sync" || exit 1
    without_perl=
    [ "$perl" = /dev/null ] || without_perl="/dev/null $perl"
    # $1 is what stands in place of the sync whose number is $2.
    each() {
        printf '#!/bin/sh\necho >>"%s"\nif [ "$(grep -c "" "%s")" -eq %s ]; then %s; fi\nexec "%s" "$@"\n' "$room/syncs" "$room/syncs" "$2" "$1" "$room/sync" >"$room/failing"
        chmod +x "$room/failing"
    }
    one() {
        printf '#!/bin/sh\nwhile read -r _; do echo >>"%s"; if [ "$(grep -c "" "%s")" -eq %s ]; then %s; else "%s" -f "$3" && echo; fi; done\n' "$room/syncs" "$room/syncs" "$2" "$1" "$room/sync" >"$room/syncer"
        chmod +x "$room/syncer"
    }
    each 'echo "sync: no more" >&2; exit 1' 6
    failing "a sync that fails" "status 1" "sync -f failed: sync: no more" "$without_perl $room/failing $sync" 6
    # shellcheck disable=SC2016
    each 'kill -9 $$' 6
    failing "a sync that fails" "killed" "sync -f failed" "$without_perl $room/failing $sync" 6
    if [ "$perl" != /dev/null ]; then
        one 'echo no more' 6
        failing "a sync of the one process that fails" "no more" "syncfs failed: no more" "$room/syncer $perl" 6
        # shellcheck disable=SC2016
        one 'kill -9 $$' 6
        failing "a sync of the one process that fails" "killed" "the process that syncs has ended" "$room/syncer $perl" 6
        one 'echo no more' 1
        failing "a first sync of the one process that fails" "no more" "syncfs failed: no more" "$room/syncer $perl" 1
    else
        echo "skipped syncs of one process: perl isn't installed"
    fi
fi
