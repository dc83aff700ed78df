# Stores of the first format of records, which a run brings to the present one. A part of tests/program.sh, which has the functions.

# What a run of the first format left of hello, at `build` or a folder that is named.
old_name=eeeec58cdee951dd9059c6053e2d2dfd10f1a534908f27d6241ec8240ad759e9
new_name=617b1a5b401514b40f0e8ef3e84800e505c347f13fc45cdb203c8b4d93856c5e
key_name=43e50bb16432119eca694814ac2085a3cc481e21c1568579ed352fb3bb91c2cb
old_store() {
    into=${1-build}
    rm -rf "$into" && mkdir -p "$into/rec" "$into/stamp/hello" "$into/work/hello/do_build" || exit 1
    printf '6:bbrec1,92:6:bbsig1,5:hello,8:do_build,1;8:do_build,+27:    echo hello > hello.txt\n,0;1;4:func,1:1,0;0;,1;9:hello.txt,f6;64:%s,64:%s,' \
        5891b5b522d5df086d0ff0b110fbd9d21bb4fc7163af34d08286a2e846f6be03 "$old_name" >"$into/rec/$old_name"
    echo "$old_name" >"$into/stamp/hello/do_build"
    echo hello >"$into/work/hello/do_build/hello.txt"
}

# A run that may move a store. (On a slow disk even a small move may take so long that it says how far it is.)
moves() {
    runs "$@"
    sed -i '/^bitbake: moving the records of the store /d' "$room/text" "$room/said"
}

# Counts cases: the run before found hello, and what it found stands in the present format alone, but for what may stand at `rec` still.
is_moved() {
    wants "$1: it is found" 0 "$found_text"
    holds "$1: nothing is said" test ! -s "$room/said"
    holds "$1: its record, its key and the format" test "$(cd build && find rec2 key format | LC_ALL=C sort | tr '\n' ' ')" = \
        "format key key/$key_name rec2 rec2/$new_name "
    holds "$1: what they hold" test "$(stat -c %s "build/rec2/$new_name" "build/key/$key_name" | tr '\n' ' ')$(cat build/format)" = '267 60 2'
    holds "$1: the stamp and the output" test "$(cat build/stamp/hello/do_build build/work/hello/do_build/hello.txt | tr '\n' ' ')" = "$new_name hello "
    holds "$1: nothing under tmp" test -z "$(find build/tmp -not -type d 2>/dev/null)"
}

# All that stands in a folder, with times of change and bytes.
all_of() {
    (cd "$1" && find . -printf '%y %m %T@ %n %s %p %l\n' | LC_ALL=C sort && find . -type f -exec sha256sum {} + | LC_ALL=C sort)
}

project move
recipe hello 'echo hello > hello.txt'
old_store
moves "$bitbake" hello
is_moved "an old store"
holds "its old records are there until the next run" test -f "build/rec/$old_name"
moves "$bitbake" hello
is_moved "an old store behind a further run"
holds "nothing stands at rec any more" test ! -e build/rec
cp -R build "$room/moved" || exit 1

# What only looks, and words that are refused, touch nothing.
old_store
all_of . >"$room/before"
for words in '-n hello' '--why hello' -p -s '-e hello' '-g hello' --lint --help --version '-n' '' '-f' '--unknown hello' '-c' '--sample hello'; do
    # shellcheck disable=SC2086
    runs "$bitbake" $words
    all_of . >"$room/after"
    holds "an old store behind '$words' is as it was" cmp -s "$room/before" "$room/after"
done
moves "$bitbake" hello none
holds "a target that isn't there" test "$status" -eq 3
moves "$bitbake" hello
is_moved "an old store behind a target that isn't there"

# While another run has the disk nothing is moved, and the answer is that of a present store, but for the line of the plan, which isn't made yet.
if command -v flock >/dev/null; then
    rm -rf build && cp -R "$room/moved" build || exit 1
    mkdir -p build/bench && : >build/bench/lock
    flock build/bench/lock sh -c '"$1" hello >"$2/text_wanted" 2>"$2/said_wanted" </dev/null; echo $? >"$2/status_wanted"' sh "$program" "$room"
    sed -i '/^plan /d' "$room/text_wanted"
    old_store && mkdir build/bench && : >build/bench/lock
    all_of . >"$room/before"
    flock build/bench/lock sh -c '"$1" hello >"$2/text" 2>"$2/said" </dev/null; echo $? >"$2/status"' sh "$program" "$room"
    sed -i '/^plan /d' "$room/text"
    all_of . >"$room/after"
    holds "an old store that another run has: nothing is moved" cmp -s "$room/before" "$room/after"
    for part in text said status; do
        holds "an old store that another run has: the $part" cmp -s "$room/${part}_wanted" "$room/$part"
    done
    moves "$bitbake" hello
    is_moved "an old store that another run had"
else
    echo "skipped an old store that another run has: there is no flock"
fi

# Litter in the places of what a move writes.
for place in key rec2 format tmp "rec2/$new_name" "key/$key_name" "tmp/rec2/$new_name" tmp/format tmp/stamp tmp/stamp/hello/do_build; do
    for kind in file folder link dangling pipe; do
        old_store
        mkdir -p "build/$(dirname "$place")" "$room/outside/inner" && echo outside >"$room/outside/file" && echo outside >"$room/outside/inner/file" || exit 1
        case $kind in
            file) echo litter >"build/$place" ;;
            folder) mkdir -p "build/$place/inner" && echo litter >"build/$place/inner/file" ;;
            link) ln -s "$room/outside" "build/$place" ;;
            dangling) ln -s "$room/nowhere/at/all" "build/$place" ;;
            pipe) mkfifo "build/$place" ;;
        esac
        all_of "$room/outside" >"$room/before"
        moves timeout -k 1 20 "$bitbake" hello
        is_moved "a $kind at $place"
        all_of "$room/outside" >"$room/after"
        holds "a $kind at $place: what stands outside" cmp -s "$room/before" "$room/after"
        holds "a $kind at $place: nothing is made outside" test ! -e "$room/nowhere"
    done
done

# What stands at `rec` and isn't believed is no hindrance.
old_store && cp "build/rec/$old_name" "build/rec/$(printf '%064d' 1)" && mkdir -p build/rec/deep/er || exit 1
echo litter >build/rec/litter && echo litter >build/rec/deep/er/x || exit 1
moves "$bitbake" hello
is_moved "a record of another name, and litter"
moves "$bitbake" hello
holds "they are gone behind a further run" test ! -e build/rec
old_store && mkdir -p build/rec/empty && mkfifo build/rec/pipe || exit 1
for time in first second third; do
    moves timeout -k 1 20 "$bitbake" hello
    is_moved "a pipe and an empty folder among old records, the $time run"
done
holds "a pipe and an empty folder are no entries, so they stay" test -p build/rec/pipe -a -d build/rec/empty -a ! -e "build/rec/$old_name"
for kind in file link pipe dangling; do
    old_store && mv build/rec "$room/records" || exit 1
    case $kind in
        file) echo litter >build/rec ;;
        link) ln -s "$room/records" build/rec ;;
        pipe) mkfifo build/rec ;;
        dangling) ln -s "$room/nowhere/at/all" build/rec ;;
    esac
    all_of "$room/records" >"$room/before"
    moves timeout -k 1 20 "$bitbake" hello
    wants "a $kind at rec: the task runs" 0 "$done_text"
    holds "a $kind at rec: the format" test "$(cat build/format)" = 2
    moves timeout -k 1 20 "$bitbake" hello
    wants "a $kind at rec: it is found" 0 "$found_text"
    [ "$kind" = pipe ] || holds "a $kind at rec: it is gone" test ! -e build/rec -a ! -h build/rec
    all_of "$room/records" >"$room/after"
    holds "a $kind at rec: what stands outside" cmp -s "$room/before" "$room/after"
    rm -rf "$room/records"
done

# A full disk: the run ends with status 4, and with more room the next one finds it all. How far the move comes goes by the room.
old_store
mkdir "$room/old_benches" && mv build "$room/old_store" && mkdir build || exit 1
if mount -t tmpfs -o size=1m none build 2>/dev/null; then
    for size in 12 16 20 24 28 32; do
        mount -o remount,size=1m build && rm -rf build/* && cp -R "$room/old_store/." build || exit 1
        mkdir build/bench && mount --bind "$room/old_benches" build/bench || exit 1
        mount -o "remount,size=${size}k" build
        moves "$bitbake" hello
        mount -o remount,size=1m build
        if [ "$status" -ne 0 ]; then
            holds "a full disk of $size KiB: status 4" test "$status $(grep -v '^bitbake' "$room/text" | tail -n 1)" = '4 fault 4 disk'
            holds "a full disk of $size KiB: it says so" grep -q '^bitbake: disk: .*: No space left on device (os error 28)' "$room/said"
        fi
        [ "$size" -ne 12 ] || holds "a disk without any room" test "$status" -eq 4
        moves "$bitbake" hello
        is_moved "an old store on a disk of $size KiB that was full"
        umount build/bench
    done
    umount build
else
    echo "skipped an old store on a full disk: this user may not mount one"
fi

# A folder of another user's: the run ends with status 4, and once it is gone the next one finds it all.
if [ "$(id -u)" -eq 0 ] && setpriv --reuid=65534 --regid=65534 --clear-groups true 2>/dev/null; then
    as_nobody='setpriv --reuid=65534 --regid=65534 --clear-groups'
    chmod 711 "$room" && cp -- "$program" "$room/for_nobody" && chmod 755 "$room/for_nobody" || exit 1
    for place in rec2 key tmp tmp/rec2 tmp/stamp rec; do
        old_store && mkdir -p "build/$place" && chown -R 65534:65534 . && chown 0:0 "build/$place" && chmod 755 "build/$place" || exit 1
        [ "$place" != rec ] || chmod 700 build/rec
        # shellcheck disable=SC2086
        moves $as_nobody "$room/for_nobody" hello
        holds "a folder at $place of another user's: status 4" test "$status $(tail -n 1 "$room/text")" = '4 fault 4 disk'
        holds "a folder at $place of another user's: it says so" grep -q '^bitbake: disk: .*: Permission denied' "$room/said"
        chown 65534:65534 "build/$place"
        # shellcheck disable=SC2086
        moves $as_nobody "$room/for_nobody" hello
        is_moved "a folder at $place that was another user's"
    done
    chown -R 0:0 .
else
    echo "skipped folders of another user's at an old store: no user whom rights bind"
fi

# Stores of configurations: one is moved where words name it, and left alone else.
mkdir -p conf/multiconfig && echo 'BBMULTICONFIG = "a b"' >conf/bitbake.conf && : >conf/multiconfig/a.conf && : >conf/multiconfig/b.conf || exit 1
rm -rf build && mkdir build && old_store build/mc/a && old_store build/mc/b || exit 1
all_of build/mc/a >"$room/before_a"
all_of build/mc/b >"$room/before"
moves "$bitbake" hello
all_of build/mc/a >"$room/after"
holds "a run of the default configuration leaves the others alone" cmp -s "$room/before_a" "$room/after"
moves "$bitbake" mc:a:hello
wants "the old store of a configuration" 0 "mc a
$found_text"
holds "it is moved" test "$(cat build/mc/a/format)" = 2 -a -f "build/mc/a/rec2/$new_name" -a -f "build/mc/a/key/$key_name"
all_of build/mc/b >"$room/after"
holds "that of another one is left alone" cmp -s "$room/before" "$room/after"
moves "$bitbake" mc:a:hello mc:b:hello
wants "both" 0 "mc a
$found_text
mc b
$found_text"
holds "both are moved" test "$(cat build/mc/b/format)" = 2 -a -f "build/mc/b/rec2/$new_name" -a -f "build/mc/b/rec/$old_name" -a ! -e build/mc/a/rec
rm -r conf build

# Larger old stores whose move is killed at any moment: chains of recipes that need one another, as runs of the first format left them. The next run finds all.
cat >"$room/chains.py" <<'END'
"""Writes a project of 10 chains of four recipes and a store of the first format that holds all of it."""
import hashlib
import os


def field(text):
    return b"%d:%s," % (len(text), text)


def write(path, text):
    os.makedirs(os.path.dirname(path), exist_ok=True)
    with open(path, "wb") as file:
        file.write(text)


for chain in range(10):
    below = None
    for depth in range(4):
        pn = b"c%d-%d" % (chain, depth)
        body = b"    echo %s > out.txt\n" % pn
        recipe = b"do_build() {\n%s}\naddtask build\n" % body
        needs = b"0;"
        if below:
            recipe += b'DEPENDS = "%s"\ndo_build[deptask] = "do_build"\n' % below[0]
            needs = b"1;" + field(below[0]) + field(b"do_build") + field(below[1])
        write("recipes/%s.bb" % pn.decode(), recipe)
        key = b"1;" + field(b"do_build") + b"+" + field(body) + b"0;1;" + field(b"func") + field(b"1")
        sig = field(b"bbsig1") + field(pn) + field(b"do_build") + key + b"0;" + needs
        name = hashlib.sha256(sig).hexdigest().encode()
        output = b"%s\n" % pn
        manifest = b"1;" + field(b"out.txt") + b"f%d;" % len(output) + field(hashlib.sha256(output).hexdigest().encode())
        write("build/rec/%s" % name.decode(), field(b"bbrec1") + field(sig) + manifest + field(name))
        write("build/stamp/%s/do_build" % pn.decode(), name + b"\n")
        write("build/work/%s/do_build/out.txt" % pn.decode(), output)
        below = (pn, name)
END
mkdir "$room/chains" && cd "$room/chains" && python3 "$room/chains.py" && mv build "$room/old_chains" && cp -R "$room/old_chains" build || exit 1
tops='c0-3 c1-3 c2-3 c3-3 c4-3 c5-3 c6-3 c7-3 c8-3 c9-3'
found_all="plan 40 tasks, 4 threads
$(for top_of in $tops; do echo "found $top_of:do_build"; done)
ok 10 found, 0 restored, 0 started"
begun=$(date +%s%N)
# shellcheck disable=SC2086
moves "$bitbake" $tops
took=$((($(date +%s%N) - begun) / 1000000))
wants "an old store of 40 records" 0 "$found_all"
holds "its records and keys" test "$(find build/rec2 -type f | wc -l) $(find build/key -type f | wc -l)" = '40 40'
# A run behind a killed one. Where that one is still on its way out, which the lock tells, it is tried again.
behind_move() {
    for _ in 1 2 3 4 5 6 7 8 9 10; do
        # shellcheck disable=SC2086
        "$program" $tops >"$room/text" 2>"$room/said" </dev/null && sed -i '/^bitbake: moving the records of the store /d' "$room/said" && return 0
        grep -q -e 'another run is at work' -e 'is still at work' "$room/said" || return 1
        sleep 0.1
    done
    return 1
}
wrong=
moment=0
while [ "$moment" -lt 30 ]; do
    moment=$((moment + 1))
    rm -rf build && cp -R "$room/old_chains" build || exit 1
    for part in 1 2; do
        after=$(awk -v took="$took" -v moment="$moment" -v part="$part" 'BEGIN { printf "%.4f", took * moment / 30000 / part }')
        # shellcheck disable=SC2086
        (timeout -s KILL "$after" "$program" $tops >/dev/null 2>&1 </dev/null; :) 2>/dev/null
    done
    behind_move && test "$(cat "$room/text")" = "$found_all" && test ! -s "$room/said" && diff -r "$room/old_chains/work" build/work >/dev/null &&
        test "$(cat build/format) $(find build/rec2 -type f | wc -l) $(find build/key -type f | wc -l)" = '2 40 40' || wrong="$wrong $moment"
done
holds "moves that are killed, at the moments$wrong" test -z "$wrong"
