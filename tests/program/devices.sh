# What scripts see, and devices that fail: disks, locks, a missing shell, standard output, limits. A part of tests/program.sh, which has the functions.

# Laid files have one time of change, so what an earlier task made isn't made again, in whichever order files are laid.
project times
printf 'do_compile() {\n    echo b > b; echo a > a; mkdir sub; echo c > sub/c\n}\ndo_build() {\n    stat -c %%Y a b sub/c > times; date > made; test made -nt b\n}\naddtask compile\naddtask build after compile\n' >recipes/hello.bb
compiled='plan 2 tasks, 4 threads
started hello:do_compile
ended hello:do_compile
started hello:do_build
ended hello:do_build
ok 0 found, 0 restored, 2 started'
runs "$bitbake" hello
wants "a task over another" 0 "$compiled"
holds "the times of laid files" test "$(cat build/work/hello/do_build/times)" = '946684800
946684800
946684800'
if command -v make >/dev/null 2>&1; then
    printf 'do_compile() {\n    printf "a: b\\n\\tcp b a\\n\\techo made >> made\\n" > Makefile; echo b > b; make\n}\ndo_build() {\n    make\n}\naddtask compile\naddtask build after compile\n' >recipes/hello.bb
    runs "$bitbake" hello
    wants "make in two tasks" 0 "$compiled"
    holds "what was made once isn't made again" test "$(cat build/work/hello/do_build/made)" = made
else
    echo "skipped make in two tasks: there is no make"
fi

project talks
recipe hello 'echo out; echo err >&2; cat; echo "$FOREIGN" > foreign'
runs env FOREIGN=seen "$bitbake" hello
wants "a body that talks" 0 "$done_text"
holds "its output is in the log" test "$(cat build/log/hello/do_build)" = 'out
err'
holds "no variable of the environment" test "$(cat build/work/hello/do_build/foreign)" = ''

project disk
recipe hello 'echo hello > hello.txt'
echo file >build
runs "$bitbake" hello
wants "a file where the disk and the benches should be" 4 "$announced
fault 4 disk"
holds "it says why" grep -q '^bitbake: disk: [a-z]* of build[^ ]*: ' "$room/said"

project turns
recipe hello 'echo >started; sleep 3; echo hello > hello.txt'
"$program" hello >"$room/first" 2>&1 </dev/null &
first=$!
for _ in 1 2 3 4 5 6 7 8 9 10; do
    test -n "$(find build/bench -name started 2>/dev/null)" && break
    sleep 0.2
done
runs "$program" hello
wants "a run beside another" 4 "$announced
fault 4 disk"
holds "it says that another is at work" grep -qx 'bitbake: disk: [a-z]* of build[^ ]*: another run is at work in this folder' "$room/said"
wait "$first"
holds "the other ends well" test $? -eq 0 -a "$(cat build/work/hello/do_build/hello.txt)" = hello
runs "$program" hello
wants "a run behind it" 0 "$found_text"
holds "without a fault nothing is said" test ! -s "$room/said"

project full
recipe hello 'head -c 200000 /dev/zero > hello.txt'
mkdir build
if mount -t tmpfs -o size=64k none build 2>/dev/null; then
    mkdir -p "$room/benches" build/bench && mount --bind "$room/benches" build/bench
    runs "$program" hello
    wants "a full disk" 4 "$plan
broke hello:do_build fault
fault 4 disk"
    holds "it says that it is full" grep -qx 'bitbake: disk: write of build/work/hello/do_build/hello.txt: No space left on device (os error 28)' "$room/said"
    umount build/bench build
else
    echo "skipped a full disk: this user may not mount one"
fi

project shell
recipe hello 'echo hello > hello.txt'
one_worker
runs env PATH=/nowhere "$program" hello
wants "no sh on the path" 5 "plan 1 tasks, 1 threads
started hello:do_build
broke hello:do_build bench
started hello:do_build
broke hello:do_build bench
fault 5 bench"

project silent
recipe hello 'echo hello > hello.txt'
if [ -c /dev/full ]; then
    "$bitbake" hello >/dev/full 2>"$room/text" </dev/null
    status=$?
    holds "standard output full" test "$status" -eq 7
    holds "no run then" test ! -e build/work
else
    echo "skipped standard output full: there is no /dev/full"
fi

{
    sleep 1
    "$bitbake" hello 2>/dev/null
    echo $? >"$room/status"
} </dev/null | :
holds "standard output without a reader" test "$(cat "$room/status")" -eq 7

project limit
recipe hello 'dd if=/dev/zero of=big bs=1048576 count=16'
runs "$bitbake" hello
wants "an output at its limit" 0 "$done_text"
holds "what it has" test "$(wc -c <build/work/hello/do_build/big)" -eq 16777216
recipe hello 'dd if=/dev/zero of=big bs=1048576 count=16; printf x >> big'
runs "$bitbake" hello
wants "an output beyond its limit" 1 "$plan
failed hello:do_build too large
fault 1 failed: hello:do_build"
says "what is said of it" <<'END'
bitbake: hello:do_build failed: its layout or its output is too large
END
holds "what of it is too large" grep -qx 'bitbake: limit: hello:do_build left 16777217 bytes in big, of at most 16777216 in one file' "$room/said"
holds "how it is tried by hand" grep -qx 'bitbake: try: cd build/failed/hello/do_build/work && sh ../script' "$room/said"
holds "what it had" test "$(wc -c <build/failed/hello/do_build/work/big)" -eq 16777217
recipe hello 'i=0; while [ $i -lt 16385 ]; do : > $i; i=$((i + 1)); done'
runs "$bitbake" hello
wants "too many files" 1 "$plan
failed hello:do_build too large
fault 1 failed: hello:do_build"
holds "how many there are" grep -qx 'bitbake: limit: hello:do_build left 16385 files and links, of at most 16384' "$room/said"
recipe hello 'for f in a b; do dd if=/dev/zero of=$f bs=1048576 count=16; done; printf x > c'
runs "$bitbake" hello
holds "how many bytes there are" grep -qx 'bitbake: limit: hello:do_build left 33554433 bytes in 3 files and links, of at most 33554432 in all' "$room/said"
