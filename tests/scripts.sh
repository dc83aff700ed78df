#!/bin/sh
# What a task's script may leave behind, where it stands, and what the locks of a run and of a bench are: runs the program on real folders.
#
# Usage: tests/scripts.sh PROGRAM [--plain]
# With --plain no sandbox can be made. Skips what a missing tool would show.
# The last line is 'N passed, M failed'; the status is 0 where M is 0.
program=${1:?usage: tests/scripts.sh PROGRAM [--plain]}
case $program in /*) ;; *) program=$(pwd -P)/$program ;; esac
passed=0
failed=0
room=$(mktemp -d) || exit 1
trap 'chmod -R u+rwX "$room" 2>/dev/null; rm -rf -- "$room"' EXIT
trap 'exit 1' HUP INT TERM

# With --plain the program may make no mount namespace, as some systems have it.
if [ "${2-}" = --plain ]; then
    cat >"$room/plain" <<END
#!/bin/sh
exec unshare --user --map-root-user sh -c 'echo 0 >/proc/sys/user/max_mnt_namespaces && exec "\$@"' sh "$program" "\$@"
END
    chmod +x "$room/plain"
    if ! unshare --user --map-root-user sh -c 'echo 0 >/proc/sys/user/max_mnt_namespaces' 2>/dev/null; then
        echo "skipped scripts without sandboxes: this user may not forbid them"
        echo "0 passed, 0 failed"
        exit 0
    fi
    program=$room/plain
fi

# Makes an empty project, with one thread, and goes there.
project() {
    mkdir -p "$room/$1/recipes" "$room/$1/conf" && cd "$room/$1" || exit 1
    printf 'BB_NUMBER_THREADS = "%s"\n' "${2:-1}" >conf/bitbake.conf
}

# Writes a recipe NAME whose task has one body line.
recipe() {
    printf 'do_build() {\n    %s\n}\naddtask build\n' "$2" >"recipes/$1.bb"
}

# Runs the program, with its status in `status` and its texts in `text` and `said`.
runs() {
    timeout 60 "$program" "$@" >"$room/text" 2>"$room/said" </dev/null
    status=$?
}

# Counts a case: the test holds.
holds() {
    name=$1
    shift
    if "$@"; then
        passed=$((passed + 1))
    else
        echo "FAILED $name (status $status): $(cat "$room/text" "$room/said" 2>/dev/null | tail -n 6)"
        failed=$((failed + 1))
    fi
}

# Whether nothing of what was started here with these words lives.
none_lives() {
    ! pgrep -f "$1" >/dev/null
}

# Waits up to five seconds until a file is there.
comes() {
    for _ in $(seq 50); do
        [ -e "$1" ] && return 0
        sleep 0.1
    done
    return 1
}

# Whether this run had sandboxes.
has_sandbox() {
    ! grep -q '^bitbake: sandbox: none can be made here' "$room/said"
}

# One place, whatever the bench and the project's folder.
project place 4
for name in a b c d e f g h; do recipe $name 'pwd > where; echo "$WORKDIR $DEPSDIR $FILESDIR" > places; sleep 0.1'; done
runs -f a b c d e f g h
holds "a place" test "$status" -eq 0
sandbox=no
has_sandbox && sandbox=yes
for _ in 1 2 3; do
    runs -f a b c d e f g h
    holds "outputs that hold their place are the same each time" test "$status" -eq 0
done
if [ $sandbox = yes ]; then
    holds "the place is one for all" test "$(cat build/work/*/do_build/where | sort -u)" = /bitbake/work
    recipe a 'ls -A '"$room"'/place/build > listed; touch '"$room"'/place/build/x && rm '"$room"'/place/build/x; id -u > user; ls / > root'
    runs a
    holds "the folder build isn't there for a script" test "$status" -eq 0 -a ! -s build/work/a/do_build/listed
    holds "the user is the same" test "$(cat build/work/a/do_build/user)" = "$(id -u)"
    holds "nothing else is hidden" test -z "$(ls / | grep -vxFf build/work/a/do_build/root | while read -r name; do [ -d "/$name" ] && echo "$name"; done)"
else
    holds "each task has its place" test "$(cat build/work/a/do_build/where)" = "$room/place/build/bench/at/a/do_build/work"
    holds "it is said once" test "$(grep -c '^bitbake: sandbox: ' "$room/said")" -eq 1
fi

# What a script leaves in the background.
project background
recipe a '(sleep 1; echo late > ${WORKDIR}/late) & echo x > a'
recipe b 'sleep 2; echo b > b'
printf 'DEPENDS = "a"\ndo_build[deptask] = "do_build"\n' >>recipes/b.bb
runs b
holds "nothing of an earlier task comes to a later one's output" test "$status" -eq 0 -a "$(ls build/work/b/do_build)" = b
holds "nor to its own" test "$(ls build/work/a/do_build)" = a
recipe c 'sleep 31.7 <&0 & sleep 31.7 & echo c > c'
runs c
holds "what keeps its input is ended too" none_lives 'sleep 31\.7'
holds "the task is well" test "$status" -eq 0
recipe c 'setsid sleep 31.8 & sleep 0.2; echo c > c'
runs c
holds "a task with a session of its own" test "$status" -eq 0
if [ $sandbox = yes ]; then
    holds "sessions of their own are ended" none_lives 'sleep 31\.8'
else
    holds "what leaves the session keeps the lock" sh -c '! flock -n build/bench/at/c/do_build.lock true 2>/dev/null || [ ! -e build/bench/at/c/do_build.lock ]'
    pkill -f 'sleep 31\.8'
fi
recipe d "trap 'kill 0' EXIT; echo d > d"
runs d
holds "a script that ends its group" test "$status" -eq 1
holds "is told with its status" grep -qx 'failed d:do_build status 143' "$room/text"
recipe e 'if (exec </dev/tty) 2>/dev/null; then echo tty; else echo none; fi > has'
runs e
holds "no script has a terminal" test "$status" -eq 0 -a "$(cat build/work/e/do_build/has)" = none

# Signals to the program end its scripts; the next run isn't stopped by them.
project signals
for signal in TERM INT HUP KILL; do
    recipe a "echo > ${room}/signals/begun; sleep 32.$signal 2>/dev/null || sleep 32.5 & sleep 32.6; echo a > a"
    rm -f begun
    "$program" -f a >"$room/text" 2>"$room/said" </dev/null &
    pid=$!
    comes begun
    kill -$signal $pid
    wait $pid 2>/dev/null
    recipe a 'echo again > a'
    runs a
    holds "a run behind $signal" test "$status" -eq 0 -a "$(cat build/work/a/do_build/a)" = again
    holds "no script lives behind $signal" none_lives 'sleep 32\.[56]'
done

# A bench that is taken away while its script runs.
project gone
recipe a "echo > ${room}/gone/begun; sleep 1.5; echo a > a"
"$program" a >"$room/text" 2>"$room/said" </dev/null &
pid=$!
comes begun
rm -rf build/bench
wait $pid
status=$?
holds "a bench that is gone is a fault of the bench" test "$status" -eq 5
holds "no empty output is recorded" test ! -e build/stamp/a/do_build -o -s build/work/a/do_build/a
recipe a 'echo a > a'
runs a
holds "the next run is well" test "$status" -eq 0 -a "$(cat build/work/a/do_build/a)" = a

# Locks.
project locks
recipe a 'echo a > a'
echo precious >precious && mkdir out && mkdir -p build/bench || exit 1
for name in lock 0.lock 3.lock; do
    for kind in link 'hard link' fifo folder; do
        rm -rf build/stamp "build/bench/$name"
        case $kind in
            link) ln -s ../../precious "build/bench/$name" ;;
            'hard link') ln precious "build/bench/$name" ;;
            fifo) mkfifo "build/bench/$name" ;;
            folder) mkdir "build/bench/$name" ;;
        esac
        runs -f a
        holds "a $kind at $name" test "$status" -eq 0
        holds "a $kind at $name: what it leads to" test "$(cat precious)" = precious
    done
done
echo note >build/bench/lock
runs a
holds "a lock isn't cut" test "$(cat build/bench/lock)" = note
mkdir -p out/hello out/a/do_build out/0 && echo kept >out/hello/do_build && echo kept >out/a/do_build/x && echo kept >out/0/x || exit 1
find out | sort >"$room/before"
for name in log failed at 0 root; do
    rm -rf "build/bench/$name" && ln -s ../../out "build/bench/$name" || exit 1
    runs -f a
    holds "a link at build/bench/$name" test "$status" -eq 0
    rm -f "build/bench/$name" 2>/dev/null
done
rm -rf build/bench && ln -s ../out build/bench || exit 1
runs -f a
holds "a link at build/bench" test "$status" -eq 0
recipe a 'exit 3'
rm -rf build/log build/failed && ln -s ../out build/log && ln -s ../out build/failed || exit 1
runs a
holds "a link where the log goes" test "$status" -eq 1 -a -f build/log/a/do_build
holds "a link where what it had goes" test -f build/failed/a/do_build/script
holds "nothing that links lead to is touched" test "$(find out | sort)" = "$(cat "$room/before")" -a "$(cat out/hello/do_build out/a/do_build/x out/0/x | sort -u)" = kept

# Outputs that can't be kept, or not whole.
project outputs
recipe a 'echo first; touch "$(printf '"'x\\377y'"')"'
runs a
holds "a name that isn't UTF-8 fails the task once" test "$status" -eq 1 -a "$(grep -c '^started' "$room/text")" -eq 1
holds "its name is said" grep -qF "bitbake: x\\xffy can't be kept as output: its name isn't UTF-8" "$room/said"
recipe a 'mkfifo pipe; mkdir empty; echo x > x; ln x y; echo p > p; chmod 4755 p'
runs a
holds "outputs of all kinds" test "$status" -eq 0
holds "the log says what isn't kept" test "$(grep -c '^bitbake: not kept of the output: ' build/log/a/do_build)" -eq 4
recipe a 'd=aaaaaaaaaaaaaaaaaaaaaaaaaaaaaaaaaaaaaaaaaaaaaaaaaaaaaaaaaaaaaaaaaaaaaaaaaaaaaaaa; i=0; while [ $i -lt 60 ]; do mkdir $d; cd $d || exit 9; i=$((i + 1)); done; mkdir z; echo z > z/z; chmod 000 z; chmod 500 .'
runs a
holds "an output deeper than a path can be" test "$status" -eq 1
recipe a 'echo a > a'
runs a
holds "is cleared" test "$status" -eq 0 -a "$(cat build/work/a/do_build/a)" = a

# Standard streams that are closed.
project streams
recipe a 'echo a > a'
runs a
cp build/bench/lock "$room/lock"
timeout 60 "$program" a >&- 2>"$room/said" </dev/null
status=$?
holds "a closed output is told" test "$status" -eq 7
timeout 60 "$program" a >/dev/null 2>&- </dev/null
status=$?
holds "a closed standard error" test "$status" -eq 0
timeout 60 "$program" -f a >"$room/text" 2>"$room/said" <&-
status=$?
holds "a closed input" test "$status" -eq 0
timeout 60 "$program" -f a >&- 2>&- <&-
status=$?
holds "all closed" test "$status" -eq 7
holds "no lock has a report" cmp -s build/bench/lock "$room/lock"

# Input files: executable where they begin with #!, whatever their bits are.
project files
mkdir src && printf '#!/bin/sh\necho ran\n' >src/run && echo text >src/text && chmod 644 src/run && chmod 755 src/text || exit 1
recipe a '"$FILESDIR"/run > a; if [ -x "$FILESDIR"/text ]; then echo yes; else echo no; fi > x'
printf 'do_build[file-checksums] = "src/run:True src/text:True"\n' >>recipes/a.bb
runs a
holds "a script among the input files" test "$status" -eq 0 -a "$(cat build/work/a/do_build/a)" = ran -a "$(cat build/work/a/do_build/x)" = no
chmod 755 src/run && chmod 644 src/text || exit 1
runs a
holds "an edit of a bit alone is none" grep -qx 'found a:do_build' "$room/text"

# Faults are told as what they are.
project told
recipe a 'echo a > a'
mkdir -p build/bench && echo >build/bench/lock && chmod 444 build/bench/lock && mkdir build/bench/0.lock && echo >build/bench/0.lock/x || exit 1
if [ "$(id -u)" != 0 ]; then
    runs a
    holds "a lock that can't be opened" grep -q '^bitbake: disk: lock of build/bench/lock: Permission denied' "$room/said"
fi
rm -rf build

echo "$passed passed, $failed failed"
test "$failed" -eq 0
