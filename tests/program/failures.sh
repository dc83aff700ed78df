# Tasks that fail, their logs, and what else is kept of them. A part of tests/program.sh, which has the functions.

project fails
recipe hello 'exit 3'
runs "$bitbake" hello
wants "a body that fails" 1 "$plan
failed hello:do_build status 3
fault 1 failed: hello:do_build"
says "its log is empty" <<'END'
bitbake: hello:do_build failed with status 3; its log is build/log/hello/do_build, which is empty
END
holds "its log is kept" test -f build/log/hello/do_build -a ! -s build/log/hello/do_build
holds "how it is tried by hand" grep -qx 'bitbake: try: cd build/failed/hello/do_build/work && sh ../script' "$room/said"

# What a failed task had is kept, and its script runs by hand as it ran, with nothing else of the environment.
mkdir -p files && echo plain >files/plain.txt
printf 'do_prep() {\n    echo 1 > n\n}\ndo_build[file-checksums] = "files/plain.txt"\nexport WORD = "it is"\ndo_build() {\n    echo "$WORD $(cat n "$FILESDIR/plain.txt") ${FOREIGN-none}" > seen; exit 3\n}\naddtask prep\naddtask build after prep\n' >recipes/hello.bb
runs "$bitbake" hello
holds "a body that leaves something and fails" test "$status" -eq 1
holds "what it had" test "$(cd build/failed/hello/do_build && cat work/n files/plain.txt work/seen)" = "1
plain
it is 1
plain none"
(cd build/failed/hello/do_build/work && rm seen && FOREIGN=foreign sh ../script)
holds "its status by hand" test $? -eq 3
holds "what it does by hand" test "$(cat build/failed/hello/do_build/work/seen)" = "it is 1
plain none"
rm -r files

# Of a long log the last 20 lines are shown, what is no text of them escaped and long ones cut, and all of it is kept.
recipe hello 'seq 1 200000; head -c 500 /dev/zero | tr "\\000" y; echo; printf "a\\tb\\033[1m \\302\\205 the \\377 end" >&2; exit 4'
runs "$bitbake" hello
wants "a body that talks and fails" 1 "$plan
failed hello:do_build status 4
fault 1 failed: hello:do_build"
{
    echo 'bitbake: hello:do_build failed with status 4; its log is build/log/hello/do_build, which ends with'
    seq 199983 200000 | sed 's/^/| /'
    printf '| %s ..\n' "$(head -c 400 /dev/zero | tr '\000' y)"
    printf '| a\tb\\x1b[1m \\u{85} the \\xff end\n'
} >"$room/end"
says "the end of its log" <"$room/end"
holds "all of its log" test "$(wc -l <build/log/hello/do_build)" -eq 200001

# Where something stands in a log's place, the log stays where the bench keeps it, and the run's status stays.
rm -r build/log && echo file >build/log
rm -r build/failed && echo file >build/failed
recipe hello 'echo first; exit 5'
runs "$bitbake" hello
wants "a log that has no place" 1 "$plan
failed hello:do_build status 5
fault 1 failed: hello:do_build"
kept=$(echo build/bench/*/log build/bench/at/hello/do_build/log | tr ' ' '\n' | grep -v '\*' | while read -r log; do test -f "$log" && echo "$log"; done)
says "the log where it is" <<END
bitbake: hello:do_build failed with status 5; its log is $kept, which ends with
| first
END
holds "it says that the log has no place" grep -q "^bitbake: log: move of $kept: " "$room/said"
holds "it says that all else has none" grep -q '^bitbake: failed: move to build/failed/hello/do_build: ' "$room/said"
rm build/log build/failed
recipe hello 'rm ../log; exit 6'
runs "$bitbake" hello
wants "a body that takes its log away" 1 "$plan
failed hello:do_build status 6
fault 1 failed: hello:do_build"
holds "it says that no log is kept" grep -q "^bitbake: hello:do_build failed with status 6; its log can't be kept: " "$room/said"

# What is kept of a task goes where it is started again, and stays where it isn't.
recipe hello 'echo kept; exit 7'
recipe other 'echo other > other.txt'
runs "$bitbake" hello
wants "a body that fails again" 1 "$plan
failed hello:do_build status 7
fault 1 failed: hello:do_build"
runs "$bitbake" other
wants "a body of another recipe" 0 "plan 1 tasks, 4 threads
started other:do_build
ended other:do_build
ok 0 found, 0 restored, 1 started"
holds "the log stays" test "$(cat build/log/hello/do_build)" = kept
holds "all else stays" test -f build/failed/hello/do_build/script
holds "nothing is said of it" test ! -s "$room/said"
recipe hello 'echo hello > hello.txt'
runs "$bitbake" hello
wants "a body that is mended" 0 "$done_text"
holds "its log is empty now" test -f build/log/hello/do_build -a ! -s build/log/hello/do_build
holds "all else is gone" test -d build/failed -a ! -e build/failed/hello

# Behind a failed task other tasks run with -k. One log doesn't overwrite another.
recipe hello 'echo one; exit 3'
recipe other 'echo two >&2; exit 4'
printf 'do_build() {\n    echo more > more.txt\n}\naddtask build\n' >recipes/more.bb
one_worker
runs "$bitbake" -k hello more other
wants "two tasks that fail" 1 "plan 3 tasks, 1 threads
started hello:do_build
failed hello:do_build status 3
started more:do_build
ended more:do_build
started other:do_build
failed other:do_build status 4
fault 1 failed: hello:do_build, other:do_build"
says "the ends of both logs" <<'END'
bitbake: hello:do_build failed with status 3; its log is build/log/hello/do_build, which ends with
| one
bitbake: other:do_build failed with status 4; its log is build/log/other/do_build, which ends with
| two
END
holds "the log of the one" test "$(cat build/log/hello/do_build)" = one
holds "the log of the other" test "$(cat build/log/other/do_build)" = two
holds "the log of the third" test -f build/log/more/do_build -a ! -s build/log/more/do_build
holds "no other log" test "$(find build/log -type f | wc -l)" -eq 3
holds "what both had" test "$(cd build/failed && echo */*/script)" = 'hello/do_build/script other/do_build/script'

project kills
recipe hello 'kill -9 $$'
runs "$bitbake" hello
wants "a body that kills itself" 1 "$plan
failed hello:do_build status 137
fault 1 failed: hello:do_build"
says "its status" <<'END'
bitbake: hello:do_build failed with status 137; its log is build/log/hello/do_build, which is empty
END
