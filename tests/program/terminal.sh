# The line on a terminal that says what a run is doing. A part of tests/program.sh, which has the functions.

# shows NAME STATUS TEXT: what the terminal of the run before showed.
shows() {
    printf '%s\n' "$3" >"$room/wanted"
    holds "$1" sh -c 'test "$1" -eq "$2" && cmp -s "$3" "$4" || { cat "$4"; false; }' sh "$status" "$2" "$room/wanted" "$room/text"
}

# on_terminal WORD..: tests/terminal.py, with its text in the file `text` and its status in `status`.
on_terminal() {
    TERM=xterm python3 "$top/tests/terminal.py" "$@" >"$room/text" 2>"$room/said" </dev/null
    status=$?
}

project terminal
one_worker
recipe hello 'sleep 1; echo hello > out'
recipe other 'sleep 0.7; exit 3'
on_terminal --both --keep "$room/sent" "$bitbake" hello
shows "a run on a terminal" 0 "line: [0/1] N:N hello:do_build N s
screen:
plan 1 tasks, 1 threads
started hello:do_build
ended hello:do_build
ok 0 found, 0 restored, 1 started"
holds "what is taken away is taken away for good" python3 -c 'import sys; assert open(sys.argv[1], "rb").read().rstrip().endswith(b"started")' "$room/sent"
rm -rf build
on_terminal --both --keep "$room/sent" "$bitbake" --quiet hello
shows "no line with --quiet" 0 "line: none
screen:
plan 1 tasks, 1 threads
started hello:do_build
ended hello:do_build
ok 0 found, 0 restored, 1 started"
holds "and no sequence" sh -c '! grep -q "$(printf "\033")" "$1"' sh "$room/sent"
rm -rf build
on_terminal --both "$bitbake" hello -q
holds "no line with -q" test "$status" -eq 0 -a "$(head -n 1 "$room/text")" = 'line: none'
rm -rf build
on_terminal "$bitbake" hello
shows "standard output elsewhere" 0 "plan 1 tasks, 1 threads
started hello:do_build
ended hello:do_build
ok 0 found, 0 restored, 1 started
line: [0/1] N:N hello:do_build N s
screen:"
rm -rf build
TERM=dumb python3 "$top/tests/terminal.py" --keep "$room/sent" "$bitbake" hello >"$room/text" 2>&1
holds "no line on a terminal that can only print" test ! -s "$room/sent"
rm -rf build
"$bitbake" hello >"$room/text" 2>"$room/said"
holds "no line where there is no terminal" test ! -s "$room/said"
on_terminal --both --keep "$room/sent" "$bitbake" hello
holds "no line where all is found at once" sh -c 'test "$1" -eq 0 && ! grep -q "\[0/1\]" "$2"' sh "$status" "$room/sent"
on_terminal --both "$bitbake" -k hello other
shows "a task that fails" 1 "line: [1/2] N:N other:do_build N s
screen:
plan 2 tasks, 1 threads
found hello:do_build
started other:do_build
bitbake: other:do_build failed with status 3; its log is build/log/other/do_build, which is empty
bitbake: try: cd build/failed/other/do_build/work && sh ../script
failed other:do_build status 3
fault 1 failed: other:do_build"
on_terminal --both "$bitbake" -n other
holds "no line of a plan" test "$(head -n 1 "$room/text")" = 'line: none'
runs "$bitbake" -q
wants "no target" 2 "$usage"
runs "$bitbake" -- -q
wants "a target named -q" 3 'fault 3 NothingProvides -q'

# In a real terminal, where there is one.
if command -v tmux >/dev/null 2>&1; then
    rm -rf build
    tmux -L "bitbake-$$" -f /dev/null new-session -d -x 60 -y 20 "TERM=screen '$bitbake' hello; echo done; sleep 5" &&
        for _ in 1 2 3 4 5 6 7 8 9 10 11 12 13 14 15 16 17 18 19 20; do
            tmux -L "bitbake-$$" capture-pane -p >"$room/pane"
            grep -q '^\[' "$room/pane" && break
            sleep 0.2
        done
    holds "a line in a real terminal" grep -qE '^\[0/1\] 0:0[0-9] hello:do_build [0-9]+ s$' "$room/pane"
    for _ in 1 2 3 4 5 6 7 8 9 10 11 12 13 14 15 16 17 18 19 20; do
        tmux -L "bitbake-$$" capture-pane -p >"$room/pane"
        grep -q '^done' "$room/pane" && break
        sleep 0.2
    done
    grep . "$room/pane" >"$room/text"
    status=0
    wants "nothing of it at the end" 0 "plan 1 tasks, 1 threads
started hello:do_build
ended hello:do_build
ok 0 found, 0 restored, 1 started
done"
    tmux -L "bitbake-$$" kill-server 2>/dev/null
else
    echo "skipped the line in a real terminal: there is no tmux"
fi
