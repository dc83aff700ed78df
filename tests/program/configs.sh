# Several configurations. A part of tests/program.sh, which has the functions.

project configs
mkdir -p conf/multiconfig
printf 'BBMULTICONFIG = "a b"\nT = "here"\n' >conf/bitbake.conf
printf 'T = "there"\n' >conf/multiconfig/a.conf
printf 'T = "else"\nBB_NUMBER_THREADS = "8"\n' >conf/multiconfig/b.conf
# shellcheck disable=SC2016
recipe one 'echo made ${T}; echo ${T} > t.txt'
# shellcheck disable=SC2016
recipe two 'echo said ${T}; test ${T} != there'
for name in 1 2 3 4 5 6 7 8; do
    # shellcheck disable=SC2016
    recipe "many$name" "echo $name \${T} > t.txt"
done

# Logs, what is kept of failed tasks, and what is told of a run.
runs "$bitbake" -k one mc:a:two mc:b:one
wants "a task that fails in one of three configurations" 1 "plan 1 tasks, 4 threads
started one:do_build
ended one:do_build
ok 0 found, 0 restored, 1 started
mc a
plan 1 tasks, 4 threads
started two:do_build
failed two:do_build status 1
fault 1 failed: two:do_build
mc b
plan 1 tasks, 8 threads
started one:do_build
ended one:do_build
ok 0 found, 0 restored, 1 started"
holds "its name and its log" grep -qx 'bitbake: mc:a:two:do_build failed with status 1; its log is build/log/mc/a/two/do_build, which ends with' "$room/said"
holds "the end of the log" grep -qx '| said there' "$room/said"
holds "how it is tried" grep -qx 'bitbake: try: cd build/failed/mc/a/two/do_build/work && sh ../script' "$room/said"
holds "it fails again by hand" sh -c 'cd build/failed/mc/a/two/do_build/work && ! sh ../script >/dev/null'
holds "a log for each configuration" test "$(cat build/log/one/do_build build/log/mc/b/one/do_build)" = 'made here
made else'
holds "why and when for each" test -s build/why -a -s build/trace.json -a -s build/mc/b/why -a -s build/mc/b/trace.json
printf 'T = "other"\nBB_NUMBER_THREADS = "8"\n' >conf/multiconfig/b.conf
runs "$bitbake" one mc:b:one
holds "an edit of one configuration" test "$status" -eq 0 -a "$(grep -c '^started ' "$room/text")" -eq 1 -a "$(cat build/mc/b/why)" = 'one:do_build: T: "else" -> "other"'
holds "what is said of it" grep -qx 'bitbake: why: 1 task ran: one:do_build since T changed; build/mc/b/why has all' "$room/said"
holds "nothing of the other one" test ! -s build/why -a "$(cat build/work/one/do_build/t.txt)" = here

# Each configuration has workers of its own, and their sandboxes.
all=$(for name in 1 2 3 4 5 6 7 8; do echo "mc:b:many$name"; done)
some=$(for name in 1 2 3 4 5 6 7 8; do echo "many$name"; done)
# (targets are split on purpose)
runs "$bitbake" $some $all
holds "many workers in two configurations" test "$status" -eq 0 -a "$(grep -c '^ended ' "$room/text")" -eq 16
holds "what they made" test "$(cat build/work/many3/do_build/t.txt build/mc/b/work/many5/do_build/t.txt)" = '3 here
5 other'

# The graph, plans and values.
runs "$bitbake" -g one mc:a:two
wants "the graph of two configurations" 0 'digraph bitbake {
"one:do_build"
"mc:a:two:do_build"
}'
runs "$bitbake" -g one mc:c:two
wants "the graph of a configuration that isn't there" 3 'fault 3 NoSuchConfig c'
runs "$bitbake" -n one mc:b:one
wants "the plans of two configurations" 0 'plan 1 tasks, 4 threads
task one:do_build
mc b
plan 1 tasks, 8 threads
task one:do_build'

# A link in the way of the stores goes, and what it leads to stays.
rm -r build/mc && mkdir "$room/linked" && echo kept >"$room/linked/file" && ln -s "$room/linked" build/mc || exit 1
runs "$bitbake" mc:a:one
holds "a link in the way" test "$status" -eq 0 -a ! -L build/mc -a "$(cat build/mc/a/work/one/do_build/t.txt)" = there -a "$(ls "$room/linked")" = file
