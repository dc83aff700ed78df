# What words ask for in a run, and its options. A part of tests/program.sh, which has the functions.

# The exit statuses.
project forms
recipe hello 'echo hello > hello.txt'
for words in '-- hello' 'hello hello' 'hello:build' 'hello:do_build' '-c build hello' '-cbuild hello' '--cmd=do_build hello' 'hello:build -c nosuch'; do
    # (words are split on purpose)
    runs "$bitbake" $words
    wants "the words '$words'" 0 "$done_text"
    rm -r build
done
for words in 'other' './hello' 'mc:hello'; do
    runs "$bitbake" $words
    wants "the words '$words'" 3 "fault 3 NothingProvides $words"
done
for words in 'hello:nosuch' '-c nosuch hello'; do
    runs "$bitbake" $words
    wants "the words '$words'" 3 "fault 3 NoSuchTask hello:do_nosuch"
done

# The options of a run. Only by -f a task runs again whose output is there.
for option in -k --continue --no-setscene -f --force; do
    rm -rf build
    runs "$bitbake" "$option" hello
    wants "the option $option" 0 "$done_text"
    runs "$bitbake" "$option" hello
    case $option in
        -f | --force) wants "the option $option again" 0 "$done_text" ;;
        *) wants "the option $option again" 0 "$found_text" ;;
    esac
    runs "$bitbake" nosuch "$option"
    wants "the option $option of nothing" 3 "fault 3 NothingProvides nosuch"
done
printf 'addtask a after b\naddtask b after a\n' >recipes/x.bb
runs "$bitbake" -c a x
wants "tasks that need each other" 3 "fault 3 TaskCycle x:do_a x:do_b"
mkdir conf
for threads in 0 17; do
    printf 'BB_NUMBER_THREADS = "%s"\n' "$threads" >conf/bitbake.conf
    runs "$bitbake" hello
    wants "$threads threads" 3 "fault 3 BadThreads $threads"
done
printf 'BB_NUMBER_THREADS = "16"\n' >conf/bitbake.conf
rm -r build
runs "$bitbake" hello
wants "a configuration" 0 "plan 1 tasks, 16 threads
started hello:do_build
ended hello:do_build
ok 0 found, 0 restored, 1 started"
rm -r conf build
recipe other 'echo other > other.txt'
one_worker
runs "$bitbake" other hello
wants "two tasks" 0 "plan 2 tasks, 1 threads
started hello:do_build
ended hello:do_build
started other:do_build
ended other:do_build
ok 0 found, 0 restored, 2 started"
holds "the output of the one" test "$(cat build/work/hello/do_build/hello.txt)" = hello
holds "the output of the other" test "$(cat build/work/other/do_build/other.txt)" = other
rm -r build conf
runs "$bitbake" hello
wants "other recipes beside it" 0 "$done_text"
rm -r build

# A library and an application of two layers. Tasks that may run side by side print their lines in any order.
cp -R "$top/examples/library_and_application" "$room/layers" && rm -rf "$room/layers/build" || exit 1
cd "$room/layers" || exit 1
runs "$bitbake" app
holds "the plan comes first" test "$(sed -n 1p "$room/text")" = 'plan 9 tasks, 4 threads'
holds "the answer comes last" test "$(sed -n '$p' "$room/text")" = 'ok 0 found, 0 restored, 9 started'
sort -o "$room/text" "$room/text"
wants "a library and an application" 0 "$({
    echo 'plan 9 tasks, 4 threads'
    echo 'ok 0 found, 0 restored, 9 started'
    for task in app:do_configure greet:do_configure greet:do_compile greet:do_install greet:do_populate_sysroot app:do_compile app:do_install app:do_populate_sysroot app:do_build; do
        printf 'started %s\nended %s\n' "$task" "$task"
    done
} | sort)"
holds "what the library gives" test "$(cat build/work/greet/do_populate_sysroot/usr/lib/libgreet.txt)" = "hello world"
holds "a link of it" test "$(readlink build/work/greet/do_populate_sysroot/usr/lib/libgreet.txt)" = libgreet.txt.1
holds "what the application made of it" test "$(cat build/work/app/do_install/image/usr/share/out.txt)" = "hello world"
holds "what it gives" test "$(cat build/work/app/do_build/usr/share/out.txt)" = "hello world"

# Each line is printed when its event comes about: while the second task sleeps, its start and the first one's end stand there, and no more.
project lines_come
recipe a 'echo a > a.txt'
printf 'do_build() {\n    sleep 3\n}\naddtask build\ndo_build[depends] = "a:do_build"\n' >recipes/b.bb
"$bitbake" b >"$room/coming" 2>/dev/null </dev/null &
running=$!
turns=0
while [ "$turns" -lt 200 ] && ! grep -q '^started b:do_build$' "$room/coming"; do
    sleep 0.05
    turns=$((turns + 1))
done
cp "$room/coming" "$room/text"
kill -0 "$running" 2>/dev/null
status=$?
wants "lines while a task runs" 0 "plan 2 tasks, 4 threads
started a:do_build
ended a:do_build
started b:do_build"
wait "$running"
