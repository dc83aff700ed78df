# Where the time of a run went. A part of tests/program.sh, which has the functions.

project trace
mkdir conf && printf 'BB_NUMBER_THREADS = "3"\n' >conf/bitbake.conf
for n in 1 2 3 4 5; do
    printf 'do_build[depends] = "%s"\ndo_build() {\n    sleep 0.02; echo %s > out\n}\naddtask build\n' "$([ "$n" -lt 5 ] || echo 'r1:do_build r2:do_build r3:do_build r4:do_build')" "$n" >"recipes/r$n.bb"
done
runs "$bitbake" r3 r4 r5
holds "a first run leaves a trace" python3 "$top/tests/trace.py" <"$room/text"
holds "what it tells" test "$(python3 "$top/tools/trace.py" --svg "$room/trace.svg" | sed 's/[0-9.]* s/N s/' | grep -v 'r[1-4]:')" = 'N s in all, 5 tasks
  N s  reading and planning
  N s  opening the store
the longest tasks
  N s  r5:do_build
the critical path: N s
  N s  r5:do_build'
holds "its picture" python3 -c 'import sys, xml.dom.minidom; assert len(xml.dom.minidom.parse(sys.argv[1]).getElementsByTagName("rect")) == 7' "$room/trace.svg"
runs "$bitbake" r3 r4 r5
holds "a found run" python3 "$top/tests/trace.py" <"$room/text"
runs "$bitbake" -n r5
holds "no trace of a plan alone" python3 "$top/tests/trace.py" <<'END'
plan 5 tasks, 3 threads
found r3:do_build
found r4:do_build
found r5:do_build
END
recipe r2 'exit 7'
recipe r4 'sleep 0.1; exit 8'
runs "$bitbake" -k r3 r4 r5
holds "tasks that fail" python3 "$top/tests/trace.py" <"$room/text"
echo kept >precious && rm build/trace.json && ln -s ../precious build/trace.json || exit 1
runs "$bitbake" r3
holds "a link where the trace goes" test "$(cat precious)" = kept -a ! -L build/trace.json
rm build/trace.json && mkdir -p build/trace.json/folder && touch build/trace.json/folder/file
runs "$bitbake" r3
holds "something in its place changes no status" test "$status" -eq 0
holds "and is said" grep -q '^bitbake: trace: write of build/trace.json: ' "$room/said"
