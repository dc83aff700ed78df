# What the words alone decide. A part of tests/program.sh, which has the functions.

# What the words alone decide, in a folder with a file that can't be read.
usage='usage: bitbake [-c TASK] [-f] [-k] [-n] [-e] [-s] [-p] [--no-setscene] [--sample N] [--clean N] [TARGET..]'
project words
mkdir conf && ln -s /proc/self/mem conf/bitbake.conf
for words in '' '--' '--nope' '--nope hello' '-x' '-V hello' '-n' '-k' '-c build' 'hello -c' '-f hello -f' '--force=yes hello' '--sample' '--sample 0' '--sample 1001' '--sample many' '-q -q hello' '-c -q hello' '--cmd --quiet hello'; do
    # (words are split on purpose)
    runs "$bitbake" $words
    wants "faulty words '$words'" 2 "$usage"
done
runs "$bitbake" "$(printf 'x\377')"
wants "a word that isn't UTF-8" 2 "$usage"
for words in '--sample 5' '--sample=5 -p'; do
    runs "$bitbake" $words
    wants "the sample: '$words'" 0 "sample 5: 5 recipes, 10 tasks; first run 10 started; second run 5 found, 0 started"
done
runs "$bitbake" --sample 1000
wants "the largest sample" 0 "sample 1000: 1000 recipes, 2000 tasks; first run 2000 started; second run 1000 found, 0 started"
for words in '-fp' '-k -e hello' '--no-setscene -s'; do
    runs "$bitbake" $words
    wants "a mode beside options of a run: '$words'" 6 "fault 6 read"
done
for words in '--help' '-h' 'hello -k --help' '-x -h'; do
    runs "$bitbake" $words
    holds "help: '$words'" test "$status" -eq 0 -a "$(head -n 1 "$room/text")" = "$usage"
    holds "each option in help: '$words'" test "$(grep -c '^ *-' "$room/text")" -eq "$(sed -n '/^.SH OPTIONS/,/^.SH FILES/p' "$top/docs/bitbake.1" | grep -c '^.TP')"
done
runs "$bitbake" -- --help
wants "a target named --help" 6 "fault 6 read"
runs "$bitbake" --version
holds "the version names commit and kit" grep -qE '^bitbake for shell tasks, commit [^ ,]+, kit [^,]+$' "$room/text"
holds "the version alone" test "$status" -eq 0 -a "$(grep -c '' "$room/text")" -eq 1
runs sh -c '"$1" --help >/dev/full' sh "$bitbake"
holds "help that can't be written" test "$status" -eq 7
holds "nothing is built for words" test ! -e build

# The graph, as text and, where it is there, as dot takes it.
project graph
recipe b ': > b'
printf 'DEPENDS = "b"\ndo_fetch() {\n    :\n}\ndo_build() {\n    :\n}\naddtask fetch\naddtask build after do_fetch\ndo_build[depends] = "b:do_build"\n' >recipes/a.bb
for words in '-g a' '--graphviz a:build' '-c build a -g'; do
    runs "$bitbake" $words
    wants "the graph: '$words'" 0 'digraph bitbake {
"a:do_fetch"
"b:do_build"
"a:do_build"
"a:do_build" -> "a:do_fetch"
"a:do_build" -> "b:do_build"
}'
done
if command -v dot >/dev/null 2>&1; then
    holds "dot takes the graph" dot -Tsvg -o "$room/graph.svg" "$room/text"
else
    echo "skipped the picture of a graph: there is no dot"
fi
for words in '-g' '-g -n a' '-g -k a' '-g -f a' '-g --no-setscene a' '-g --nope a'; do
    runs "$bitbake" $words
    wants "faulty words '$words'" 2 "$usage"
done
runs "$bitbake" -g nosuch
wants "the graph of what isn't there" 3 "fault 3 NothingProvides nosuch"
holds "who isn't there is told" grep -q 'nosuch' "$room/said"
runs sh -c '"$1" -g a >/dev/full' sh "$bitbake"
holds "a graph that can't be written" test "$status" -eq 7
holds "nothing is built for a graph" test ! -e build
