# Why tasks ran: build/why, and the causes on standard error. A part of tests/program.sh, which has the functions.

# why NAME TEXT: what build/why has.
why() {
    printf '%s\n' "$2" >"$room/wanted"
    holds "$1" sh -c 'cmp -s "$1" build/why || { cat build/why; false; }' sh "$room/wanted"
}

# causes NAME TEXT: what standard error says of them; nothing where there is no text.
causes() {
    holds "$1" test "$(grep '^bitbake: why: ' "$room/said")" = "${2:+bitbake: why: $2}"
}

project why
one_worker
mkdir files
echo one >files/one && echo two >files/two
cat >recipes/lib.bb <<'END'
CFLAGS = "-O2"
do_compile[file-checksums] = "files/one:True"
do_compile() {
    echo "${CFLAGS}" > out
    cat "$FILESDIR/one" >> out
}
addtask compile
END
cat >recipes/app.bb <<'END'
do_compile[depends] = "lib:do_compile"
do_compile() {
    cat "$DEPSDIR/lib/do_compile/out" > out
    echo app
}
do_build() {
    cat out > whole
}
addtask compile
addtask build after do_compile
END
runs "$bitbake" app
why "a first run" "lib:do_compile: nothing tells of an earlier run of it
app:do_compile: nothing tells of an earlier run of it
app:do_build: nothing tells of an earlier run of it"
causes "nothing is said of a first run" ''
runs "$bitbake" app
holds "a found run leaves no reason" test -f build/why -a ! -s build/why
causes "nothing is said of it" ''
sed -i 's/-O2/-O3/' recipes/lib.bb
runs "$bitbake" app
why "a line of the key" 'lib:do_compile: CFLAGS: "-O2" -> "-O3"
app:do_compile: lib:do_compile gives another output
app:do_build: app:do_compile gives another output'
causes "the cause at the root" '3 tasks ran: lib:do_compile since CFLAGS changed; build/why has all'
echo more >>files/one
runs "$bitbake" lib:compile
why "an input file" 'lib:do_compile: one changed'
causes "the file is the cause" '1 task ran: lib:do_compile since one changed; build/why has all'
sed -i 's|files/one:True|files/one:True files/two:True|; s|^CFLAGS.*|&\nCFLAGS:remove = "-g"|' recipes/lib.bb
runs "$bitbake" lib:compile
why "a file that came, and another line" 'lib:do_compile: CFLAGS:remove changed; two came'
sed -i 's| files/two:True||' recipes/lib.bb
runs "$bitbake" -f lib:compile
why "what the stamp named counts" 'lib:do_compile: two went'
runs "$bitbake" -f lib:compile
why "a forced task" 'lib:do_compile: it was asked for with -f'
causes "and its cause" '1 task ran: lib:do_compile since it was asked for with -f; build/why has all'
sed -i 's/^    echo "${CFLAGS}" > out$/    echo "${CFLAGS}" > out\n    echo more >> out/' recipes/lib.bb
runs "$bitbake" lib:compile
why "a function's text" 'lib:do_compile: do_compile changed, as below
    do_compile, from line 2:
    + '"    echo more >> out"
runs "$bitbake" app
rm -r build/work/app/do_build
runs "$bitbake" app
why "an output that was removed" 'app:do_build: its output is gone, or was changed by hand'
printf 'do_build[nostamp] = "1"\n' >>recipes/app.bb
runs "$bitbake" app
runs "$bitbake" app
why "a task that runs each time" 'app:do_build: it runs in each run (nostamp)'
sed -i 's/^do_compile\[depends\].*//' recipes/app.bb
sed -i 's|^    cat .*DEPSDIR.*|    : > out|' recipes/app.bb
runs "$bitbake" app:compile
holds "a need that went" grep -q '; lib:do_compile is needed no more$' build/why
recipe other 'exit 3'
runs "$bitbake" other
why "a task that fails" 'other:do_build: nothing tells of an earlier run of it'
recipe other 'exit 4'
runs "$bitbake" other
why "and fails again" 'other:do_build: nothing tells of an earlier run of it'
rm -r build/stamp
sed -i 's/-O3/-O1/' recipes/lib.bb
runs "$bitbake" lib:compile
holds "without its stamp the newest record counts" grep -q '^lib:do_compile: CFLAGS: "-O3" -> "-O1"' build/why
echo kept >precious && rm build/why && ln -s ../precious build/why || exit 1
runs "$bitbake" -f lib:compile
holds "a link where the reasons go" test "$(cat precious)" = kept -a ! -L build/why
rm build/why && mkdir -p build/why/folder && touch build/why/folder/file
runs "$bitbake" -f lib:compile
holds "something in their place changes no status" test "$status" -eq 0
holds "and is said" grep -q '^bitbake: why: write of build/why: ' "$room/said"
rm -r build/why
for n in 1 2 3 4 5 6 7 8 9 10 11 12; do
    recipe "many$n" "echo $n > out"
done
runs "$bitbake" many1 many2 many3 many4 many5 many6 many7 many8 many9 many10 many11 many12
for n in 1 2 3 4 5 6 7 8 9 10 11 12; do
    recipe "many$n" "echo more $n > out"
done
runs "$bitbake" many1 many2 many3 many4 many5 many6 many7 many8 many9 many10 many11 many12
holds "at most ten are named" test "$(grep -o ' since do_build changed' "$room/said" | wc -l)" -eq 10
holds "and the others are counted" grep -q ', and 2 more; build/why has all$' "$room/said"

# What a run would do, before there is one.
project asked
one_worker
mkdir files
echo one >files/one
cat >recipes/lib.bb <<'RECIPE'
CFLAGS = "-O2"
do_compile[file-checksums] = "files/one:True"
do_compile() {
    echo "${CFLAGS}" > out
    cat "$FILESDIR/one" >> out
}
addtask compile
RECIPE
cat >recipes/app.bb <<'RECIPE'
do_compile[depends] = "lib:do_compile"
do_compile() {
    cat "$DEPSDIR/lib/do_compile/out" > out
}
do_build() {
    cat out > whole
}
addtask compile
addtask build after do_compile
RECIPE
runs "$bitbake" --why app
wants "before the first run" 0 "lib:do_compile: run: nothing recorded before
app:do_compile: may run: needs lib:do_compile
app:do_build: may run: needs app:do_compile"
holds "nothing is made" test ! -e build
runs "$bitbake" app
runs "$bitbake" --why app
wants "what is there is found, and what it needs isn't looked at" 0 "app:do_build: found"
sed -i 's/-O2/-O3/' recipes/lib.bb && echo more >>files/one
find build -printf '%p %y %s %m %T@ %C@\n' | sort >"$room/before"
runs "$bitbake" --why app
wants "an edit, and what waits for it" 0 "lib:do_compile: run: differs in CFLAGS, file one
app:do_compile: may run: needs lib:do_compile
app:do_build: may run: needs app:do_compile"
find build -printf '%p %y %s %m %T@ %C@\n' | sort >"$room/after"
holds "nothing is changed" cmp -s "$room/before" "$room/after"
runs "$bitbake" app
# An edit that changes no output: what needs it is found after all.
sed -i 's/^    cat "$FILESDIR/    : again; &/' recipes/lib.bb
runs "$bitbake" --why app
wants "a script that gives the same" 0 "lib:do_compile: run: differs in do_compile
app:do_compile: may run: needs lib:do_compile
app:do_build: may run: needs app:do_compile"
runs "$bitbake" app
holds "what may run is found" grep -q '^found app:do_build$' "$room/text"
rm -r build/work/app/do_build
runs "$bitbake" --why app
wants "an output that was removed" 0 "app:do_compile: found
app:do_build: run: its output is gone"
runs "$bitbake" app
runs "$bitbake" --why -f app
wants "with -f" 0 "app:do_compile: found
app:do_build: run: forced"
printf 'do_build[nostamp] = "1"\n' >>recipes/app.bb
runs "$bitbake" --why app
wants "a task that runs each time" 0 "app:do_compile: found
app:do_build: run: runs each time"
runs "$bitbake" --why -c compile app
wants "with -c" 0 "app:do_compile: found"
# An output is gone that nothing needs where the tasks above it turn out to be found.
sed -i '/nostamp/d' recipes/app.bb && sed -i 's/ : again;/ : once more;/' recipes/lib.bb
cat >recipes/both.bb <<'RECIPE'
do_build[depends] = "lib:do_compile app:do_compile"
do_build() {
    cat "$DEPSDIR/lib/do_compile/out" > both
}
addtask build
RECIPE
runs "$bitbake" both
sed -i 's/ : once more;/ : and again;/' recipes/lib.bb
rm -r build/work/app/do_compile
runs "$bitbake" --why both
wants "what is maybe not needed" 0 "lib:do_compile: run: differs in do_compile
app:do_compile: may run: needs lib:do_compile
both:do_build: may run: needs lib:do_compile app:do_compile"
runs "$bitbake" --why both app -n
wants "no other mode beside it" 2 'usage: bitbake [-c TASK] [-f] [-k] [-n] [-e] [-s] [-p] [--no-setscene] [--sample N] [--clean N] [TARGET..]'
runs "$bitbake" --why
wants "no target" 2 'usage: bitbake [-c TASK] [-f] [-k] [-n] [-e] [-s] [-p] [--no-setscene] [--sample N] [--clean N] [TARGET..]'
runs "$bitbake" --why nothing
wants "a refusal" 3 "fault 3 NothingProvides nothing"
printf 'SSTATETASKS = "do_share"\ndo_share() {\n    mkdir -p o && echo s > o/s\n}\ndo_share[sstate-inputdirs] = "${WORKDIR}/o"\ndo_share[sstate-outputdirs] = "o"\naddtask share\n' >recipes/shared.bb
runs "$bitbake" shared:share
rm -r build/work/shared
runs "$bitbake" --why shared:share
wants "an object" 0 "shared:do_share: restored"
runs "$bitbake" --why --no-setscene shared:share
wants "with --no-setscene" 0 "shared:do_share: run: its output is gone"
recipe slow 'touch "$0.begun"; sleep 3; echo done > out'
"$bitbake" slow >"$room/slow" 2>&1 &
sleep 1
runs "$bitbake" --why slow
wants "while a run is at work" 0 "slow:do_build: run: nothing recorded before"
wait
holds "which goes on" grep -q '^ended slow:do_build$' "$room/slow"
