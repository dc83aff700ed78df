#!/bin/sh
# How long runs take over 1,000 recipes with two tasks each, in a folder in memory. No part of the gate.
#
# Recipe N needs recipes 2N and 2N+1; its do_compile writes a file of what these gave and a line of its own, its do_install copies that. Measured by the clock, the best of
# three:
# - a first run, against `sh` that does the same by hand: for each task a folder of its own, what it needs laid there, its script
#   by a `sh` of its own, and a sync of what it gave; and against `ninja -j 1` over the same scripts, where ninja is installed.
#   At most 1.5 times `sh`;
# - a second run, which finds its targets, against `-n`. At most 1.2 times;
# - after an edit of one leaf recipe that changes its output: the run starts just the tasks above it;
# - what sandboxes cost, in processor time: once for a bench that is used, at most 100 ms, and for a task more, which is not to show: at most
#   1.1 times what the same task costs where the system makes no sandbox.
# Usage: bench/run.sh [RECIPES] (1,000 if left out)
. "$(dirname -- "$0")/head.sh"
built bitbake_cli
count=${1:-1000}
room=$scratch/project

# The project.
mkdir -p "$room/conf" "$room/classes" "$room/recipes"
echo 'BB_NUMBER_THREADS = "1"' > "$room/conf/bitbake.conf"
cat > "$room/classes/two.bbclass" <<'END'
addtask compile
addtask install after do_compile
addtask build after do_install
do_compile[deptask] = "do_install"
do_install() {
    cp compiled.txt installed.txt
}
END
awk -v folder="$room/recipes" -v count="$count" 'BEGIN {
    for (n = 1; n <= count; n++) {
        file = folder "/r" n ".bb"
        needs = ""
        if (2 * n <= count) needs = "r" 2 * n
        if (2 * n + 1 <= count) needs = needs " r" 2 * n + 1
        print "inherit two" > file
        printf "DEPENDS = \"%s\"\n", needs > file
        print "do_compile() {" > file
        if (needs != "") print "    cat \"${DEPSDIR}\"/*/do_install/installed.txt > compiled.txt" > file
        printf "    echo the output of recipe %d >> compiled.txt\n}\n", n > file
        close(file)
    }
}'

# clock COMMAND.. sets `each` to the milliseconds of one run, and `text` to what it prints.
clock() {
    begun=$(date +%s%N)
    text=$(cd "$room" && "$@") || { echo "failed: $*" >&2; exit 1; }
    each=$((($(date +%s%N) - begun) / 1000000))
}

# fastest COMMAND.. sets `least` to the least of three, before each of which `before` is called.
fastest() {
    least=
    for _ in 1 2 3; do
        before
        clock "$@"
        if [ -z "$least" ] || [ "$each" -lt "$least" ]; then least=$each; fi
    done
}

# The same work by hand.
awk -v count="$count" 'BEGIN {
    print "mkdir -p by-hand && cd by-hand || exit 1"
    for (n = count; n >= 1; n--) {
        printf "mkdir -p r%d/compile r%d/install\n", n, n
        for (d = 2 * n; d <= 2 * n + 1; d++) if (d <= count) printf "cp r%d/install/installed.txt r%d/compile/needed-%d.txt\n", d, n, d
        printf "(cd r%d/compile && sh -c \"%s echo the output of recipe %d >> compiled.txt\") || exit 1\n", n, (2 * n <= count ? "cat needed-*.txt > compiled.txt;" : ""), n
        printf "sync r%d/compile/compiled.txt r%d/compile\n", n, n
        printf "cp r%d/compile/compiled.txt r%d/install/\n", n, n
        printf "(cd r%d/install && sh -c \"cp compiled.txt installed.txt\") || exit 1\n", n, n
        printf "sync r%d/install/installed.txt r%d/install\n", n, n
    }
}' > "$room/by-hand.sh"

# The same for ninja.
awk -v count="$count" 'BEGIN {
    print "rule compile\n  command = mkdir -p $dir && cat $needs /dev/null > $dir/compiled.txt && cd $dir && echo the output of recipe $n >> compiled.txt && sync compiled.txt ."
    print "rule install\n  command = cd $dir && cp compiled.txt installed.txt && sync installed.txt ."
    for (n = count; n >= 1; n--) {
        needs = ""
        for (d = 2 * n; d <= 2 * n + 1; d++) if (d <= count) needs = needs " ninja/r" d "/installed.txt"
        printf "build ninja/r%d/compiled.txt: compile | %s\n  dir = ninja/r%d\n  n = %d\n  needs = %s\n", n, needs, n, n, needs
        printf "build ninja/r%d/installed.txt: install ninja/r%d/compiled.txt\n  dir = ninja/r%d\n", n, n, n
    }
    print "default ninja/r1/installed.txt"
}' > "$room/build.ninja"

before() { rm -rf "$room/build" "$room/by-hand" "$room/ninja" "$room/.ninja_log" "$room/.ninja_deps"; }
fastest sh by-hand.sh
plain=$least
ninja=
if command -v ninja >/dev/null; then
    fastest ninja -j 1
    ninja=$least
fi
fastest "$program" r1
first=$least
echo "first run of $count recipes: $first ms; sh by hand: $plain ms; ninja -j 1: ${ninja:-not installed}${ninja:+ ms}"
printf '%s\n' "$text" | tail -n 1

before() { :; }
fastest "$program" -n r1
dry=$least
fastest "$program" r1
second=$least
echo "second run: $second ms; -n: $dry ms"
printf '%s\n' "$text" | tail -n 1

# The last recipe is a leaf.
sed -i 's/the output of/another output of/' "$room/recipes/r$count.bb"
clock "$program" r1
edited=$each
started=$(printf '%s\n' "$text" | grep -c '^started ')
above=$(awk -v n="$count" 'BEGIN { while (n >= 1) { above += 2; n = int(n / 2) } print above + 1 }')
echo "after an edit of r$count: $edited ms, $started tasks started, $above stand above it"
printf '%s\n' "$text" | tail -n 1

# What a sandbox costs: of one task and of 201 behind one another, with and without.
mkdir -p "$scratch/chain/conf" "$scratch/chain/recipes"
echo 'BB_NUMBER_THREADS = "1"' >"$scratch/chain/conf/bitbake.conf"
awk -v folder="$scratch/chain/recipes" 'BEGIN {
    for (n = 0; n <= 200; n++) {
        file = folder "/c" n ".bb"
        printf "do_build() {\n    echo %d > out\n}\naddtask build\n", n > file
        if (n > 0) printf "DEPENDS = \"c%d\"\ndo_build[deptask] = \"do_build\"\n", n - 1 > file
        close(file)
    }
}'
cat >"$scratch/plain" <<END
#!/bin/sh
exec unshare --user --map-root-user sh -c 'echo 0 >/proc/sys/user/max_mnt_namespaces && exec "\$@"' sh "$program" "\$@"
END
chmod +x "$scratch/plain"
tasks() {
    rm -rf "$scratch/chain/build"
    spent "$scratch/chain" "$@"
}
least_of_tasks() { for _ in 1 2 3; do tasks "$@"; done | sort -n | head -n 1; }
one=$(least_of_tasks "$program" c0)
many=$(least_of_tasks "$program" c200)
one_plain=$(least_of_tasks "$scratch/plain" c0)
many_plain=$(least_of_tasks "$scratch/plain" c200)
awk -v a="$one" -v b="$many" -v c="$one_plain" -v d="$many_plain" 'BEGIN {
    printf "a sandbox: %d ms of the processor for the first task, %.2f ms for each behind it; without: %d ms, %.2f ms\n", a, (b - a) / 200, c, (d - c) / 200
}'

aim "a first run of $count recipes" 'v1 <= 1.5 * v2' "$first" "$plain"
aim 'a second run' 'v1 <= 1.2 * v2' "$second" "$dry"
aim 'started after an edit' 'v1 == v2' "$started" "$above"
aim 'a sandbox' 'v1 <= 100' "$one"
aim 'a task in a sandbox' 'v1 - v2 <= 1.1 * (v3 - v4)' "$many" "$one" "$many_plain" "$one_plain"
finish
