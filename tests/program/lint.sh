# The mode --lint, the number of remarks in a run, and what is told of a fault behind its sentence. A part of tests/program.sh, which has the
# functions.

# Counts a case: the further lines of the run before on standard error, behind its sentence, are just what standard input has.
tells() {
    cat >"$room/wanted"
    sed 1d "$room/said" >"$room/told"
    if cmp -s "$room/wanted" "$room/told"; then
        passed=$((passed + 1))
    else
        echo "FAILED $1: told is"
        cat "$room/told"
        failed=$((failed + 1))
    fi
}

# A project with one remark of each kind, and what is remarked.
project lint
rmdir recipes
mkdir -p conf classes m1/conf m2/conf
cat >conf/bblayers.conf <<'END'
BBPATH = "${TOPDIR}"
BBLAYERS = "m1 m2"
END
cat >m1/conf/layer.conf <<'END'
BBFILES += "${LAYERDIR}/*.bb"
BBFILE_PRIORITY_m1 = "5"
END
cat >m2/conf/layer.conf <<'END'
BBFILES += "${LAYERDIR}/*.bb"
END
cat >conf/bitbake.conf <<'END'
MACHINE ?= "qemu"
PREFERRED_VERSION_app = "2.%"
PREFERRED_PROVIDER_virtual/x = "app"
FLAGS_append = " -g"
CFLAGS = "-O2"
END
echo 'MACHINE = "board"' >conf/local.conf
cat >classes/base.bbclass <<'END'
addtask build
do_build[noexec] = "1"
END
cat >m1/app_1.0.bb <<'END'
addtask patch
do_patch() {
    patch -p1
}
addtask compile after do_pach
do_compil() {
    cc ${CFLGAS} x.c
}
do_compile[deptasks] = "do_build"
do_buidl[depends] = "lib:do_build"
DEPENDS = "lib"
do_compile[file-checksums] = "a/x.c b/x.c:True"
SRC_URI = "https://example.org/x.tar"
END
printf 'SUMMARY = "a library"\n' | tee m1/lib_1.0.bb >m2/lib_1.0.bb
lint_text='conf/bitbake.conf:1: environment: MACHINE is in the caller'\''s environment, which isn'\''t looked at; set it here with = instead
conf/bitbake.conf:2: no-version: no recipe app has the version 2.%, so all versions count
conf/bitbake.conf:3: no-provider: no recipe app provides virtual/x, so the preference has no effect
conf/bitbake.conf:4: old-override: FLAGS_append has the old spelling of overrides and is a name like others here; write FLAGS:append
conf/local.conf:1: not-included: nothing includes this file; write include conf/local.conf into conf/bitbake.conf
m1/app_1.0.bb:5: no-function: the task do_compile has no function, so it runs nothing; there is a function do_compil, which is no task (app)
m1/app_1.0.bb:5: no-task: there is no task do_pach for this to come after; there is do_patch
m1/app_1.0.bb:6: unset-name: CFLGAS is set nowhere, so ${CFLGAS} stays as it stands; CFLAGS is set
m1/app_1.0.bb:9: unknown-flag: nothing reads the flag deptasks; there is deptask
m1/app_1.0.bb:10: no-task: there is no task do_buidl for the flag depends; there is do_build
m1/app_1.0.bb:11: unused-depends: no task has [deptask], so lib in DEPENDS is never built; name there the task that is needed of it (app)
m1/app_1.0.bb:12: same-input: do_compile has two input files of the name x.c: a/x.c and b/x.c; it finds the last one alone (app)
m1/app_1.0.bb:13: no-effect: SRC_URI has no effect here: nothing is fetched: keep the sources in the project and name them in [file-checksums]; a task finds them under FILESDIR
m1/conf/layer.conf:2: no-effect: BBFILE_PRIORITY_m1 has no effect here: layers have no priorities: of the recipes of one name the greatest version counts, then the greatest PR, then the greatest path; choose by PREFERRED_VERSION or by the patterns of BBFILES
m1/lib_1.0.bb:1: same-version: lib 1.0-r0 is m2/lib_1.0.bb too, and that one counts: of the same version the greatest path does, whatever the order of BBLAYERS'
runs env MACHINE=board "$bitbake" --lint
wants "a remark of each kind" 0 "$lint_text"
holds "nothing is told beside the remarks" test ! -s "$room/said"
holds "the mode makes no folder" test ! -e build

# Each kind is switched off by its name, and no other with it.
cp conf/bitbake.conf "$room/bitbake.conf"
kinds=$(printf '%s\n' "$lint_text" | sed 's/^[^ ]*: \([a-z-]*\): .*/\1/' | sort -u)
holds "the kinds are those of the manual page" test "$(printf '%s\n' "$kinds" | wc -l)" -eq 13
for kind in $kinds; do
    holds "the page has $kind" grep -q "^| \`$kind\` |" "$top/docs/METADATA.md"
    { cat "$room/bitbake.conf" && echo "BB_LINT_SKIP = \"$kind\""; } >conf/bitbake.conf
    runs env MACHINE=board "$bitbake" --lint
    wants "$kind is switched off" 0 "$(printf '%s\n' "$lint_text" | grep -v ": $kind: ")"
done
echo "BB_LINT_SKIP = \"$(echo $kinds)\"" >>conf/bitbake.conf
runs env MACHINE=board "$bitbake" --lint
holds "all are switched off" test "$status" -eq 0 -a ! -s "$room/text"
cp "$room/bitbake.conf" conf/bitbake.conf

# With targets, the remarks on their files. A target is found as one of a run, and the mode goes with no other option.
runs "$bitbake" --lint lib
holds "no remark on a target" test "$status" -eq 0 -a ! -s "$room/text"
rm m2/lib_1.0.bb
runs "$bitbake" app:do_build --lint
wants "the remarks on another target" 0 "$(printf '%s\n' "$lint_text" | grep '^m1/app')"
runs "$bitbake" --lint none
wants "a target that nothing provides" 3 "fault 3 NothingProvides none"
runs "$bitbake" --lint -k
wants "no other option" 2 "$usage"
runs "$bitbake" --lint -- app
wants "no hyphens" 2 "$usage"

# A run counts what a line shows alone: here the priority and the old spelling, and not SRC_URI.
runs "$bitbake" app
holds "the remarks are counted" grep -qx 'bitbake: lint: 2 remarks on lines of the metadata; bitbake --lint shows them, and what no line shows alone' "$room/said"
echo 'BB_LINT_SKIP = "old-override"' >>conf/bitbake.conf
runs "$bitbake" app
holds "one remark is counted" grep -qx 'bitbake: lint: 1 remark on a line of the metadata; bitbake --lint shows it, and what no line shows alone' "$room/said"
runs "$bitbake" -n app
holds "a plan is told of none" test "$(grep -c '^bitbake: lint: ' "$room/said")" -eq 0

# A fault is told as in a run; the status of the mode is its own where standard output has no room.
printf 'OPEN\n' >m1/faulty.bb
runs "$bitbake" --lint
wants "a fault" 3 "fault 3 m1/faulty.bb:1: BadLine"
rm m1/faulty.bb
if [ -c /dev/full ]; then
    "$bitbake" --lint >/dev/full 2>"$room/said"
    holds "no room for the remarks" test $? -eq 7
fi

# What isn't remarked: names of a shell, what a class gives a function by its name, tasks that are taken away, references, what a form of
# Python asks for, be it set nowhere, the new spelling, a flag of a function, what another recipe has.
project unremarked
mkdir -p conf classes
cat >conf/bitbake.conf <<'END'
OVERRIDES = "arm"
FLAGS:append:arm = " -g"
FILES:${PN} = "/usr"
SRC_URI ?= "none"
MINE = "${SRC_URI}"
BBMASK = "a b"
ASKED = "${@bb.utils.filter('BBMASK', 'b c', d)} ${@bb.utils.contains('NOWHERE', 'x', 'yes', 'no', d)}"
END
cat >classes/base.bbclass <<'END'
addtask fetch
addtask patch after do_fetch
addtask build after do_patch
base_do_fetch() {
    for NAME in a b; do echo "${NAME} ${name}"; done
    read LINE && echo "${LINE}"
    OTHER=x; echo "${OTHER} ${OTHER:-y} ${FLAGS} ${PV}"
}
EXPORT_FUNCTIONS do_fetch
do_patch() {
    list_remove x
}
list_remove() {
    :
}
list_remove[vardeps] = "MINE"
do_deploy[deptask] = "do_build"
do_build[noexec] = "1"
END
printf 'deltask patch\n' >recipes/none.bb
printf 'addtask deploy after do_build\ndo_deploy() {\n    :\n}\nDEPENDS = "none"\n' >recipes/one.bb
runs "$bitbake" --lint
holds "nothing is remarked" test "$status" -eq 0 -a ! -s "$room/text"
cat "$room/text"

# The examples have no remark.
for example in "$top"/examples/*/; do
    cd "$example" || exit 1
    runs env -u MACHINE "$bitbake" --lint
    holds "no remark on ${example#"$top/"}" test "$status" -eq 0 -a ! -s "$room/text"
    cat "$room/text"
done

# Who asks for what nothing provides: by a variable, at run time, and by a flag; five are told, and how many others there are.
project asking
for number in 1 2 3; do
    printf 'addtask build\ndo_build() {\n    :\n}\ndo_build[deptask] = "do_build"\nDEPENDS = "none"\n' >"recipes/by$number.bb"
done
printf 'addtask build\ndo_build() {\n    :\n}\ndo_build[rdeptask] = "do_build"\nRDEPENDS = "none"\n' >recipes/run.bb
printf 'addtask build\ndo_build() {\n    :\n}\ndo_build[depends] = "none:do_build"\n' >recipes/flag.bb
runs "$bitbake" by1
wants "nothing provides a name" 3 "fault 3 NothingProvides none"
tells "who asks for it" <<'END'
recipes/by1.bb:6: by1 asks for it in DEPENDS
recipes/by2.bb:6: by2 asks for it in DEPENDS
recipes/by3.bb:6: by3 asks for it in DEPENDS
recipes/flag.bb:5: flag asks for it in do_build[depends]
recipes/run.bb:6: run asks for it in RDEPENDS
END
printf 'require recipes/by1.bb\n' | tee recipes/more.bb >recipes/most.bb
runs "$bitbake" by1
tells "how many more ask" <<'END'
recipes/by1.bb:6: by1 asks for it in DEPENDS
recipes/by2.bb:6: by2 asks for it in DEPENDS
recipes/by3.bb:6: by3 asks for it in DEPENDS
recipes/flag.bb:5: flag asks for it in do_build[depends]
recipes/by1.bb:6: more asks for it in DEPENDS
bitbake: 2 more ask for it
END
runs "$bitbake" nobody
wants "a target that nothing provides" 3 "fault 3 NothingProvides nobody"
tells "nobody asks but the words" </dev/null

# Who asks where several provide, for a task that isn't there, and in a ring of tasks.
project asking_more
printf 'PROVIDES = "tool"\naddtask build\ndo_build[noexec] = "1"\n' | tee recipes/a.bb >recipes/b.bb
printf 'DEPENDS = "tool"\naddtask build\ndo_build[noexec] = "1"\ndo_build[deptask] = "do_build"\n' >recipes/user.bb
runs "$bitbake" user
wants "several provide a name" 3 "fault 3 SeveralProvide tool a b"
tells "who asks for what several provide" <<'END'
recipes/user.bb:1: user asks for it in DEPENDS
END
printf 'addtask build\ndo_build[noexec] = "1"\ndo_build[depends] = "a:do_pack"\n' >recipes/user.bb
runs "$bitbake" user
wants "a task that isn't there" 3 "fault 3 NoSuchTask a:do_pack"
tells "who asks for the task" <<'END'
recipes/user.bb:3: user asks for it in do_build[depends]
END
printf 'addtask build after do_pack\naddtask pack\ndo_pack[depends] = "user:do_build"\ndo_build[noexec] = "1"\ndo_pack[noexec] = "1"\n' >recipes/user.bb
runs "$bitbake" user
wants "a ring of tasks" 3 "fault 3 TaskCycle user:do_build user:do_pack"
tells "what makes the ring" <<'END'
recipes/user.bb:1: user:do_build comes after user:do_pack by this line
recipes/user.bb:3: user asks for it in do_pack[depends]
END

# A folder that is no project.
mkdir "$room/no_project" && cd "$room/no_project" || exit 1
runs "$bitbake" hello
wants "no project" 3 "fault 3 NothingProvides hello"
tells "that it is none" <<'END'
bitbake: this folder is no project: it has neither conf/ nor recipes/; go to the folder that has one of them
END

runs "$bitbake" --lint
holds "no remark on no project" test "$status" -eq 0
holds "that it is none, of its remarks" grep -q '^bitbake: this folder is no project: ' "$room/said"

# What a line looks like that is no statement. Each is the recipe's first fault.
project mistakes
# Counts a case: a recipe with this text has a fault in this line, which looks like this.
looks() {
    printf "$2" >recipes/hello.bb
    runs "$bitbake" hello
    wants "$1" 3 "fault 3 recipes/hello.bb:$3: BadLine"
    echo "recipes/hello.bb:$3: $4" >"$room/mistake"
    tells "what $1 looks like" <"$room/mistake"
}
looks "no value" 'A =\n' 1 'no value stands behind the operator: write "" for an empty one'
looks "no quotes" 'A = "1"\nB += x\n' 2 'the value has no quotes around it'
looks "no end quote" 'A = "x\nB = "y"\n' 1 'the quoted text has no end: it goes on in the next line behind a backslash alone'
looks "a comment behind a value" 'A = "x" # why\n' 1 'a comment stands behind the value: put it on a line above'
looks "more behind a value" 'A = "x";\n' 1 "something stands behind the value's last quote"
looks "a brace on the next line" 'do_build()\n{\n    :\n}\n' 1 'the brace of the function stands on the next line: write () { on one'
looks "a body in one line" 'do_build() { :; }\n' 1 'the body of the function stands in one line: write each command on a line of its own, and } alone behind them'
looks "a late name with a weak default" 'A:append ??= "x"\n' 1 "??= doesn't go with :append, :prepend and :remove"
looks "a byte order mark" '\357\273\277A = "x"\n' 1 'the file begins with a byte order mark: save it without one'
looks "a here-document" 'do_build() {\n    cat > x.c <<END\nint main() {\n}\nEND\n}\naddtask build\n' 5 'a } alone ended the function above it inside a here-document: put a blank in front of that }'
mkdir conf && echo 'addtask build' >conf/bitbake.conf
runs "$bitbake" hello
wants "a line of recipes in a configuration" 3 "fault 3 conf/bitbake.conf:1: BadLine"
tells "what that looks like" <<'END'
conf/bitbake.conf:1: it is one of recipes and classes, and this file is neither
END
rm -r conf

# All recipes that have a fault are told, each fault once.
printf 'A = 1\n' >recipes/a.bb
printf 'inherit none\n' >recipes/b.bb
printf 'require recipes/a.bb\n' >recipes/c.bb
printf 'A = "fine"\n' >recipes/d.bb
printf 'python do_x() {\n}\n' >recipes/hello.bb
runs "$bitbake" d
wants "the first of four recipes with a fault" 3 "fault 3 recipes/a.bb:1: BadLine"
tells "the others" <<'END'
recipes/a.bb:1: the value has no quotes around it
recipes/b.bb:1: neither the project folder nor BBPATH has a file classes/none.bbclass
recipes/hello.bb:1: this line, or the body that it opens, is Python, or holds a ${@..} that is neither bb.utils.contains nor bb.utils.filter of literals
END
