# The modes that only read metadata, and what is wrong with files. A part of tests/program.sh, which has the functions.

# The modes that only read metadata, on real folders.
project modes
recipe hello 'echo hello > hello.txt'
runs "$bitbake" -p
wants "a project of one recipe" 0 "parsed 1 recipes"
runs "$bitbake" -s
wants "its version" 0 "hello 1.0-r0"
holds "a mode makes no folder" test ! -e build

# The values around a recipe's own, in byte order of the names.
built_in() {
    printf 'BBFILES="recipes/*.bb recipes/*.bbappend"\nBB_DEFAULT_TASK="build"\nBB_NUMBER_THREADS="4"\n'
}
named() {
    printf 'FILE="recipes/%s.bb"\nPACKAGES="%s"\nPN="%s"\nPR="r0"\nPV="1.0"\nTHISDIR="recipes"\nTOPDIR="."' "$1" "$1" "$1"
}

# Appends count behind the base value, which is `1 45`.
project values
printf 'A = "1"\nA:append = "2"\nA:append = "3"\nA += "4"\nA .= "5"\n' >recipes/v.bb
runs "$bitbake" -e v
wants "appends" 0 "# v
A=\"1 4523\"
$(built_in)
$(named v)"
runs "$bitbake" -e
wants "the configuration alone" 0 "$(built_in)
PACKAGES=\"\${PN}\"
TOPDIR=\".\""

# An absent name's reference stays; a name that is met again in its own expansion is refused.
printf 'X = "pre ${NONE}"\n' >recipes/v.bb
runs "$bitbake" -e v
wants "an absent reference" 0 "# v
$(built_in)
$(named v)
X=\"pre \${NONE}\""
printf 'X = "${Y}"\nY = "${X}"\n' >recipes/v.bb
runs "$bitbake" -e v
wants "a cycle of references" 3 "fault 3 recipes/v.bb: ValueCycle X"
runs "$bitbake" -s
wants "a value that isn't asked for" 0 "v 1.0-r0"
runs "$bitbake" -e v nosuch
wants "a target that nothing provides" 3 "fault 3 NothingProvides nosuch"
runs "$bitbake" -e mc:a:v
wants "a target of another configuration" 3 "fault 3 NoSuchConfig a"
printf 'PROVIDES = "virtual/v"\n' >recipes/v.bb
runs "$bitbake" -e virtual/v:fetch
wants "a provided name, whose task isn't looked at" 0 "# v
$(built_in)
$(named v | sed '/^PR=/a\
PROVIDES="virtual/v"')"
printf 'PROVIDES = "virtual/v"\n' >recipes/w.bb
runs "$bitbake" -e virtual/v
wants "several that provide a name" 3 "fault 3 SeveralProvide virtual/v v w"
rm recipes/w.bb

# What is wrong with files, with their lines.
project loading
printf 'include no.inc\nrequire no.inc\n' >recipes/r.bb
runs "$bitbake" -p
wants "a missing file" 3 "fault 3 recipes/r.bb:2: MissingRequired no.inc"
printf 'do_x() {\n    echo\n' >recipes/r.bb
runs "$bitbake" -s
wants "a function that isn't closed" 3 "fault 3 recipes/r.bb:1: OpenFunction"
printf 'inherit nosuch\n' >recipes/r.bb
runs "$bitbake" -e r
wants "a missing class" 3 "fault 3 recipes/r.bb:1: MissingClass nosuch"
printf 'A = "1"\n' >recipes/r.bb
printf 'A = "2"\n' >recipes/s.bbappend
runs "$bitbake" -p
wants "an append of no recipe" 3 "fault 3 recipes/s.bbappend: DanglingAppend"
mv recipes/s.bbappend recipes/r.bbappend
mkdir classes
printf 'B = "${FILE}"\n' >classes/base.bbclass
printf 'A := "${A} ${FILE}"\n' >recipes/r.bbappend
runs "$bitbake" -e r
wants "a class and an append" 0 "# r
A=\"1 recipes/r.bbappend\"
B=\"recipes/r.bb\"
$(built_in)
$(named r)"

# 1,048,576 bytes are read, and one more is refused.
project size
printf '#' >recipes/big.bb
head -c 1048574 /dev/zero | tr '\0' x >>recipes/big.bb
printf '\n' >>recipes/big.bb
runs "$bitbake" -s
wants "the largest file" 0 "big 1.0-r0"
printf '\n' >>recipes/big.bb
runs "$bitbake" -s
wants "a file beyond the limit" 10 "fault 10 FileBytes"

# 2,000 recipe files are read, and one more is refused.
project many
number=0
while [ "$number" -lt 2000 ]; do
    number=$((number + 1))
    : >"recipes/r$number.bb"
done
runs "$bitbake" -p
wants "the most recipes" 0 "parsed 2000 recipes"
: >recipes/one-more.bb
runs "$bitbake" -p
wants "a recipe beyond the limit" 10 "fault 10 Recipes"

# 65,536 tasks are planned, and one more is refused: 32 of each recipe, and 1,536 or 1,537 of the last.
rm recipes/one-more.bb
mkdir classes
tasks() {
    seq -s ' ' -f 't%.0f' "$1"
}
printf 'addtask build %s\ndo_build[recrdeptask] = "do_build %s"\n' "$(tasks 31)" "$(tasks 31 | sed 's/t/do_t/g')" >classes/base.bbclass
printf 'DEPENDS = "%s"\naddtask %s before do_build\n' "$(seq -s ' ' -f 'r%.0f' 2 2000)" "$(tasks 1567 | cut -d ' ' -f 32-)" >recipes/r1.bb
runs "$bitbake" -n r1
holds "the most tasks" test "$status $(head -n 1 "$room/text")" = '0 plan 65536 tasks, 4 threads'
printf 'addtask one_more before do_build\n' >>recipes/r1.bb
runs "$bitbake" -n r1
wants "a task beyond the limit" 10 "fault 10 Tasks"

# Versions are compared piece by piece, and a preference counts.
project versions
: >recipes/p_1.9.bb
: >recipes/p_1.10.bb
runs "$bitbake" -s
wants "the greatest version" 0 "p 1.10-r0"
mkdir conf
printf 'PREFERRED_VERSION_p = "1.9%%"\n' >conf/bitbake.conf
runs "$bitbake" -s
wants "a preferred version" 0 "p 1.9-r0"
runs "$bitbake" -p
wants "all recipe files" 0 "parsed 2 recipes"

# The library and the application. SSTATETASKS and BBFILES begin with a blank, since `+=` puts one behind the empty value; FILES has
# a value in its form alone, which is no active override; WORKDIR and DEPSDIR are set for scripts alone, so their references stay.
cp -R "$top/examples/library_and_application" "$room/library" && cd "$room/library" || exit 1
runs "$bitbake" -s
wants "the library and the application" 0 "app 1.0-r0
greet 1.2-r0"
runs "$bitbake" -p
wants "their recipe files" 0 "parsed 2 recipes"
runs "$bitbake" -e app
wants "the application's values" 0 '# app
B="${WORKDIR}/build"
BBFILES=" meta/recipes-*/*/*.bb meta/recipes-*/*/*.bbappend meta-site/recipes-*/*/*.bb meta-site/recipes-*/*/*.bbappend"
BBLAYERS="   meta   meta-site "
BBPATH=".:meta:meta-site"
BB_DEFAULT_TASK="build"
BB_NUMBER_THREADS="4"
D="${WORKDIR}/image"
DEPENDS="greet"
FILE="meta/recipes-core/app/app_1.0.bb"
FILES:app="/usr"
OVERRIDES="linux:pn-app"
PACKAGES="app"
PN="app"
PR="r0"
PV="1.0"
SSTATETASKS=" do_populate_sysroot"
THISDIR="meta/recipes-core/app"
TOPDIR="."
do_compile="    cat \"${DEPSDIR}/greet/do_populate_sysroot/usr/lib/libgreet.txt\" > out.txt\n"
do_install="    mkdir -p \"${WORKDIR}/image/usr/share\"\n    cp \"${WORKDIR}/build/out.txt\" \"${WORKDIR}/image/usr/share/out.txt\"\n"
do_populate_sysroot="    mkdir -p \"${WORKDIR}/sysroot\"\n    cp -RP \"${WORKDIR}/image/usr\" \"${WORKDIR}/sysroot/usr\"\n"'
runs "$bitbake" -e greet
holds "the append of the other layer" grep -qx 'TEXT="hello world"' "$room/text"
holds "no folder is made" test ! -e build
