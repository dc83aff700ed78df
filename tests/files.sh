#!/bin/sh
# What the program does with real files that aren't as they should be: links, hard links, pipes, folders without rights, names that aren't
# UTF-8 and sizes beyond the formats, in a project's folder and below `build/`; and what it says then.
#
# Usage: tests/files.sh [PROGRAM]
# PROGRAM is the one that the gate left, where none is named. What depends on rights is run as the user `nobody` where this is run as root,
# and skipped where that can't be. The last line is 'N passed, M failed'; the status is 0 where M is 0.

top=$(CDPATH='' cd -- "$(dirname -- "$0")/.." && pwd -P) || exit 1
given=${1-$top/crates/bitbake_cli/out/bitbake_cli}
passed=0
failed=0

room=$(mktemp -d) || exit 1
trap 'chmod -R u+rwx "$room"; rm -rf -- "$room"' EXIT
trap 'exit 1' HUP INT TERM
chmod 755 "$room"
program=$room/bitbake
cp -- "$given" "$program" && chmod 755 "$program" || exit 1

# Whether runs can be made as a user whom rights bind; before a command `$as_user` runs it so.
bound=yes
as_user=
if [ "$(id -u)" -eq 0 ]; then
    as_user='setpriv --reuid=65534 --regid=65534 --clear-groups'
    $as_user true 2>/dev/null || bound=
fi

# Counts a case: the test holds.
holds() {
    name=$1
    shift
    if "$@"; then
        passed=$((passed + 1))
    else
        echo "FAILED $name"
        [ ! -f "$room/text" ] || sed 's/^/    text: /' "$room/text"
        [ ! -f "$room/said" ] || sed 's/^/    said: /' "$room/said"
        failed=$((failed + 1))
    fi
}

# Makes an empty project folder, and goes there.
project() {
    mkdir -p "$room/$1/recipes" && cd "$room/$1" || exit 1
}

# Writes a recipe NAME whose task has one body line.
recipe() {
    printf 'do_build() {\n    %s\n}\naddtask build\n' "$2" >"recipes/$1.bb"
}

# A task whose output is shared, beside one whose output isn't.
two_recipes() {
    recipe hello 'echo hello > hello.txt'
    cat >recipes/shared.bb <<'END'
SSTATETASKS = "do_share"
do_share() {
    mkdir -p out
    echo shared > out/shared.txt
}
do_share[sstate-inputdirs] = "${WORKDIR}/out"
do_share[sstate-outputdirs] = "here"
addtask share
do_build[noexec] = "1"
addtask build after do_share
END
}

# Runs the program, at most 20 seconds, with its status in `status`, its text in the file `text` and standard error in `said`.
runs() {
    timeout -k 1 20 "$@" >"$room/text" 2>"$room/said" </dev/null
    status=$?
}

# A line of standard error is just this.
said() {
    grep -aqxF -e "$1" "$room/said"
}

# The outputs of both recipes are right.
are_right() {
    test "$status" -eq 0 && test "$(head -c 99 build/work/hello/do_build/hello.txt)" = hello &&
        test "$(head -c 99 build/work/shared/do_share/here/shared.txt)" = shared
}

# All that stands in a folder: kinds, modes, times of change, names, links and bytes.
canaries() {
    (cd "$1" && find . -printf '%y %m %T@ %n %p %l\n' | sort && find . -type f -exec cksum {} + | sort)
}

# The store's folders, each in turn a link to a folder outside: the link goes, and what it leads to stays.
links_in_place_of_folders() {
    for part in rec2 key stamp work obj tmp stamp/hello work/hello work/hello/do_build work/shared; do
        project "links-$(echo "$part" | tr / -)"
        two_recipes
        runs "$program" hello shared:do_share
        mkdir -p ../outside/part/old/hello ../outside/part/hello && cp -a build/. ../outside/part/ && echo x >../outside/part/x
        canaries ../outside >"$room/before"
        rm -rf "build/$part"
        mkdir -p "$(dirname "build/$part")"
        ln -s "$room/outside/part" "build/$part"
        runs "$program" -f hello shared:do_share
        holds "a link at $part: what it leads to" sh -c 'test -z "$(cmp "$1" "$2" 2>&1)"' - "$room/before" - <<END
$(canaries ../outside)
END
        holds "a link at $part: the outputs" are_right
        rm -rf ../outside
    done
}

# Hard links of files outside: no byte of these is written, and none counts as output where it is another.
names_of_files_outside() {
    project names
    two_recipes
    runs "$program" hello shared:do_share
    echo other >../other.txt
    canaries .. | grep other.txt >"$room/before"
    for file in build/work/hello/do_build/hello.txt build/work/shared/do_share/here/shared.txt build/rec2/x build/stamp/hello/do_build build/tmp/x; do
        mkdir -p "$(dirname "$file")" && ln -f ../other.txt "$file"
    done
    runs "$program" hello shared:do_share
    holds "hard links: the outputs" are_right
    holds "hard links: the file outside" test "$(cat ../other.txt)" = other
    rm -f ../other.txt
}

# Pipes and sockets hold nothing up, and folders and files stand in each other's place.
other_kinds() {
    project kinds
    two_recipes
    runs "$program" hello shared:do_share
    name=$(ls build/rec2 | head -n 1)
    rm -r "build/rec2/$name" build/work/hello/do_build/hello.txt build/stamp/hello/do_build build/work/shared
    mkfifo build/rec2/x "build/rec2/$name" build/work/hello/do_build/hello.txt build/stamp/hello/do_build build/work/shared
    runs "$program" hello shared:do_share
    holds "pipes" are_right
    rm -rf build/rec2 build/key build/stamp build/work build/obj build/tmp
    mkfifo build/rec build/rec2 build/key build/format build/stamp build/work build/obj build/tmp
    runs "$program" hello shared:do_share
    holds "pipes in place of folders" are_right
    rm -rf build/rec build/rec2 build/key build/format build/stamp build/work build/obj
    echo x >build/rec && echo x >build/rec2 && echo x >build/key && echo x >build/format && echo x >build/stamp && echo x >build/work && echo x >build/obj
    runs "$program" hello shared:do_share
    holds "files in place of folders" are_right
    rm build/work/hello/do_build/hello.txt && mkdir -p build/work/hello/do_build/hello.txt/inner "build/stamp/hello/do_build.d"
    echo x >build/work/hello/do_build/hello.txt/inner/x
    runs "$program" hello shared:do_share
    holds "a folder in place of a file" are_right
}

# `build` itself may be a link to a folder.
a_linked_build() {
    project linked
    two_recipes
    mkdir ../elsewhere && ln -s ../elsewhere build
    runs "$program" hello shared:do_share
    holds "a linked build" are_right
    runs "$program" hello shared:do_share
    holds "a linked build again" are_right
    holds "it is still a link" test -h build
}

# Folders and files without rights below `build/` are given them, or count as nothing.
closed_below_build() {
    [ -n "$bound" ] || {
        echo "skipped what is closed below build/: no user whom rights bind"
        return
    }
    project closed
    two_recipes
    chmod -R a+rwX .
    runs $as_user "$program" hello shared:do_share
    for part in build build/rec2 build/key build/stamp build/stamp/hello build/work build/work/hello build/work/hello/do_build build/obj build/bench; do
        for mode in 000 400 100 500 300; do
            $as_user chmod "$mode" "$part"
            runs $as_user "$program" hello shared:do_share
            holds "$part of mode $mode" are_right
            runs $as_user "$program" -f hello
            holds "$part of mode $mode, built anew" are_right
            $as_user chmod 755 "$part"
        done
    done
    $as_user mkdir -p build/work/hello/do_build/deep/er && $as_user sh -c 'echo x >build/work/hello/do_build/deep/er/x'
    $as_user chmod 000 build/work/hello/do_build/deep/er build/work/hello/do_build/deep
    runs $as_user "$program" hello shared:do_share
    holds "closed folders that are too many" are_right
    holds "they are gone" test ! -e build/work/hello/do_build/deep
    for file in "build/rec2/$(ls build/rec2 | head -n 1)" "build/key/$(ls build/key | head -n 1)" build/stamp/hello/do_build build/work/hello/do_build/hello.txt; do
        $as_user chmod 000 "$file"
        runs $as_user "$program" hello shared:do_share
        holds "$file of mode 000" are_right
    done
    # (a file outside that this user owns and may not read: its mode stays, though it has a name below build/)
    $as_user sh -c 'echo secret >secret' && $as_user chmod 000 secret && $as_user ln -f secret build/work/hello/do_build/hello.txt
    runs $as_user "$program" hello shared:do_share
    holds "a closed file outside, by its name below build/" are_right
    holds "its mode stays" test "$(stat -c %a secret)" = 0
}

# Names that aren't UTF-8, and folders without rights, where no pattern leads: nothing is said of them.
odd_names_elsewhere() {
    project elsewhere-names
    two_recipes
    mkdir -p docs src/deep
    touch "docs/$(printf 'x\377')" "src/deep/$(printf 'y\376')" "$(printf 'z\377')"
    runs "$program" -p
    holds "odd names elsewhere" test "$status $(cat "$room/text")" = "0 parsed 2 recipes"
    holds "nothing is said of them" test ! -s "$room/said"
    runs "$program" hello shared:do_share
    holds "a build beside odd names" are_right
    mkdir "src/$(printf 'f\377')" && mkfifo "src/$(printf 'f\377')/pipe"
    runs "$program" -s
    holds "versions beside odd names" test "$status" -eq 0
    [ -n "$bound" ] || return
    mkdir docs/shut && chmod 000 docs/shut
    chmod a+rwX . && rm -rf build
    runs $as_user "$program" -p
    holds "a shut folder elsewhere" test "$status $(cat "$room/text")" = "0 parsed 2 recipes"
    runs $as_user "$program" hello shared:do_share
    holds "a build beside a shut folder" are_right
    chmod 755 docs/shut
}

# Where a pattern leads a name that isn't UTF-8 is passed over and told, and a folder without rights is a fault that names it.
odd_names_among_recipes() {
    project odd-recipes
    two_recipes
    touch "recipes/$(printf 'x\377.bb')"
    mkdir -p "recipes/$(printf 'd\376')" && echo 'A = "1"' >"recipes/$(printf 'd\376')/a.bb"
    runs "$program" -p
    holds "odd names among recipes" test "$status $(cat "$room/text")" = "0 parsed 2 recipes"
    holds "the one is told" said "bitbake: layers: recipes/x\\xff.bb: its name isn't UTF-8, so no pattern names it"
    holds "the other is told" said "bitbake: layers: recipes/d\\xfe: its name isn't UTF-8, so no pattern names it"
    holds "each once" test "$(wc -l <"$room/said")" -eq 2
    [ -n "$bound" ] || return
    mkdir recipes/shut && chmod 000 recipes/shut
    runs $as_user "$program" -p
    holds "a shut folder among recipes" test "$status $(cat "$room/text")" = "6 fault 6 read"
    holds "it is named" said "bitbake: layers: listing of recipes/shut: Permission denied (os error 13)"
    chmod 755 recipes/shut
}

# Patterns with wildcards in their folders, and words that aren't in the order of bytes: all that they name is found.
patterns_in_folders() {
    project patterns
    mkdir -p conf meta/recipes-a/x meta/recipes-b/y other
    printf 'BBFILES = "other/*.bb meta/recipes-?/*/*.bb meta/recipes-a/x/one.bb oth*/t?o.bb"\n' >conf/bitbake.conf
    : >meta/recipes-a/x/one.bb && : >meta/recipes-b/y/three.bb && : >other/two.bb && : >recipes/no.bb
    runs "$program" -s
    holds "patterns of several folders" test "$status $(cut -d ' ' -f 1 "$room/text" | tr '\n' ' ')" = "0 one three two "
}

# Below `build/` a name that isn't UTF-8 is a fault that names it.
odd_names_below_build() {
    project odd-build
    two_recipes
    runs "$program" hello shared:do_share
    touch "build/rec2/$(printf 'x\377')"
    runs "$program" hello
    holds "an odd name below build/" test "$status $(tail -n 1 "$room/text")" = "4 fault 4 disk"
    holds "it is named" said "bitbake: disk: listing of build/rec2/x\\xff: its name isn't UTF-8"
}

# Files of a tebibyte, without a block: none is read.
sizes_beyond_the_formats() {
    project sizes
    two_recipes
    runs "$program" hello shared:do_share
    if ! truncate -s 1T build/rec2/x 2>/dev/null; then
        echo "skipped large files: this file system has none"
        return
    fi
    object=$(find build/obj -name shared.txt | head -n 1)
    for file in build/rec2/x "build/rec2/$(ls build/rec2 | head -n 1)" build/key/x "build/key/$(ls build/key | head -n 1)" build/stamp/hello/do_build build/stamp/hello/x build/tmp/x build/work/hello/do_build/hello.txt \
        build/work/hello/do_build/x "$object" build/work/shared/do_share/here/shared.txt; do
        mkdir -p "$(dirname "$file")"
        truncate -s 1T "$file"
        runs "$program" hello shared:do_share
        holds "a tebibyte at $file" are_right
        case $file in
            build/rec2/* | build/stamp/hello/do_build | build/tmp/*) holds "$file is no tebibyte any more" test -z "$(find "$file" -size +1M 2>/dev/null)" ;;
        esac
    done
    truncate -s 1T build/work/shared/do_share/here/shared.txt "$object"
    runs "$program" shared:do_share
    holds "both the output and its object" test "$status $(head -c 99 build/work/shared/do_share/here/shared.txt)" = "0 shared"
}

# Why a file counts as missing.
reasons_of_missing_files() {
    project reasons
    recipe hello 'echo hello > hello.txt'
    mkdir ../away && mv recipes ../away/ && ln -s ../gone recipes
    runs "$program" -p
    holds "recipes behind a link that leads nowhere" test "$status $(cat "$room/text")" = "0 parsed 0 recipes"
    holds "they are told" said "bitbake: layers: recipes is a link that leads to no folder"
    runs "$program" hello
    holds "a target among them" test "$status $(cat "$room/text")" = "3 fault 3 NothingProvides hello"
    holds "the link is told" said "bitbake: layers: recipes is a link that leads to no folder"
    rm recipes && mkdir -p meta/recipes conf && cp ../away/recipes/hello.bb meta/recipes/ && ln -s .. meta/recipes/round
    printf 'BBFILES = "meta/recipes/*.bb meta/recipes/*/*/*.bb"\n' >conf/bitbake.conf
    runs "$program" other
    holds "a link to a folder above" said "bitbake: layers: meta/recipes/round is a link to a folder that is listed elsewhere, or that holds the project, and isn't entered"
    rm -r conf meta && mkdir recipes && cp ../away/recipes/hello.bb recipes/

    printf 'inherit c\n' >>recipes/hello.bb && ln -s ../away/classes classes
    runs "$program" -p
    holds "classes behind a link that leads nowhere" test "$status $(cat "$room/text")" = "3 fault 3 recipes/hello.bb:4: MissingClass c" -o "$status" -eq 3
    holds "the link of the classes" said "bitbake: layers: classes is a link that leads nowhere"
    rm classes && recipe hello 'echo hello > hello.txt'

    mkdir -p conf bare && : >conf/bitbake.conf && ln -s ../away/meta linked && : >plain
    printf 'BBLAYERS = "%s"\n' "$room/away/meta" >conf/bblayers.conf
    runs "$program" -p
    holds "a layer outside" test "$status" -eq 3
    holds "that it lies there" said "bitbake: layers: $room/away/meta/conf/layer.conf doesn't lead from the project's folder to something in it, and nothing else is read; a link in the project may lead there"
    printf 'BBLAYERS = "../away/meta"\n' >conf/bblayers.conf
    runs "$program" -p
    holds "a layer above" said "bitbake: layers: ../away/meta/conf/layer.conf doesn't lead from the project's folder to something in it, and nothing else is read; a link in the project may lead there"
    for words in "linked:linked is a link that leads nowhere" "gone:there is no folder gone" "plain:plain is no folder" \
        "bare:the folder bare is there, and has no file conf/layer.conf"; do
        printf 'BBLAYERS = "%s"\n' "${words%%:*}" >conf/bblayers.conf
        runs "$program" -p
        holds "the layer ${words%%:*}" said "bitbake: layers: ${words#*:}"
    done
    rm -r conf linked bare plain

    mkdir -p files/folder && ln -s folder files/linked && ln -s nowhere files/lost
    for word in folder linked lost; do
        recipe hello 'echo hello > hello.txt'
        printf 'do_build[file-checksums] = "files/%s:True"\n' "$word" >>recipes/hello.bb
        runs "$program" hello
        holds "$word among file-checksums" test "$status $(cat "$room/text")" = "3 fault 3 recipes/hello.bb: MissingFile files/$word"
        case $word in
            folder) holds "it is a folder" said "bitbake: layers: files/folder is a folder" ;;
            linked) holds "it leads to a folder" said "bitbake: layers: files/linked is a folder" ;;
            lost) holds "it leads nowhere" said "bitbake: layers: files/lost is a link that leads nowhere" ;;
        esac
    done
}

# Folders of layers that are links to folders, in the project and outside of it: what is read through them is read as if it stood there.
links_to_folders() {
    project through
    rm -r recipes && mkdir -p ../far/meta/recipes ../far/meta/conf ../far/meta/classes ../far/src ../far/own conf
    printf 'BBPATH .= ":${LAYERDIR}"\nBBFILES += "${LAYERDIR}/recipes/*.bb"\n' >../far/meta/conf/layer.conf
    printf 'do_share() {\n    cat "$FILESDIR"/* > share.txt\n}\naddtask share\n' >../far/meta/classes/share.bbclass
    printf 'inherit share\ndo_share[file-checksums] = "recipes/src/one:True"\n' >../far/meta/recipes/far.bb
    echo one >../far/src/one && printf 'do_build() {\n    echo own > own.txt\n}\naddtask build\n' >../far/own/own.bb
    ln -s ../far/meta meta && ln -s ../far/own recipes && ln -s ../src ../far/own/src && ln -s ../../.. ../far/own/up
    printf 'BBLAYERS = "meta"\n' >conf/bblayers.conf && printf 'BBFILES += "recipes/*.bb"\n' >conf/bitbake.conf
    runs "$program" far:do_share own
    holds "a layer, recipes and input files behind links" test "$status" -eq 0
    holds "what they give" test "$(cat build/work/far/do_share/share.txt build/work/own/do_build/own.txt | tr '\n' ' ')" = "one own "
    runs "$program" far:do_share own
    holds "they are found" test "$(sed -n '$p' "$room/text")" = "ok 2 found, 0 restored, 0 started"
    echo two >../far/src/one
    runs "$program" far:do_share own
    holds "an edit behind a link" test "$(sed -n '$p' "$room/text")" = "ok 1 found, 0 restored, 1 started"
    rm -r ../far
}

# A preference that names none of those that provide a name.
a_preference_of_none() {
    project preference
    printf 'PROVIDES = "virtual/x"\n' >recipes/a.bb && printf 'PROVIDES = "virtual/x"\n' >recipes/b.bb
    mkdir conf && printf 'PREFERRED_PROVIDER_virtual/x = "c"\n' >conf/bitbake.conf
    runs "$program" virtual/x
    holds "a preference of none" test "$status $(cat "$room/text")" = "3 fault 3 SeveralProvide virtual/x a b"
    holds "it says so" grep -q 'no preference that counts names one of them: a, b;' "$room/said"
}

# Where a task gave something else than before its record is named, and to remove that is enough.
the_record_of_an_unsteady_task() {
    project unsteady
    echo one >../value
    recipe hello "cat $room/value > hello.txt"
    recipe other 'echo other > other.txt'
    runs "$program" hello other
    first=$(cat build/stamp/hello/do_build)
    echo two >../value
    runs "$program" -f hello
    holds "an unsteady task" test "$status $(tail -n 1 "$room/text")" = "9 fault 9 unsteady hello:do_build"
    holds "its record is named" said "bitbake: record: build/rec2/$first tells what hello:do_build gave before: where a tool on the search path has changed, remove this file and run again"
    rm "build/rec2/$first"
    runs "$program" hello other
    holds "its record is enough" test "$status $(cat build/work/hello/do_build/hello.txt)" = "0 two"
    holds "the other task's is still there" grep -qx 'found other:do_build' "$room/text"

    recipe hello "cat $room/value > hello.txt; : again"
    runs "$program" hello
    second=$(cat build/stamp/hello/do_build)
    echo three >../value
    runs "$program" -f hello
    holds "both records are named" said "bitbake: record: one of these tells what hello:do_build gave before, each for a signature of its own: $(printf 'build/rec2/%s\nbuild/rec2/%s\n' "$first" "$second" | sort | tr '\n' ' ' | sed 's/ build/, build/; s/ $//'); where a tool on the search path has changed, remove them and run again"
}

links_in_place_of_folders
names_of_files_outside
other_kinds
a_linked_build
closed_below_build
odd_names_elsewhere
odd_names_among_recipes
patterns_in_folders
odd_names_below_build
sizes_beyond_the_formats
reasons_of_missing_files
links_to_folders
a_preference_of_none
the_record_of_an_unsteady_task

echo "$passed passed, $failed failed"
[ "$failed" -eq 0 ]
