# What stood in the work folder before, all kinds of outputs, and recipes' files. A part of tests/program.sh, which has the functions.

# What stood in the work folder before, and all kinds of outputs.
project old
recipe hello 'echo hello > file'
mkdir build && echo "in the way" >build/work
runs "$bitbake" hello
wants "a file where the work folder should be" 0 "$done_text"
holds "the output in its place" test "$(cat build/work/hello/do_build/file)" = hello
rm build/work/hello/do_build/file
for folder in hello/do_build hello/do_build/file hello/do_other other/do_build; do
    mkdir -p "build/work/$folder" && echo old >"build/work/$folder/old"
done
runs "$bitbake" hello
wants "old outputs" 0 "$done_text"
holds "old outputs are gone" test "$(find build/work/hello/do_build)" = 'build/work/hello/do_build
build/work/hello/do_build/file'
holds "other folders stay" test -f build/work/hello/do_other/old -a -f build/work/other/do_build/old
holds "nothing is left in the benches" test -z "$(find build/bench/*/deps -not -type d)"

project kinds
recipe hello 'mkdir -p deep/er empty/too; mkfifo pipe
    echo run > deep/er/program; chmod 755 deep/er/program; echo read > deep/text; chmod 654 deep/text
    ln -s deep/text link; ln -s nowhere dangling; ln -s deep folder; echo in > -'
for turn in first second; do
    runs "$bitbake" -f hello
    wants "outputs of all kinds, $turn" 0 "$done_text"
    holds "what stands there, $turn" test "$(cd build/work/hello/do_build && find . -not -type d | LC_ALL=C sort | tr '\n' ' ')" = './- ./dangling ./deep/er/program ./deep/text ./folder ./link '
    holds "their bytes, $turn" test "$(cd build/work/hello/do_build && cat deep/er/program ./- deep/text)" = 'run
in
read'
    holds "the executable bit, $turn" test -x build/work/hello/do_build/deep/er/program -a ! -x build/work/hello/do_build/deep/text
    holds "links, $turn" test "$(cd build/work/hello/do_build && readlink link dangling folder | tr '\n' ' ')" = 'deep/text nowhere deep '
    holds "no empty folders, $turn" test ! -e build/work/hello/do_build/empty
done

# What the recipe's file has.
project statements
printf '# a comment\nSUMMARY = "not used"\ndo_build() {\n\techo hello > hello.txt\n}\n\naddtask build\n' >recipes/hello.bb
runs "$bitbake" hello
wants "a name with capital letters" 0 "$done_text"
printf '# a comment\n\nsummary = "not used" \ngreeting = \\\n  "also"\ndo_build() {\n\techo hello > hello.txt\n}\n\naddtask build\n' >recipes/hello.bb
runs "$bitbake" hello
wants "comments, blanks and assignments" 0 "$found_text"
for line in 'A = b' 'python do_x() {' 'fakeroot do_build() {' 'A = "b"c"' 'do_x = "b"'; do
    case $line in
        python*) kind=Python ;;
        fakeroot*) kind=Fakeroot ;;
        'A = "b"c"') kind=OneInnerQuote ;;
        *) kind=BadLine ;;
    esac
    printf '\n%s\n' "$line" >recipes/hello.bb
    runs "$bitbake" hello
    case $line in
        do_x*) wants "a recipe without a task" 3 "fault 3 NoSuchTask hello:do_build" ;;
        *) wants "the line $line" 3 "fault 3 recipes/hello.bb:2: $kind" ;;
    esac
done
printf '\n\nA = "\377"\n' >recipes/hello.bb
runs "$bitbake" hello
wants "a file that isn't UTF-8" 3 "fault 3 recipes/hello.bb:3: NotUtf8"
printf 'do_build() {\n    true\n' >recipes/hello.bb
runs "$bitbake" hello
wants "a function that isn't closed" 3 "fault 3 recipes/hello.bb:1: OpenFunction"

project locked
recipe hello 'mkdir shut; echo a > shut/a; echo b > shut/b; chmod 000 shut/a; chmod 100 shut'
if [ "$(id -u)" -ne 0 ]; then
    runs "$bitbake" hello
elif command -v setpriv >/dev/null 2>&1; then
    chmod 755 "$room" && cp "$program" "$room/program" && chmod 755 "$room/program" && chown -R 65534:65534 .
    runs setpriv --reuid=65534 --regid=65534 --clear-groups "$room/program" hello
    wants "folders and files that are shut" 0 "$done_text"
    runs setpriv --reuid=65534 --regid=65534 --clear-groups "$room/program" -f hello
fi
if [ "$(id -u)" -ne 0 ] || command -v setpriv >/dev/null 2>&1; then
    wants "folders and files that are shut, again" 0 "$done_text"
    holds "what they have" test "$(cat build/work/hello/do_build/shut/*)" = 'a
b'
else
    echo "skipped folders and files that are shut: this is root, and there is no setpriv"
fi

project shut
recipe hello 'echo hello > hello.txt'
mkdir build && chmod 555 build
if [ "$(id -u)" -ne 0 ]; then
    runs "$bitbake" hello
elif command -v setpriv >/dev/null 2>&1; then
    runs setpriv --reuid=65534 --regid=65534 --clear-groups "$room/program" hello
fi
if [ "$(id -u)" -ne 0 ] || command -v setpriv >/dev/null 2>&1; then
    wants "a disk that may not be written" 4 "$announced
fault 4 disk"
    holds "it says so" grep -qx 'bitbake: disk: [a-z]* of build[^ ]*: Permission denied (os error 13)' "$room/said"
fi
