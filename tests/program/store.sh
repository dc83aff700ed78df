# The store by ordinary tools, and what it costs to change it by hand. A part of tests/program.sh, which has the functions.

# The store by ordinary tools: what a run leaves, as docs/STORE.md shows it.
project store
recipe hello 'echo hello > hello.txt'
runs "$bitbake" hello
wants "a run over an empty store" 0 "$done_text"
digest=$(cat build/stamp/hello/do_build)
record=build/rec2/$digest
sed -n 's/^    \(0[0-9a-f]\{7\}: .*\)$/\1/p' "$top/docs/STORE.md" >"$room/dump"
holds "the documents have a dump" test -s "$room/dump"
if command -v xxd >/dev/null 2>&1; then
    xxd "$record" >"$room/text"
    holds "the dump in the documents" cmp -s "$room/dump" "$room/text"
else
    echo "skipped the dump in the documents: there is no xxd"
fi
holds "a record's name" test "$(tail -c +14 "$record" | head -c 100 | sha256sum)" = "$digest  -"
key=$(find build/key -type f)
holds "a key's name" test "$(sha256sum <"$key")" = "$(basename "$key")  -"
holds "a record's key" grep -aq ",64:$(basename "$key")," "$record"
sed -n '/^    \$ cat build\/key\//,/^$/s/^    \([^$].*\)$/\1/p' "$top/docs/STORE.md" >"$room/dump"
holds "the key in the documents" test "$(cat "$room/dump")" = "$(cat "$key")"
holds "a digest of the manifest" grep -aq "$(sha256sum <build/work/hello/do_build/hello.txt | cut -c 1-64)" "$record"

# Records, keys, the stamp and work folders are as they were when they were kept.
cp -R build "$room/kept" || exit 1
is_as_kept() {
    for folder in rec2 key stamp/hello work; do
        diff -r "$room/kept/$folder" "build/$folder" >/dev/null || return 1
    done
}

# Files of random bytes go, where records should stand; so does what else a store has no place for. Under `stamp/` they stay, and are no stamps.
mkdir build/stamp/p || exit 1
head -c 256000 /dev/urandom | split -b 256 -a 4 -x - "build/rec2/$(printf '%060d' 0)" || exit 1
head -c 65000 /dev/urandom | split -b 65 -a 4 -x - build/stamp/p/do_ || exit 1
holds "2,000 files of random bytes" test "$(find build/rec2 build/stamp -type f | wc -l)" -eq 2002
runs "$bitbake" hello
wants "a run over random files" 0 "$found_text"
holds "random files are gone" is_as_kept
holds "random files under stamp/ stay" test "$(find build/stamp/p -type f | wc -l)" -eq 1000
mkdir -p build/rec2/deep/er build/stamp/p build/tmp/rec2 && ln -s "$digest" build/rec2/link && cp "$record" build/rec2/deep/er/record || exit 1
cp "$record" "build/rec2/$(printf '%064d' 1)" && printf '%.63s\n' "$digest" >build/stamp/p/do_short || exit 1
cp build/stamp/hello/do_build build/stamp/p.txt && cp "$record" build/tmp/rec2/ && echo file >build/tmp/file || exit 1
runs "$bitbake" hello
wants "a run over odd files" 0 "$found_text"
holds "odd files are gone" is_as_kept
holds "odd files under stamp/ stay" test -f build/stamp/p.txt -a -f build/stamp/p/do_short
holds "nothing stands in the folder of temporary files" test -z "$(find build/tmp -not -type d 2>/dev/null)"
rm -rf build/tmp build/stamp && echo file >build/tmp && echo file >build/stamp || exit 1
runs "$bitbake" hello
wants "a run over files in the places of folders" 0 "$done_text"
holds "folders are there again" is_as_kept

# A record whose bytes are no record's, or that has another unihash, isn't believed; the run stores it again. One with another manifest
# is that of a task that gave something else.
for change in byte unihash end manifest; do
    case $change in
        byte) printf x | dd of="$record" bs=1 seek=129 conv=notrunc 2>/dev/null ;;
        unihash) printf f | dd of="$record" bs=1 seek=202 conv=notrunc 2>/dev/null ;;
        end) truncate -s -1 "$record" ;;
        manifest) printf 6 | dd of="$record" bs=1 seek=134 conv=notrunc 2>/dev/null ;;
    esac
    runs "$bitbake" hello
    if [ "$change" = manifest ]; then
        wants "a record with another $change" 9 "$plan
broke hello:do_build fault
fault 9 unsteady hello:do_build"
        holds "it says where" grep -q '^bitbake: hello:do_build gave another hello.txt than ' "$room/said"
        rm "$record" || exit 1
        runs "$bitbake" hello
    fi
    wants "a record with another $change, or without it" 0 "$done_text"
    holds "the record is whole again, $change" is_as_kept
done

# A stamp by hand counts as one that a run has left. One that names another record doesn't.
rm build/stamp/hello/do_build || exit 1
runs "$bitbake" hello
wants "a task without its stamp" 0 "$done_text"
rm build/stamp/hello/do_build && printf '%s\n' "$digest" >build/stamp/hello/do_build || exit 1
runs "$bitbake" hello
wants "a stamp by hand" 0 "$found_text"
printf '%s\n' "$digest" | tr '0-9a-f' '1-9a-f0' >build/stamp/hello/do_build || exit 1
runs "$bitbake" hello
wants "a stamp by hand that names another record" 0 "$done_text"
holds "the stamp is written again" is_as_kept

# What it costs to delete by hand, of a task of the shared state and one that isn't.
mkdir conf && echo 'SSTATETASKS = "do_build"' >conf/bitbake.conf && rm -rf build || exit 1
restored_text="$announced
restored hello:do_build
ok 0 found, 1 restored, 0 started"
runs "$bitbake" hello
wants "a task of the shared state" 0 "$done_text"
object=$(find build/obj -name hello.txt)
holds "its object" test "$(cat "$object")" = hello
for deleted in stamp work; do
    rm -r "build/$deleted/hello" || exit 1
    runs "$bitbake" hello
    wants "without its $deleted folder" 0 "$restored_text"
    holds "the output without its $deleted folder" test "$(cat build/work/hello/do_build/hello.txt)" = hello
done
for deleted in obj tmp; do
    rm -rf "build/$deleted" || exit 1
    runs "$bitbake" hello
    wants "without the folder $deleted" 0 "$found_text"
done
holds "the object stays away" test ! -e build/obj
runs "$bitbake" -f hello
wants "the task again" 0 "$done_text"
holds "the object is there again" test "$(cat "$object")" = hello
printf j | dd of="$object" bs=1 conv=notrunc 2>/dev/null
rm build/stamp/hello/do_build || exit 1
runs "$bitbake" hello
wants "an object of which one byte is another one" 0 "$done_text"
holds "the object is as it was" test "$(cat "$object")" = hello
rm build/rec2/* || exit 1
runs "$bitbake" hello
wants "without its record" 0 "$done_text"
rm -r build || exit 1
runs "$bitbake" hello
wants "without the store" 0 "$done_text"
