# The example by the launcher's path and through links, and the launcher without a program. A part of tests/program.sh, which has the functions.

# The example, from another folder, by the launcher's path and through links to it.
cp -R "$top/examples/hello" "$room/example" && rm -rf "$room/example/build" || exit 1
cd "$room/example" || exit 1
runs "$bitbake" hello
wants "the example" 0 "$done_text"
holds "the example's output" test "$(cat build/work/hello/do_build/hello.txt)" = hello
holds "nothing beside it" test "$(ls -A build/work/hello/do_build)" = hello.txt
runs "$bitbake" hello
wants "the example again" 0 "$found_text"

mkdir "$room/links" && ln -s "$bitbake" "$room/links/far" && ln -s far "$room/links/near" || exit 1
runs "$room/links/near" hello
wants "the example through links" 0 "$found_text"
cd "$room/links" || exit 1
runs ./near hello
wants "a folder without recipes" 3 "fault 3 NothingProvides hello"
holds "nothing is built there" test ! -e build

# The launcher without a program builds it, says so, and becomes it: same words, folder and status.
mkdir -p "$room/clone/bin" "$room/clone/crates/bitbake_cli" "$room/tools" && cp "$bitbake" "$room/clone/bin/" || exit 1
cat >"$room/tools/rt" <<'END'
#!/bin/sh
test "$*" = run && mkdir out || exit 1
printf '#!/bin/sh\nprintf "%%s\\n" "$@"\npwd\nexit 9\n' >out/bitbake_cli
chmod +x out/bitbake_cli
END
chmod +x "$room/tools/rt"
cd "$room/links" || exit 1
if (PATH=/usr/bin:/bin && command -v rt) >/dev/null; then
    echo "skipped the launcher without rt: rt stands in /usr/bin or /bin"
else
    runs env PATH=/usr/bin:/bin "$room/clone/bin/bitbake" hello
    holds "the launcher without rt" test "$status" -eq 126
fi
PATH=$room/tools:$PATH "$room/clone/bin/bitbake" 'two words' -x >"$room/text" 2>"$room/said" </dev/null
status=$?
wants "the launcher builds" 9 "two words
-x
$(pwd)"
holds "the launcher says so" grep -q 'proving and building' "$room/said"
