# An installation, and the completion of bash. A part of tests/program.sh, which has the functions.

# An installation: what is put, and that just this is taken away.
prefix="$room/it's installed"
mkdir -p "$prefix/share/man" || exit 1
find "$prefix" >"$room/before"
runs "$top/bin/install" "$prefix"
holds "an installation" test "$status" -eq 0
holds "its files" test "$(cd "$prefix" && find . -type f | LC_ALL=C sort | tr '\n' ' ')" = './bin/bitbake ./lib/bitbake/bitbake ./lib/bitbake/installed ./share/bash-completion/completions/bitbake ./share/man/man1/bitbake.1 '
cd "$room/example" || exit 1
runs "$prefix/bin/bitbake" hello
wants "the example by the installed program" 0 "$found_text"
runs "$prefix/bin/bitbake" 'two words' -x
wants "faulty words by the installed program" 2 "$usage"
runs "$prefix/bin/bitbake" --version
holds "the version of the installed program" grep -qE '^bitbake for shell tasks, commit [^ ,]+, kit [^,]+$' "$room/text"
if command -v man >/dev/null 2>&1; then
    MANPATH="$prefix/share/man" man -w bitbake >"$room/text" 2>/dev/null
    holds "man finds its page" grep -qxF "$prefix/share/man/man1/bitbake.1" "$room/text"
else
    echo "skipped the manual page that is installed: there is no man"
fi
find "$prefix" | LC_ALL=C sort >"$room/text"
holds "an installation over it" "$top/bin/install" "$prefix"
holds "it leaves nothing else" test "$(find "$prefix" | LC_ALL=C sort)" = "$(cat "$room/text")"
holds "it is taken away" "$top/bin/install" --remove "$prefix"
holds "nothing else goes, and nothing stays" test "$(find "$prefix")" = "$(cat "$room/before")"
runs "$top/bin/install" --remove "$prefix"
holds "there is nothing more to take away" test "$status" -eq 1
rm -rf "$room/clone/crates/bitbake_cli/out" && cp "$top/bin/install" "$room/clone/bin/" || exit 1
runs "$room/clone/bin/install" "$prefix"
holds "without a program nothing is installed" test "$status" -eq 1 -a "$(find "$prefix")" = "$(cat "$room/before")"
mkdir "$prefix/bin" && echo mine >"$prefix/bin/bitbake" || exit 1
runs "$top/bin/install" "$prefix"
holds "a program of that name is left alone" test "$status" -eq 1 -a "$(cat "$prefix/bin/bitbake")" = mine -a ! -e "$prefix/lib"

# The completion of bash, by its function, and where there is tmux by what a terminal shows.
cd "$room/library" || exit 1
if command -v bash >/dev/null 2>&1; then
    cat >"$room/completed" <<'END'
. "$1/bin/completion.bash"
shift
program=$1
shift
for line in "$@"; do
    COMP_LINE=$line COMP_POINT=${#line} COMPREPLY=()
    _bitbake "$program"
    printf '%s:%s\n' "$line" "${COMPREPLY[*]/#/ }"
done
END
    bash --norc --noprofile "$room/completed" "$top" "$bitbake" 'bitbake ' 'bitbake -k gr' 'bitbake --no' 'bitbake greet:' 'bitbake app greet:do_c' \
        'bitbake greet:comp' 'bitbake app -c do_b' 'bitbake app -c pop' 'bitbake -c do_b' 'bitbake -c pop' 'bitbake --cmd=pop' 'bitbake nosuch:' >"$room/text" 2>&1
    status=$?
    wants "what bash completes" 0 'bitbake : app  greet
bitbake -k gr: greet
bitbake --no: --no-setscene
bitbake greet:: do_build  do_compile  do_configure  do_install  do_populate_sysroot
bitbake app greet:do_c: do_compile  do_configure
bitbake greet:comp: compile
bitbake app -c do_b: do_build
bitbake app -c pop: populate_sysroot
bitbake -c do_b: do_build
bitbake -c pop: populate_sysroot
bitbake --cmd=pop: populate_sysroot
bitbake nosuch::'
    holds "nothing is built for it" test ! -e build
    cp conf/bblayers.conf "$room/layers_before"
    printf 'BBMULTICONFIG = "desk panel"\n' >>conf/bblayers.conf
    bash --norc --noprofile "$room/completed" "$top" "$bitbake" 'bitbake mc:' 'bitbake mc:p' 'bitbake mc:desk:gr' 'bitbake mc:desk:greet:do_c' 'bitbake mc:desk:app -c do_b' >"$room/text" 2>&1
    status=$?
    wants "what bash completes of configurations" 0 'bitbake mc:: desk:  panel:
bitbake mc:p: panel:
bitbake mc:desk:gr: greet
bitbake mc:desk:greet:do_c: do_compile  do_configure
bitbake mc:desk:app -c do_b: do_build'
    mv "$room/layers_before" conf/bblayers.conf
    (cd "$room/clone" && PATH=$room/tools:$PATH BITBAKE_NO_BUILD=1 bin/bitbake -s) >"$room/text" 2>&1
    holds "the launcher builds nothing for it" test $? -eq 126 -a ! -e "$room/clone/crates/bitbake_cli/out"
else
    echo "skipped the completion of bash: there is no bash"
fi
terminal() {
    TMUX_TMPDIR=$room tmux -L bitbake-test -f /dev/null "$@"
}
shows() {
    for _ in 1 2 3 4 5 6 7 8 9 10 11 12 13 14 15 16 17 18 19 20 21 22 23 24 25; do
        terminal capture-pane -p | sed 's/ *$//' | grep -qFx "$1" && return 0
        sleep 0.2
    done
    terminal capture-pane -p
    return 1
}
if command -v bash >/dev/null 2>&1 && command -v tmux >/dev/null 2>&1; then
    mkdir -p "$room/path" && ln -sf "$bitbake" "$room/path/bitbake" || exit 1
    terminal new-session -d -x 150 -y 40 env PATH="$room/path:$PATH" PS1='here: ' INPUTRC=/dev/null bash --norc --noprofile -i || exit 1
    shows 'here:' && terminal send-keys ". '$top/bin/completion.bash'" Enter C-l 'bitbake ap' Tab
    holds "a terminal completes a recipe" shows 'here: bitbake app'
    terminal send-keys C-u 'bitbake greet:pop' Tab
    holds "a terminal completes a task" shows 'here: bitbake greet:populate_sysroot'
    terminal send-keys C-u 'bitbake greet:do_i' Tab
    holds "a terminal completes a task by its whole name" shows 'here: bitbake greet:do_install'
    terminal send-keys C-u 'bitbake --show' Tab
    holds "a terminal completes an option" shows 'here: bitbake --show-versions'
    terminal kill-server
else
    echo "skipped the completion in a terminal: there is no bash or no tmux"
fi
