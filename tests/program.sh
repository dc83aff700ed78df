#!/bin/sh
# What only a process shows: runs the program that the gate left in crates/bitbake_cli/out/, through bin/bitbake.
# Skips what a missing tool would show. Its parts stand in tests/program/. The last line is 'N passed, M failed'; the status is 0 where M is 0.

top=$(CDPATH='' cd -- "$(dirname -- "$0")/.." && pwd -P) || exit 1
bitbake=$top/bin/bitbake
program=$top/crates/bitbake_cli/out/bitbake_cli
passed=0
failed=0

if [ ! -x "$program" ]; then
    echo "there is no program at $program: the gate builds it"
    echo "0 passed, 1 failed"
    exit 1
fi

room=$(mktemp -d) || exit 1
trap 'rm -rf -- "$room"' EXIT
trap 'exit 1' HUP INT TERM

# Makes an empty project folder, and goes there.
project() {
    mkdir -p "$room/$1/recipes" && cd "$room/$1" || exit 1
}

# Writes a recipe NAME whose task has one body line.
recipe() {
    printf 'do_build() {\n    %s\n}\naddtask build\n' "$2" >"recipes/$1.bb"
}

# Counts a case: the status and the text that are wanted, and those of the run before, in `status` and the file `text`.
wants() {
    printf '%s\n' "$3" >"$room/wanted"
    if [ "$status" -ne "$2" ]; then
        echo "FAILED $1: status $status, wanted $2"
        failed=$((failed + 1))
    elif ! cmp -s "$room/wanted" "$room/text"; then
        echo "FAILED $1: the text is"
        cat "$room/text"
        failed=$((failed + 1))
    else
        passed=$((passed + 1))
    fi
}

# Counts a case: the test holds.
holds() {
    name=$1
    shift
    if "$@"; then
        passed=$((passed + 1))
    else
        echo "FAILED $name"
        failed=$((failed + 1))
    fi
}

# Runs a command, with its status in `status`, its text in the file `text`, and what it writes to standard error in the
# file `said`. The program writes the devices' sentences there, and a line for each failed task with the end of its log
# behind it, each line of that after a bar, or one for a task that gave something else than before; anything else is text too. Of a
# fault of the metadata or a limit its sentence stands there alone, which counts as a case. That no sandbox can be made here goes to
# the file `no_sandbox`.
runs() {
    "$@" >"$room/text" 2>"$room/said" </dev/null
    status=$?
    grep -a '^bitbake: sandbox: ' "$room/said" >"$room/no_sandbox" && sed -i '/^bitbake: sandbox: /d' "$room/said"
    case $status in
        3 | 10) holds "the sentence of $(cat "$room/text")" python3 "$top/tests/sentences.py" "$room/text" "$room/said" ;;
        *) grep -a -v -e '^bitbake: [a-z]*: ' -e '^bitbake: \(mc:[^ :]*:\)\{0,1\}[^ :]*:do_[^ :]* \(failed\|gave \)' -e '^| ' "$room/said" >>"$room/text" ;;
    esac
}

# From here on the project here builds by one worker, so that its tasks run in one order.
one_worker() {
    mkdir -p conf && printf 'BB_NUMBER_THREADS = "1"\n' >conf/bitbake.conf
}

# What was said of failed tasks is just what standard input has.
says() {
    cat >"$room/wanted"
    grep -a -v '^bitbake: [a-z]*: ' "$room/said" >"$room/told"
    holds "$1" cmp -s "$room/wanted" "$room/told"
}

announced='plan 1 tasks, 4 threads'
plan="$announced
started hello:do_build"
done_text="$plan
ended hello:do_build
ok 0 found, 0 restored, 1 started"
found_text="$announced
found hello:do_build
ok 1 found, 0 restored, 0 started"

# The parts, each by its topic. They stand on one another where a later one uses a project of an earlier one.
for part in launcher words modes plans lint runs configs failures devices outputs trace terminal why kills store move clean software installation apart; do
    . "$top/tests/program/$part.sh"
done

echo "$passed passed, $failed failed"
test "$failed" -eq 0
