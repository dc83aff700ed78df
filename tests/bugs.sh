#!/bin/sh
# Tries the bugs of tests/bugs: one-line changes that the contracts of a crate have to refuse, as the must-fail edits do that the
# gate tries. These stand apart, since the first edit of a crate costs as much as the whole crate's proof (docs/GATE.md).
#
# Usage: tests/bugs.sh [CRATE ..]           all crates of tests/bugs, or these
#        tests/bugs.sh --changed COMMIT     those that changed since that commit, or stand on a crate that did
# Each is laid beside the crate's own edits, tried by `rt must-fail`, and taken away again. Ends with the number that were refused
# and the number that weren't; the status is 0 where all were.
cd -- "$(dirname -- "$0")/.." || exit 1

# The crates that changed since a commit, and all that stand on these: crates.txt has the lowest first.
changed_since() {
    git rev-parse --quiet --verify "$1^{commit}" >/dev/null || { echo "bugs: there is no commit $1" >&2; return 1; }
    found=$({ git diff --name-only "$1" -- crates; git ls-files --others --exclude-standard -- crates; } | cut -d / -f 2 | sort -u | tr '\n' ' ')
    awk -v found="$found" '
        BEGIN { split(found, names, " "); for (at in names) hit[names[at]] = 1 }
        /^#/ || NF == 0 { next }
        {
            for (at = 1; at <= NF; at++) { sub(/:$/, "", $at); if (hit[$at]) hit[$1] = 1 }
            if (hit[$1]) print $1
        }' crates.txt
}

if [ "$1" = --changed ]; then
    changed=$(changed_since "${2:?a commit}") || exit 1
    set --
    for crate in $changed; do
        [ ! -d "tests/bugs/$crate" ] || set -- "$@" "$crate"
    done
    [ $# -gt 0 ] || { echo "bugs: no crate with bugs has changed"; exit 0; }
else
    [ $# -gt 0 ] || set -- $(cd tests/bugs && ls)
fi

laid=
take_away() {
    for file in $laid; do
        rm -f -- "$file"
        rmdir -- "$(dirname -- "$file")" 2>/dev/null
    done
    laid=
}
trap take_away EXIT
trap 'exit 130' INT TERM

refused=0
others=0
for crate in "$@"; do
    mkdir -p "crates/$crate/must-fail"
    for bug in tests/bugs/"$crate"/*.edit; do
        name=$(basename -- "$bug")
        if [ -e "crates/$crate/must-fail/$name" ]; then
            echo "bugs: $crate has an edit $name already" >&2
            exit 1
        fi
        cp -- "$bug" "crates/$crate/must-fail/$name" || exit 1
        laid="$laid crates/$crate/must-fail/$name"
    done
    said=$(rt must-fail "$crate")
    printf '%s\n' "$said"
    for bug in tests/bugs/"$crate"/*.edit; do
        if printf '%s\n' "$said" | grep -qF "must-fail $crate/$(basename -- "$bug"): refused, as it must be"; then
            refused=$((refused + 1))
        else
            others=$((others + 1))
        fi
    done
    take_away
done
echo "$refused refused, $others not refused"
[ "$others" -eq 0 ]
