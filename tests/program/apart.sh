# Test programs of their own, the cases by the real program, and the pages. A part of tests/program.sh, which has the functions.

# The case files, by this program over real folders.
python3 "$top/tests/cases.py" --program "$program" >"$room/cases"
sed '$d' "$room/cases"
more=$(sed -n '$s/^\([0-9]*\) passed, \([0-9]*\) failed$/\1 \2/p' "$room/cases")
holds "the cases are run" test -n "$more"
passed=$((passed + ${more% *}))
failed=$((failed + ${more#* }))

# What the README shows, and the chapter of docs/METADATA.md whose cases are among those above.
python3 "$top/tests/readme.py" --program "$program" >"$room/readme"
sed '$d' "$room/readme"
more=$(sed -n '$s/^\([0-9]*\) passed, \([0-9]*\) failed$/\1 \2/p' "$room/readme")
holds "the README is typed" test -n "$more"
passed=$((passed + ${more% *}))
failed=$((failed + ${more#* }))
holds "the cases of the chapter are what it shows" python3 "$top/tools/chapter.py" --check

# What scripts leave behind and where they stand, with sandboxes and without; real files of all kinds; a damaged folder build.
for words in "scripts.sh $program" "scripts.sh $program --plain"; do
    # (words are split on purpose)
    sh $top/tests/$words >"$room/apart"
    sed '$d' "$room/apart"
    more=$(sed -n '$s/^\([0-9]*\) passed, \([0-9]*\) failed$/\1 \2/p' "$room/apart")
    holds "tests/${words%% *} is run" test -n "$more"
    passed=$((passed + ${more% *}))
    failed=$((failed + ${more#* }))
done

# Several workers over real folders: random projects, examples, and what waiting costs.
python3 "$top/tests/workers.py" --program "$program" >"$room/workers"
sed '$d' "$room/workers"
more=$(sed -n '$s/^\([0-9]*\) passed, \([0-9]*\) failed$/\1 \2/p' "$room/workers")
holds "the workers are run" test -n "$more"
passed=$((passed + ${more% *}))
failed=$((failed + ${more#* }))

# A case with one wrong line is reported with its name, over devices in memory and over real folders.
mkdir -p "$room/wrong/topic" || exit 1
printf 'An append has no blank.\nfile conf/bitbake.conf\n|A = "1"\n|A:append = "2"\nrun -e\nstatus 0\nline A="12"\n' >"$room/wrong/topic/right.case"
sed 's/^line A="12"$/line A="1 2"/' "$room/wrong/topic/right.case" >"$room/wrong/topic/wrong.case"
for runner in "$top/crates/cases/out/cases" "python3 $top/tests/cases.py --program $program --data $room/wrong"; do
    # (words are split on purpose)
    (cd "$room/wrong" && exec $runner) >"$room/text" 2>&1
    status=$?
    holds "a wrong case, by ${runner##*/}" test "$status" -eq 1
    holds "its name, by ${runner##*/}" grep -q '^topic/wrong: run 1.*: the text has no line A="1 2"' "$room/text"
    holds "no other name, by ${runner##*/}" test "$(grep -c '^topic/' "$room/text")" -eq 1
done

# The table of faults is the one in the documents and in the program, and has each kind that a case shows. A case shows each of its
# sentences, but those of two limits, which are shown above, and that of a plan which isn't sound, which no project brings about.
holds "the tables of faults and statuses" python3 "$top/tools/fault_tables.py" --check
holds "what is told of options" python3 "$top/tools/option_tables.py" --check
holds "the table of what has no effect" python3 "$top/tools/lint_tables.py" --check
grep -rhoE '^\|fault (3|10) ([^ ]*:[0-9]+: |[^ ]+: )?[A-Z][A-Za-z0-9]*' "$top/crates/cases/data" | sed 's/.* //' | sort -u >"$room/kinds-shown"
cut -f1 "$top/docs/faults.tsv" | sed 's/, .*//' | sort -u >"$room/kinds-told"
holds "each kind of fault in the table" test -z "$(comm -23 "$room/kinds-shown" "$room/kinds-told")"
holds "kinds of faults in cases" test "$(comm -12 "$room/kinds-shown" "$room/kinds-told" | wc -l)" -ge 27
cut -f1 "$top/docs/faults.tsv" | LC_ALL=C sort >"$room/told"
cut -f1 "$top/tests/sentences.tsv" | LC_ALL=C sort >"$room/shown"
holds "a case for each sentence" test "$(LC_ALL=C comm -3 "$room/told" "$room/shown" | tr '\n' ' ')" = 'Recipes Tasks UnsoundPlan '

# Real files that aren't as they should be, and a `build/` that is damaged at random, beside canaries.
for more in "sh $top/tests/files.sh $program" "python3 $top/tests/fuzz_build.py --program $program"; do
    # (words are split on purpose)
    $more >"$room/text" 2>&1
    status=$?
    grep -v ' passed, ' "$room/text"
    holds "${more#* "$top/"}" test "$status" -eq 0
done

# The pages say what is there: the files that have to be believed, with their lines; numbers, crates, files and edits. And the library and
# application of the cases and of worked rows is the one of the examples.
holds "the files that have to be believed" python3 "$top/tools/reading_lines.py" --check
holds "the pages and the tree" python3 "$top/tools/pages.py" --check
holds "one library and application" python3 "$top/tests/copies.py"
