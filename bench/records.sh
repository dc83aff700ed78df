#!/bin/sh
# How fast records are read and written, trees put to a disk in memory and read from it, runs played, and stores opened. It is no part
# of the gate.
#
# A signature of 1 MB in lines of 73 bytes, and one of 64 times the lines, are read and written; a tree of 4,096 and one of 16,384
# entries are put to an empty disk, put there once more and read; runs of 6,500 and of 65,000 tasks, each of which needs up to
# eight others, are played to their end, and found by a second run; stores of 10,000, 20,000 and 40,000 records, each of which names the
# one before, are opened, and stores of so many files of any bytes where records and stamps should stand, which all go. Processor time,
# the best of seven (of three for the largest).
# Asked are 100 MB read and 200 MB written a second; less than 50 ms for each call over 16,384 entries; 3 s for each run of
# 65,536 tasks, and at most 14 times the time of a tenth of the tasks; 2 s for opening 20,000 records, and at most 2.4 times that for 40,000;
# 2 s for opening 10,000 odd files. (The disk in memory moves all that stand behind a file that it removes, so twice as many odd files take
# up to five times as long.)
. "$(dirname -- "$0")/head.sh"
built record_bench

# keep RUNS KIND SIZE keeps what so many runs took
keep() {
    left=$1
    while [ "$left" -gt 0 ]; do
        "$program" "$2" "$3" time
        left=$((left - 1))
    done > "$scratch/times"
}

# least NAME PLACE EACH prints the least number of microseconds behind the name, of the lines that stand at this place among the EACH of
# one run
least() {
    awk -v name="$1: " -v place="$2" -v each="$3" 'index($0, name) == 1 { n++; if ((n - 1) % each + 1 == place) { sub(/.*: /, ""); sub(/ us$/, ""); print } }' \
        "$scratch/times" | sort -n | head -n 1
}

printf '%-40s %10s %10s\n' 'signatures' 'reading' 'writing'
for lines in 14000 896000; do
    keep $((lines > 100000 ? 3 : 7)) codec "$lines"
    bytes=$(sed -n 's/^written: \([0-9]*\) bytes$/\1/p' "$scratch/times" | head -n 1)
    reading=$(least reading 1 1)
    writing=$(least writing 1 1)
    awk -v bytes="$bytes" -v reading="$reading" -v writing="$writing" 'BEGIN {
        printf "%-40s %5.0f MB/s %5.0f MB/s\n", bytes " bytes", bytes / reading, bytes / writing
    }'
    aim "reading $bytes bytes" 'v1 >= 100 * v2' "$bytes" "$reading"
    aim "writing $bytes bytes" 'v1 >= 200 * v2' "$bytes" "$writing"
done

printf '%-40s %10s %10s %10s\n' 'trees' 'put' 'put again' 'read'
for entries in 4096 16384; do
    keep 7 disk "$entries"
    first=$(least putting 1 2)
    again=$(least putting 2 2)
    reading=$(least reading 1 1)
    awk -v entries="$entries" -v first="$first" -v again="$again" -v reading="$reading" 'BEGIN {
        printf "%-40s %7.1f ms %7.1f ms %7.1f ms\n", entries " entries", first / 1000, again / 1000, reading / 1000
    }'
    [ "$entries" -eq 4096 ] || aim "trees of $entries entries" 'v1 < 50000 && v2 < 50000 && v3 < 50000' "$first" "$again" "$reading"
done

printf '%-40s %10s %10s\n' 'runs' 'all end' 'all found'
for tasks in 6500 65000 65536; do
    keep $((tasks > 10000 ? 3 : 7)) board "$tasks"
    ended=$(least running 1 2)
    found=$(least running 2 2)
    awk -v tasks="$tasks" -v ended="$ended" -v found="$found" 'BEGIN {
        printf "%-40s %7.0f ms %7.0f ms\n", tasks " tasks", ended / 1000, found / 1000
    }'
    case $tasks in
        6500) ended_before=$ended found_before=$found ;;
        65000) aim 'ten times the tasks' 'v1 <= 14 * v2 && v3 <= 14 * v4' "$ended" "$ended_before" "$found" "$found_before" ;;
        65536) aim "runs of $tasks tasks" 'v1 <= 3000000 && v2 <= 3000000' "$ended" "$found" ;;
    esac
done

printf '%-40s %10s %10s\n' 'stores' 'records' 'odd files'
for records in 10000 20000 40000; do
    keep 3 store "$records"
    opened=$(least opening 1 2)
    cleared=$(least opening 2 2)
    awk -v records="$records" -v opened="$opened" -v cleared="$cleared" 'BEGIN {
        printf "%-40s %7.0f ms %7.0f ms\n", records " files", opened / 1000, cleared / 1000
    }'
    case $records in
        10000) aim "opening $records odd files" 'v1 <= 2000000' "$cleared" ;;
        20000)
            aim "opening $records records" 'v1 <= 2000000' "$opened"
            opened_before=$opened
            ;;
        40000) aim "opening $records records" 'v1 <= 2.4 * v2' "$opened" "$opened_before" ;;
    esac
done
finish
