#!/bin/sh
# Measures the turn lock. It is no part of the gate.
#
# First the turns in a second of 1, 2, 4 and 16 threads, by the turn lock and by a plain mutex around the same story, the best of five runs each.
# Then the processor time of 16 threads that take long turns, in which they sleep: while one has the turn, the others wait, and should cost next to nothing.
. "$(dirname -- "$0")/head.sh"
built turn_lock_bench

# The best rate of five runs: kind, threads, turns of each.
rate() {
    best=0
    for _ in 1 2 3 4 5; do
        now=$("$program" "$1" "$2" "$3" 0 time | sed -n 's/ turns in a second$//p')
        if [ "$now" -gt "$best" ]; then
            best=$now
        fi
    done
    echo "$best"
}

printf '%8s %20s %20s\n' threads 'lock, turns/second' 'mutex, turns/second'
for threads in 1 2 4 16; do
    each=$((200000 / threads))
    printf '%8s %20s %20s\n' "$threads" "$(rate lock "$threads" "$each")" "$(rate mutex "$threads" "$each")"
done

start=$(date +%s)
used=$(spent "$scratch" "$program" lock 16 4 50)
echo "16 threads, 64 turns of 50 ms: $(($(date +%s) - start)) s, of which processor time: $used ms"
aim 'waiting' 'v1 < 500' "$used"
finish
