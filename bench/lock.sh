#!/bin/sh
# Prints how many turns a second threads take at a lock of seats, beside takings of a mutex of the standard library: for
# 1, 2, 4 and 8 threads, which together take so many turns (the first argument; without it 1,000,000), and do nothing in
# any of them. Of three runs the shortest counts.
set -eu

here=$(cd "$(dirname "$0")/.." && pwd)
program=$here/crates/lock_cases/out/lock_cases
turns=${1:-1000000}

# proves and builds the program
(cd "$here/crates/lock_cases" && rt run > /dev/null 2>&1)

# the seconds of one run with $2 threads at lock $1
run() {
    start=$(date +%s.%N)
    "$program" "$1" "$2" $((turns / $2)) > /dev/null
    end=$(date +%s.%N)
    echo "$end - $start" | bc
}

# the turns a second
rate() {
    best=$( (run "$1" "$2"; run "$1" "$2"; run "$1" "$2") | sort -n | head -n 1)
    echo "$turns / $best" | bc
}

printf '%7s  %18s  %18s\n' threads 'seat_lock turns/s' 'std Mutex turns/s'
for threads in 1 2 4 8; do
    printf '%7s  %18s  %18s\n' "$threads" "$(rate lock "$threads")" "$(rate mutex "$threads")"
done
