#!/bin/sh
# Prints how many anonymous binds of 14 bytes a second are answered over one connection on loopback, with one and
# with 64 of them unanswered: by a connection of a node on a stream that is served, and by a plain C loop that sends
# back what it reads. So many requests are sent (the first argument; without it 200,000); of three runs the best counts.
set -eu

here=$(cd "$(dirname "$0")/.." && pwd)
program=$here/crates/stream_cases/out/stream_cases
count=${1:-200000}
made=$(mktemp -d)

# proves and builds the program
[ -x "$program" ] || (cd "$here/crates/stream_cases" && rt run -- data/stream.cases > /dev/null)
cc -O2 -o "$made/echo" "$here/bench/echo.c"

"$program" serve 47101 &
served=$!
"$made/echo" serve 47102 &
plain=$!
trap 'kill $served $plain 2> /dev/null; rm -r "$made"' EXIT

# the requests a second at port $1 with $2 unanswered
rate() {
    (for run in 1 2 3; do "$made/echo" ask "$1" "$count" "$2"; done) | sort -n | tail -n 1
}

printf '%10s  %16s  %16s  %6s\n' unanswered 'dirnode, /s' 'C loop, /s' ratio
for flight in 1 64; do
    ours=$(rate 47101 "$flight")
    theirs=$(rate 47102 "$flight")
    printf '%10s  %16s  %16s  %6s\n' "$flight" "$ours" "$theirs" "$(echo "scale=2; $ours / $theirs" | bc)"
done
