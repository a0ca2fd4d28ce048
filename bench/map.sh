#!/bin/sh
# Prints what a map of 1,000 to 1,000,000 rows takes: the microseconds of a `with` that puts a row behind all others
# while the map grows, of a `with` at a key that is there, and of a `get`, and the bytes of a row.
#
# A row is a number of eight bytes and a value of eight bytes. Its bytes are the greatest memory of a process that made
# the map, less that of a process that made an empty one, divided by the rows: with the keys, the values, the counts of
# their owners, the pages, the root and the version before, and what the allocator needs for them.
set -eu

here=$(cd "$(dirname "$0")/.." && pwd)
program=$here/crates/map_cases/out/map_cases
[ -x "$program" ] || (cd "$here/crates/map_cases" && rt run -- cases > /dev/null)

empty=$("$program" times 0 | cut -d ' ' -f 6)
printf '%9s %12s %12s %12s %12s\n' rows 'put in, us' 'with, us' 'get, us' 'bytes a row'
for rows in 1000 10000 100000 1000000; do
    "$program" times "$rows" | awk -v empty="$empty" \
        '{ printf "%9d %12.2f %12.2f %12.3f %12.0f\n", $1, $2 / 1000, $3 / 1000, $4 / 1000, ($6 - empty) * 1024 / $1 }'
done
