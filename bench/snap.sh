#!/bin/sh
# Prints what persistent maps and snapshots take, in three tables.
#
# The first is that of `bench/map.sh`: a map of 1,000 to 1,000,000 rows, its `with` and its `get`, and the bytes of a row.
# The second is of a tree of 1,000 to 100,000 entries and its snapshot: the microseconds of an add with the move of the
# snapshot while both grow, of a plan that changes one value, and of the move by it. The third is of searches over such a
# tree and over a snapshot of it, in turns: for a value that one entry in a thousand has, and for one that none has. Of
# twenty runs the shortest counts. A search over a snapshot is to take at most a fifth longer than one over the tree.
# Arguments are other numbers of entries, for the second and the third table.
#
# A hundred of the entries are below the suffix entry, and the others below these in turn.
set -eu

here=$(cd "$(dirname "$0")/.." && pwd)
program=$here/crates/snap_cases/out/snap_cases
[ -x "$program" ] || (cd "$here/crates/snap_cases" && rt run -- snapshots.cases > /dev/null)
told=$(mktemp)
trap 'rm "$told"' EXIT

"$here/bench/map.sh"

[ $# -gt 0 ] || set -- 1000 10000 100000
for entries; do
    "$program" times "$entries" | sed "s/^/$entries /" >> "$told"
done

printf '\n%9s %12s %12s %12s\n' entries 'add, us' 'plan, us' 'move, us'
awk '$2 == "moves" { printf "%9d %12.2f %12.2f %12.2f\n", $1, $3 / 1000, $4 / 1000, $5 / 1000 }' "$told"

printf '\n%9s %-10s %12s %13s %12s\n' entries 'searched' 'tree, us' 'snapshot, us' ratio
awk '$2 == "search" { printf "%9d %-10s %12.1f %13.1f %12.2f\n", $1, $3, $4 / 1000, $5 / 1000, $5 / $4 }' "$told"
