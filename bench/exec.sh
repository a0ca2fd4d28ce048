#!/bin/sh
# Prints the time that `dirnode exec` takes for scripts of growing size. The time grows as the size does.
set -eu

here=$(cd "$(dirname "$0")/.." && pwd)
"$here/dirnode" build

measure() {
    start=$(date +%s.%N)
    "$here/dirnode" exec > /dev/null 2>&1 || true
    end=$(date +%s.%N)
    printf '%-34s %10s %8.3f s\n' "$1" "$2" "$(echo "$end - $start" | bc)"
}

for lines in 10000 100000 1000000; do
    { echo 'nodes 1'; yes 'clock 7' | head -n $((lines - 1)); } | measure 'short lines' "$lines"
done
for bytes in 41944 419440 4194400; do
    { printf '#'; head -c $((bytes - 1)) /dev/zero | tr '\0' x; } | measure 'one comment, in bytes' "$bytes"
    { head -c "$bytes" /dev/zero | tr '\0' ' '; } | measure 'one line of spaces, in bytes' "$bytes"
done
for adds in 1000 10000 100000; do
    {
        printf 'nodes 1\nopen 1 1\nin 1 301c0201016017020103040a636e3d6d616e616765728006736563726574\n'
        yes 'in 1 302e0201026829040f6f753d612c64633d6578616d706c6530163014040b6f626a656374436c61737331050403746f70' | head -n "$adds"
    } | measure 'adds of one name' "$adds"
done
