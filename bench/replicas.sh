#!/bin/sh
# Prints the time that `dirnode exec` takes for two nodes, one of which commits changes out of order and then sends them
# to the other: for each number of changes the time, and its ratio to the time of the number before.
#
# Each change is an add of a name of its own. Tickets are begun by hundreds, committed last first and settled first first;
# then each change is offered and delivered.
set -eu

here=$(cd "$(dirname "$0")/.." && pwd)
"$here/dirnode" build

generate() {
    awk -v n="$1" '
        function unit(i,    letters, k) {
            letters = ""
            for (k = 0; k < 5; k++) {
                letters = sprintf("%x", 97 + i % 26) letters
                i = int(i / 26)
            }
            return letters
        }
        function add(i) {
            return "303202010268" "2d0413" "6f753d" unit(i) "2c64633d6578616d706c65" \
                "30163014040b6f626a656374436c61737331050403746f70"
        }
        BEGIN {
            print "nodes 2"
            print "clock 100"
            print "open 1 1"
            print "in 1 301c0201016017020103040a636e3d6d616e616765728006736563726574"
            for (first = 1; first <= n; first += 100) {
                last = first + 99 < n ? first + 99 : n
                for (i = first; i <= last; i++) print "start " i " 1 " add(i)
                for (i = last; i >= first; i--) print "commit " i
                for (i = first; i <= last; i++) print "settle " i
            }
            print "acquire 1 2"
            for (i = 1; i <= n; i++) print "offer 1 2"
            for (i = 1; i <= n; i++) print "deliver 2 " i
            print "release 1 2"
            print "vector 1"
            print "vector 2"
        }'
}

script=$(mktemp)
trap 'rm -f "$script"' EXIT
before=
for changes in 100 1000 10000 100000; do
    generate "$changes" > "$script"
    start=$(date +%s.%N)
    "$here/dirnode" exec < "$script" > /dev/null
    end=$(date +%s.%N)
    time=$(echo "$end - $start" | bc)
    if [ -n "$before" ]; then
        printf '%8s changes %9.3f s   times %s\n' "$changes" "$time" "$(echo "scale=1; $time / $before" | bc)"
    else
        printf '%8s changes %9.3f s\n' "$changes" "$time"
    fi
    before=$time
done
