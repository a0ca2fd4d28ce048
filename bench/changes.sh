#!/bin/sh
# Prints the time that `dirnode exec` takes for two nodes whose clients change entries and that send each other all that
# they took: for each number of changes the time, and its ratio to the time of the number before.
#
# Of ten changes four are adds, three modifies, two renames and one a delete. One of four names is added at both nodes.
# After every thousand changes each node sends the other what it has not got. Every write has to be answered 0, every
# delivery `ok`, and the vectors have to be equal at the end.
set -eu

here=$(cd "$(dirname "$0")/.." && pwd)
"$here/dirnode" build

generate() {
    awk -v n="$1" '
        function element(tag, body) {
            return tag sprintf("%02x", length(body) / 2) body
        }
        function text(s,    digits, k) {
            digits = ""
            for (k = 1; k <= length(s); k++) digits = digits code[substr(s, k, 1)]
            return element("04", digits)
        }
        function ask(node, operation) {
            print "in " node " " element("30", "020102" operation)
            changes++
        }
        function named(name) {
            return name ",dc=example"
        }
        function add(node, name) {
            ask(node, element("68", text(named(name)) element("30", class)))
        }
        function modify(node, name) {
            ask(node, element("66", text(named(name)) element("30", element("30", "0a0102" description))))
        }
        function rename(node, name, new) {
            ask(node, element("6c", text(named(name)) text(new) "0101ff"))
        }
        function remove(node, name,    body) {
            body = text(named(name))
            ask(node, "4a" substr(body, 3))
        }
        function ten(node, i,    own) {
            own = "ou=" node "-" i
            add(node, own "-a")
            add(node, own "-b")
            add(node, own "-c")
            add(node, "ou=" i)
            modify(node, own "-a")
            modify(node, own "-b")
            modify(node, own "-c")
            rename(node, own "-a", own "-d")
            rename(node, own "-b", own "-e")
            remove(node, own "-d")
        }
        function session(from, to, count,    k) {
            print "acquire " from " " to
            for (k = 1; k <= count; k++) {
                print "offer " from " " to
                print "deliver " to " " ++offered
            }
            print "offer " from " " to
            print "release " from " " to
        }
        function exchange(    half) {
            half = (changes - sent) / 2
            session(1, 2, half)
            session(2, 1, half)
            sent = changes
        }
        BEGIN {
            for (k = 32; k < 127; k++) code[sprintf("%c", k)] = sprintf("%02x", k)
            class = element("30", text("objectClass") element("31", text("top")))
            description = element("30", text("description") element("31", text("of the one that made it")))
            print "nodes 2"
            print "clock 100"
            for (node = 1; node <= 2; node++) {
                print "open " node " " node
                print "in " node " 301c0201016017020103040a636e3d6d616e616765728006736563726574"
            }
            for (i = 1; changes < n; i++) {
                ten(1, i)
                ten(2, i)
                if (changes % 1000 == 0) exchange()
            }
            if (sent < changes) exchange()
            print "vector 1"
            print "vector 2"
        }'
}

script=$(mktemp)
output=$(mktemp)
trap 'rm -f "$script" "$output"' EXIT
before=
for changes in 1000 10000 100000; do
    generate "$changes" > "$script"
    start=$(date +%s.%N)
    "$here/dirnode" exec < "$script" > "$output"
    end=$(date +%s.%N)
    [ "$(grep -c '^out [12] 300c0201026[79bd]070a010004000400$' "$output")" -eq "$changes" ]
    [ "$(grep -c '^deliver [12] [0-9]* ok$' "$output")" -eq "$changes" ]
    [ "$(sed -n 's/^vector [12] //p' "$output" | uniq | wc -l)" -eq 1 ]
    time=$(echo "$end - $start" | bc)
    if [ -n "$before" ]; then
        printf '%8s changes %9.3f s   times %s\n' "$changes" "$time" "$(echo "scale=1; $time / $before" | bc)"
    else
        printf '%8s changes %9.3f s\n' "$changes" "$time"
    fi
    before=$time
done
