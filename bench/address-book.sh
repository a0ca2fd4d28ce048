#!/bin/sh
# Prints how many adds a second `dirnode exec` takes while it loads an address book of 1,000, 10,000 and 100,000 people:
# for each number the time, its ratio to the time of the number before, and the adds a second.
#
# Each person has a name of their own below ou=People, four classes, a common name, a surname, mail and a telephone
# number. The time of an add grows with a logarithm of the people that are there (docs/MAP.md).
set -eu

here=$(cd "$(dirname "$0")/.." && pwd)
"$here/dirnode" build

generate() {
    awk -v n="$1" '
        function element(tag, body,    size) {
            size = length(body) / 2
            if (size < 128) return tag sprintf("%02x", size) body
            return tag sprintf("82%04x", size) body
        }
        function text(s,    digits, k) {
            digits = ""
            for (k = 1; k <= length(s); k++) digits = digits code[substr(s, k, 1)]
            return element("04", digits)
        }
        function attribute(name, values) {
            return element("30", text(name) element("31", values))
        }
        function add(name, attributes) {
            print "in 1 " element("30", "020102" element("68", text(name) element("30", attributes)))
        }
        function letters(i,    word, k) {
            word = ""
            for (k = 0; k < 5; k++) {
                word = sprintf("%c", 97 + i % 26) word
                i = int(i / 26)
            }
            return word
        }
        function person(i,    word) {
            word = letters(i)
            add("uid=" word ",ou=People,dc=example", \
                classes attribute("cn", text("Given " word)) attribute("sn", text(word)) \
                attribute("mail", text(word "@example.com")) \
                attribute("telephoneNumber", text("+1 408 " (1000000 + i))))
        }
        BEGIN {
            for (k = 32; k < 127; k++) code[sprintf("%c", k)] = sprintf("%02x", k)
            classes = attribute("objectClass", \
                text("top") text("person") text("organizationalPerson") text("inetOrgPerson"))
            print "nodes 1"
            print "clock 100"
            print "open 1 1"
            print "in 1 301c0201016017020103040a636e3d6d616e616765728006736563726574"
            add("ou=People,dc=example", attribute("objectClass", text("top") text("organizationalUnit")))
            for (i = 1; i <= n; i++) person(i)
        }'
}

script=$(mktemp)
trap 'rm -f "$script"' EXIT
before=
for people in 1000 10000 100000; do
    generate "$people" > "$script"
    start=$(date +%s.%N)
    added=$("$here/dirnode" exec < "$script" | grep -c '^out 1 300c02010269070a010004000400$')
    end=$(date +%s.%N)
    [ "$added" -eq $((people + 1)) ]
    time=$(echo "$end - $start" | bc)
    ratio=${before:+"times $(echo "scale=1; $time / $before" | bc)"}
    printf '%8s people %9.3f s   %-11s %9.0f adds a second\n' "$people" "$time" "$ratio" "$(echo "$people / $time" | bc -l)"
    before=$time
done
