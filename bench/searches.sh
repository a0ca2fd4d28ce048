#!/bin/sh
# Prints how many searches a second `dirnode exec` answers over an address book of 10,000 people: of one entry, of one
# level with a limit of 10, of the subtree for the mail of one person, and of the subtree for all entries.
#
# Each time is that of a script with the searches, less that of the script without them. A search for mail looks at each
# person, since there is no index (docs/MAP.md).
set -eu

here=$(cd "$(dirname "$0")/.." && pwd)
"$here/dirnode" build

generate() {
    awk -v n="$1" -v kind="$2" -v searches="$3" '
        function element(tag, body,    size) {
            size = length(body) / 2
            if (size < 128) return tag sprintf("%02x", size) body
            return tag sprintf("82%04x", size) body
        }
        function text(s,    digits, k) {
            digits = ""
            for (k = 1; k <= length(s); k++) digits = digits code[substr(s, k, 1)]
            return element("04", digits)
        }
        function attribute(name, values) {
            return element("30", text(name) element("31", values))
        }
        function send(operation) {
            print "in 1 " element("30", "020102" operation)
        }
        function add(name, attributes) {
            send(element("68", text(name) element("30", attributes)))
        }
        function letters(i,    word, k) {
            word = ""
            for (k = 0; k < 5; k++) {
                word = sprintf("%c", 97 + i % 26) word
                i = int(i / 26)
            }
            return word
        }
        function person(i,    word) {
            word = letters(i)
            add("uid=" word ",ou=People,dc=example", \
                classes attribute("cn", text("Given " word)) attribute("sn", text(word)) \
                attribute("mail", text(word "@example.com")) \
                attribute("telephoneNumber", text("+1 408 " (1000000 + i))))
        }
        # all entries have a class
        function search(base, scope, limit, filter) {
            send(element("63", text(base) "0a01" scope "0a0100" "0201" limit "020100" "010100" filter "3000"))
        }
        function find(i) {
            if (kind == "base") search("uid=" letters(i) ",ou=People,dc=example", "00", "00", any)
            if (kind == "level") search("ou=People,dc=example", "01", "0a", any)
            if (kind == "mail") search("dc=example", "02", "00", element("a3", text("mail") text(letters(i) "@example.com")))
            if (kind == "all") search("dc=example", "02", "00", any)
        }
        BEGIN {
            for (k = 32; k < 127; k++) code[sprintf("%c", k)] = sprintf("%02x", k)
            classes = attribute("objectClass", \
                text("top") text("person") text("organizationalPerson") text("inetOrgPerson"))
            any = "870b6f626a656374436c617373"
            print "nodes 1"
            print "clock 100"
            print "open 1 1"
            print "in 1 301c0201016017020103040a636e3d6d616e616765728006736563726574"
            add("ou=People,dc=example", attribute("objectClass", text("top") text("organizationalUnit")))
            for (i = 1; i <= n; i++) person(i)
            for (i = 1; i <= searches; i++) find(1 + (i * 7919) % n)
        }'
}

script=$(mktemp)
trap 'rm -f "$script"' EXIT

measure() {
    generate "$@" > "$script"
    start=$(date +%s.%N)
    ended=$("$here/dirnode" exec < "$script" | grep -c '^out 1 300c02010265070a010[04]04000400$' || true)
    end=$(date +%s.%N)
    [ "$ended" -eq "$3" ]
    echo "$end - $start" | bc
}

people=10000
idle=$(measure "$people" none 0)
for line in 'base 20000' 'level 20000' 'mail 200' 'all 20'; do
    kind=${line% *}
    searches=${line#* }
    time=$(echo "$(measure "$people" "$kind" "$searches") - $idle" | bc)
    printf '%-6s %6s searches %9.3f s %10.1f a second\n' "$kind" "$searches" "$time" "$(echo "$searches / $time" | bc -l)"
done
