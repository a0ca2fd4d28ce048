#!/bin/sh
# Prints how many bytes a second `dirnode exec` takes of one add of growing size, whole and in small pieces: lines of one
# byte for up to 10,000 bytes, of 4,096 bytes above. The add has one great value, or many values of ten bytes.
set -eu

here=$(cd "$(dirname "$0")/.." && pwd)
"$here/dirnode" build

# an add with about $1 bytes of values, as `one` value or `many`, in hexadecimal
message() {
    awk -v n="$1" -v values="$2" '
        # the head of an element of BER, with its length in four bytes
        function head(tag, size) {
            return tag sprintf("84%08x", size)
        }
        function digits(i,    all) {
            all = sprintf("%010d", i)
            gsub(/[0-9]/, "3&", all)
            return all
        }
        BEGIN {
            count = values == "one" ? 1 : int(n / 12)
            set = values == "one" ? n + 6 : 12 * count
            description = 13 + 6 + set
            attributes = 22 + 6 + description
            add = 17 + 6 + attributes
            printf "%s", head("30", 3 + 6 + add) "020102" head("68", add) "040f6f753d612c64633d6578616d706c65"
            printf "%s", head("30", attributes) "3014040b6f626a656374436c61737331050403746f70"
            printf "%s", head("30", description) "040b6465736372697074696f6e" head("31", set)
            if (values == "one") {
                printf "%s", head("04", n)
                for (i = 0; i < n; i++) printf "78"
            } else for (i = 0; i < count; i++) printf "%s", "040a" digits(i)
            print ""
        }'
}

# the same on a bound connection, in lines of $3 bytes
generate() {
    echo 'nodes 1'
    echo 'open 1 1'
    echo 'in 1 301c0201016017020103040a636e3d6d616e616765728006736563726574'
    message "$1" "$2" | fold -w $((2 * $3)) | sed 's/^/in 1 /'
}

script=$(mktemp)
trap 'rm -f "$script"' EXIT
measure() {
    generate "$1" "$2" "$4" > "$script"
    start=$(date +%s.%N)
    answer=$("$here/dirnode" exec < "$script" | tail -n 1 | cut -c 7-)
    end=$(date +%s.%N)
    printf '%4s  %9s bytes  %-22s %9.3f s %12.0f bytes/s  %s\n' "$2" "$1" "$3" "$(echo "$end - $start" | bc)" \
        "$(echo "$1 / ($end - $start)" | bc)" "$answer"
}

for values in one many; do
    for bytes in 100 1000 10000 100000 1000000 2000000; do
        measure "$bytes" "$values" whole 2097000
        if [ "$bytes" -le 10000 ]; then
            measure "$bytes" "$values" 'in pieces of 1 byte' 1
        else
            measure "$bytes" "$values" 'in pieces of 4096' 4096
        fi
    done
done
