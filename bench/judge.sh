#!/bin/sh
# Prints how long the rules take to judge the greatest messages: writes of 2,097,152 bytes with as many values as fit, on the
# view of the suffix entry alone. Of five runs the shortest counts, in seconds, beside the code of the answer (such a write
# is refused for its weight, last of all). Each is to take less than 0.3 s, in whatever order the values come.
#
# An add, and a modify of one modification and of a thousand that share the values, have values of three bytes of
# `userPassword`, which are their own keys, or of four letters of `description`, whose keys are made. These rise, fall, or
# come in no order.
set -eu

here=$(cd "$(dirname "$0")/.." && pwd)
made=$(mktemp -d)
trap 'rm -r "$made"' EXIT

# a repository of the crates below the rules and of a program
(cd "$here" && tar cf - --exclude=out crates crates.txt HANDLES) | tar xf - -C "$made"
mkdir -p "$made/crates/judge_times/src"
echo 'judge_times: repl_data dn_text plain_view ldap_types ldap_requests ldap_rules anyhow' >> "$made/crates.txt"
cat > "$made/crates/judge_times/src/main.rt" <<'END'
//! Judges the write in a file, and prints the least time that it took, and the code.
#![tactic(auto)]

use anyhow::{Result, bail};
use dn_text::read_suffix;
use ldap_requests::read_request;
use ldap_rules::{Identity, JudgeFault, is_judged, is_update, judge};
use ldap_types::Request;
use plain_view::PlainView;
use repl_data::Items;
use std::alloc::Global;
use std::time::{Duration, Instant};
use std::{env, fs};

const RUNS: u32 = 5;

/// The code of the answer to the manager's write.
fn code(alloc: Global, view: &PlainView, request: &Request) -> Result<u32> {
    let bound = Identity::Manager;
    if !is_judged(&request.op) || is_update(request, bound) {
        bail!("no write that is judged");
    }
    match judge(alloc, view, request, bound) {
        Ok(_) => Ok(0),
        Err(JudgeFault::Refused(answer)) => Ok(answer.code.number),
        Err(JudgeFault::NoMemory) => bail!("no memory"),
    }
}

/// Prints the least time of some runs in seconds, and the code.
fn measure(rt: &HostRuntime, view: &PlainView, request: &Request) -> Result<()> {
    let mut least = Duration::MAX;
    let mut told = 0;
    for _ in 0..RUNS {
        let start = Instant::now(rt)?;
        told = code(rt.alloc(), view, request)?;
        least = least.min(start.elapsed(rt)?);
    }
    let seconds = least.as_secs_f64();
    println!(rt; "{seconds} {told}")?;
    Ok(())
}

/// The view of the suffix entry alone.
fn empty_view(alloc: Global) -> Result<PlainView> {
    let Ok(suffix) = read_suffix(alloc, b"dc=example".as_slice()) else {
        bail!("no memory");
    };
    let changes = Items::new(alloc);
    Ok(PlainView::of(alloc, &suffix, changes.as_slice())?)
}

fn measure_message(rt: &HostRuntime, bytes: &[u8]) -> Result<()> {
    let Ok((request, _)) = read_request(rt.alloc(), bytes) else {
        bail!("no request");
    };
    let view = empty_view(rt.alloc())?;
    measure(rt, &view, &request)
}

/// The first word after the program's name.
fn first_word(rt: &HostRuntime) -> Result<String> {
    match env::args(rt)?.skip(1).next() {
        Some(name) => Ok(name),
        None => bail!("usage: judge_times FILE"),
    }
}

fn main(rt: HostRuntime) -> Result<()> {
    let name = first_word(&rt)?;
    let bytes = fs::read(&rt, name.as_str())?;
    measure_message(&rt, bytes.as_slice())
}
END

# a message, in hexadecimal: $1 is `add` or `modify`, $2 the attribute, $3 the bytes of each value, $4 their order, $5 how
# many modifications share them
message() {
    awk -v kind="$1" -v name="$2" -v size="$3" -v order="$4" -v parts="$5" '
        # the head of an element of BER, with its length in three bytes
        function head(tag, size) {
            return tag sprintf("83%06x", size)
        }
        function text(s,    i, all) {
            all = ""
            for (i = 1; i <= length(s); i++) all = all sprintf("%02x", index(ascii, substr(s, i, 1)) + 31)
            return all
        }
        function octets(s) {
            return sprintf("04%02x", length(s)) text(s)
        }
        # the i-th value: a number in three bytes, or in four letters
        function value(i,    k, all) {
            if (size == 3) return "0403" sprintf("%06x", i)
            all = ""
            for (k = 0; k < 4; k++) {
                all = sprintf("%02x", 97 + i % 26) all
                i = int(i / 26)
            }
            return "0404" all
        }
        # the place of the i-th of `count` values
        function place(i) {
            if (order == "rising") return i
            if (order == "falling") return count - 1 - i
            return (i * 7919) % count
        }
        BEGIN {
            for (i = 32; i < 127; i++) ascii = ascii sprintf("%c", i)
            each = size + 2
            own = octets(name)
            object = kind == "add" ? octets("cn=x,dc=example") : octets("dc=example")
            class = kind == "add" ? "3014040b6f626a656374436c61737331050403746f70" : ""
            # of each list: its head, that of its attribute where it is a modification, the name, and the head of the values
            fixed = kind == "add" ? 5 + length(own) / 2 + 5 : 5 + 3 + 5 + length(own) / 2 + 5
            around = 5 + 3 + 5 + length(object) / 2 + 5 + length(class) / 2
            count = int((2097152 - around - parts * fixed) / each)
            # no factor of 7919, so that no place comes twice
            if (count % 7919 == 0) count--
            values = count * each
            inside = parts * fixed + values
            printf "%s", head("30", around - 5 + inside) "020102"
            printf "%s", head(kind == "add" ? "68" : "66", around - 13 + inside) object
            printf "%s", head("30", length(class) / 2 + inside) class
            for (part = 0; part < parts; part++) {
                first = int(count * part / parts)
                end = int(count * (part + 1) / parts)
                body = (end - first) * each
                if (kind == "modify") printf "%s", head("30", fixed - 5 + body) "0a0100"
                printf "%s", head("30", length(own) / 2 + 5 + body) own head("31", body)
                for (i = first; i < end; i++) printf "%s", value(place(i))
            }
        }'
}

# proves and builds the program
message modify description 4 rising 1 | xxd -r -p > "$made/message"
(cd "$made/crates/judge_times" && rt run -- "$made/message" > /dev/null)

printf '%-8s %14s  %-14s %-8s %8s  %4s\n' message modifications attribute order seconds code
measure() {
    message "$1" "$2" "$3" "$4" "$5" | xxd -r -p > "$made/message"
    "$made/crates/judge_times/out/judge_times" "$made/message" | {
        read -r seconds code
        printf '%-8s %14s  %-14s %-8s %8.3f  %4s\n' "$1" "$6" "$2" "$4" "$seconds" "$code"
    }
}
for order in rising falling mixed; do
    for attribute in 'userPassword 3' 'description 4'; do
        # shellcheck disable=SC2086
        measure add $attribute "$order" 1 -
        # shellcheck disable=SC2086
        measure modify $attribute "$order" 1 1
        # shellcheck disable=SC2086
        measure modify $attribute "$order" 1000 1000
    done
done
