#!/bin/sh
# Prints what changes of a tree of 1,000 to 1,000,000 entries take, ten below each: the microseconds of an add while the
# tree grows, of a modify, a rename and a delete of any entry, and of an add or a delete below ten deleted ancestors,
# which all come and go with it; and the bytes of an entry. Arguments are other numbers of entries.
#
# An entry is a person with ten values. Its bytes are the greatest memory of a process that made the tree, less that of
# one that made a tree of one entry, divided by the entries: with the values, their stamps, what shows of them, the names
# by which children are found, and what the allocator needs for them.
set -eu

here=$(cd "$(dirname "$0")/.." && pwd)
made=$(mktemp -d)
trap 'rm -r "$made"' EXIT

# a repository of the crates below a tree, and of a program
(cd "$here" && tar cf - --exclude=out crates crates.txt HANDLES) | tar xf - -C "$made"
mkdir -p "$made/crates/tree_times/src"
echo 'tree_times: repl_data case_lines case_changes case_views urp_tree anyhow' >> "$made/crates.txt"
cat > "$made/crates/tree_times/src/main.rt" <<'RATTLE'
//! Prints what changes of a tree of so many entries take.
#![tactic(auto)]

mod changes;
mod memory;

use anyhow::{Result, bail};
use case_views::example_suffix;
use changes::{Kind, change};
use repl_data::{Change, check};
use std::alloc::Global;
use std::env;
use std::time::Instant;
use urp_tree::UrpTree;

/// How many changes of each kind are measured.
const CHANGES: u64 = 1_000;

/// How many deleted ancestors come and go.
const ANCESTORS: u64 = 10;

fn take(alloc: Global, tree: &mut UrpTree, change: &Change) -> Result<()> {
    if check(change).is_err() {
        bail!("a change at fault");
    }
    if !tree.can_take(change) {
        bail!("what a change needs is not there");
    }
    match tree.plan(alloc, change) {
        Ok(plan) => tree.install(plan),
        Err(_) => bail!("no memory"),
    }
    Ok(())
}

/// The nanoseconds that one of so many changes of a kind takes: its check, its plan and its install.
fn measure(
    rt: &HostRuntime,
    tree: &mut UrpTree,
    kind: Kind,
    count: u64,
    entries: u64,
) -> Result<u128> {
    let mut nanos: u128 = 0;
    for number in 0..count {
        let change = change(rt.alloc(), kind, number, entries)?;
        let start = Instant::now(rt)?;
        take(rt.alloc(), tree, &change)?;
        nanos = nanos.saturating_add(start.elapsed(rt)?.as_nanos());
    }
    Ok(nanos.checked_div(u128::from(count)).unwrap_or(0))
}

/// Prints the entries, the nanoseconds of each kind of change, and the greatest memory in KiB as the tree was made.
fn measure_all(rt: &HostRuntime, tree: &mut UrpTree, entries: u64) -> Result<()> {
    let add = measure(rt, tree, Kind::Add, entries, entries)?;
    let peak = memory::peak(rt)?;
    let modify = measure(rt, tree, Kind::Modify, CHANGES, entries)?;
    let rename = measure(rt, tree, Kind::Rename, CHANGES, entries)?;
    let delete = measure(rt, tree, Kind::Delete, CHANGES, entries)?;
    measure(rt, tree, Kind::Above, ANCESTORS, entries)?;
    measure(rt, tree, Kind::Gone, ANCESTORS, entries)?;
    let below = measure(rt, tree, Kind::Below, CHANGES, entries)?;
    println!(rt; "{entries} {add} {modify} {rename} {delete} {below} {peak}")?;
    Ok(())
}

fn empty_tree(alloc: Global) -> Result<UrpTree> {
    let Ok(suffix) = example_suffix(alloc) else {
        bail!("no suffix");
    };
    match UrpTree::new(alloc, &suffix) {
        Ok(tree) => Ok(tree),
        Err(_) => bail!("no memory"),
    }
}

fn entries_wanted(rt: &HostRuntime) -> Result<u64> {
    match env::args(rt)?.skip(1).next() {
        Some(word) => Ok(word.parse::<u64>()?),
        None => bail!("usage: tree_times ENTRIES"),
    }
}

fn main(rt: HostRuntime) -> Result<()> {
    let entries = entries_wanted(&rt)?;
    let mut tree = empty_tree(rt.alloc())?;
    measure_all(&rt, &mut tree, entries)
}
RATTLE
cat > "$made/crates/tree_times/src/changes.rt" <<'RATTLE'
//! The changes that are measured.

use anyhow::{Result, bail};
use case_changes::next_change;
use case_lines::Fields;
use repl_data::Change;
use std::alloc::Global;

#[derive(Clone, Copy, Debug)]
pub enum Kind {
    /// The add of each entry.
    Add,
    Modify,
    Rename,
    Delete,
    /// Adds of ancestors, each below the one before.
    Above,
    /// Deletes of these.
    Gone,
    /// An add below the last of these and the delete of what it added, in turn.
    Below,
}

/// The change of this kind with this number, from 0 on, in a tree with so many entries.
pub fn change(alloc: Global, kind: Kind, number: u64, entries: u64) -> Result<Change> {
    let text = text(alloc, kind, number, entries)?;
    match next_change(alloc, &mut Fields::new(text.as_bytes())) {
        Ok(change) => Ok(change),
        Err(_) => bail!("no change"),
    }
}

fn text(alloc: Global, kind: Kind, number: u64, entries: u64) -> Result<String> {
    match kind {
        Kind::Add => person(alloc, number.saturating_add(1)),
        Kind::Above => above(alloc, number),
        Kind::Gone => deleted(alloc, 4_200_000_000, number),
        Kind::Below => below(alloc, number),
        Kind::Modify | Kind::Rename | Kind::Delete => {
            changed(alloc, kind, number, any_of(number, entries))
        }
    }
}

/// One of so many entries, another one for almost each number.
fn any_of(number: u64, entries: u64) -> u64 {
    let mixed = number.wrapping_mul(0x9e37_79b9_7f4a_7c15) >> 32;
    mixed.checked_rem(entries).unwrap_or(0).saturating_add(1)
}

/// The entry with this number, from 1 on, below that with a tenth of the number.
fn person(alloc: Global, number: u64) -> Result<String> {
    let above = number / 10;
    let parent = if above == 0 {
        format!(in alloc; "suffix")?
    } else {
        format!(in alloc; "{above}.0.1")?
    };
    let place = number % 10;
    Ok(format!(in alloc; "add {number}.0.1 {number}.0.1 {parent} uid:u{number} cn:name{number};description:'the person of number {number} here';givenname:given{number};l:town{place};mail:mail{number};objectclass:person,top;sn:last{number};telephonenumber:1234567{number};uid:u{number}")?)
}

/// A modify, a rename or a delete of the entry with this id.
fn changed(alloc: Global, kind: Kind, number: u64, id: u64) -> Result<String> {
    match kind {
        Kind::Modify => Ok(format!(in alloc; "mod 4100000000.{number}.2 {id}.0.1 replace:description:m{number}")?),
        Kind::Rename => Ok(format!(in alloc; "ren 4100000000.{number}.3 {id}.0.1 uid:r{number} -")?),
        _ => Ok(format!(in alloc; "del 4100000000.{number}.4 {id}.0.1")?),
    }
}

fn above(alloc: Global, number: u64) -> Result<String> {
    match number.checked_sub(1) {
        Some(parent) => Ok(format!(in alloc; "add 4200000000.{number}.5 4200000000.{number}.5 4200000000.{parent}.5 cn:a cn:a;objectclass:top")?),
        None => Ok(format!(in alloc; "add 4200000000.0.5 4200000000.0.5 suffix cn:a cn:a;objectclass:top")?),
    }
}

fn below(alloc: Global, number: u64) -> Result<String> {
    let round = number / 2;
    if number % 2 == 1 {
        return deleted(alloc, 4_200_000_001, round);
    }
    Ok(format!(in alloc; "add 4200000001.{round}.5 4200000001.{round}.5 4200000000.9.5 cn:b cn:b;objectclass:top")?)
}

fn deleted(alloc: Global, time: u64, number: u64) -> Result<String> {
    Ok(format!(in alloc; "del {time}.{number}.6 {time}.{number}.5")?)
}
RATTLE
cat > "$made/crates/tree_times/src/memory.rt" <<'RATTLE'
//! What memory a process takes.

use anyhow::Result;
use std::fs;

/// The greatest memory that the process has had, in KiB, as Linux tells it; else 0.
pub fn peak(rt: &HostRuntime) -> Result<u64> {
    let Ok(text) = fs::read_to_string(rt, "/proc/self/status") else {
        return Ok(0);
    };
    for line in text.as_str().lines() {
        if let Some(rest) = line.strip_prefix("VmHWM:") {
            let number = rest.split_whitespace().next().unwrap_or("0");
            return Ok(number.parse::<u64>()?);
        }
    }
    Ok(0)
}
RATTLE

# proves and builds the program
(cd "$made/crates/tree_times" && rt run -- 10 > /dev/null)

program=$made/crates/tree_times/out/tree_times
empty=$("$program" 1 | cut -d ' ' -f 7)
printf '%9s %9s %11s %11s %11s %14s %15s\n' entries 'add, us' 'modify, us' 'rename, us' 'delete, us' 'ancestors, us' 'bytes an entry'
[ $# -gt 0 ] || set -- 1000 10000 100000 1000000
for entries; do
    "$program" "$entries" | awk -v empty="$empty" \
        '{ printf "%9d %9.2f %11.2f %11.2f %11.2f %14.2f %15.0f\n", $1, $2 / 1000, $3 / 1000, $4 / 1000, $5 / 1000, $6 / 1000, ($7 - empty) * 1024 / $1 }'
done
