#!/bin/sh
# Prints how long a search over the whole subtree takes, in a node of 10,000 and one of 100,000 people with ten values
# each: an equality, a substring, a presence, and an `and` of three, each of which holds of one person. Of a hundred runs
# the shortest counts: searches a second, candidates a second, and microseconds a candidate. An equality is to take 0.2
# microseconds a candidate. Arguments are other numbers of people.
#
# Candidates are the people and the suffix entry. What a search costs besides them (its base is looked up, its filter is
# read, its one answer is made) is in these times.
set -eu

here=$(cd "$(dirname "$0")/.." && pwd)
made=$(mktemp -d)
trap 'rm -r "$made"' EXIT

# a repository of the crates below a node and a search, and of a program
(cd "$here" && tar cf - --exclude=out crates crates.txt HANDLES) | tar xf - -C "$made"
mkdir -p "$made/crates/search_times/src" "$made/crates/search_times/proofs/asked/searched"
echo 'search_times: repl_data case_lines case_changes case_views ldap_types sqlite_items vector_core node_core search_core anyhow' >> "$made/crates.txt"
cat > "$made/crates/search_times/src/main.rt" <<'END'
//! Prints how long searches take in a node with so many people.
#![tactic(auto)]

mod asked;
mod filters;
mod people;

use anyhow::{Result, bail};
use asked::searched;
use filters::request;
use ldap_types::{Filter, SearchRequest};
use node_core::NodeState;
use people::populated;
use repl_data::{Items, VectorText};
use std::alloc::Global;
use std::env;
use std::time::{Duration, Instant};

const RUNS: u32 = 100;

/// How many entries the search answers.
fn answered(alloc: Global, node: &NodeState, request: &SearchRequest) -> Result<usize> {
    let vector: VectorText = Items::new(alloc);
    match searched(alloc, node, &vector, request) {
        Ok(found) => Ok(found.entries.len()),
        Err(_) => bail!("no memory"),
    }
}

/// The least time of some runs.
fn least(rt: &HostRuntime, node: &NodeState, request: &SearchRequest) -> Result<Duration> {
    let mut least = Duration::MAX;
    for _ in 0..RUNS {
        let start = Instant::now(rt)?;
        if answered(rt.alloc(), node, request)? != 1 {
            bail!("not one answer");
        }
        least = least.min(start.elapsed(rt)?);
    }
    Ok(least)
}

/// Prints the name of the filter and its least time in seconds.
fn measure(rt: &HostRuntime, node: &NodeState, name: &str, filter: Filter) -> Result<()> {
    let request = request(rt.alloc(), filter)?;
    let seconds = least(rt, node, &request)?.as_secs_f64();
    println!(rt; "{name} {seconds}")?;
    Ok(())
}

fn measure_all(rt: &HostRuntime, node: &NodeState, people: u32) -> Result<()> {
    let one = people / 2;
    measure(rt, node, "equality", filters::equality(rt.alloc(), one)?)?;
    measure(rt, node, "substring", filters::substring(rt.alloc(), one)?)?;
    measure(rt, node, "presence", filters::presence(rt.alloc())?)?;
    measure(rt, node, "and", filters::three(rt.alloc(), one)?)
}

fn people_wanted(rt: &HostRuntime) -> Result<u32> {
    match env::args(rt)?.skip(1).next() {
        Some(word) => Ok(word.parse::<u32>()?),
        None => bail!("usage: search_times PEOPLE"),
    }
}

fn main(rt: HostRuntime) -> Result<()> {
    let people = people_wanted(&rt)?;
    let node = populated(rt.alloc(), people)?;
    measure_all(&rt, &node, people)
}
END
cat > "$made/crates/search_times/src/asked.rt" <<'END'
//! Searches over what a node has taken.

use ldap_types::SearchRequest;
use node_core::NodeState;
use repl_data::{NoMemory, VectorText};
use search_core::{Found, search, search_laws};
use std::alloc::Global;

/// What the search answers.
pub fn searched(
    alloc: Global,
    node: &NodeState,
    vector: &VectorText,
    request: &SearchRequest,
) -> Result<Found, NoMemory> {
    node.laws();
    search_laws();
    search(alloc, node.view(), vector, request)
}
END
cat > "$made/crates/search_times/proofs/asked/searched/Answers.antt" <<'END'
use Rattle.std.proofs.Common.{sym, subst}
use Rattle.search_core.specs.Tree.{IsTree}
use Rattle.search_times.proofs.asked.searched.Goals as goal

pub search-requires : goal.search-requires
search-requires c =
    subst IsTree (sym c.view.ensures)
    (c.search_laws.ensures c.args.node.now.suffix c.args.node.now.taken c.laws.ensures.closed c.laws.ensures.within)
END
cat > "$made/crates/search_times/src/filters.rt" <<'END'
//! What is searched for.

use anyhow::{Result, bail};
use ldap_types::{BytesList, Filter, FilterList, SearchRequest};
use repl_data::{Bytes, Items};
use std::alloc::Global;

fn bytes(alloc: Global, text: &str) -> Result<Bytes> {
    match Bytes::from_slice(alloc, text.as_bytes()) {
        Ok(bytes) => Ok(bytes),
        Err(_) => bail!("no memory"),
    }
}

fn equal(alloc: Global, name: &str, value: &str) -> Result<Filter> {
    let name = bytes(alloc, name)?;
    let value = bytes(alloc, value)?;
    Ok(Filter::Equality { name, value })
}

/// The person of this number.
pub fn equality(alloc: Global, person: u32) -> Result<Filter> {
    let value = format!(in alloc; "u{person}x")?;
    equal(alloc, "uid", value.as_str())
}

fn one(alloc: Global, piece: &str) -> Result<BytesList> {
    let mut list = Items::new(alloc);
    if list.push(bytes(alloc, piece)?).is_err() {
        bail!("no memory");
    }
    Ok(list)
}

/// The same by a piece of a value.
pub fn substring(alloc: Global, person: u32) -> Result<Filter> {
    let piece = format!(in alloc; "number {person} ")?;
    Ok(Filter::Substrings {
        name: bytes(alloc, "description")?,
        first: None,
        middle: one(alloc, piece.as_str())?,
        last: None,
    })
}

/// What one person has alone.
pub fn presence(alloc: Global) -> Result<Filter> {
    let name = bytes(alloc, "title")?;
    Ok(Filter::Present { name })
}

fn push(list: &mut FilterList, filter: Filter) -> Result<()> {
    match list.push(filter) {
        Ok(()) => Ok(()),
        Err(_) => bail!("no memory"),
    }
}

/// A class, a place and the person.
pub fn three(alloc: Global, person: u32) -> Result<Filter> {
    let place = format!(in alloc; "town{}", person % 10)?;
    let mut list = FilterList::new(alloc);
    push(&mut list, equal(alloc, "objectClass", "person")?)?;
    push(&mut list, equal(alloc, "l", place.as_str())?)?;
    push(&mut list, equality(alloc, person)?)?;
    Ok(Filter::And(list))
}

/// A search of the whole subtree of the suffix.
pub fn request(alloc: Global, filter: Filter) -> Result<SearchRequest> {
    let base = bytes(alloc, "dc=example")?;
    let attrs = BytesList::new(alloc);
    Ok(SearchRequest {
        base,
        scope: 2,
        deref: 0,
        size_limit: 0,
        time_limit: 0,
        types_only: false,
        filter,
        attrs,
    })
}
END
cat > "$made/crates/search_times/src/people.rt" <<'END'
//! People with ten values each, directly below the suffix.

use anyhow::{Result, bail};
use case_changes::next_change;
use case_lines::Fields;
use case_views::example_suffix;
use node_core::NodeState;
use repl_data::{Change, Csn, Update};
use std::alloc::Global;
use vector_core::{Start, Vector};

/// The replica that they come from.
const SUPPLIER: u16 = 2;

/// The time at the node.
const NOW: u32 = 4_000_000_000;

/// The add of a person.
fn person(alloc: Global, number: u32, one: u32) -> Result<Change> {
    let title = if number == one { "title:head;" } else { "" };
    let place = number % 10;
    let text = format!(in alloc; "add {number}.0.2 {number}.0.2 suffix uid:u{number}x cn:name{number};description:'the person of number {number} here';givenname:given{number};l:town{place};mail:mail{number};objectclass:person,top;sn:last{number};telephonenumber:1234567{number};{title}uid:u{number}x")?;
    match next_change(alloc, &mut Fields::new(text.as_bytes())) {
        Ok(change) => Ok(change),
        Err(_) => bail!("no change"),
    }
}

fn csn(number: u32) -> Csn {
    if number == 0 {
        return Csn::ZERO;
    }
    Csn {
        time: number,
        seq: 0,
        rid: SUPPLIER,
        sub: 0,
    }
}

fn take(alloc: Global, node: &mut NodeState, number: u32, one: u32) -> Result<()> {
    let change = person(alloc, number, one)?;
    let prev = csn(number.saturating_sub(1));
    match node.apply(alloc, SUPPLIER, &Update { change, prev }, NOW) {
        Ok(_) => Ok(()),
        Err(_) => bail!("not taken"),
    }
}

fn empty_node(alloc: Global) -> Result<NodeState> {
    let Ok(suffix) = example_suffix(alloc) else {
        bail!("no suffix");
    };
    match NodeState::new(alloc, 1, &suffix) {
        Ok(node) => Ok(node),
        Err(_) => bail!("no memory"),
    }
}

fn begin(alloc: Global, node: &mut NodeState) -> Result<()> {
    let Ok(front) = Vector::new(alloc) else {
        bail!("no memory");
    };
    let suffix = match node.suffix().name.clone() {
        Ok(name) => name,
        Err(_) => bail!("no memory"),
    };
    let start = Start {
        suffix,
        rid: SUPPLIER,
        front,
    };
    match node.acquire(&start, NOW) {
        Ok(()) => Ok(()),
        Err(_) => bail!("not accepted"),
    }
}

/// A node that has taken so many, of whom one has a title.
pub fn populated(alloc: Global, people: u32) -> Result<NodeState> {
    let mut node = empty_node(alloc)?;
    begin(alloc, &mut node)?;
    for number in 1..=people {
        take(alloc, &mut node, number, people / 2)?;
    }
    Ok(node)
}
END

# proves and builds the program
(cd "$made/crates/search_times" && rt run -- 10 > /dev/null)

printf '%8s  %-10s %12s %14s %16s\n' people filter 'searches/s' 'candidates/s' 'us a candidate'
[ $# -gt 0 ] || set -- 10000 100000
for people; do
    "$made/crates/search_times/out/search_times" "$people" | awk -v people="$people" \
        '{ printf "%8d  %-10s %12.0f %14.0f %16.3f\n", people, $1, 1 / $2, (people + 1) / $2, $2 / (people + 1) * 1000000 }'
done
