#!/usr/bin/env bash
# How fast numbers for terms and the index of triples are beside Rust's HashMap, Vec and BTreeSet: a million triples over
# 300,000 terms, IRIs of 40 bytes and literals, built at once and one after another; look-ups both ways; finds of ten
# objects; scans of a predicate; shares with 100 changes after each; and the most memory that building holds. The program
# that is timed is proved in a copy of the crates, and built there. Needs rustc and python3. Usage: bench/term_index.sh
set -eu
root=$(cd "$(dirname "$0")/.." && pwd)
copy=$(mktemp -d)
trap 'rm -rf "$copy"' EXIT
mkdir -p "$copy/crates/term_bench/src"
for crate in vocabulary rdf_text collections rdf_model page_tree page_index growing_list triple_index term_dict; do
  mkdir "$copy/crates/$crate"
  for part in src specs proofs; do
    if [ -d "$root/crates/$crate/$part" ]; then cp -r "$root/crates/$crate/$part" "$copy/crates/$crate"; fi
  done
  grep "^$crate:" "$root/crates.txt" >> "$copy/crates.txt"
done
echo "term_bench: term_dict growing_list triple_index page_index rdf_model rdf_text collections indexmap" >> "$copy/crates.txt"
cat > "$copy/crates/term_bench/src/main.rt" <<'PROGRAM'
//! Times a dictionary of terms and an index of triples.
#![tactic(auto)]

use rdf_model::{Ids, Look, Names, Term, Text, Triples};
use std::alloc::{AllocError, Global};
use std::env;
use std::io;
use std::time::Instant;
use term_dict::Dict;
use triple_index::{Index, NumberedChange};

const TERMS: u32 = 300_000;
const TRIPLES: u32 = 1_000_000;

fn next(seed: u32) -> u32 {
    seed.wrapping_mul(1_664_525).wrapping_add(1_013_904_223)
}

fn iri(alloc: Global, number: u32) -> Result<Term, AllocError> {
    let digits = 100_000_000_000u64.wrapping_add(u64::from(number));
    let text = format!(in alloc; "http://example.org/resource/{digits}")?;
    Ok(Term::Iri(Text::from_string(text)?))
}

fn literal(alloc: Global, number: u32) -> Result<Term, AllocError> {
    let text = format!(in alloc; "Product number {number}")?;
    Ok(Term::Literal {
        lexical: Text::from_string(text)?,
        datatype: Text::new(alloc, "http://www.w3.org/2001/XMLSchema#string")?,
        language: None,
    })
}

fn all_terms(alloc: Global) -> Result<Vec<Term>, AllocError> {
    let mut terms = Vec::new(alloc);
    for place in 0..TERMS {
        let number = place.wrapping_mul(7919) % TERMS;
        if number % 3 == 2 {
            terms.push(literal(alloc, number)?)?;
        } else {
            terms.push(iri(alloc, number)?)?;
        }
    }
    Ok(terms)
}

fn at(numbers: &[u32], place: u32) -> u32 {
    match numbers.get(place as usize) {
        Some(number) => *number,
        None => 0,
    }
}

fn triple(numbers: &[u32], group: u32, seed: u32) -> Ids {
    Ids {
        subject: at(numbers, group.wrapping_mul(7919) % 200_000),
        predicate: at(numbers, group % 100),
        object: at(numbers, (seed >> 4) % TERMS),
    }
}

fn all_triples(alloc: Global, numbers: &[u32]) -> Result<Vec<Ids>, AllocError> {
    let mut triples = Vec::new(alloc);
    let mut seed = 1;
    for place in 0..TRIPLES {
        seed = next(seed);
        triples.push(triple(numbers, place / 10, seed))?;
    }
    Ok(triples)
}

fn tell(rt: &HostRuntime, what: &str, start: Instant, count: u64) -> io::Result<()> {
    let spent = start.elapsed(rt)?.as_nanos();
    println!(rt; "{what} {} ms, {} ns each", spent / 1_000_000, spent / u128::from(count.max(1)))
}

fn named(alloc: Global, terms: &[Term]) -> Result<(Dict, Vec<u32>), AllocError> {
    let mut dict = Dict::new(alloc, 1_000_000)?;
    match dict.name_all(terms) {
        Ok(numbers) => Ok((dict, numbers)),
        Err(_) => Err(AllocError),
    }
}

fn named_singly(alloc: Global, terms: &[Term]) -> Result<(Dict, Vec<u32>), AllocError> {
    let mut dict = Dict::new(alloc, 1_000_000)?;
    let mut numbers = Vec::new(alloc);
    for one in terms.chunks(1) {
        match dict.name_all(one) {
            Ok(more) => numbers.extend_from_slice(&more)?,
            Err(_) => return Err(AllocError),
        }
    }
    Ok((dict, numbers))
}

fn indexed_singly(alloc: Global, triples: &[Ids]) -> Result<Index, AllocError> {
    let mut changes = Vec::new(alloc);
    for triple in triples {
        changes.push(NumberedChange::Add(*triple))?;
    }
    let mut index = Index::new(alloc);
    index.apply(&changes)?;
    Ok(index)
}

fn look_up(rt: &HostRuntime, dict: &Dict, terms: &[Term]) -> io::Result<()> {
    let start = Instant::now(rt)?;
    let mut sum = 0u64;
    let mut seed = 1;
    for _ in 0..TRIPLES {
        seed = next(seed);
        if let Some(term) = terms.get(((seed >> 4) % TERMS) as usize) {
            if let Some(number) = dict.id(term) {
                sum = sum.wrapping_add(u64::from(number));
            }
        }
    }
    tell(rt, "terms looked up     ", start, 1_000_000)?;
    let start = Instant::now(rt)?;
    let mut found = 0u64;
    for _ in 0..TRIPLES {
        seed = next(seed);
        if let Some(Term::Iri(_)) = dict.term((seed >> 4) % TERMS) {
            found = found.wrapping_add(1);
        }
    }
    tell(rt, "numbers looked up   ", start, 1_000_000)?;
    println!(rt; "  (sum {sum}, {found} IRIs)")
}

fn read(rt: &HostRuntime, index: &Index, numbers: &[u32]) -> io::Result<()> {
    let start = Instant::now(rt)?;
    let mut found = 0u64;
    let mut seed = 1;
    for _ in 0..100_000u32 {
        seed = next(seed);
        let asked = triple(numbers, (seed >> 4) % 100_000, seed);
        let objects = index.find(rt.alloc(), &Look::Out(asked.subject, asked.predicate))?;
        found = found.wrapping_add(objects.len() as u64);
    }
    tell(rt, "finds of ten        ", start, 100_000)?;
    let start = Instant::now(rt)?;
    let mut scanned = 0u64;
    for place in 0..100u32 {
        let pairs = index.with_predicate(rt.alloc(), at(numbers, place))?;
        scanned = scanned.wrapping_add(pairs.len() as u64);
    }
    tell(rt, "scans of a predicate", start, scanned)?;
    println!(rt; "  ({found} found, {scanned} scanned)")
}

fn changes(alloc: Global, numbers: &[u32], seed: u32) -> Result<Vec<NumberedChange>, AllocError> {
    let mut changes = Vec::new(alloc);
    let mut seed = seed;
    for _ in 0..100u32 {
        seed = next(seed);
        let changed = triple(numbers, (seed >> 4) % 100_000, next(seed));
        if (seed >> 8) % 2 == 0 {
            changes.push(NumberedChange::Add(changed))?;
        } else {
            changes.push(NumberedChange::Remove(changed))?;
        }
    }
    Ok(changes)
}

fn share(rt: &HostRuntime, index: &mut Index, numbers: &[u32]) -> io::Result<()> {
    let start = Instant::now(rt)?;
    let mut seed = 7;
    for _ in 0..1000u32 {
        seed = next(seed);
        let share = index.share()?;
        index.apply(&changes(rt.alloc(), numbers, seed)?)?;
        drop(share);
    }
    tell(rt, "share, 100 changes  ", start, 1000)?;
    println!(rt; "  ({} triples)", index.len())
}

fn at_once(rt: &HostRuntime) -> io::Result<()> {
    let alloc = rt.alloc();
    let terms = all_terms(alloc)?;
    let start = Instant::now(rt)?;
    let (dict, numbers) = named(alloc, &terms)?;
    tell(rt, "terms at once       ", start, 300_000)?;
    let triples = all_triples(alloc, &numbers)?;
    let start = Instant::now(rt)?;
    let mut index = Index::from_triples(alloc, &triples)?;
    tell(rt, "triples at once     ", start, 1_000_000)?;
    look_up(rt, &dict, &terms)?;
    read(rt, &index, &numbers)?;
    share(rt, &mut index, &numbers)
}

fn singly(rt: &HostRuntime) -> io::Result<()> {
    let alloc = rt.alloc();
    let terms = all_terms(alloc)?;
    let start = Instant::now(rt)?;
    let (dict, numbers) = named_singly(alloc, &terms)?;
    tell(rt, "terms one by one    ", start, 300_000)?;
    let triples = all_triples(alloc, &numbers)?;
    let start = Instant::now(rt)?;
    let index = indexed_singly(alloc, &triples)?;
    tell(rt, "triples one by one  ", start, 1_000_000)?;
    println!(rt; "  ({} terms, {} triples)", dict.count(), index.len())
}

// What the terms and the triples themselves hold.
fn held(rt: &HostRuntime) -> io::Result<()> {
    let terms = all_terms(rt.alloc())?;
    let triples = all_triples(rt.alloc(), &[])?;
    println!(rt; "  ({} terms, {} triples)", terms.len(), triples.len())
}

fn main(rt: HostRuntime) -> io::Result<()> {
    let mut words = 0u32;
    if let Ok(args) = env::args(&rt) {
        for _arg in args {
            words = words.wrapping_add(1);
        }
    }
    match words {
        1 => at_once(&rt),
        2 => singly(&rt),
        _ => held(&rt),
    }
}
PROGRAM
(cd "$copy/crates/term_bench" && rt run > "$copy/log" 2>&1) || { tail -20 "$copy/log"; exit 1; }
rustc --edition 2021 -O -o "$copy/counterpart" "$root/bench/term_index.rs"

# Runs a program, and prints the most memory that it held.
peak() {
  python3 - "$@" <<'PEAK'
import resource, subprocess, sys
subprocess.run(sys.argv[1:], check=True)
print("  (at most %d MB of memory)" % (resource.getrusage(resource.RUSAGE_CHILDREN).ru_maxrss // 1024))
PEAK
}

for program in "$copy/crates/term_bench/out/term_bench" "$copy/counterpart"; do
  echo "$(basename "$program"):"
  peak "$program"
  peak "$program" singly
  peak "$program" only held
done
