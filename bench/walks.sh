#!/usr/bin/env bash
# How long walks along paths take beside the same walks in Rust over a HashMap of vectors: any number of steps through a chain, a star
# and a tree of 100,000 nodes, a repetition inside a repetition through chains of 25,000, 50,000 and 100,000, and a sequence of two
# steps from each of 1,000 focus nodes. Both sort what they find and keep a list of the looks. The program that is timed is proved in a
# copy of the crates, and built there. Needs rustc. Usage: bench/walks.sh
set -eu
root=$(cd "$(dirname "$0")/.." && pwd)
copy=$(mktemp -d)
trap 'rm -rf "$copy"' EXIT
mkdir -p "$copy/crates/walk_bench/src"
for crate in vocabulary rdf_text collections rdf_model literal_order shape_model path_ast path_eval page_tree page_index growing_list triple_index; do
  mkdir "$copy/crates/$crate"
  for part in src specs proofs; do
    if [ -d "$root/crates/$crate/$part" ]; then cp -r "$root/crates/$crate/$part" "$copy/crates/$crate"; fi
  done
  grep "^$crate:" "$root/crates.txt" >>"$copy/crates.txt"
done
echo "walk_bench: path_eval path_ast triple_index rdf_model" >>"$copy/crates.txt"
cat >"$copy/crates/walk_bench/src/main.rt" <<'PROGRAM'
//! Times walks along paths.
#![tactic(auto)]

use path_ast::Path;
use path_eval::values;
use rdf_model::{Footprint, Ids};
use std::alloc::{AllocError, Global};
use std::io;
use std::time::Instant;
use triple_index::Index;

const NODES: u32 = 100_000;
const P: u32 = 200_000;
const Q: u32 = 200_001;

fn add(triples: &mut Vec<Ids>, subject: u32, predicate: u32, object: u32) -> Result<(), AllocError> {
    triples.push(Ids { subject, predicate, object })?;
    Ok(())
}

fn chain(alloc: Global, nodes: u32) -> Result<Index, AllocError> {
    let mut triples = Vec::new(alloc);
    for node in 1..nodes {
        add(&mut triples, node - 1, P, node)?;
        add(&mut triples, node - 1, Q, node)?;
    }
    Index::from_triples(alloc, &triples)
}

fn star(alloc: Global) -> Result<Index, AllocError> {
    let mut triples = Vec::new(alloc);
    for node in 1..NODES {
        add(&mut triples, 0, P, node)?;
    }
    Index::from_triples(alloc, &triples)
}

fn tree(alloc: Global) -> Result<Index, AllocError> {
    let mut triples = Vec::new(alloc);
    for node in 1..NODES {
        add(&mut triples, (node - 1) / 2, P, node)?;
    }
    Index::from_triples(alloc, &triples)
}

fn ten_each(alloc: Global) -> Result<Index, AllocError> {
    let mut triples = Vec::new(alloc);
    for node in 0..NODES {
        for place in 0..10u32 {
            add(&mut triples, node, P, node.wrapping_mul(10).wrapping_add(place) % NODES)?;
            add(&mut triples, node, Q, node.wrapping_mul(7).wrapping_add(place) % NODES)?;
        }
    }
    Index::from_triples(alloc, &triples)
}

fn many(alloc: Global, path: Path<u32>) -> Result<Path<u32>, AllocError> {
    Ok(Path::ZeroOrMore(Box::new(alloc, path)?))
}

fn then(alloc: Global, path: Path<u32>, next: Path<u32>) -> Result<Path<u32>, AllocError> {
    let mut others = Vec::new(alloc);
    others.push(next)?;
    Ok(Path::Sequence(Box::new(alloc, path)?, others))
}

fn timed(rt: &HostRuntime, what: &str, index: &Index, path: &Path<u32>, starts: u32) -> io::Result<()> {
    let mut best = u128::MAX;
    let mut found = 0u64;
    let mut looks = 0u64;
    for _ in 0..5u32 {
        let start = Instant::now(rt)?;
        found = 0;
        looks = 0;
        for node in 0..starts {
            let mut footprint = Footprint::new(rt.alloc());
            let ends = values(rt.alloc(), index, path, node, &mut footprint)?;
            found = found.wrapping_add(ends.len() as u64);
            looks = looks.wrapping_add(footprint.looks().len() as u64);
        }
        let spent = start.elapsed(rt)?.as_micros();
        if spent < best {
            best = spent;
        }
    }
    println!(rt; "{what} {best} us, {found} ends, {looks} looks")
}

fn nested(rt: &HostRuntime, nodes: u32) -> io::Result<()> {
    let alloc = rt.alloc();
    let part = then(alloc, Path::Predicate(P), many(alloc, Path::Predicate(Q))?)?;
    let path = many(alloc, part)?;
    timed(rt, "nested repetitions", &chain(alloc, nodes)?, &path, 1)
}

fn main(rt: HostRuntime) -> io::Result<()> {
    let alloc = rt.alloc();
    let path = many(alloc, Path::Predicate(P))?;
    timed(&rt, "chain             ", &chain(alloc, NODES)?, &path, 1)?;
    timed(&rt, "star              ", &star(alloc)?, &path, 1)?;
    timed(&rt, "tree              ", &tree(alloc)?, &path, 1)?;
    nested(&rt, 25_000)?;
    nested(&rt, 50_000)?;
    nested(&rt, 100_000)?;
    let steps = then(alloc, Path::Predicate(P), Path::Predicate(Q))?;
    timed(&rt, "two steps, 1000   ", &ten_each(alloc)?, &steps, 1000)
}
PROGRAM
(cd "$copy/crates/walk_bench" && rt run >"$copy/log" 2>&1) || { tail -20 "$copy/log"; exit 1; }
rustc --edition 2021 -O -o "$copy/counterpart" "$root/bench/walks.rs"
echo "proved:"
"$copy/crates/walk_bench/out/walk_bench"
echo "Rust:"
"$copy/counterpart"
