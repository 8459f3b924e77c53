#!/usr/bin/env bash
# How fast joins are: chains of 2 to 8 patterns, stars of 2 to 4, a triangle and a chain from one node, over a million triples of
# 200,000 nodes with five edges each, of ten predicates; the best of eight rounds, beside Apache Jena's queries of the same data in
# one process, where Debian's libapache-jena-java is installed. The program that is timed is proved in a copy of the crates, and
# built there. Usage: bench/joins.sh
set -eu
root=$(cd "$(dirname "$0")/.." && pwd)
copy=$(mktemp -d)
trap 'rm -rf "$copy"' EXIT
mkdir -p "$copy/crates/join_bench/src"
for crate in vocabulary rdf_text collections rdf_model page_tree page_index triple_index overlay_view bgp_query; do
  mkdir "$copy/crates/$crate"
  for part in src specs proofs; do
    if [ -d "$root/crates/$crate/$part" ]; then cp -r "$root/crates/$crate/$part" "$copy/crates/$crate"; fi
  done
  grep "^$crate:" "$root/crates.txt" >> "$copy/crates.txt"
done
echo "join_bench: bgp_query overlay_view triple_index page_index rdf_model rdf_text collections" >> "$copy/crates.txt"
cat > "$copy/crates/join_bench/src/main.rt" <<'PROGRAM'
//! Times joins over an index of triples.
#![tactic(auto)]

use bgp_query::{JoinPattern, Part, select};
use rdf_model::Ids;
use std::alloc::{AllocError, Global};
use std::io;
use std::time::Instant;
use triple_index::Index;

const NODES: u32 = 200_000;
const TRIPLES: u32 = 1_000_000;

fn next(seed: u32) -> u32 {
    seed.wrapping_mul(1_664_525).wrapping_add(1_013_904_223)
}

fn all_triples(alloc: Global) -> Result<Vec<Ids>, AllocError> {
    let mut triples = Vec::new(alloc);
    let mut seed = 1;
    for place in 0..TRIPLES {
        let kind = next(seed);
        seed = next(kind);
        triples.push(Ids {
            subject: (place / 5).wrapping_mul(7919) % NODES,
            predicate: NODES.wrapping_add((kind >> 8) % 10),
            object: (seed >> 4) % NODES,
        })?;
    }
    Ok(triples)
}

fn edge(subject: u32, kind: u32, object: u32) -> JoinPattern<u32> {
    JoinPattern {
        subject: Part::Variable(subject),
        predicate: Part::Constant(NODES.wrapping_add(kind % 10)),
        object: Part::Variable(object),
    }
}

// From variable to variable.
fn chain(alloc: Global, length: u32) -> Result<Vec<JoinPattern<u32>>, AllocError> {
    let mut patterns = Vec::new(alloc);
    for place in 0..length {
        patterns.push(edge(place, place, place.wrapping_add(1)))?;
    }
    Ok(patterns)
}

// From one variable.
fn star(alloc: Global, length: u32) -> Result<Vec<JoinPattern<u32>>, AllocError> {
    let mut patterns = Vec::new(alloc);
    for place in 0..length {
        patterns.push(edge(0, place, place.wrapping_add(1)))?;
    }
    Ok(patterns)
}

fn triangle(alloc: Global) -> Result<Vec<JoinPattern<u32>>, AllocError> {
    let mut patterns = chain(alloc, 2)?;
    patterns.push(edge(2, 2, 0))?;
    Ok(patterns)
}

fn from_node(alloc: Global) -> Result<Vec<JoinPattern<u32>>, AllocError> {
    let mut patterns = Vec::new(alloc);
    patterns.push(edge(0, 1, 1))?;
    patterns.push(JoinPattern {
        subject: Part::Constant(7919),
        predicate: Part::Variable(2),
        object: Part::Variable(0),
    })?;
    Ok(patterns)
}

fn time(
    rt: &HostRuntime,
    what: &str,
    index: &Index,
    patterns: &[JoinPattern<u32>],
) -> io::Result<()> {
    let mut best = u128::MAX;
    let mut answers = 0;
    for _ in 0..8u32 {
        let start = Instant::now(rt)?;
        if let Ok(rows) = select(rt.alloc(), index, patterns) {
            answers = rows.len();
        }
        best = best.min(start.elapsed(rt)?.as_nanos());
    }
    println!(rt; "  {what} {} us, {answers} answers", best / 1000)
}

fn main(rt: HostRuntime) -> io::Result<()> {
    let alloc = rt.alloc();
    let triples = all_triples(alloc)?;
    let index = Index::from_triples(alloc, &triples)?;
    for length in 2..9u32 {
        time(&rt, "chain", &index, &chain(alloc, length)?)?;
    }
    for length in 2..5u32 {
        time(&rt, "star", &index, &star(alloc, length)?)?;
    }
    time(&rt, "triangle", &index, &triangle(alloc)?)?;
    time(&rt, "from node", &index, &from_node(alloc)?)
}
PROGRAM
(cd "$copy/crates/join_bench" && rt fmt >/dev/null && rt run)

if ! jena=$("$root/tools/jena_class_path" "$copy"); then
  echo "Apache Jena isn't installed"
  exit 0
fi
awk 'BEGIN {
  seed = 1
  for (place = 0; place < 1000000; place++) {
    kind = (seed * 1664525 + 1013904223) % 4294967296
    seed = (kind * 1664525 + 1013904223) % 4294967296
    printf "<http://example.org/n%d> <http://example.org/p%d> <http://example.org/n%d> .\n", (int(place / 5) * 7919) % 200000, int(kind / 256) % 10, int(seed / 16) % 200000
  }
}' > "$copy/data.nt"
awk 'function edge(s, p, o) { return sprintf("?v%d <http://example.org/p%d> ?v%d . ", s, p, o) }
BEGIN {
  for (n = 2; n <= 8; n++) { q = ""; for (i = 0; i < n; i++) q = q edge(i, i, i + 1); print "chain" n " SELECT * { " q "}" }
  for (n = 2; n <= 4; n++) { q = ""; for (i = 0; i < n; i++) q = q edge(0, i, i + 1); print "star" n " SELECT * { " q "}" }
  print "triangle SELECT * { " edge(0, 0, 1) edge(1, 1, 2) edge(2, 2, 0) "}"
  print "node SELECT * { " edge(0, 1, 1) "<http://example.org/n7919> ?v2 ?v0 . }"
}' > "$copy/queries"
javac -cp "$jena" -d "$copy" "$root/bench/JoinRounds.java"
echo "Apache Jena, warm:"
java -Xmx4g -cp "$jena:$copy" JoinRounds "$copy/data.nt" "$copy/queries" 8
