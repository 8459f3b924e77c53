#!/usr/bin/env bash
# How fast the blank nodes that stand for paths are gathered: 10,000 that are nested in one another, numbered from above and from
# below, and a list of 10,000 members. The program that is timed is proved in a copy of the crates, and built there.
# Usage: bench/path_nodes.sh
set -eu
root=$(cd "$(dirname "$0")/.." && pwd)
copy=$(mktemp -d)
trap 'rm -rf "$copy"' EXIT
mkdir -p "$copy/crates/path_bench/src"
for name in vocabulary rdf_text collections rdf_model literal_order shape_model path_ast shape_syntax; do
  cp -r "$root/crates/$name" "$copy/crates"
  grep "^$name:" "$root/crates.txt" >> "$copy/crates.txt"
done
echo 'path_bench: shape_syntax rdf_model rdf_text collections' >> "$copy/crates.txt"
cat > "$copy/crates/path_bench/src/main.rt" <<'PROGRAM'
//! Times how path nodes are gathered.
#![tactic(auto)]

use collections::sorted_once;
use rdf_model::{Term, Text, Triple};
use shape_syntax::paths::path_nodes;
use std::alloc::{AllocError, Global};
use std::io;
use std::time::Instant;

const COUNT: u32 = 10_000;

const FIRST: &str = "http://www.w3.org/1999/02/22-rdf-syntax-ns#first";

const REST: &str = "http://www.w3.org/1999/02/22-rdf-syntax-ns#rest";

const NIL: &str = "http://www.w3.org/1999/02/22-rdf-syntax-ns#nil";

const INVERSE: &str = "http://www.w3.org/ns/shacl#inversePath";

fn iri(alloc: Global, text: &str) -> Result<Term, AllocError> {
    Ok(Term::Iri(Text::new(alloc, text)?))
}

fn blank(number: u32) -> Term {
    Term::Blank { session: 1, number }
}

fn add(alloc: Global, graph: &mut Vec<Triple>, from: u32, name: &str, to: Term) -> Result<(), AllocError> {
    let predicate = iri(alloc, name)?;
    graph.push(Triple { subject: blank(from), predicate, object: to })?;
    Ok(())
}

fn nested_from_above(alloc: Global) -> Result<Vec<Triple>, AllocError> {
    let mut graph = Vec::new(alloc);
    for number in 1..COUNT {
        add(alloc, &mut graph, number, INVERSE, blank(number + 1))?;
    }
    add(alloc, &mut graph, COUNT, INVERSE, iri(alloc, "e:p")?)?;
    sorted_once(graph)
}

fn nested_from_below(alloc: Global) -> Result<Vec<Triple>, AllocError> {
    let mut graph = Vec::new(alloc);
    add(alloc, &mut graph, 1, INVERSE, iri(alloc, "e:p")?)?;
    for number in 1..COUNT {
        add(alloc, &mut graph, number + 1, INVERSE, blank(number))?;
    }
    sorted_once(graph)
}

fn list(alloc: Global) -> Result<Vec<Triple>, AllocError> {
    let mut graph = Vec::new(alloc);
    for number in 1..COUNT {
        add(alloc, &mut graph, number, FIRST, iri(alloc, "e:p")?)?;
        add(alloc, &mut graph, number, REST, blank(number + 1))?;
    }
    add(alloc, &mut graph, COUNT, FIRST, iri(alloc, "e:p")?)?;
    add(alloc, &mut graph, COUNT, REST, iri(alloc, NIL)?)?;
    sorted_once(graph)
}

fn gathered(alloc: Global, graph: Vec<Triple>) -> Result<usize, AllocError> {
    let sorted = sorted_once(graph)?;
    let nodes = path_nodes(alloc, sorted.as_slice())?;
    Ok(nodes.len())
}

fn main(rt: HostRuntime) -> io::Result<()> {
    let alloc = rt.alloc();
    let start = Instant::now(&rt)?;
    let found = gathered(alloc, nested_from_above(alloc)?)?;
    println!(rt; "nested from above  {found} nodes, {} ms", start.elapsed(&rt)?.as_millis())?;
    let start = Instant::now(&rt)?;
    let found = gathered(alloc, nested_from_below(alloc)?)?;
    println!(rt; "nested from below  {found} nodes, {} ms", start.elapsed(&rt)?.as_millis())?;
    let start = Instant::now(&rt)?;
    let found = gathered(alloc, list(alloc)?)?;
    println!(rt; "a list             {found} nodes, {} ms", start.elapsed(&rt)?.as_millis())?;
    Ok(())
}
PROGRAM
(cd "$copy/crates/path_bench" && rt run > "$copy/log" 2>&1) || { tail -20 "$copy/log"; exit 1; }
"$copy/crates/path_bench/out/path_bench"
