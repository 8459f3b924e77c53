#!/usr/bin/env bash
# How long the shapes graph of bench/shapes.sh takes to compile, apart from the reading of its text: to be tested by all rules and
# compiled, by `read_shapes`. The program that is timed is proved in a copy of the crates, and built there.
# Usage: bench/compile_shapes.sh [SHAPES]; 10000 where none is given.
set -eu
root=$(cd "$(dirname "$0")/.." && pwd)
copy=$(mktemp -d)
trap 'rm -rf "$copy"' EXIT
mkdir -p "$copy/crates/compile_bench/src"
for name in vocabulary rdf_text collections iri_ref rdf_lexical rdf_model literal_order triple_table ntriples_text turtle_lex turtle_reader outside shape_model path_ast shape_ast \
  shape_syntax reference_totals shape_references shape_properties shape_sizes shape_rules shape_reader; do
  mkdir "$copy/crates/$name"
  for part in src specs proofs; do
    if [ -d "$root/crates/$name/$part" ]; then cp -r "$root/crates/$name/$part" "$copy/crates/$name"; fi
  done
  grep "^$name:" "$root/crates.txt" >> "$copy/crates.txt"
done
cp "$root/HANDLES" "$copy"
echo 'compile_bench: turtle_reader shape_reader shape_ast outside rdf_model rdf_text collections' >> "$copy/crates.txt"
"$root/bench/shapes.sh" --print "${1:-10000}" > "$copy/shapes.ttl"
cat > "$copy/crates/compile_bench/src/main.rt" <<'PROGRAM'
//! Times how shapes are compiled.
#![tactic(auto)]

use collections::sorted_once;
use outside::RegexMaker;
use shape_reader::read_shapes;

use std::fs;
use std::io::{self, Read};
use std::time::Instant;

fn main(rt: HostRuntime) -> io::Result<()> {
    let alloc = rt.alloc();
    let mut bytes = Vec::new(alloc);
    fs::open(&rt, "shapes.ttl")?.read_to_end(&mut bytes)?;
    bytes.truncate(100_000_000);
    let mut next = 1;
    let start = Instant::now(&rt)?;
    let Ok(triples) = turtle_reader::read(alloc, 1, &mut next, bytes.as_slice()) else {
        println!(rt; "not read")?;
        return Ok(());
    };
    println!(rt; "read      {} triples, {} ms", triples.len(), start.elapsed(&rt)?.as_millis())?;
    let graph = sorted_once(triples.into_vec())?;
    let mut maker = RegexMaker::new(alloc);
    let start = Instant::now(&rt)?;
    match read_shapes(alloc, &mut maker, graph.as_slice()) {
        Ok(shapes) => println!(rt; "compiled  {} shapes, {} ms", shapes.shapes.len(), start.elapsed(&rt)?.as_millis())?,
        Err(_) => println!(rt; "refused")?,
    }
    Ok(())
}
PROGRAM
(cd "$copy/crates/compile_bench" && rt run > "$copy/log" 2>&1) || [ -x "$copy/crates/compile_bench/out/compile_bench" ] || { tail -20 "$copy/log"; exit 1; }
for _ in 1 2 3; do (cd "$copy" && crates/compile_bench/out/compile_bench); done
