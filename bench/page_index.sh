#!/usr/bin/env bash
# How fast a set of pages is beside std's BTreeSet of Rust: a million inserts of keys in no order and in ascending
# order, look-ups, a scan, 1,000 shares with 100 changes after each, and removes. The program that is timed is proved
# in a copy of the crates, and built there. Needs rustc. Usage: bench/page_index.sh
set -eu
root=$(cd "$(dirname "$0")/.." && pwd)
copy=$(mktemp -d)
trap 'rm -rf "$copy"' EXIT
mkdir -p "$copy/crates/page_bench/src"
cp -r "$root/crates/collections" "$root/crates/page_tree" "$root/crates/page_index" "$copy/crates"
printf 'collections:\npage_tree: collections\npage_index: page_tree collections\npage_bench: page_index collections\n' > "$copy/crates.txt"
cat > "$copy/crates/page_bench/src/main.rt" <<'PROGRAM'
//! Times a set of pages.
#![tactic(auto)]

use collections::ExactClone;
use page_index::Pages;
use std::io;
use std::time::Instant;

#[derive(Clone, Copy, Debug, PartialEq, Eq, PartialOrd, Ord)]
struct Number(u32);

impl ExactClone for Number {
    ghost use Rattle.std.proofs.Common.{rules};

    ghost clone_is_equal = { Prim.search rules };
}

fn next(seed: u32) -> u32 {
    seed.wrapping_mul(1_664_525).wrapping_add(1_013_904_223)
}

fn main(rt: HostRuntime) -> io::Result<()> {
    let alloc = rt.alloc();
    let count = 1_000_000u32;

    let start = Instant::now(&rt)?;
    let mut pages = Pages::new(alloc);
    let mut seed = 1;
    for _ in 0..count {
        seed = next(seed);
        let _ = pages.insert(Number(seed))?;
    }
    let spent = start.elapsed(&rt)?;
    println!(rt; "random inserts       {} ns each", spent.as_nanos() / 1_000_000)?;

    let start = Instant::now(&rt)?;
    let mut ascending = Pages::new(alloc);
    for key in 0..count {
        let _ = ascending.insert(Number(key))?;
    }
    let spent = start.elapsed(&rt)?;
    println!(rt; "ascending inserts    {} ns each", spent.as_nanos() / 1_000_000)?;

    let start = Instant::now(&rt)?;
    let mut found = 0u64;
    let mut seed = 1;
    for _ in 0..count {
        seed = next(seed);
        if pages.contains(&Number(seed ^ (seed & 1))) {
            found = found.wrapping_add(1);
        }
    }
    let spent = start.elapsed(&rt)?;
    println!(rt; "look-ups             {} ns each ({found} found)", spent.as_nanos() / 1_000_000)?;

    let start = Instant::now(&rt)?;
    let keys = pages.keys()?;
    let mut sum = 0u64;
    for key in &keys {
        sum = sum.wrapping_add(u64::from(key.0));
    }
    let spent = start.elapsed(&rt)?;
    println!(rt; "scan                 {} ns a key (sum {sum})", spent.as_nanos() / 1_000_000)?;

    let start = Instant::now(&rt)?;
    let mut seed = 7;
    for _ in 0..1000u32 {
        let share = pages.share()?;
        for _ in 0..100u32 {
            seed = next(seed);
            let key = Number(seed);
            if seed % 2 == 0 {
                let _ = pages.insert(key)?;
            } else {
                let _ = pages.remove(&key)?;
            }
        }
        drop(share);
    }
    let spent = start.elapsed(&rt)?;
    println!(rt; "share, 100 changes   {} us a round ({} keys)", spent.as_nanos() / 1_000_000, pages.len())?;

    let start = Instant::now(&rt)?;
    let mut seed = 1;
    let mut gone = 0u64;
    for _ in 0..count {
        seed = next(seed);
        if pages.remove(&Number(seed))? {
            gone = gone.wrapping_add(1);
        }
    }
    let spent = start.elapsed(&rt)?;
    println!(rt; "removes              {} ns each ({gone} gone)", spent.as_nanos() / 1_000_000)
}
PROGRAM
echo "pages:"
(cd "$copy/crates/page_bench" && rt run > "$copy/log" 2>&1) || { tail -20 "$copy/log"; exit 1; }
"$copy/crates/page_bench/out/page_bench"
echo "BTreeSet:"
rustc --edition 2021 -O -o "$copy/counterpart" "$root/bench/page_index.rs"
"$copy/counterpart"
