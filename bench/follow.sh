#!/usr/bin/env bash
# How fast a follower takes records, and how it serves versions. `follow` is run on an image of records of ten triples each, made by tools/log_image, which
# shares nothing with the program: they are fed in order, from the end of each window of 1,024, at random within each, and each of them twice; then the first
# version is asked for, one of the middle, and the newest. Told apart is what an order of no record takes: the start, and the reading of the image. A tenth
# of the records shows how time and memory grow. Each is the best of three runs, with its most memory, and has to come to the version that is due.
# Usage: bench/follow.sh [RECORDS]; 10000 where none is given, and 45000 at most, since a file has up to 16,777,216 bytes.
# `bench/follow.sh crate [RECORDS]` times the crate `follower` alone, without the making of the records: a program over it is proved in a copy of the
# crates, where what was proved here is taken along, and built there. Needs rt.
set -eu
case ${1-} in --help | -h)
  sed -n '2,8s/^# //p' "$0"
  exit 0
  ;;
esac
root=$(cd "$(dirname "$0")/.." && pwd)
program=${GUARD_PROGRAM:-$root/guard}
work=$(mktemp -d)
trap 'rm -rf "$work"' EXIT

# measured IMAGE ORDER V VERSION TRIPLES: runs `follow` three times, and sets the least milliseconds and the most megabytes. It ends where what is printed at
# the end isn't this version and so many triples.
measured() {
  local told
  told=$(timeout 1800 python3 - "$program" "$@" <<'PEAK'
import resource, subprocess, sys, time
program, image, order, asked, version, triples = sys.argv[1:]
least = None
for _ in range(3):
    start = time.time()
    done = subprocess.run([program, "follow", image, order, asked], stdout=subprocess.PIPE, timeout=600)
    spent = time.time() - start
    least = spent if least is None else min(least, spent)
    found = [line for line in done.stdout.decode().splitlines() if line.startswith(("version ", "triples ", "unserved", "error "))]
    if done.returncode != 0 or found != ["version " + version, "triples " + triples]:
        sys.exit(f"follow {order} {asked}: status {done.returncode}, {found}")
print(round(least * 1000), resource.getrusage(resource.RUSAGE_CHILDREN).ru_maxrss // 1024)
PEAK
  )
  read -r milliseconds megabytes <<<"$told"
}

# told NAME COUNT: what was measured above the start, for each of so many.
told() {
  awk -v name="$1" -v ms="$((milliseconds - started))" -v n="$2" -v mb="$megabytes" \
    'BEGIN { printf "%s: %d ms, %.1f µs each, at most %d MB\n", name, ms, ms * 1000 / n, mb }'
}

# fed RECORDS KIND..: feeds the records of an image of them in orders of these kinds.
fed() {
  local records=$1 kind feeds
  shift
  python3 "$root/tools/log_image" make-short "$work/image" "$records" 10
  printf 'order\n' >"$work/order"
  measured "$work/image" "$work/order" 0 0 0
  started=$milliseconds
  echo "$records records of ten triples, an image of $(($(stat -c %s "$work/image") / 1000)) kB: read in $started ms, at most $megabytes MB"
  for kind in "$@"; do
    python3 "$root/tools/log_image" order "$work/order" "$records" "$kind"
    feeds=$(($(wc -w <"$work/order") - 1))
    measured "$work/image" "$work/order" 0 "$records" 0
    told "  $feeds fed, $kind" "$feeds"
  done
}

# served RECORDS: asks for versions of the image, fed in order, and prints their triples.
served() {
  local version
  python3 "$root/tools/log_image" order "$work/order" "$1" forward
  measured "$work/image" "$work/order" 0 "$1" 0
  started=$milliseconds
  for version in 1 "$(($1 / 2))" "$1"; do
    measured "$work/image" "$work/order" "$version" "$1" "$((version * 10))"
    told "  version $version served and printed" "$((version * 10))"
  done
}

# of_the_program RECORDS
of_the_program() {
  fed "$(($1 / 10))" forward
  fed "$1" forward windows random twice
  served "$1"
}

# crates_below CRATE: it and all that it stands on, in the order of crates.txt.
crates_below() {
  python3 - "$root/crates.txt" "$1" <<'BELOW'
import sys
below = {}
for line in open(sys.argv[1]):
    name, colon, rest = line.partition("#")[0].partition(":")
    if colon:
        below[name.split()[0]] = rest.split()
wanted, left = set(), [sys.argv[2]]
while left:
    name = left.pop()
    if name in below and name not in wanted:
        wanted.add(name)
        left += below[name]
print(*[name for name in below if name in wanted])
BELOW
}

# of_the_crate RECORDS: the program over the crate, one process for each order.
of_the_crate() {
  local copy=$work/copy crate part order
  mkdir -p "$copy/crates/follow_bench/src"
  for crate in $(crates_below follower); do
    mkdir "$copy/crates/$crate"
    for part in src specs proofs out; do
      if [ -d "$root/crates/$crate/$part" ]; then cp -a "$root/crates/$crate/$part" "$copy/crates/$crate"; fi
    done
    grep "^$crate:" "$root/crates.txt" >>"$copy/crates.txt"
  done
  cp "$root/HANDLES" "$copy"
  echo "follow_bench: follower record_text rdf_model rdf_text collections" >>"$copy/crates.txt"
  cat >"$copy/crates/follow_bench/src/main.rt" <<'PROGRAM'
//! Times a follower.
#![tactic(auto)]

use collections::Sequence;
use follower::Follower;
use rdf_model::{Term, Triple};
use rdf_text::Text;
use record_text::Record;
use std::alloc::{AllocError, Global};
use std::env;
use std::io;
use std::time::Instant;

const WINDOW: u64 = 1024;

#[derive(Clone, Copy)]
enum Order {
    Forward,
    Windows,
    Twice,
}

fn iri(alloc: Global, kind: &str, number: u64) -> Result<Term, AllocError> {
    let name = format!(in alloc; "http://example.org/{kind}{number}")?;
    Ok(Term::Iri(Text::new(alloc, name.as_str())?))
}

// One triple of a record, which has a subject of its own; the values are one in ten of the triples.
fn triple(alloc: Global, number: u64, place: u64) -> Result<Triple, AllocError> {
    let value = number.wrapping_mul(10).wrapping_add(place).wrapping_mul(7919) % 100_000;
    Ok(Triple {
        subject: iri(alloc, "n", number)?,
        predicate: iri(alloc, "p", place)?,
        object: iri(alloc, "v", value)?,
    })
}

fn record(alloc: Global, number: u64) -> Result<Record, AllocError> {
    let mut added = Sequence::new(alloc);
    for place in 0..10u64 {
        added.push(triple(alloc, number, place)?)?;
    }
    Ok(Record {
        number,
        removed: Sequence::new(alloc),
        added,
        shapes: None,
    })
}

// The records of a window, so many behind the first ones, in the order in which they are fed.
fn window(alloc: Global, order: Order, before: u64, count: u64) -> Result<Vec<Record>, AllocError> {
    let mut records = Vec::new(alloc);
    for place in 0..count {
        let next = before.wrapping_add(place).wrapping_add(1);
        match order {
            Order::Forward => records.push(record(alloc, next)?)?,
            Order::Windows => {
                let last = before.wrapping_add(count);
                records.push(record(alloc, last.wrapping_sub(place))?)?;
            }
            Order::Twice => {
                records.push(record(alloc, next)?)?;
                records.push(record(alloc, next)?)?;
            }
        }
    }
    Ok(records)
}

fn feed_all(follower: &mut Follower, records: Vec<Record>) -> Result<u64, AllocError> {
    let mut fed = 0u64;
    for next in records {
        let _ = follower.feed(next)?;
        fed = fed.wrapping_add(1);
    }
    Ok(fed)
}

fn feed(rt: &HostRuntime, order: Order, count: u64) -> io::Result<Follower> {
    let alloc = rt.alloc();
    let mut follower = Follower::new(alloc)?;
    let mut spent = 0u128;
    let mut fed = 0u64;
    for place in 0..count.div_ceil(WINDOW) {
        let before = place.wrapping_mul(WINDOW);
        let records = window(alloc, order, before, WINDOW.min(count.wrapping_sub(before)))?;
        let start = Instant::now(rt)?;
        let more = feed_all(&mut follower, records)?;
        spent = spent.wrapping_add(start.elapsed(rt)?.as_micros());
        fed = fed.wrapping_add(more);
    }
    let version = follower.version();
    println!(rt; "  {fed} records fed in {spent} us, version {version}")?;
    Ok(follower)
}

fn serve(rt: &HostRuntime, follower: &Follower, version: u64) -> io::Result<()> {
    let start = Instant::now(rt)?;
    let mut served = 0u64;
    for _ in 0..1000u32 {
        if follower.at(version).is_ok() {
            served = served.wrapping_add(1);
        }
    }
    let spent = start.elapsed(rt)?.as_micros();
    println!(rt; "  version {version} served {served} times in {spent} us")
}

fn main(rt: HostRuntime) -> io::Result<()> {
    let mut order = Order::Forward;
    let mut count = 0u64;
    for word in env::args(&rt)? {
        match word.as_str() {
            "forward" => order = Order::Forward,
            "windows" => order = Order::Windows,
            "twice" => order = Order::Twice,
            number => count = number.parse::<u64>().unwrap_or(count),
        }
    }
    let follower = feed(&rt, order, count)?;
    let newest = follower.version();
    serve(&rt, &follower, newest)?;
    serve(&rt, &follower, newest / 2)?;
    serve(&rt, &follower, 1)
}
PROGRAM
  (cd "$copy/crates/follow_bench" && timeout 7200 rt run >"$work/log" 2>&1) || [ -x "$copy/crates/follow_bench/out/follow_bench" ] || {
    tail -20 "$work/log"
    exit 1
  }
  peak forward "$(($1 / 10))"
  for order in forward windows twice; do
    peak "$order" "$1"
  done
}

# peak ORDER RECORDS: runs the program over the crate, and tells the most memory that it held.
peak() {
  echo "$2 records, $1:"
  timeout 900 python3 - "$work/copy/crates/follow_bench/out/follow_bench" "$@" <<'PEAK'
import resource, subprocess, sys
subprocess.run(sys.argv[1:], check=True, timeout=800)
print("  at most %d MB" % (resource.getrusage(resource.RUSAGE_CHILDREN).ru_maxrss // 1024))
PEAK
}

if [ "${1-}" = crate ]; then
  of_the_crate "${2-10000}"
else
  of_the_program "${1-10000}"
fi
