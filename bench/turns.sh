#!/usr/bin/env bash
# How often a caller of the lock should look before it sleeps, by a model of it in Rust: transactions of four turns, by 1, 2, 4, 16 and
# 64 threads, where two fifths of a transaction are turns and where four fifths are, with memory that the turns of all share. Needs rustc.
# Usage: bench/turns.sh [LOOKS..], 100 300 1000 3000 where none is given.
set -eu
root=$(cd "$(dirname "$0")/.." && pwd)
looks=("$@")
[ ${#looks[@]} -gt 0 ] || looks=(100 300 1000 3000)
work=$(mktemp -d)
trap 'rm -rf "$work"' EXIT
rustc --edition 2024 -O -o "$work/turns" "$root/bench/turns.rs"
for kind in "8000 12000 600" "12000 3000 600"; do
  read -r turn between lines <<<"$kind"
  for count in "${looks[@]}"; do
    for threads in 1 2 4 16 64; do
      echo "$turn steps in turns, $between between, $lines lines: $count looks, $threads threads:" \
        "$("$work/turns" "$threads" $((8000 / threads)) "$count" "$turn" "$between" "$lines")"
    done
  done
done
