#!/usr/bin/env bash
# How fast a block of N-Triples is read: 100,000 distinct triples in no order, read by the proved program. The block
# stands outside of a transaction, so that it is read and nothing is stored. Usage: bench/read_block.sh [TRIPLES]
set -eu
root=$(cd "$(dirname "$0")/.." && pwd)
count=${1:-100000}
file=$(mktemp)
trap 'rm -f "$file"' EXIT
{
  echo "add ntriples"
  awk -v n="$count" 'BEGIN { for (i = 0; i < n; i++) { j = (i * 7919) % n;
    printf "<http://example.org/node/%d> <http://example.org/property/%d> \"value %d\" .\n", j, j % 20, j } }'
  echo "%%"
} > "$file"
"$root/guard" run "$root/examples/first.session" > /dev/null
bytes=$(stat -c %s "$file")
start=$(date +%s%N)
"$root/guard" run "$file" | head -2 | tail -1
end=$(date +%s%N)
awk -v b="$bytes" -v t="$((end - start))" -v n="$count" \
  'BEGIN { printf "%d triples, %.1f MB in %.2f s: %.1f MB a second\n", n, b / 1e6, t / 1e9, b * 1e3 / t }'
