#!/usr/bin/env bash
# How fast a block of Turtle is read, beside serdi and rapper, where they are installed: subjects with property lists,
# prefixes, literals with tags and datatypes, and a collection at every tenth. The block stands outside of a transaction,
# so that it is read and nothing is stored. Usage: bench/read_turtle.sh [SUBJECTS]
set -eu
root=$(cd "$(dirname "$0")/.." && pwd)
count=${1:-100000}
folder=$(mktemp -d)
trap 'rm -rf "$folder"' EXIT
awk -v n="$count" 'BEGIN {
  print "@prefix ex: <http://example.org/> ."
  print "@prefix xsd: <http://www.w3.org/2001/XMLSchema#> ."
  for (i = 0; i < n; i++) {
    printf "ex:product%d a ex:Product ;\n  ex:name \"Product %d\"@en ;\n  ex:price %d.50 ;\n", i, i, i % 500
    printf "  ex:made \"2020-%02d-%02d\"^^xsd:date", i % 12 + 1, i % 28 + 1
    if (i % 10 == 0) printf " ;\n  ex:parts ( ex:part%d ex:part%d )", i % 100, i % 77
    print " ."
  }
}' > "$folder/data.ttl"
{ echo "add turtle"; cat "$folder/data.ttl"; echo "%%"; } > "$folder/data.session"
"$root/guard" run "$root/examples/first.session" > /dev/null
bytes=$(stat -c %s "$folder/data.ttl")

# Runs a command, and prints how long it took and the most memory that it held.
measure() {
  local name=$1
  shift
  local before after
  before=$(date +%s%N)
  python3 - "$folder/peak" "$@" <<'PEAK'
import resource, subprocess, sys
subprocess.run(sys.argv[2:], stdout=subprocess.DEVNULL, check=True)
open(sys.argv[1], "w").write(str(resource.getrusage(resource.RUSAGE_CHILDREN).ru_maxrss))
PEAK
  after=$(date +%s%N)
  awk -v name="$name" -v b="$bytes" -v t="$((after - before))" -v k="$(cat "$folder/peak")" 'BEGIN {
    printf "%-8s %.1f MB in %.2f s: %.1f MB a second, %.0f MB of memory\n", name, b / 1e6, t / 1e9, b * 1e3 / t, k / 1024 }'
}

"$root/guard" run "$folder/data.session" | head -2 | tail -1
measure guard "$root/guard" run "$folder/data.session"
if command -v serdi > /dev/null; then measure serdi serdi -i turtle -o ntriples "$folder/data.ttl"; fi
if command -v rapper > /dev/null; then measure rapper rapper -q -i turtle -o ntriples "$folder/data.ttl"; fi
