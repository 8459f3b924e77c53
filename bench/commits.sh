#!/usr/bin/env bash
# What commits cost, without shapes: one transaction of many triples, with its time and its most memory; transactions of one triple
# on stores of growing size, and begins on them; sessions beside each other that commit one triple at a time.
# Usage: bench/commits.sh [TRIPLES..], the sizes of the stores; 1000 10000 100000 400000 1000000 where none is given.
set -eu
root=$(cd "$(dirname "$0")/.." && pwd)
sizes=("$@")
[ ${#sizes[@]} -gt 0 ] || sizes=(1000 10000 100000 400000 1000000)
many=1000
most=20000
work=$(mktemp -d)
trap 'rm -rf "$work"' EXIT

# filled COUNT: one transaction of so many triples, five to a subject, in no order of their subjects.
filled() {
  awk -v n="$1" 'BEGIN {
    print "begin\nadd turtle\n@prefix : <http://example.org/> ."
    subjects = n / 5
    for (i = 0; i < subjects; i++) {
      j = (i * 7919) % subjects
      printf ":n%d :p%d \"v%d\",\"v%d\",\"v%d\",\"v%d\",\"v%d\".\n", j, j % 20, 5 * j, 5 * j + 1, 5 * j + 2, 5 * j + 3, 5 * j + 4
    }
    print "%%\ncommit"
  }'
}

# singles COUNT SESSION: so many transactions of one triple each.
singles() {
  awk -v n="$1" -v s="$2" 'BEGIN {
    for (i = 0; i < n; i++)
      printf "begin\nadd ntriples\n<http://example.org/new/%d-%d> <http://example.org/property/1> \"new\" .\n%%%%\ncommit\n", s, i
  }'
}

# begins COUNT: so many transactions that are begun and let go.
begins() {
  awk -v n="$1" 'BEGIN { for (i = 0; i < n; i++) print "begin\nabort" }'
}

# measured FILE..: runs the program on the files, and sets its milliseconds and its most megabytes.
measured() {
  read -r milliseconds megabytes < <(python3 - "$root/guard" "$@" <<'PEAK'
import resource, subprocess, sys, time
start = time.time()
subprocess.run([sys.argv[1], "run", "--max-terms", "2000000", "--max-triples", "2000000", *sys.argv[2:]], stdout=subprocess.DEVNULL, check=True)
spent = time.time() - start
print(round(spent * 1000), resource.getrusage(resource.RUSAGE_CHILDREN).ru_maxrss // 1024)
PEAK
  )
}

"$root/guard" run "$root/examples/first.session" >/dev/null
for size in "${sizes[@]}"; do
  filled "$size" >"$work/filled.session"
  measured "$work/filled.session"
  alone=$milliseconds
  echo "one transaction of $size triples: $alone ms, at most $megabytes MB"
  { cat "$work/filled.session"; singles "$most" 0; } >"$work/singles.session"
  measured "$work/singles.session"
  echo "  then $most transactions of one triple: $(((milliseconds - alone) * 1000 / most)) µs each"
  { cat "$work/filled.session"; begins "$most"; } >"$work/begins.session"
  measured "$work/begins.session"
  echo "  then $most begins: $(((milliseconds - alone) * 1000 / most)) µs each"
done
for sessions in 1 2 4; do
  files=()
  for number in $(seq "$sessions"); do
    singles "$many" "$number" >"$work/$number.session"
    files+=("$work/$number.session")
  done
  measured "${files[@]}"
  echo "$sessions sessions, $many transactions of one triple each: $milliseconds ms, at most $megabytes MB"
done
