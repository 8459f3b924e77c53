#!/usr/bin/env bash
# What warnings cost that stand in a store: transactions of one triple on a store with so many results that don't block, beside the same store
# where its shape gives none; and `report` of them, beside the report of `validate` over the same graph.
# Usage: bench/warnings.sh [WARNINGS], 100000 where none is given. Told is processor time, each figure the best of three.
set -eu
root=$(cd "$(dirname "$0")/.." && pwd)
warnings=${1:-100000}
work=$(mktemp -d)
trap 'rm -rf "$work"' EXIT

# shape COUNT: each product has at least so many pictures, or there is a warning.
shape() {
  echo "@prefix sh: <http://www.w3.org/ns/shacl#> . @prefix : <http://example.org/> ."
  echo ":Product sh:targetSubjectsOf :name ; sh:property :Pictured ."
  echo ":Pictured sh:path :picture ; sh:minCount $1 ; sh:severity sh:Warning ."
}

products() {
  echo "@prefix : <http://example.org/> ."
  awk -v n="$warnings" 'BEGIN { for (i = 0; i < n; i++) printf ":p%d :name \"%d\" .\n", (i * 7919) % n, i % 100 }'
}

# store COUNT: the shape and the products in one transaction.
store() {
  echo begin
  echo "shapes turtle"
  shape "$1"
  echo "%%"
  echo "add turtle"
  products
  echo "%%"
  echo commit
}

# changes: transactions of one triple, each a product more.
changes() {
  awk 'BEGIN { for (i = 0; i < 8000; i++) printf "begin\nadd ntriples\n<http://example.org/q%d> <http://example.org/name> \"1\" .\n%%%%\ncommit\n", i }'
}

# measured WORD..: the milliseconds that the program takes of processors on these words.
measured() {
  python3 - "$root/crates/shacl_guard/out/shacl_guard" "$@" <<'BEST'
import os, sys
best = None
for _ in range(3):
    child = os.fork()
    if child == 0:
        os.dup2(os.open("/dev/null", os.O_WRONLY), 1)
        os.execv(sys.argv[1], sys.argv[1:])
    _, status, used = os.wait4(child, 0)
    assert os.waitstatus_to_exitcode(status) in (0, 1), status
    spent = used.ru_utime + used.ru_stime
    best = spent if best is None else min(best, spent)
print(round(best * 1000))
BEST
}

"$root/guard" build
for count in 0 1; do
  store "$count" >"$work/store$count.session"
  { store "$count"; changes; } >"$work/changed$count.session"
done
{ store 1; echo begin; echo commit; } >"$work/read.session"
{ store 1; echo begin; echo report; echo commit; } >"$work/reported.session"
shape 1 >"$work/shapes.ttl"
shape 0 >"$work/no_shapes.ttl"
products >"$work/data.ttl"
blocks=(run --block violation)
for count in 0 1; do
  before=$(measured "${blocks[@]}" "$work/store$count.session")
  after=$(measured "${blocks[@]}" "$work/changed$count.session")
  echo "$((count * warnings)) warnings stand: $(((after - before) / 8)) us a transaction of one triple, the store is there after $before ms"
done
before=$(measured "${blocks[@]}" "$work/read.session")
after=$(measured "${blocks[@]}" "$work/reported.session")
echo "report of $warnings warnings: $((after - before)) ms"
before=$(measured validate "$work/data.ttl" "$work/no_shapes.ttl")
after=$(measured validate "$work/data.ttl" "$work/shapes.ttl")
echo "validate of the same graph: $after ms, $((after - before)) ms more than without results"
