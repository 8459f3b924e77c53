#!/usr/bin/env bash
# What commits cost under shapes, those of the catalogue: a store of products, ten triples each; transactions of one triple on stores of
# growing size; transactions of growing size on one store; and generated loads.
# Usage: bench/guarded_commit.sh [TRIPLES..], the sizes of the stores; 1000 10000 100000 1000000 where none is given.
set -eu
root=$(cd "$(dirname "$0")/.." && pwd)
sizes=("$@")
[ ${#sizes[@]} -gt 0 ] || sizes=(1000 10000 100000 1000000)
largest=${sizes[${#sizes[@]} - 1]}
work=$(mktemp -d)
trap 'rm -rf "$work"' EXIT

# filled COUNT: one transaction with the shapes and so many triples, ten to a product, in no order of the products.
filled() {
  echo begin
  echo "shapes ntriples"
  cat "$root/examples/catalogue/shapes.nt"
  echo "%%"
  awk -v n="$1" 'BEGIN {
    print "add turtle\n@prefix : <http://example.org/products/> . @prefix s: <http://example.org/shop/> . @prefix m: <http://example.org/makers/> ."
    products = int(n / 10)
    for (i = 0; i < products; i++) {
      j = (i * 7919) % products
      printf ":%d s:code \"C-%d\"; s:name \"Product %d\"; s:maker m:%d", j, j, j, j % 20
      for (k = 1; k < 8; k++) printf ",m:%d", (j + k) % 20
      print " ."
    }
    print "%%\ncommit"
  }'
}

# changes TRANSACTIONS TRIPLES STORE: so many transactions of so many triples, each one more maker of a product.
changes() {
  awk -v n="$1" -v k="$2" -v products="$(($3 / 10))" 'BEGIN {
    for (i = 0; i < n; i++) {
      print "begin\nadd ntriples"
      for (j = 0; j < k; j++) {
        p = ((i * k + j) * 7919) % products
        printf "<http://example.org/products/%d> <http://example.org/shop/maker> <http://example.org/makers/%d-%d> .\n", p, i, j
      }
      print "%%\ncommit"
    }
  }'
}

# measured WORD..: runs the program with these words, and sets its milliseconds and its most megabytes.
measured() {
  read -r milliseconds megabytes < <(python3 - "$root/guard" "$@" <<'PEAK'
import resource, subprocess, sys, time
start = time.time()
subprocess.run(sys.argv[1:], stdout=subprocess.DEVNULL, check=True)
spent = time.time() - start
print(round(spent * 1000), resource.getrusage(resource.RUSAGE_CHILDREN).ru_maxrss // 1024)
PEAK
  )
}

# played FILE..: runs the session files.
played() {
  measured run --max-terms 2000000 --max-triples 2000000 "$@"
}

# each TRANSACTIONS TRIPLES STORE: the microseconds of one of so many transactions of so many triples, on the store that was filled.
each() {
  { cat "$work/filled.session"; changes "$1" "$2" "$3"; } >"$work/changed.session"
  played "$work/changed.session"
  echo $(((milliseconds - alone) * 1000 / $1))
}

"$root/guard" run "$root/examples/first.session" >/dev/null
for size in "${sizes[@]}"; do
  filled "$size" >"$work/filled.session"
  played "$work/filled.session"
  alone=$milliseconds
  echo "one transaction of $size triples: $alone ms, at most $megabytes MB"
  echo "  then 10000 transactions of one triple: $(each 10000 1 "$size") µs each"
done
for triples in 10 100 1000 10000; do
  echo "  then $((20000 / triples)) transactions of $triples triples: $(each $((20000 / triples)) "$triples" "$largest") µs each"
done
for number in 1000 10000 100000; do
  measured generate "$number"
  echo "generate $number: $milliseconds ms, at most $megabytes MB"
done
