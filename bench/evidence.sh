#!/usr/bin/env bash
# What evidence costs: products of eight triples each, each of which breaks one constraint, are validated, explained, and what was
# explained is verified; each the best of three runs of the program, with its most memory, and how many times the time of `validate` it
# takes. The evidence of more than some 12,000 results is longer than a file may be.
# Usage: bench/evidence.sh [RESULTS..]; 1000 and 10000 where none is given.
set -eu
root=$(cd "$(dirname "$0")/.." && pwd)
sizes=("$@")
[ ${#sizes[@]} -gt 0 ] || sizes=(1000 10000)
work=$(mktemp -d)
trap 'rm -rf "$work"' EXIT

# products COUNT: the data.
products() {
  awk -v n="$1" 'BEGIN {
    print "@prefix e: <http://e/> .\n@prefix xsd: <http://www.w3.org/2001/XMLSchema#> ."
    for (i = 0; i < 200; i++) printf "e:m%d a e:Maker ; e:name \"Maker %d\" ; e:country \"C%d\" .\n", i, i, i % 40
    for (i = 0; i < n; i++) {
      j = (i * 7919) % n
      bad = j % 5
      printf "e:p%d a e:Product ; e:name \"Product %d\"@en ; e:code \"%s%05d\" ; e:price %s ;\n", j, j, bad == 0 ? "prd" : "PRD-", j % 100000, bad == 1 ? "0.00" : (j % 900 + 1) ".50"
      printf "  e:stock %d ; e:made \"20%02d-%02d-%02d\"^^xsd:date ; e:maker %s ; e:colour \"%s\" .\n", bad == 2 ? -1 : j % 50, j % 25, j % 12 + 1, j % 28 + 1, bad == 3 ? "e:p" j : "e:m" (j % 200), bad == 4 ? "grey" : "red"
    }
  }'
}

cat >"$work/shapes.ttl" <<'SHAPES'
@prefix e: <http://e/> .
@prefix sh: <http://www.w3.org/ns/shacl#> .
@prefix xsd: <http://www.w3.org/2001/XMLSchema#> .
e:ProductShape a sh:NodeShape ; sh:targetClass e:Product ;
  sh:property e:NameShape , e:CodeShape , e:PriceShape , e:StockShape , e:MadeShape , e:MakerShape , e:ColourShape .
e:NameShape sh:path e:name ; sh:minCount 1 ; sh:uniqueLang true .
e:CodeShape sh:path e:code ; sh:maxCount 1 ; sh:pattern "^[A-Z]{3}-[0-9]{5}$" .
e:PriceShape sh:path e:price ; sh:maxCount 1 ; sh:minExclusive 0 .
e:StockShape sh:path e:stock ; sh:maxCount 1 ; sh:or ( [ sh:datatype xsd:integer ; sh:minInclusive 0 ] [ sh:hasValue "none" ] ) .
e:MadeShape sh:path e:made ; sh:datatype xsd:date .
e:MakerShape sh:path e:maker ; sh:class e:Maker .
e:ColourShape sh:path e:colour ; sh:in ( "red" "green" "blue" ) .
SHAPES

# measured OUTPUT WORD..: runs the program three times, and sets its least milliseconds and its most megabytes.
measured() {
  read -r milliseconds megabytes < <(python3 - "$root/guard" "$@" <<'PEAK'
import resource, subprocess, sys, time
least = None
for _ in range(3):
    start = time.time()
    with open(sys.argv[2], "wb") as out:
        subprocess.run([sys.argv[1], *sys.argv[3:]], stdout=out)
    spent = time.time() - start
    least = spent if least is None else min(least, spent)
print(round(least * 1000), resource.getrusage(resource.RUSAGE_CHILDREN).ru_maxrss // 1024)
PEAK
  )
}

# times MILLISECONDS: how many times the time of `validate` that is.
times() {
  awk -v own="$1" -v plain="$plain" 'BEGIN { printf "%.1f", own / (plain > 0 ? plain : 1) }'
}

"$root/guard" run "$root/examples/first.session" >/dev/null
for size in "${sizes[@]}"; do
  products "$size" >"$work/data.ttl"
  echo "$size products, $((size * 8 + 600)) triples"
  measured "$work/report" validate "$work/data.ttl" "$work/shapes.ttl"
  plain=$milliseconds
  echo "  validate: $plain ms, at most $megabytes MB, $(grep -c 'a sh:ValidationResult ' "$work/report") results"
  measured "$work/evidence" explain "$work/data.ttl" "$work/shapes.ttl"
  echo "  explain: $milliseconds ms, $(times "$milliseconds") times that, at most $megabytes MB, $(($(stat -c %s "$work/evidence") / 1000)) kB"
  measured "$work/verdict" verify "$work/data.ttl" "$work/shapes.ttl" "$work/evidence"
  echo "  verify: $milliseconds ms, $(times "$milliseconds") times that, at most $megabytes MB: $(cat "$work/verdict")"
done
