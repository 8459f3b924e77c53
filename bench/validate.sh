#!/usr/bin/env bash
# How long a validation takes, with its most memory, beside Apache Jena's SHACL where Debian's libapache-jena-java is installed (with
# libthrift-java and libxerces2-java): as a process that reads and validates, and in its best round of several in one process that is warm.
# Products of eight triples each, of which one in a hundred breaks something; shapes with classes, counts, datatypes, patterns, ranges,
# sh:in, sh:or and sh:node. Usage: bench/validate.sh [PRODUCTS..]; 10000 and 50000 where none is given.
set -eu
root=$(cd "$(dirname "$0")/.." && pwd)
sizes=("$@")
[ ${#sizes[@]} -gt 0 ] || sizes=(10000 50000)
work=$(mktemp -d)
trap 'rm -rf "$work"' EXIT

# products COUNT: the data.
products() {
  awk -v n="$1" 'BEGIN {
    print "@prefix e: <http://example.org/> .\n@prefix xsd: <http://www.w3.org/2001/XMLSchema#> ."
    split("red green blue white black", colours, " ")
    for (i = 0; i < 200; i++) printf "e:m%d a e:Maker ; e:name \"Maker %d\" ; e:country \"C%d\" .\n", i, i, i % 40
    for (i = 0; i < n; i++) {
      j = (i * 7919) % n
      bad = j % 100 == 0 ? j / 100 % 5 : -1
      printf "e:p%d a e:Product ; e:name \"Product %d\"@en ; e:code \"%s%05d\" ; e:price %s ;\n", j, j, bad == 0 ? "prd" : "PRD-", j % 100000, bad == 1 ? "0.00" : (j % 900 + 1) ".50"
      printf "  e:stock %d ; e:made \"20%02d-%02d-%02d\"^^xsd:date ; e:maker %s ; e:colour \"%s\" .\n", bad == 2 ? -1 : j % 50, j % 25, j % 12 + 1, j % 28 + 1, bad == 3 ? "e:p" j : "e:m" (j % 200), bad == 4 ? "grey" : colours[j % 5 + 1]
    }
  }'
}

cat >"$work/shapes.ttl" <<'SHAPES'
@prefix e: <http://example.org/> .
@prefix sh: <http://www.w3.org/ns/shacl#> .
@prefix xsd: <http://www.w3.org/2001/XMLSchema#> .
e:ProductShape a sh:NodeShape ; sh:targetClass e:Product ;
  sh:property e:NameShape , e:CodeShape , e:PriceShape , e:StockShape , e:MadeShape , e:MakerShape , e:ColourShape .
e:NameShape sh:path e:name ; sh:minCount 1 ; sh:uniqueLang true ; sh:minLength 3 .
e:CodeShape sh:path e:code ; sh:minCount 1 ; sh:maxCount 1 ; sh:datatype xsd:string ; sh:pattern "^[A-Z]{3}-[0-9]{5}$" .
e:PriceShape sh:path e:price ; sh:maxCount 1 ; sh:datatype xsd:decimal ; sh:minExclusive 0 ; sh:maxInclusive 1000 .
e:StockShape sh:path e:stock ; sh:maxCount 1 ; sh:or ( [ sh:datatype xsd:integer ; sh:minInclusive 0 ] [ sh:hasValue "none" ] ) .
e:MadeShape sh:path e:made ; sh:maxCount 1 ; sh:datatype xsd:date ; sh:minInclusive "2000-01-01"^^xsd:date .
e:MakerShape sh:path e:maker ; sh:minCount 1 ; sh:class e:Maker ; sh:node e:MakerNode .
e:MakerNode sh:property [ sh:path e:country ; sh:minCount 1 ] .
e:ColourShape sh:path e:colour ; sh:in ( "red" "green" "blue" "white" "black" ) .
SHAPES

# measured COMMAND..: runs it, and sets its milliseconds and its most megabytes.
measured() {
  read -r milliseconds megabytes < <(python3 - "$work/report" "$@" <<'PEAK'
import resource, subprocess, sys, time
start = time.time()
with open(sys.argv[1], "wb") as out:
    subprocess.run(sys.argv[2:], stdout=out)
spent = time.time() - start
print(round(spent * 1000), resource.getrusage(resource.RUSAGE_CHILDREN).ru_maxrss // 1024)
PEAK
  )
}

jena=
if found=$("$root/tools/jena_class_path" "$work"); then
  jena=$found:$work
  javac -cp "$jena" -d "$work" "$root/bench/ValidateRounds.java"
fi

"$root/guard" run "$root/examples/first.session" >/dev/null
for size in "${sizes[@]}"; do
  products "$size" >"$work/data.ttl"
  echo "$size products, $((size * 8 + 600)) triples, $(($(stat -c %s "$work/data.ttl") / 1000)) kB"
  best=
  for _ in 1 2 3; do
    measured "$root/guard" validate "$work/data.ttl" "$work/shapes.ttl"
    [ -n "$best" ] && [ "$best" -le "$milliseconds" ] || best=$milliseconds
  done
  echo "  guard: $best ms, at most $megabytes MB, $(grep -c 'a sh:ValidationResult ' "$work/report") results"
  if [ -n "$jena" ]; then
    measured java -cp "$jena" shacl.shacl validate --shapes "$work/shapes.ttl" --data "$work/data.ttl"
    echo "  Jena, a process: $milliseconds ms, at most $megabytes MB, $(grep -c 'sh:ValidationResult' "$work/report") results"
    java -cp "$jena" ValidateRounds "$work/data.ttl" "$work/shapes.ttl" 8
  fi
done
