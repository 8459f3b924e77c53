#!/usr/bin/env bash
# How long a shapes graph of many shapes takes to read: to be tested by all rules and compiled. In each ten shapes are four property
# shapes with paths of all kinds and one with a qualified count, and node shapes with classes, lists and references; the data are one
# triple, and what a run takes without shapes is told beside it. Usage: bench/shapes.sh [SHAPES..]; 1000 and 10000 where none is given.
# bench/shapes.sh --print SHAPES prints such a graph.
set -eu
root=$(cd "$(dirname "$0")/.." && pwd)

prefixes='@prefix e: <http://example.org/> .
@prefix sh: <http://www.w3.org/ns/shacl#> .
@prefix xsd: <http://www.w3.org/2001/XMLSchema#> .'

# shapes COUNT: the shapes graph.
shapes() {
  echo "$prefixes"
  awk -v n="$1" 'BEGIN {
    for (i = 1; i <= n / 10; i++) {
      above = int(i / 2)
      printf "e:N%d a sh:NodeShape ; sh:targetClass e:C%d ; sh:property e:P%d , e:Q%d , e:R%d , e:S%d , e:T%d ;\n", i, i, i, i, i, i, i
      printf "  sh:and ( e:A%d e:B%d ) ; sh:or ( e:A%d e:D%d ) ; sh:not e:E%d ; sh:message \"Kind %d\"@en", i, i, i, i, i, i
      if (above > 0) printf " ; sh:node e:N%d", above
      print " ."
      printf "e:P%d sh:path e:p%d ; sh:class e:C%d ; sh:minCount 1 ; sh:maxCount 9 .\n", i, i, i % 7 + 1
      printf "e:Q%d sh:path [ sh:inversePath e:q%d ] ; sh:in ( 1 2 3 4 \"red\" e:C%d ) .\n", i, i % 50, i
      printf "e:R%d sh:path ( e:p%d e:q [ sh:zeroOrMorePath [ sh:zeroOrOnePath e:r ] ] ) ; sh:datatype xsd:string ; sh:minLength 3 .\n", i, i % 50
      printf "e:S%d sh:path [ sh:alternativePath ( e:p%d [ sh:oneOrMorePath e:q ] e:r ) ] ; sh:nodeKind sh:IRI ; sh:disjoint e:z .\n", i, i % 50
      printf "e:T%d sh:path e:t ; sh:qualifiedValueShape e:A%d ; sh:qualifiedMinCount 1 ; sh:qualifiedValueShapesDisjoint true .\n", i, i
      printf "e:A%d sh:class e:C%d ; sh:hasValue e:v%d .\ne:B%d sh:nodeKind sh:BlankNodeOrIRI ; sh:equals e:p%d .\n", i, i, i, i, i
      printf "e:D%d sh:languageIn ( \"en\" \"de\" ) ; sh:maxLength 80 .\ne:E%d sh:closed true ; sh:ignoredProperties ( e:p%d e:q ) ; sh:minInclusive %d .\n", i, i, i, i
    }
  }'
}

if [ "${1:-}" = --print ]; then
  shapes "$2"
  exit
fi
sizes=("$@")
[ ${#sizes[@]} -gt 0 ] || sizes=(1000 10000)
work=$(mktemp -d)
trap 'rm -rf "$work"' EXIT

# best SHAPES: the milliseconds of the quickest of three validations.
best() {
  python3 - "$root/guard" "$work/data.ttl" "$1" <<'TIMES'
import subprocess, sys, time
times = []
for _ in range(3):
    start = time.time()
    done = subprocess.run([sys.argv[1], "validate", *sys.argv[2:]], stdout=subprocess.PIPE)
    times.append(time.time() - start)
    if b"sh:conforms true" not in done.stdout:
        sys.exit("not read as it ought to be: " + done.stdout.decode()[:200])
print(round(min(times) * 1000))
TIMES
}

"$root/guard" run "$root/examples/first.session" >/dev/null
echo '<http://example.org/a> <http://example.org/b> <http://example.org/c> .' >"$work/data.ttl"
echo "$prefixes" >"$work/none.ttl"
echo "no shapes: $(best "$work/none.ttl") ms"
for size in "${sizes[@]}"; do
  shapes "$size" >"$work/shapes.ttl"
  echo "$size shapes, $(($(stat -c %s "$work/shapes.ttl") / 1000)) kB: $(best "$work/shapes.ttl") ms"
done
