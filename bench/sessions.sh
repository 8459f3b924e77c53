#!/usr/bin/env bash
# How long 1, 2 and 4 sessions take that run beside each other, each with many transactions of ten triples of its own, a product with nine
# properties: without shapes, under shapes that have something to say of each of these properties, and under them over a store of 100,000 triples.
# How long it takes to read the session files is told beside it: all are read before the first session begins, their blocks beside each other. The filling
# isn't counted. Then how long it takes where each of 1, 2 and 4 guarded sessions has a process and a store of its own, so that nothing is shared:
# no store does better on this machine. Last, how long, with which time of the processors and of the system, 6,400 commits of one triple take by 1, 4, 16 and 64 sessions.
# Usage: bench/sessions.sh [TRANSACTIONS]
set -eu
root=$(cd "$(dirname "$0")/.." && pwd)
count=${1:-1000}
folder=$(mktemp -d)
trap 'rm -rf "$folder"' EXIT

# session NUMBER: its transactions, each a product with ten triples.
session() {
  awk -v n="$count" -v s="$1" 'BEGIN {
    shop = " <http://example.org/shop/"
    typed = "\"^^<http://www.w3.org/2001/XMLSchema#"
    for (i = 0; i < n; i++) {
      product = "<http://example.org/products/" s "-" i ">"
      print "begin\nadd ntriples"
      print product " <http://www.w3.org/1999/02/22-rdf-syntax-ns#type>" shop "Product> ."
      print product shop "code> \"P-" s "-" i "\" ."
      print product shop "name> \"Product " i "\" ."
      print product shop "price> \"" i ".5" typed "decimal> ."
      print product shop "currency> \"EUR\" ."
      print product shop "weight> \"1.5" typed "decimal> ."
      print product shop "maker> <http://example.org/makers/" i % 10 "> ."
      print product shop "category>" shop "Lamp> ."
      print product shop "released> \"2026-01-02" typed "date> ."
      print product shop "stock> \"" i % 100 typed "integer> ."
      print "%%\ncommit"
    }
  }'
}

# The shapes of a product and its properties, and the makers, staged first of all.
shapes() {
  cat <<'END'
begin
shapes turtle
@prefix sh: <http://www.w3.org/ns/shacl#> .
@prefix xsd: <http://www.w3.org/2001/XMLSchema#> .
@prefix rdf: <http://www.w3.org/1999/02/22-rdf-syntax-ns#> .
@prefix shop: <http://example.org/shop/> .
@prefix : <http://example.org/shapes/> .
:Product a sh:NodeShape ; sh:targetClass shop:Product ; sh:closed true ; sh:ignoredProperties ( rdf:type ) ;
  sh:property :code , :name , :price , :currency , :weight , :maker , :category , :released , :stock .
:code sh:path shop:code ; sh:datatype xsd:string ; sh:minCount 1 ; sh:maxCount 1 ; sh:pattern "^P-[0-9]+-[0-9]+$" .
:name sh:path shop:name ; sh:nodeKind sh:Literal ; sh:minCount 1 ; sh:minLength 1 ; sh:maxLength 100 .
:price sh:path shop:price ; sh:datatype xsd:decimal ; sh:minCount 1 ; sh:maxCount 1 ; sh:minInclusive 0.0 ; sh:maxExclusive 100000.0 .
:currency sh:path shop:currency ; sh:in ( "EUR" "USD" "GBP" ) ; sh:maxCount 1 .
:weight sh:path shop:weight ; sh:datatype xsd:decimal ; sh:minExclusive 0.0 .
:maker sh:path shop:maker ; sh:class shop:Maker ; sh:minCount 1 .
:category sh:path shop:category ; sh:nodeKind sh:IRI ; sh:minCount 1 .
:released sh:path shop:released ; sh:datatype xsd:date ; sh:maxCount 1 .
:stock sh:path shop:stock ; sh:datatype xsd:integer ; sh:minInclusive 0 .
%%
add turtle
@prefix shop: <http://example.org/shop/> .
@prefix : <http://example.org/makers/> .
:0 a shop:Maker . :1 a shop:Maker . :2 a shop:Maker . :3 a shop:Maker . :4 a shop:Maker .
:5 a shop:Maker . :6 a shop:Maker . :7 a shop:Maker . :8 a shop:Maker . :9 a shop:Maker .
%%
commit
END
}

# filling NUMBER SESSIONS: a session's part of 100,000 triples, ten to a product, in one commit.
filling() {
  awk -v s="$1" -v parts="$2" 'BEGIN {
    print "begin\nadd turtle\n@prefix : <http://example.org/filled/> . @prefix s: <http://example.org/shop/> . @prefix m: <http://example.org/makers/> ."
    print "@prefix xsd: <http://www.w3.org/2001/XMLSchema#> ."
    for (i = 0; i < int(10000 / parts); i++) {
      printf ":%d-%d a s:Product ; s:code \"P-%d-%d\" ; s:name \"Product %d\" ; s:price %d.5 ; s:currency \"EUR\" ; ", s, i, s, i, i, i
      printf "s:weight 1.5 ; s:maker m:%d ; s:category s:Lamp ; s:released \"2026-01-02\"^^xsd:date ; s:stock %d .\n", i % 10, i % 100
    }
    print "%%\ncommit"
  }'
}

# timed WORD..: has the program do what the words ask for five times, and sets milliseconds to the least.
timed() {
  local start taken
  milliseconds=
  for _ in 1 2 3 4 5; do
    start=$(date +%s%N)
    "$root/guard" "$@" >"$folder/printed" || true
    taken=$((($(date +%s%N) - start) / 1000000))
    [ -n "$milliseconds" ] && [ "$milliseconds" -le "$taken" ] || milliseconds=$taken
  done
}

# files_of KIND SESSIONS WHAT: the files of so many sessions, with `all` their transactions or with `filling` what comes before.
files_of() {
  local number
  files=()
  for number in $(seq "$2"); do
    {
      [ "$1" = plain ] || [ "$number" -ne 1 ] || shapes
      [ "$1" != filled ] || filling "$number" "$2"
      [ "$3" != all ] || session "$number"
    } >"$folder/$number.session"
    files+=("$folder/$number.session")
  done
}

# read_by KIND SESSIONS WHAT: milliseconds of reading their files, which are replayed by a text that is no history, so that none is run.
read_by() {
  files_of "$1" "$2" "$3"
  echo none >"$folder/none.history"
  timed replay "$folder/none.history" "${files[@]}"
}

for kind in plain guarded filled; do
  for sessions in 1 2 4; do
    files_of "$kind" "$sessions" filling
    timed run "${files[@]}"
    before=$milliseconds
    read_by "$kind" "$sessions" filling
    read_before=$milliseconds
    read_by "$kind" "$sessions" all
    reading=$((milliseconds - read_before))
    files_of "$kind" "$sessions" all
    timed run "${files[@]}"
    commits=$(grep -c '^commit ' "$folder/printed")
    echo "$kind: $sessions sessions, $commits commits, $((milliseconds - before)) ms, of which $reading ms to read the files"
  done
done

files_of guarded 1 all
for processes in 1 2 4; do
  least=
  for _ in 1 2 3; do
    start=$(date +%s%N)
    for number in $(seq "$processes"); do
      "$root/guard" run "$folder/1.session" >"$folder/printed.$number" &
    done
    wait
    taken=$((($(date +%s%N) - start) / 1000000))
    [ -n "$least" ] && [ "$least" -le "$taken" ] || least=$taken
  done
  echo "apart: $processes processes, $((processes * (count + 1))) commits, $least ms"
done

for sessions in 1 4 16 64; do
  files=()
  for number in $(seq "$sessions"); do
    awk -v n="$((6400 / sessions))" -v s="$number" 'BEGIN {
      for (i = 0; i < n; i++) printf "begin\nadd ntriples\n<e:%d-%d> <e:p> <e:o> .\n%%%%\ncommit\n", s, i
    }' >"$folder/$number.session"
    files+=("$folder/$number.session")
  done
  TIMEFORMAT="one triple: $sessions sessions, 6400 commits, %R s, of the processors %U s, of the system %S s"
  time "$root/guard" run "${files[@]}" >"$folder/printed"
done
