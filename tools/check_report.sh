#!/usr/bin/env bash
# Whether a Turtle reader of others reads the printed reports as the graphs that they say: each report is read by rapper
# (Debian: raptor2-utils), and its triples are compared with triples written by hand. Usage: tools/check_report.sh
set -u
case ${1-} in --help | -h)
  sed -n '2,3s/^# \{0,1\}//p' "$0"
  exit 0
  ;;
esac
root=$(cd "$(dirname "$0")/.." && pwd) || exit 70
if ! command -v rapper >/dev/null; then
  echo "skipped: rapper is not installed"
  exit 0
fi
work=$(mktemp -d) || exit 70
trap 'rm -rf "$work"' EXIT
failed=0

# check NAME SESSION TRIPLES: the first report that the session prints, as triples.
check() {
  if "$root/guard" run "$2" | sed -n '/^@prefix/,/^end$/p' | sed '/^end$/,$d' > "$work/report.ttl" &&
    rapper -q -i turtle -o ntriples "$work/report.ttl" | sort > "$work/read.nt" &&
    sort "$3" | diff - "$work/read.nt"; then
    echo "$1: the same graph, $(wc -l < "$work/read.nt") triples"
  else
    echo "$1: another graph" >&2
    failed=1
  fi
}

check catalogue "$root/examples/catalogue/refused.session" "$root/examples/catalogue/report.nt"

# Literals with escapes, a tag and a datatype, and blank nodes as focus node, value and source shape.
cat > "$work/terms.session" <<'END'
begin
shapes ntriples
_:shape <http://www.w3.org/ns/shacl#targetSubjectsOf> <http://example.org/p> .
_:shape <http://www.w3.org/ns/shacl#property> _:property .
_:property <http://www.w3.org/ns/shacl#path> <http://example.org/p> .
_:property <http://www.w3.org/ns/shacl#nodeKind> <http://www.w3.org/ns/shacl#IRI> .
%%
add ntriples
_:focus <http://example.org/p> "a \"quote\", a \\ and a\nline" .
_:focus <http://example.org/p> "hello"@en .
_:focus <http://example.org/p> "1"^^<http://www.w3.org/2001/XMLSchema#integer> .
_:focus <http://example.org/p> _:value .
%%
commit
END
result() {
  printf '_:r <http://www.w3.org/ns/shacl#result> _:r%s .\n' "$1"
  printf '_:r%s <http://www.w3.org/1999/02/22-rdf-syntax-ns#type> <http://www.w3.org/ns/shacl#ValidationResult> .\n' "$1"
  printf '_:r%s <http://www.w3.org/ns/shacl#focusNode> _:s1x3 .\n' "$1"
  printf '_:r%s <http://www.w3.org/ns/shacl#resultPath> <http://example.org/p> .\n' "$1"
  printf '_:r%s <http://www.w3.org/ns/shacl#value> %s .\n' "$1" "$2"
  printf '_:r%s <http://www.w3.org/ns/shacl#resultSeverity> <http://www.w3.org/ns/shacl#Violation> .\n' "$1"
  printf '_:r%s <http://www.w3.org/ns/shacl#sourceShape> _:s1x2 .\n' "$1"
  printf '_:r%s <http://www.w3.org/ns/shacl#sourceConstraintComponent> <http://www.w3.org/ns/shacl#NodeKindConstraintComponent> .\n' "$1"
}
{
  echo '_:r <http://www.w3.org/1999/02/22-rdf-syntax-ns#type> <http://www.w3.org/ns/shacl#ValidationReport> .'
  echo '_:r <http://www.w3.org/ns/shacl#conforms> "false"^^<http://www.w3.org/2001/XMLSchema#boolean> .'
  result 1 '_:s1x4'
  result 2 '"1"^^<http://www.w3.org/2001/XMLSchema#integer>'
  result 3 '"a \"quote\", a \\ and a\nline"'
  result 4 '"hello"@en'
} > "$work/terms.nt"
check terms "$work/terms.session" "$work/terms.nt"
exit "$failed"
