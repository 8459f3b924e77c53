#!/usr/bin/env bash
# What a log costs: the program restores a store from records of a hundred triples each and runs a session file without a command; then commits of one
# triple, each a transaction of its own, without a log, with one on the folder's disk, and with one in memory (/dev/shm), where a sync costs nothing. The image
# is made by tools/log_image, which shares nothing with the program. Each is the best of three runs, with its most memory.
# Usage: bench/log.sh [FOLDER] [RECORDS] [COMMITS]; a folder for temporary files, 10000 and 2000 where none is given. FOLDER says which disk is measured.
set -eu
case ${1-} in --help | -h)
  sed -n '2,5s/^# //p' "$0"
  exit 0
  ;;
esac
root=$(cd "$(dirname "$0")/.." && pwd)
records=${2-10000}
commits=${3-2000}
program=${GUARD_PROGRAM:-$root/guard}
work=$(mktemp -d -p "${1-${TMPDIR:-/tmp}}")
memory=$(mktemp -d -p /dev/shm)
trap 'rm -rf "$work" "$memory"' EXIT

# singles COUNT: so many transactions of one triple each.
singles() {
  awk -v n="$1" 'BEGIN {
    for (i = 0; i < n; i++)
      printf "begin\nadd ntriples\n<http://example.org/new/%d> <http://example.org/property/1> \"new\" .\n%%%%\ncommit\n", i
  }'
}

# measured TIMES LOG WORD..: runs the program on the words, the log being made anew before each run where its name isn't `-`, and sets the least milliseconds and
# the most megabytes.
measured() {
  read -r milliseconds megabytes < <(timeout 600 python3 - "$program" "$@" <<'PEAK'
import os, resource, subprocess, sys, time
program, times, log, *words = sys.argv[1:]
least = None
for _ in range(int(times)):
    if log != "-":
        if os.path.exists(log):
            os.unlink(log)
        subprocess.run([program, "create-log", log], check=True, timeout=60)
    start = time.time()
    subprocess.run([program, "run", "--max-terms", "2000000", "--max-triples", "2000000", *words], stdout=subprocess.DEVNULL, check=True, timeout=500)
    spent = time.time() - start
    least = spent if least is None else min(least, spent)
print(round(least * 1000), resource.getrusage(resource.RUSAGE_CHILDREN).ru_maxrss // 1024)
PEAK
  )
}

# told NAME MILLISECONDS
told() {
  awk -v name="$1" -v ms="$2" -v n="$commits" 'BEGIN { printf "%s: %d ms, %.0f µs a commit, %.0f commits a second\n", name, ms, ms * 1000 / n, n * 1000 / (ms > 0 ? ms : 1) }'
}

printf '' >"$work/empty.session"
singles "$commits" >"$work/singles.session"
"$program" run "$root/examples/first.session" >/dev/null 2>&1 || true
measured 3 - "$work/empty.session"
started=$milliseconds
python3 "$root/tools/log_image" make "$work/image" "$records" 100
measured 3 - --log "$work/image" "$work/empty.session"
echo "restore of $((records * 100)) triples in $records records, $(($(stat -c %s "$work/image") / 1000000)) MB: $milliseconds ms, at most $megabytes MB (a run without a log: $started ms)"
measured 3 - "$work/singles.session"
plain=$((milliseconds - started))
told "$commits commits without a log" "$plain"
measured 3 "$memory/log" --log "$memory/log" "$work/singles.session"
told "with a log in memory" "$((milliseconds - started))"
measured 3 "$work/log" --log "$work/log" "$work/singles.session"
told "with a log on the disk of $(df --output=fstype "$work" | tail -1)" "$((milliseconds - started))"
