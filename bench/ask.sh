#!/usr/bin/env bash
# Times the proved program: seconds and peak memory of whole runs, the best of some.
# How to read it: "read" is an input whose last record is refused, so it is read and turned into rows and no more. What a
# query costs beside it is sharing, keys, scans, zero parts, products and openings of both runs; what a predicate more
# costs is the difference of two lines. bench/phases.sh tells the phases of one run apart.
# The program is run as the launcher runs it, with large pages; GLIBC_TUNABLES= before a script times it without.
# Usage: bench/ask.sh [RUNS]
set -eu
. "$(dirname "$(readlink -f "${BASH_SOURCE[0]}")")/common.sh"
need python3 awk
need_program
runs=${1:-3}
input=$(mktemp)
trap 'rm -f "$input"' EXIT

best() {
  local label=$1; shift
  python3 - "$runs" "$label" "$input" "$program" "$@" <<'PY'
import resource, subprocess, sys, time
runs, label, source, *command = sys.argv[1:]
best = 1e9
for _ in range(int(runs)):
    start = time.monotonic()
    with open(source) as rows:
        text = subprocess.run(command, stdin=rows, capture_output=True, text=True).stdout
    best = min(best, time.monotonic() - start)
peak = resource.getrusage(resource.RUSAGE_CHILDREN).ru_maxrss / 1024
print(f"{label:36} {best:7.3f} s {peak:8.1f} MiB  {text.strip()}")
PY
}

for rows in 0 16384 65536; do
  "$home/bench/rows.sh" "$rows" > "$input"
  best "host:5, $rows rows, count" ask host:5 --query "count host=3"
done
best "host:5, 65536 rows, sum" ask host:5 --query "sum host=3"
best "host:5, 65536 rows, sum, at most" ask host:5 --query "sum host<=3"
best "host:5, 65536 rows, sum, interval" ask host:5 --query "sum host=3..9"
"$home/bench/rows.sh" 65535 > "$input"; echo "32,1" >> "$input"
best "host:5, 65536 rows, read" ask host:5 --query "count host=3"

four=c0:4,c1:4,c2:4,c3:4
"$home/bench/rows.sh" 64527 4 > "$input"
best "4 columns, 64527 rows, 1 predicate" ask $four --query "sum c0=1"
best "4 columns, 64527 rows, 2 predicates" ask $four --query "sum c0=1 c1=1"
best "4 columns, 64527 rows, 3 predicates" ask $four --query "sum c0=1 c1=1 c2=1"
best "4 columns, 64527 rows, 4 predicates" ask $four --query "sum c0=1 c1=1 c2=1 c3=1"
"$home/bench/rows.sh" 64526 4 > "$input"; echo "16,1,1,1,1" >> "$input"
best "4 columns, 64527 rows, read" ask $four --query "sum c0=1"

best "make, 65536 rows, a count" make host:5 --number 1 --rows 65536 --query "count host=0"
best "make, 65536 rows, a count and a sum" make host:5 --number 1 --rows 65536 --query "count host=0" --query "sum host<=1"
