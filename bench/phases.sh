#!/usr/bin/env bash
# Tells the phases of one run apart: the share of its time by function, as perf samples it, for the parts that matter. The
# generator serves sharing and parts of zero: sharing draws 2 pads a cell and row, parts of zero 2 pads a row, server and
# step of bits or product.
# Usage: bench/phases.sh INPUT WORD.. (the program's words), as: bench/phases.sh rows.csv ask host:5 --query "count host=3"
set -eu
. "$(dirname "$(readlink -f "${BASH_SOURCE[0]}")")/common.sh"
need perf awk
need_program
[ -r "${1-}" ] || { echo "phases.sh: name an input, and then the program's words" >&2; exit 2; }
input=$1; shift
data=$(mktemp)
trap 'rm -f "$data"' EXIT
perf record -q -F 5000 -o "$data" "$program" "$@" < "$input"
perf report -i "$data" --stdio --percent-limit 0 2>/dev/null | awk '
  /^#/ || NF < 5 { next }
  { share = $1; sub(/%/, "", share); name = $5
    if ($4 == "[k]") part = "memory from the system"
    else if (name ~ /rand_chacha|prg_chacha/) part = "generator"
    else if (name ~ /bits_part|scan/) part = "scans"
    else if (name ~ /product_part|local|accept/) part = "products"
    else if (name ~ /opening_part|total/) part = "openings"
    else if (name ~ /memmove|memcpy|memset|append/) part = "copies"
    else if (name ~ /csv|record|row_source|parse/) part = "reading rows"
    else if (name ~ /key|generate/) part = "keys"
    else part = "the rest"
    sum[part] += share }
  END { for (p in sum) printf "%6.1f %%  %s\n", sum[p], p }' | sort -rn
