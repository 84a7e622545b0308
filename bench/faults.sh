#!/usr/bin/env bash
# Attacks the proved program with faults and compares each outcome with the rules: each request for memory and each start of a thread
# refused in turn, each read and each write failed or cut in turn, broken streams, and small inputs cut behind each byte. README.md says
# what is compared. Status 1 where an outcome was another one.
# Usage: bench/faults.sh [PART ..]     PART is memory, reads, writes, streams or inputs; without, all
# WALDO_PROGRAM=FILE names another program. It needs a C compiler, cc, and the GNU C library.
set -eu
. "$(dirname "$(readlink -f "${BASH_SOURCE[0]}")")/common.sh"
need python3 cc
need_program
for part; do
  case $part in memory|reads|writes|streams|inputs) ;; *) echo "faults.sh: there is no part ${part@Q}" >&2; exit 2 ;; esac
done
exec python3 "$home/bench/faults.py" "$program" "$@"
