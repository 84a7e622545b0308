#!/usr/bin/env bash
# Runs many short races on 2 and on 4 cores, each with 4 writers and 4 askers and ended after some seconds, and counts those that
# did not end by themselves or whose text cannot be one: README.md says what is checked. Status 1 where there was one.
# Usage: bench/hang.sh [RUNS [SECONDS [SEED]]]     10,000 runs on each number of cores, 20 seconds, rows by seed 1
# WALDO_PROGRAM=FILE names another program; CORES="2 4" the numbers of cores, WRITERS and ASKERS the others.
set -eu
. "$(dirname "$(readlink -f "${BASH_SOURCE[0]}")")/common.sh"
need python3 taskset nproc
need_program
for number in "${1:-10000}" "${2:-20}" "${3:-1}"; do
  [[ $number =~ ^[1-9][0-9]{0,8}$ ]] || { echo "hang.sh: ${number@Q} is no number of 1 or more" >&2; exit 2; }
done
status=0
for cores in ${CORES:-2 4}; do
  [ "$cores" -le "$(nproc)" ] || { echo "hang.sh: $cores cores skipped, there are $(nproc)" >&2; continue; }
  python3 "$home/bench/hang.py" "$program" "${1:-10000}" "$cores" "${WRITERS:-4}" "${ASKERS:-4}" "${2:-20}" "${3:-1}" || status=1
done
exit $status
