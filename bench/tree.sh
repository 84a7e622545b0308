#!/usr/bin/env bash
# What a tree over the places costs beside a scan: 65,536 rows of host:5, by whole runs of `ask` and `tree`.
# Usage: bench/tree.sh [ROUNDS]     WALDO_PROGRAM=FILE names another program
set -eu
. "$(dirname "$(readlink -f "${BASH_SOURCE[0]}")")/common.sh"
need python3 awk
need_program
[[ ${1:-9} =~ ^[1-9][0-9]{0,3}$ ]] || { echo "tree.sh: the number of rounds is from 1 to 9999" >&2; exit 2; }
exec python3 "$home/bench/tree.py" "$program" "$home/bench/rows.sh" "${1:-9}"
