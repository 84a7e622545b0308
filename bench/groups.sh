#!/usr/bin/env bash
# What a query by the buckets of a column costs beside a plain one: 65,536 rows of host:5, by whole runs of `ask` and `groups`.
# Usage: bench/groups.sh [ROUNDS]     WALDO_PROGRAM=FILE names another program
set -eu
. "$(dirname "$(readlink -f "${BASH_SOURCE[0]}")")/common.sh"
need python3 awk
need_program
[[ ${1:-9} =~ ^[1-9][0-9]{0,3}$ ]] || { echo "groups.sh: the number of rounds is from 1 to 9999" >&2; exit 2; }
exec python3 "$home/bench/groups.py" "$program" "$home/bench/rows.sh" "${1:-9}"
