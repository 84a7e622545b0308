#!/usr/bin/env bash
# Rows appended a second by 1, 2, 4 and 8 writers, by the command race: with one asker that asks once, and beside 4 askers that
# ask 4 times each. README.md says how to read it.
# Usage: bench/race.sh [ROWS [ROUNDS]]     16,384 rows, 5 rounds; WALDO_PROGRAM=FILE names another program
set -eu
. "$(dirname "$(readlink -f "${BASH_SOURCE[0]}")")/common.sh"
need python3 awk
need_program
for number in "${1:-16384}" "${2:-5}"; do
  [[ $number =~ ^[1-9][0-9]{0,4}$ ]] || { echo "race.sh: ${number@Q} is no number from 1 to 99999" >&2; exit 2; }
done
input=$(mktemp)
trap 'rm -f "$input"' EXIT
"$home/bench/rows.sh" "${1:-16384}" > "$input"
python3 "$home/bench/race.py" "$program" "$input" "${2:-5}"
