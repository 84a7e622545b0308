#!/usr/bin/env bash
# Whether 8,192 rows take an eighth of the time of 65,536, for the part that grows with the rows, and how much more memory a run takes than
# its cells. The aims are 0.9 to 1.1 eighths, and 1.05 times the cells.
# Usage: bench/eighth.sh [--plain] [ROUNDS]     WALDO_PROGRAM=FILE names another program
set -eu
. "$(dirname "$(readlink -f "${BASH_SOURCE[0]}")")/common.sh"
need python3 awk
if [ "${1-}" = --plain ]; then
  shift
  program=$("$home/bench/plain/build.sh") || exit
fi
need_program
[[ ${1:-9} =~ ^[1-9][0-9]{0,3}$ ]] || { echo "eighth.sh: the number of rounds is from 1 to 9999" >&2; exit 2; }
exec python3 "$home/bench/eighth.py" "$program" "$home/bench/rows.sh" "${1:-9}"
