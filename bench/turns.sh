#!/usr/bin/env bash
# Times programs or memory settings in turns, on one machine, and prints a table; README.md says how to read it.
# The first form compares the proved program, by 1 and 4 workers, with the plain one, by 1, 4, and 4 that share rows too. The second
# compares settings of the C library's memory on the proved program, or on the plain one where that is named.
# Usage: bench/turns.sh [--rounds N] [LINE ..]                         LINE is make, interval, four or sums; without, all four
#        bench/turns.sh memory [--plain] [--rounds N] [LINE ..]        also few, a short run, to count how many runs get large pages
# WALDO_PROGRAM=FILE names another proved program.
set -eu
. "$(dirname "$(readlink -f "${BASH_SOURCE[0]}")")/common.sh"
need python3
what=programs rounds=9 only_plain=
if [ "${1-}" = memory ]; then what=memory; shift; fi
while [[ "${1-}" == --* ]]; do
  case $1 in
    --plain) only_plain=1; shift ;;
    --rounds) rounds=${2-}; shift 2 || true ;;
    *) echo "turns.sh: there is no option $1" >&2; exit 2 ;;
  esac
done
[[ $rounds =~ ^[1-9][0-9]{0,3}$ ]] || { echo "turns.sh: --rounds takes a number from 1 to 9999" >&2; exit 2; }
for line; do
  case $line in make|interval|four|sums|few) ;; *) echo "turns.sh: there is no line $line" >&2; exit 2 ;; esac
done
plain=$("$home/bench/plain/build.sh") || plain=
if [ -n "$only_plain" ]; then
  program=
elif [ ! -x "$program" ]; then
  echo "turns.sh: $program is not built; the plain program alone is timed" >&2
  program=
fi
[ -n "$program$plain" ] || { echo "turns.sh: skipped, there is no program" >&2; exit 3; }
exec python3 "$home/bench/turns.py" "$what" "$rounds" "$program" "$plain" "$@"
