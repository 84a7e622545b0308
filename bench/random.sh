#!/usr/bin/env bash
# Plays random words and inputs for some time, and compares each status and each byte of the output with a definition that shares no code
# with the program. README.md says what is tried. Status 1 where one differed; such a case is made small and kept.
# Usage: bench/random.sh [--seconds N] [--seed S] [--first I] [--cases N]
# For 60 seconds, by seed 1, cases from number 0 on, as many as there is time for; `--first I --cases 1` runs case I again.
# WALDO_PROGRAM=FILE names another program.
set -eu
. "$(dirname "$(readlink -f "${BASH_SOURCE[0]}")")/common.sh"
need python3
need_program
seconds=60 seed=1 first=0 cases=0
while [ $# -gt 0 ]; do
  case $1 in
    --seconds) seconds=${2-} ;;
    --seed) seed=${2-} ;;
    --first) first=${2-} ;;
    --cases) cases=${2-} ;;
    *) echo "random.sh: there is no option ${1@Q}" >&2; exit 2 ;;
  esac
  [[ ${2-} =~ ^[0-9]{1,9}$ ]] || { echo "random.sh: $1 takes a number of 1 to 9 digits" >&2; exit 2; }
  shift 2
done
exec python3 "$home/bench/random_trials.py" "$program" "$seed" "$seconds" "$first" "$cases"
