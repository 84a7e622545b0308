#!/usr/bin/env bash
# Times what a call of ./waldo costs over the program alone, in turns with that, and prints milliseconds.
# Usage: bench/launcher.sh [--rounds N] [LAUNCHER ..]     200 rounds; other launchers, with trees of their own, are timed beside it
set -eu
. "$(dirname "$(readlink -f "${BASH_SOURCE[0]}")")/common.sh"
need python3
rounds=200
if [ "${1-}" = --rounds ]; then rounds=${2-}; shift 2 || true; fi
[[ $rounds =~ ^[1-9][0-9]{0,4}$ ]] || { echo "launcher.sh: --rounds takes a number from 1 to 99999" >&2; exit 2; }
for launcher in "$home/waldo" "$@"; do
  [[ $("$launcher" --version 2>/dev/null) == *'proved and built of these sources'* ]] ||
    { echo "launcher.sh: skipped, $launcher has no program of its sources; a call builds it" >&2; exit 3; }
done
exec python3 "$home/bench/launcher.py" "$rounds" "$home/built/waldo_cli" "$home/waldo" "$@"
