#!/usr/bin/env bash
# Compares every message of the plain program, word by word, with recorded ones, its answers with the worked ones of the guide and, where
# the proved program is built, with what that one prints. Each file of messages begins with lines that say the command and the input.
# Usage: bench/plain/check.sh [FOLDER OF RECORDED MESSAGES]
set -u
here=$(dirname "$(readlink -f "${BASH_SOURCE[0]}")")
home=$here/../..
vectors=${1:-}
proved=${WALDO_PROGRAM:-$home/crates/waldo_cli/out/waldo_cli}
plain=$("$here/build.sh") || exit
bad=0
wrong() { echo "plain program: $*" >&2; bad=1; }

# The words of a command line with double quotes around some; no other character of the shell has a meaning.
words_of() { python3 -c 'import shlex, sys; print("\0".join(shlex.split(sys.argv[1])), end="\0")' "$1"; }

messages() {
  local file=$1 line words input prints lines=0
  line=$(sed -n '1s/^# //p' "$file")
  input=$(sed -n '2s/^# input: //p' "$file" | sed 's, / ,\n,g')
  mapfile -d '' -t words < <(words_of "$line")
  prints=$(sed -n '3s/^# prints: \([^;]*\);.*/\1/p' "$file")
  lines=$(grep -cv '^#' "$file")
  [ "$lines" -gt 0 ] && [ ${#words[@]} -gt 3 ] || { wrong "$file has no messages"; return; }
  if cmp -s <(grep -v '^#' "$file") <(printf '%s\n' "$input" | "$plain" "${words[@]}" --messages | sed "\$s/^$prints\$//;/^$/d"); then
    echo "$lines messages of ${file##*/}: the same, word by word"
  else
    wrong "the messages of $file differ"
  fi
}

answers() {
  local wanted=$1 got; shift
  got=$("$plain" "$@" --workers 3 --sharers 4 </dev/null)
  [ "$got" = "$wanted" ] || wrong "$*: $got instead of $wanted"
  [ ! -x "$proved" ] || [ "$("$proved" "$@" </dev/null)" = "$got" ] || wrong "$*: the proved program prints another text"
}

if [ -n "$vectors" ]; then
  for file in "$vectors"/*.txt; do messages "$file"; done
fi
answers "ask 0 rows 4096 sum 9263104" make host:2 --number 7 --rows 4096 --query "sum host=3"
answers $'ask 0 rows 65536 count 2048\nask 1 rows 65536 sum 138311680' \
  make host:5 --number 1 --rows 65536 --query "count host=0" --query "sum host<=1"
answers "ask 0 rows 1 count 0" make host:1 --number 1 --rows 1 --query "count host=0"
[ $bad -ne 0 ] || echo "plain program: ok"
exit $bad
