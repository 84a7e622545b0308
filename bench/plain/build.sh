#!/usr/bin/env bash
# Builds the plain program and prints its path. It is level with the proved one: optimised, for x86-64-v2, no dependency.
# Without rustc it says so in one line and ends with status 3. What was built from the same sources before is used again.
# Usage: bench/plain/build.sh [FOLDER]
set -eu
here=$(dirname "$(readlink -f "${BASH_SOURCE[0]}")")
folder=${1:-${TMPDIR:-/tmp}/waldo-plain-$(id -u)}
command -v rustc >/dev/null || { echo "plain program: skipped, there is no rustc" >&2; exit 3; }
mkdir -p -m 700 "$folder"
[ -O "$folder" ] || { echo "plain program: $folder is another user's; name a folder" >&2; exit 1; }
program=$folder/plain
built=$(cat "$here"/*.rs "$here/build.sh" | cksum)
if [ ! -x "$program" ] || [ "$(cat "$folder/sources" 2>/dev/null)" != "$built" ]; then
  options=(--edition 2021 -O -C codegen-units=1)
  [ "$(uname -m)" != x86_64 ] || options+=(-C target-cpu=x86-64-v2)
  rustc "${options[@]}" -o "$program.new" "$here/plain.rs" || { echo "plain program: not built" >&2; exit 1; }
  mv "$program.new" "$program"
  printf '%s\n' "$built" > "$folder/sources"
fi
echo "$program"
