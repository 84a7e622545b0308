#!/usr/bin/env bash
# Takes the program that the gate has just proved and built of these sources over into built/, so that no second build is needed.
# .ci/run calls it right behind `rt ci`, while nothing else changes the sources.
set -u
home=$(dirname "$(readlink -f "${BASH_SOURCE[0]}")")/..
built=$home/built
say() { printf 'waldo: %s\n' "$*" >&2; }
. "$home/launcher/fresh.sh"
. "$home/launcher/build.sh"
[ -x "$home/crates/waldo_cli/out/waldo_cli" ] || refuse_build "the gate left no program in crates/waldo_cli/out"
mkdir -p -- "$built" || refuse_build "built/ can't be written"
find_sources $(crates_in_order)
replace_program "$(sources_now)"
