#!/usr/bin/env bash
# Drives the completions for bash and zsh with lines as they are typed, and compares their commands and options with the guide's.
set -u
cd "$(dirname "$0")/.." || exit 2
. completions/waldo.bash
failed=0

differs() { # what, wanted, offered
  [ "$2" = "$3" ] && return
  printf "%s\n  wanted  '%s'\n  offered '%s'\n" "$1" "$2" "$3"
  failed=1
}

# What is offered at the end of a line, with a comma between two.
offered() {
  local COMP_LINE=$1 COMP_POINT=${#1} COMP_WORDS COMP_CWORD COMPREPLY
  read -ra COMP_WORDS <<<"$1"
  COMP_CWORD=$((${#COMP_WORDS[@]} - 1))
  _waldo
  printf '%s\n' ${COMPREPLY[@]+"${COMPREPLY[@]}"} | LC_ALL=C sort | paste -sd, -
}

while IFS='|' read -r line wanted; do
  [ -z "$line" ] || differs "$line" "$wanted" "$(offered "$line")"
done <<'LINES'
./waldo s|schema
./waldo pl|plot
./waldo help p|plot
./waldo plot exa|
./waldo plot -|--svg
./waldo rep|replay
./waldo r|race,replay
./waldo t|tamper,trace,tree
./waldo help r|race,replay,rows
./waldo x|
./waldo help mak|make
./waldo ask ho|
./waldo ask host:2 |--capacity,--query,--seed,--workers
./waldo ask host:2 --w|--workers
./waldo ask host:2 --workers 1|1,10,11,12,13,14,15,16
./waldo ask host:2 --workers=3|3
./waldo ask host:2 --seed |
./waldo help sch|schedules,schema,schemas
./waldo schema exa|
./waldo replay host:2 --schedule "d0 p|d0 p0.0,d0 p0.1,d0 p0.2
./waldo ask host:2 --workers 2 --w|
./waldo ask host:2 --workers=2 --|--capacity,--query,--seed
./waldo ask host:2 --query "count host=3" --q|--query
./waldo replay host:2 --schedule "d0 p0.0" --s|--seed
./waldo replay host:2 --sc|--schedule
./waldo race host:2 |--askers,--capacity,--query,--rounds,--seed,--workers,--writers
./waldo race host:2 --w|--workers,--writers
./waldo race host:2 --writers 1|1,10,11,12,13,14,15,16
./waldo race host:2 --askers=16|16
./waldo race host:2 --rounds 2|2
./waldo race host:2 --writers 2 --rounds=3 --|--askers,--capacity,--query,--seed,--workers
./waldo race host:2 --capacity |
./waldo race host:2,load:4@0/10 --query "sum l|sum load<=,sum load=
./waldo trace host:2 |--capacity,--query,--seed,--workers
./waldo trace host:2 --workers=2 --|--capacity,--query,--seed
./waldo trace host:2,load:4@0/10 --query "sum l|sum load<=,sum load=
./waldo ask host:2 --wr|
./waldo ask host:2 --writers |
./waldo make host:2 --|--number,--query,--rows,--seed,--workers
./waldo tam|tamper
./waldo tamper host:2 --|--capacity,--query,--seed,--shift,--workers
./waldo tamper host:2 --query "count host=3" --shift 6:0:1 --|--capacity,--seed,--shift,--workers
./waldo tamper host:2 --shift |
./waldo tre|tree
./waldo tree host:2 --|--capacity,--from,--query,--seed,--to,--workers
./waldo tree host:2 --query "count host=3" --from 1 --|--capacity,--seed,--to,--workers
./waldo gro|groups
./waldo groups host:2 --|--capacity,--query,--seed,--workers
./waldo groups host:2 --query "count host=3 by host" --q|--query
./waldo groups host:2,load:4@0/10 --query "sum l|sum load<=,sum load=
./waldo groups host:2,load:4@0/10 --query "sum host=3 |sum host=3 by host,sum host=3 by load,sum host=3 load<=,sum host=3 load=
./waldo groups host:2,load:4@0/10 --query "sum host=3 b|sum host=3 by host,sum host=3 by load
./waldo groups host:2,load:4@0/10 --query "sum host=3 by |sum host=3 by host,sum host=3 by load
./waldo groups host:2,load:4@0/10 --query "sum host=3 by l|sum host=3 by load
./waldo groups host:2,load:4@0/10 --query "sum host=3 by load |
./waldo groups a:1,b:1,c:1,d:1 --query "sum a=1 b=1 c=1 d=1 |sum a=1 b=1 c=1 d=1 by a,sum a=1 b=1 c=1 d=1 by b,sum a=1 b=1 c=1 d=1 by c,sum a=1 b=1 c=1 d=1 by d
./waldo ask host:2,load:4@0/10 --query "sum host=3 b|
./waldo ask host:2,load:4@0/10 --query "|count host<=,count host=,count load<=,count load=,sum host<=,sum host=,sum load<=,sum load=
./waldo ask host:2,load:4@0/10 --query "s|sum host<=,sum host=,sum load<=,sum load=
./waldo ask host:2,load:4@0/10 --query "count l|count load<=,count load=
./waldo ask host:2,load:4@0/10 --query 'count load<=20 |count load<=20 host<=,count load<=20 host=
./waldo ask host:2,load:4@0/10 --query="sum h|sum host<=,sum host=
./waldo ask host:2,load:4@0/10 --query "sum host=|
./waldo ask host:2,load:4@0/10 --query "sum host=1 load=2 |
./waldo ask host:2,load:4@0/10 --query "max |
./waldo ask host:2 --query |"count host<=,"count host=,"sum host<=,"sum host=
./waldo ask host:2 --query "count host=1" --query "sum |sum host<=,sum host=
./waldo ask host:2 --query "count host=1" < exa|
LINES

# The guide's table of options, for each command of its summary.
commands=$(awk '$1 == "waldo" && $3 == "SCHEMA" { print $2 } /^## ask/ { exit }' docs/guide.md)
differs commands "$(printf '%s\n' "$commands" schema plot help | LC_ALL=C sort | paste -sd, -)" "$(offered './waldo ')"
for command in $commands; do
  options=$(grep '^| `--' docs/guide.md | awk -F ' *[|] *' -v c="\`$command\`" \
    '$3 == "all" || index($3, c) { gsub(/`/, "", $2); print $2 }' | LC_ALL=C sort)
  differs "options of $command" "$(paste -sd, - <<<"$options")" "$(offered "./waldo $command host:2 --")"
  if command -v zsh >/dev/null; then
    zsh_options=$(zsh -fc 'words=(waldo '"$command"' host:2 ""); CURRENT=4; compdef() { : }; compset() { : }
      _arguments() { printf "%s\n" "${@:2}" | sed "s/^[*]*//; s/[=[].*//" }
      source completions/_waldo' | LC_ALL=C sort)
    differs "options of $command for zsh" "$options" "$zsh_options"
  fi
done
many="./waldo ask host:2$(printf ' --query "count host=1"%.0s' {1..16}) --"
differs "a 17th query" "--capacity,--seed,--workers" "$(offered "$many")"

# What an interactive zsh offers. Inside a quote it completes word by word.
if command -v zsh >/dev/null && zsh -fc 'zmodload zsh/zpty' 2>/dev/null; then
  while IFS='|' read -r line wanted; do
    differs "$line in zsh" "$wanted" "$(timeout 60 zsh -f completions/offered.zsh "$line" </dev/null)"
  done <<'LINES'
./waldo help sch|schedules,schema,schemas
./waldo ask host:2 --workers |1,10,11,12,13,14,15,16,2,3,4,5,6,7,8,9
./waldo race host:2 --rounds |1,10,11,12,13,14,15,16,2,3,4,5,6,7,8,9
./waldo ask host:2,load:4@0/10 --query "|count,sum
./waldo ask host:2,load:4@0/10 --query "count host=3 |load<=,load=
./waldo groups host:2,load:4@0/10 --query "count host=3 |by,load<=,load=
./waldo groups host:2,load:4@0/10 --query "count host=3 by |host,load
./waldo replay host:2 --schedule "d0 p|p0.0,p0.1,p0.2
LINES
else
  echo "skipped, since there is no zsh: what it offers"
fi
[ $failed -eq 0 ] && echo "completions offer what they should"
exit $failed
