#!/usr/bin/env bash
# Runs each command of this folder's page and of the guide, and compares text and status with what the page says. A block of
# `sh` is a command and the block of `text` behind it is what it prints; the status is 0 unless the words before say
# "Status 5.", and so on. A block of `text one run` is what one run of a race printed: what every run prints alike is compared.
# Then it compares what the launcher says of refused words with the guide's table, and looks that each command that help and
# the man page show is one of those that were run.
set -u
cd "$(dirname "$0")/.." || exit 2
failed=0
checked=0

differs() { # what, wanted, printed
  [ "$2" = "$3" ] && return
  printf '%s\n  wanted  %s\n  printed %s\n' "$1" "${2//$'\n'/$'\n'          }" "${3//$'\n'/$'\n'          }"
  failed=1
}

# One command with its answer, which ends with the status so that line feeds at its end are compared too.
check() { # command, status, text, filter for both
  differs "$1" "$(printf '%s(status %s)\n' "$3" "$2" | $4)" "$({ bash -c "$1" 2>/dev/null; echo "(status $?)"; } | $4)"
  checked=$((checked + 1))
}

# What every run of a race prints alike: its lines but for the row at a place and for what writers and askers see; and, in the end, each
# row that is placed, with how often.
alike() {
  awk '$1 == "place" { placed[$4]++ } { print $1 ~ /^(place|back|ask)$/ ? $1 " " $2 : $0 }
    END { for (row = 0; row in placed; row++) print "row " row " placed " placed[row] }'
}

check_page() {
  local line state=prose command='' text='' status=0 filter
  while IFS= read -r line; do
    case $state:$line in
      prose:'```sh') state=command command='' ;;
      command:'```') state=between ;;
      command:*) command+=$line$'\n' ;;
      between:'```text') state=text text='' filter=cat ;;
      between:'```text one run') state=text text='' filter=alike ;;
      between:'```'*) differs "$1: $command" "a block of text" "$line"; state=prose ;;
      text:'```') check "$command" "$status" "$text" $filter; state=prose status=0 ;;
      text:*) text+=$line$'\n' ;;
      prose:*'Status '[0-9].*) status=${line#*Status }; status=${status%%.*} ;;
    esac
  done <"$1"
  differs "$1" "an answer to each command" "$([ $state = prose ] && echo "an answer to each command")"
}

check_launcher() {
  local words line
  while IFS='`' read -r _ words _ line _; do
    differs "./waldo $words" "$line" "$(bash -c "./waldo $words" 2>&1 >/dev/null </dev/null)"
    checked=$((checked + 1))
  done < <(sed -n '/^| words | the line |/,/^$/p' docs/guide.md | grep '`waldo: ')
}

# The commands of help's topics and of the man page, one a line, as they are written in the pages.
shown_commands() {
  local topic
  for topic in $(./waldo help | awk '$1 == "waldo" && $3 == "SCHEMA" { print $2 }') schema plot commands schemas queries rows schedules messages; do
    ./waldo help "$topic" | sed -n 's/^ *\(\.\/waldo [^h].*\)/\1/p'
  done
  sed -n '/^\.SH EXAMPLES/,/^\.SH SEE/p' docs/waldo.1 | sed -e ':more' -e '/\\e$/{N;s/\\e\n */ /;b more' -e '}' |
    sed -n 's/\\-/-/g; s/  */ /g; s/^waldo/.\/waldo/p'
}

check_shown() {
  local command
  while IFS= read -r command; do
    grep -qxF -- "$command" docs/guide.md examples/README.md || differs "help or the man page" "a command that a page runs" "$command"
    checked=$((checked + 1)) shown=$((shown + 1))
  done < <(shown_commands)
}

shown=0
check_page examples/README.md
check_page docs/guide.md
check_launcher
check_shown
# Each block of `sh` and each line of the table was compared, and there are some.
calls=$(cat examples/README.md docs/guide.md | grep -c '^```sh$')
rows=$(sed -n '/^| words | the line |/,/^$/p' docs/guide.md | grep -c '`waldo: ')
differs "commands checked" "$((calls + rows + shown))" "$checked"
[ "$shown" -gt 8 ] || { echo "help and the man page show only $shown commands"; failed=1; }
[ "$checked" -gt 30 ] || { echo "only $checked commands were found"; failed=1; }
[ $failed -eq 0 ] && echo "$checked commands print what the pages say"
exit $failed
