# The build: rt proves and builds the program, which then replaces the one in built/. Until then the old one stays, and isn't run.

refuse_build() {
  say "$*"
  [ -x "$built/waldo_cli" ] && say "the program in built/ is of older sources, so it stays there and is not run"
  exit 1
}

# The crates of the program, each behind those that it uses.
crates_in_order() {
  awk -F : '
    { uses[$1] = $2 }
    function visit(name, list, count, i) {
      if (name in seen || !(name in uses)) return
      seen[name] = 1
      count = split(uses[name], list, / +/)
      for (i = 1; i <= count; i++) if (list[i] != "") visit(list[i])
      print name
    }
    END { visit("waldo_cli") }' "$home/crates.txt"
}

# Looks anew what the sources are, as launcher/fresh.sh wants it told. A folder with an odd name is no module.
find_sources() { # the program's crates
  local crate deeper
  deeper=$(
    LC_ALL=C
    shopt -s globstar nullglob
    cd -- "$home" || exit
    for crate; do printf '%s\n' "crates/$crate"/{src,specs}/*/**/; done | sed -n 's,^\([A-Za-z0-9_./-]*\)/$,\1,p'
  )
  crates= folders=${deeper//$'\n'/ }
  for crate; do
    case " $deeper" in
      *[[:space:]]"crates/$crate/"*) folders="crates/$crate/src crates/$crate/specs $folders" ;;
      *) crates+="$crate " ;;
    esac
  done
}

# The list of these sources, and of the program behind them where it is named.
sources_now() {
  local -x LC_ALL=C
  list_sources "$@"
}

# Says which crate is proved now: the first one that has no mark of rt. Nothing is said twice.
tell_progress() {
  local index
  for index in "${!order[@]}"; do
    [ -e "$home/crates/${order[index]}/out/rlib/stamp" ] || break
  done
  [ "$index" != "$told" ] || return
  told=$index
  say "proving crate $((index + 1)) of ${#order[@]}, ${order[index]} ($((SECONDS / 60)) min so far)"
}

# Runs rt in a group of processes of its own, so that a signal reaches all of them. Its words are shown where it fails.
prove() {
  local line= begun= lines=() told=
  SECONDS=0
  set -m
  exec 3</dev/null
  start sh -c 'cd -- "$0/crates/waldo_cli" && exec rt run -- make host:1 --number 0 --rows 1 --query "count host=0" 2>&1' "$home"
  set +m
  child=-$child
  while [ -z "$ended" ]; do
    if IFS= read -r -t 1 -u 4 line; then
      lines+=("$begun$line") begun=
      [[ $line == 'rt: waiting'* ]] && say "another build is under way in this folder; waiting for it"
    elif (($? <= 128)); then
      break
    else
      begun+=$line
      tell_progress
    fi
  done
  await
  [ "$status" -eq 0 ] && [[ " ${lines[*]} " == *' ask 0 rows 1 count 1 '* ]] && return
  ((${#lines[@]} <= 20)) || lines=("${lines[@]: -20}")
  printf '%s\n' "${lines[@]}" >&2
  refuse_build "the program could not be proved and built: rt ended with status $status; its last lines stand above"
}

# Writes the file that `is_fresh` reads. The list is that of the sources with the program.
keep_checksum() { # the list
  local sum
  sum=$(printf '%s\n' "$1" | cksum) && [[ $1 == *' built/waldo_cli' ]] &&
    printf '%s\n' "$sum" "${crates% }" "$folders" >"$built/sources.$$" && mv -f -- "$built/sources.$$" "$built/sources"
}

# Puts the new program and its checksum in the place of the old ones. One list serves for both: it is compared, and then kept.
replace_program() { # the list of the sources before the build
  local new=$built/new.$$ list
  trap 'rm -f -- "$built/new.$$" "$built/sources.$$"' EXIT
  cp -- "$home/crates/waldo_cli/out/waldo_cli" "$new" && mv -f -- "$new" "$built/waldo_cli" || refuse_build "built/ can't be written"
  list=$(sources_now built/waldo_cli)
  [ "${list%$'\n'*}" = "$1" ] || refuse_build "the sources changed during the build, so it is of no use; call again"
  keep_checksum "$list" || refuse_build "built/ can't be written, or cksum can't read the program there"
}

build() {
  local before order
  command -v rt >/dev/null || refuse_build "the program has to be built, and the Rattle toolchain's command rt is not on the PATH"
  { mkdir -p -- "$built" && : >"$built/new.$$" && rm -f -- "$built/new.$$"; } 2>/dev/null ||
    refuse_build "the program has to be built, and the folder built/ can't be written"
  order=($(crates_in_order))
  find_sources "${order[@]}"
  say "there is no program of these sources yet: proving and building its ${#order[@]} crates. From nothing this is estimated at" \
    "half an hour; what was proved on this machine before takes seconds"
  before=$(sources_now)
  prove
  replace_program "$before"
  say "proved and built in $((SECONDS / 60)) min $((SECONDS % 60)) s"
}

# Builds, unless the first word is no command: that is refused as the program would refuse it.
make_fresh() {
  . "$home/launcher/words.sh"
  status=2
  if [ $# -eq 0 ]; then
    answer='waldo: missing command'$'\n'
  elif ! is_command "$1"; then
    answer='waldo: bad word 0'$'\n'
  else
    build
    answer= status=0 child=
    return
  fi
  finish "$@"
}
