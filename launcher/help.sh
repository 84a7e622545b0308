# Help and the version, which run and build nothing. Each topic is the first code block of its section of the guide.
. "$home/launcher/words.sh"
topics=(commands schemas queries rows schedules messages)

block() { # the section's title
  awk -v title="## $1" '$0 == title { inside = 1 } inside && /^```/ { if (open) exit; open = 1; next } open' "$home/docs/guide.md"
}

answer_help() {
  local topic
  case $1 in
    --version) print_version ;;
    help | -h | --help) topic=${2-} ;;
    *) topic=$1 ;;
  esac
  [ -n "${topic+set}" ] && help_on "$topic"
  finish "$@"
}

help_on() {
  local title=$1
  case $1 in
    '' | commands | -h | --help) title=Summary ;;
    schemas | queries | rows | schedules | messages) title=${1^} ;;
    schema | plot | help) ;;
    *)
      if ! is_command "$1"; then
        say "there is no help on $(quoted "$1")$(nearest_or "$1" "${commands[@]}" schema plot "${topics[@]}")"
        exit 2
      fi
      ;;
  esac
  [ "$title" = help ] && title=Summary
  answer=$(block "$title")$'\n'
  [ "$name" = ./waldo ] || answer=${answer//.\/waldo/$name}
}

# What a report of a fault should name: the sources by a number of their own, the toolchain, and whether the program is built.
print_version() {
  local sum program kit
  . "$home/launcher/fresh.sh"
  . "$home/launcher/build.sh"
  find_sources $(crates_in_order)
  sum=$(sources_now | cksum)
  kit=$(sed -n 's/^Proved with `\([^`]*\)`.*/\1/p' "$home/README.md" 2>/dev/null)
  if is_fresh; then
    program="proved and built of these sources"
  elif [ -x "$built/waldo_cli" ]; then
    program="of older sources, so it is not run; the next command builds it anew"
  else
    program="not built yet; the first command proves and builds it"
  fi
  answer="waldo, sources ${sum%% *}"$'\n'"toolchain: ${kit:-not named in README.md}"$'\n'"program: $program"$'\n'
}
