# Says on standard error, in one sentence, why a status isn't 0: the place, the cause, and where to read on.
. "$home/launcher/words.sh"
. "$home/launcher/numbers.sh"
. "$home/launcher/explain_schema.sh"

explain() {
  local index
  case $answer in
    'waldo: bad word '*)
      . "$home/launcher/explain_words.sh"
      index=${answer#waldo: bad word }
      explain_word "${index%$'\n'}" "$@"
      ;;
    'waldo: missing '*)
      . "$home/launcher/explain_words.sh"
      index=${answer#waldo: missing }
      explain_missing "${index%$'\n'}" "$@"
      ;;
    'waldo: step '*)
      . "$home/launcher/explain_steps.sh"
      index=${answer#waldo: step }
      explain_step "${index%% *}" "$@"
      ;;
    *) explain_status "$@" ;;
  esac
}

explain_status() {
  local fewer
  case $status in
    3) tell messages "standard input could not be read: it is closed, or a folder, or a device that failed" ;;
    4) tell messages "standard output did not take the whole text: it is closed, or a disk that is full, or a program that has ended" ;;
    5)
      . "$home/launcher/explain_rows.sh"
      explain_rows "$@"
      ;;
    6)
      # Each asker has messages of its own.
      [ "${1-}" != race ] || fewer=', with fewer askers'
      tell messages "there was not enough memory: try again with more of it${fewer-}, with fewer rows or with fewer bits"
      ;;
    7) tell messages "messages between client and servers were altered, so trust neither number and ask again" ;;
    126 | 127) say "the program in built/ could not be started; where it is broken, remove that folder and call again" ;;
    *) ((status <= 128)) || say "the program was ended by signal $((status - 128))" ;;
  esac
}
