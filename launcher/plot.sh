# Draws what `groups` prints: bars on standard output, and with --svg FILE a picture as well. It reads a file that is named, or standard
# input, and runs nothing of Waldo.
. "$home/launcher/words.sh"

refuse_plot() { # status, sentence
  tell plot "$2"
  exit "$1"
}

plot_groups() {
  local file= picture= text= drawn=
  read_plot_words "$@"
  read_totals
  drawn=$(draw_totals plot_bars.awk; echo ":$?")
  [ "${drawn##*:}" -eq 0 ] || refuse_plot 5 "${drawn%$'\n':*}"
  answer=${drawn%:*}
  [ -z "$picture" ] || write_picture
  [[ $'\n'$text != *" altered total "* ]] || status=7
  finish plot
}

# A file and --svg FILE, in any order; what begins with a dash is no file.
read_plot_words() {
  while (($#)); do
    case $1 in
      --svg | --svg=*)
        [ -z "$picture" ] || refuse_plot 2 "a second --svg, which may be given only once"
        if [[ $1 == --svg=* ]]; then picture=${1#--svg=}; else picture=${2-} && shift; fi
        [ -n "$picture" ] || refuse_plot 2 "--svg needs the name of the file to write"
        ;;
      -?*) refuse_plot 2 "$(quoted "$1") is no option of plot; the only one is --svg" ;;
      '') refuse_plot 2 "the name of the file to read is empty" ;;
      *)
        [ -z "$file" ] || refuse_plot 2 "plot reads one file, and here are $(quoted "$file") and $(quoted "$1")"
        file=$1
        ;;
    esac
    (($# == 0)) || shift
  done
}

# The whole text, of at most 500,000 bytes: groups prints less.
read_totals() {
  local most=500000 LC_ALL=C
  if [ -n "$file" ]; then
    [[ -f $file && -r $file || -p $file ]] || refuse_plot 3 "$(quoted "$file") can't be read, or is no file"
    exec <"$file" || refuse_plot 3 "$(quoted "$file") can't be read"
  elif [ -t 0 ]; then
    refuse_plot 2 "plot reads what groups prints: through a pipe, or from a file that is named"
  fi
  if IFS= read -r -d '' text < <(head -c "$((most + 1))" || printf '\0'); then
    refuse_plot 5 "the text has a byte 0, or could not be read to its end: groups prints none"
  fi
  ((${#text} <= most)) || refuse_plot 5 "the text has more than $most bytes, which groups never prints"
  [[ -z $text || $text == *$'\n' ]] || refuse_plot 5 "the last line has no end: the text is not whole"
}

draw_totals() { # how
  printf %s "$text" | LC_ALL=C awk -f "$home/launcher/plot_read.awk" -f "$home/launcher/$1"
}

# The picture comes into a file beside the one that is asked for, and then takes its name: whoever looks finds the old one or the whole new
# one.
write_picture() {
  local beside folder
  [[ $picture == /* ]] || picture=./$picture
  folder=${picture%/*}/
  if [ -e "$picture" ] && ! [ -f "$picture" ]; then refuse_plot 4 "$(quoted "$picture") is no file that can be replaced"; fi
  [[ $picture != */ ]] || refuse_plot 4 "$(quoted "$picture") is the name of a folder"
  beside=$(mktemp "$folder.waldo-plot.XXXXXX" 2>/dev/null) || refuse_plot 4 "no file can be written beside $(quoted "$picture")"
  trap 'rm -f -- "$beside"' EXIT
  trap 'exit 129' HUP
  trap 'exit 130' INT
  trap 'exit 143' TERM
  trap '' XFSZ
  if ! draw_totals plot_svg.awk 2>/dev/null >"$beside" || ! is_whole "$beside"; then
    refuse_plot 4 "$(quoted "$picture") could not be written: the disk is full, or there is a limit"
  fi
  chmod "$(printf %o $((0666 & ~0$(umask))))" "$beside" 2>/dev/null
  mv -f -- "$beside" "$picture" 2>/dev/null || refuse_plot 4 "$(quoted "$picture") could not be replaced"
  trap - EXIT HUP INT TERM
}

# A picture that was cut has no last line.
is_whole() { [ "$(tail -n 1 -- "$1" 2>/dev/null)" = '</svg>' ]; }
