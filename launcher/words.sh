# The words that there are, as the guide has them, and texts made from lists of them.
commands=()
declare -A options=() taken=() reads=()

read_words() {
  local kind command name text
  while IFS=$'\t' read -r kind command name text; do
    case $kind in
      command) commands+=("$command") options[$command]='' reads[$command]=$name ;;
      option) options[$command]+="$name " taken[$command $name]=$text ;;
    esac
  done
}

{ words_read=$(awk -f "$home/launcher/words.awk" "$home/docs/guide.md"); } 2>/dev/null
read_words <<<"$words_read"

is_command() { [ -n "$1" ] && [ -n "${options[$1]+there}" ]; }
reads_rows() { [ -n "$1" ] && [ "${reads[$1]-}" = rows ]; }
has_option() { [[ " ${options[$1]}" == *" $2 "* ]]; }

# A text cut to some 40 characters, in quotes as a shell would want them.
quoted() {
  local text=$1
  ((${#text} > 40)) && text=${text:0:36}..
  printf %s "${text@Q}"
}

# Words with commas between them, and `and` before the last.
listed() {
  local text=$1 index
  for ((index = 2; index <= $#; index++)); do
    if ((index == $#)); then text+=" and ${!index}"; else text+=", ${!index}"; fi
  done
  printf %s "$text"
}

# Says a sentence, and the topic that says more.
tell() { # topic, sentence
  case $2 in
    '') ;;
    *[?.]) say "$2 See '$name help $1'" ;;
    *) say "$2; see '$name help $1'" ;;
  esac
}

# How many letters have to be put in, left out or changed to make one word of the other; two swapped neighbours count once.
distance() {
  local one=$1 other=$2 i j cost best above
  local -A far=()
  for ((i = 0; i <= ${#one}; i++)); do far[$i,0]=$i; done
  for ((j = 0; j <= ${#other}; j++)); do far[0,$j]=$j; done
  for ((i = 1; i <= ${#one}; i++)); do
    for ((j = 1; j <= ${#other}; j++)); do
      cost=1
      [ "${one:i-1:1}" = "${other:j-1:1}" ] && cost=0
      best=$((far[$((i - 1)),$((j - 1))] + cost))
      above=$((far[$((i - 1)),$j] + 1))
      ((above < best)) && best=$above
      above=$((far[$i,$((j - 1))] + 1))
      ((above < best)) && best=$above
      if ((i > 1 && j > 1)) && [ "${one:i-1:1}${one:i-2:1}" = "${other:j-2:1}${other:j-1:1}" ]; then
        above=$((far[$((i - 2)),$((j - 2))] + 1))
        ((above < best)) && best=$above
      fi
      far[$i,$j]=$best
    done
  done
  printf %s "${far[${#one},${#other}]}"
}

# `; did you mean X?` for the nearest of the words behind the first, where one is near.
nearest() {
  local word=$1 other far best=3 found=
  ((${#word} <= 20)) || return 0
  for other in "${@:2}"; do
    far=$(distance "$word" "$other")
    if ((far < best && far < ${#other})); then best=$far found=$other; fi
  done
  [ -z "$found" ] || printf '; did you mean %s?' "${found@Q}"
}

# The same, or else which words there are.
nearest_or() {
  local found
  found=$(nearest "$@")
  if [ -n "$found" ]; then
    printf %s "$found"
  elif (($# == 2)); then
    printf '; the only one is %s' "$2"
  else
    printf '; there are %s' "$(listed "${@:2}")"
  fi
}
