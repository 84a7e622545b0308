# Bad and missing words: which word it is, what stands there, and what was expected.

# The words before a bad one are good, so options and their values can be told apart.
explain_word() { # index, words
  local index=$1 words=("${@:2}") place=2
  local word=${words[index]-}
  if ((index == 0)); then
    explain_command
  elif ((index == 1)); then
    read_schema "$word"
    tell schemas "word 1 is $(quoted "$word"): ${fault:-it is no schema}"
  else
    while ((place < index)) && { [[ ${words[place]} == *=* ]] || ((place + 1 < index)); }; do
      [[ ${words[place]} == *=* ]] || place=$((place + 1))
      place=$((place + 1))
    done
    read_schema "${words[1]}"
    if ((place < index)); then
      explain_value "${words[place]}" "$word"
    else
      explain_option
    fi
  fi
}

explain_command() {
  if is_command "$word"; then
    tell commands "some word behind $word is no UTF-8 text"
  else
    tell commands "word 0 is $(quoted "$word"), which is no command$(nearest_or "$word" "${commands[@]}" schema help)"
  fi
}

# A word in an option's place: `--name`, or `--name=value`.
explain_option() {
  local option=${word%%=*} earlier=0 other owners=() command=${words[0]}
  local known=(${options[$command]})
  for other in "${words[@]:2:index-2}"; do [ "${other%%=*}" != "$option" ] || earlier=$((earlier + 1)); done
  for other in "${commands[@]}"; do has_option "$other" "$option" && owners+=("$other"); done
  if [[ $word != --* || $word == -- ]]; then
    tell "$command" "word $index is $(quoted "$word") where an option has to stand$(guess_of "$word")"
  elif ! has_option "$command" "$option" && ((${#owners[@]})); then
    tell "$command" "word $index is $option, which is an option of $(listed "${owners[@]}") and not of $command; $(
      )$command has $(listed "${known[@]}")"
  elif ! has_option "$command" "$option"; then
    tell "$command" "word $index is $(quoted "$option"), which is no option of $command$(nearest_or "$option" "${known[@]}")"
  elif ((earlier >= 16)) && may_repeat "$command" "$option"; then
    [ "$option" = --query ] && command=queries
    tell "$command" "word $index is a 17th $option, and 16 are the most"
  elif ((earlier > 0)) && ! may_repeat "$command" "$option"; then
    tell "$command" "word $index is a second $option, which may be given only once"
  elif [[ $word != *=* ]]; then
    tell "$command" "word $index is $option, the last word, and its value is missing: it takes ${taken[$command $option]}"
  else
    explain_value "$option" "${word#*=}"
  fi
}

# The options that may stand up to 16 times: queries, of which two commands have one, and shifts.
may_repeat() { # command, option
  [[ $2 == --shift || $2 == --query && $1 != tamper && $1 != tree ]]
}

# What somebody may have meant who wrote no option.
guess_of() {
  local dashed=--${1#-} option
  if [[ -e $1 || $1 == *.csv || $1 == */* ]]; then
    printf ': rows come on standard input, so write < %s' "$(quoted "$1")"
  elif [[ $1 == count* || $1 == sum* ]]; then
    printf ': a query stands behind --query and in quotes, as --query "count %s=1"' "${column_names[0]}"
  elif [[ $1 == *[=\<]* ]]; then
    printf ': a query with spaces is one word, so write it in quotes, as --query "count %s=1"' "${column_names[0]}"
  elif [[ $1 == -[a-z] ]]; then
    for option in "${known[@]}"; do
      [[ $option != "$dashed"* ]] || { printf '; did you mean %s?' "${option@Q}" && return; }
    done
  elif [ "$1" != -- ]; then
    nearest "$dashed" "${known[@]}"
  fi
}

# A value that is refused.
explain_value() { # option, value
  local option=$1 value=$2 start="word $index is" why
  [[ ${words[index]} == --*=* ]] && start="in word $index $1 is"
  start+=" $(quoted "$value")"
  if [[ $value == -* && ${words[index]} != --*=* ]]; then
    start+=" where $option needs its value, and a value in a word of its own may not begin with a dash"
    tell "${words[0]}" "$start; it takes ${taken[${words[0]} $option]}"
    return
  fi
  case $option in
    --query)
      . "$home/launcher/explain_query.sh"
      if [ "${words[0]}" = groups ]; then why=$(group_fault "$value"); else why=$(query_fault "$value"); fi
      [ "${words[0]}" != tree ] || why=${why:-tree asks a count with one predicate}
      tell queries "$start: ${why:-it is no query}"
      ;;
    --schedule)
      . "$home/launcher/explain_schedule.sh"
      tell schedules "in word $index $(schedule_fault "$value")"
      ;;
    --seed) tell "${words[0]}" "$start: $(seed_fault "$value")" ;;
    --shift) tell "${words[0]}" "$start: $(shift_fault "$value")" ;;
    --to) tell "${words[0]}" "$start: $(end_fault "$value")" ;;
    *) tell "${words[0]}" "$start: $(number_fault "$option" "$value")" ;;
  esac
}

seed_fault() {
  if [[ $1 =~ [^0-9a-fA-F] ]]; then
    printf 'a seed has hexadecimal digits alone, and %s is none' "$(quoted "${BASH_REMATCH[0]}")"
  else
    printf 'a seed has 64 hexadecimal digits, and this has %s' "${#1}"
  fi
}

# A shift is M:W:A. Its numbers are cut of leading zeros before they are compared by their length.
shift_fault() {
  local message word amount more
  IFS=: read -r message word amount more <<<"$1:"
  amount=${amount#key\*}
  if [[ $1 != *:*:* || $1 == *:*:*:* ]]; then
    printf 'a shift is a message, a word and a number with a colon between two, as 6:0:1 or 12:0:key*1'
  elif ! [[ $message =~ ^[0-9]{1,20}$ && $message =~ ^0*([0-9]|[1-4][0-9]|50)$ ]]; then
    printf 'the message is a number up to 50, and %s is none' "$(quoted "$message")"
  elif ! [[ $word =~ ^[0-9]{1,20}$ && $word =~ ^0*[0-9]{1,5}$ ]] || ((10#$word > 65535)); then
    printf 'the word is a number up to 65535, and %s is none' "$(quoted "$word")"
  elif ! [[ $amount =~ ^[0-9]+$ ]]; then
    printf 'the number that is added has 1 to 39 digits, also behind key*, and %s has others' "$(quoted "$amount")"
  else
    printf 'the number that is added has 1 to 39 digits and is below 2^128'
  fi
}

# The end of a range that is a number within its limits lies before the beginning.
end_fault() {
  if [[ $1 =~ ^0*[0-9]{1,5}$ && ${#1} -le 20 ]] && ((10#$1 <= 65536)); then
    printf 'the places end before they begin; --to is at least --from'
  else
    number_fault --to "$1"
  fi
}

number_fault() { # option, value
  if ! [[ $2 =~ ^[0-9]+$ ]]; then
    printf 'that is no whole number'
  elif [[ $1 == --rows || $1 == --capacity ]]; then
    printf 'this schema has room for 1 to %s rows' "$(room)"
    return
  else
    printf 'that is out of range'
  fi
  printf '; %s takes %s' "$1" "${taken[${words[0]} $1]}"
}

explain_missing() { # name, words
  case $1 in
    command) tell commands "no command is given; the commands are $(listed "${commands[@]}")" ;;
    schema) tell schemas "word 1 has to be a schema, such as host:2 or time:8@1700000000/3600,host:4, and is missing" ;;
    *) tell "$2" "$1 is required and missing; it takes ${taken[$2 $1]-a value}" ;;
  esac
}
