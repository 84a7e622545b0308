# Proposes a schema for a CSV file: names, bits, start and step that fit, what is lost by them, and the line to go on with.
. "$home/launcher/words.sh"
. "$home/launcher/numbers.sh"

refuse_file() { # status, sentence
  tell schema "$2"
  exit "$1"
}

propose_schema() {
  local file=${1-} rows=0 quotes=0 uneven=0 returns=0 titles=() facts=() chosen=() value= columns=() notes=()
  [ -n "$file" ] || refuse_file 2 "schema needs the name of a CSV file"
  [[ -f $file && -r $file || -p $file ]] || refuse_file 3 "$(quoted "$file") can't be read, or is no file"
  read_facts "$file"
  ((${#titles[@]})) || refuse_file 5 "$(quoted "$file") is empty: its first line has to name the columns"
  ((rows > 0)) || refuse_file 5 "$(quoted "$file") has a header and no rows, so nothing can be told of its columns"
  choose "${@:2}"
  fit_all
  answer=$(print_proposal)$'\n'
  finish schema
}

# What the file holds, by column from 1.
read_facts() {
  local line kind rest path=$1
  # A name with a `=` would be an assignment for awk.
  [[ $path == /* ]] || path=./$path
  while IFS= read -r line; do
    IFS=$'\t' read -r kind rest <<<"$line"
    if [ "$kind" = file ]; then
      IFS=$'\t' read -r rows quotes uneven returns <<<"$rest"
    else
      facts[kind]=$rest titles[kind]=${rest%%$'\t'*}
    fi
  done <<<"$(LC_ALL=C awk -f "$home/launcher/schema.awk" "$path")"
}

# One fact of a column: 2 its kind, 3 least, 4 greatest, 5 common divisor, 6 empty fields, 7 digits, 8 first field, 9 different, 10 words.
fact() {
  local rest=${facts[$1]} number=$2
  while ((--number)); do rest=${rest#*$'\t'}; done
  printf %s "${rest%%$'\t'*}"
}

# Which columns become columns of the schema, and which is the value: those that were named, the last being the value; or one named
# value, else the last one with numbers; and the first six of the others that fit.
choose() {
  local wanted index found
  for wanted in "$@"; do
    found=
    for index in "${!titles[@]}"; do [[ ${titles[index]} != "$wanted" && $(name_of "${titles[index]}") != "$wanted" ]] || found=$index; done
    [ -n "$found" ] || refuse_file 2 "$(quoted "$wanted") is no column of the file$(nearest_or "$wanted" "${titles[@]}")"
    chosen+=("$found")
  done
  if (($#)); then
    value=${chosen[-1]}
    unset 'chosen[-1]'
    (($# >= 2 && $# <= 7)) || refuse_file 2 "a schema has one to six columns, and the value comes behind them"
    may_be_value "$value" || refuse_file 2 "column $(quoted "${titles[value]}") can't be the value: $values_are"
    return
  fi
  for index in "${!titles[@]}"; do may_be_value "$index" && value=$index; done
  for index in "${!titles[@]}"; do [[ ${titles[index]} == value ]] && may_be_value "$index" && value=$index; done
  [ -n "$value" ] || refuse_file 5 "no column of the file can be the value: $values_are"
  for index in "${!titles[@]}"; do
    [ "$index" = "$value" ] && continue
    if ((${#chosen[@]} == 6)); then
      notes+=("${titles[index]} is left out: a schema has at most six columns. $(
        )Name those that you want: $name schema FILE COLUMN .. VALUE")
    elif may_be_column "$index"; then
      chosen+=("$index")
    else
      notes+=("${titles[index]} is left out: $(why_no_column "$index")")
    fi
  done
  ((${#chosen[@]})) || refuse_file 5 "no column of the file fits: a column holds numbers, or up to 256 different words"
}

values_are="values are numbers from -4294967295 to 4294967295"

may_be_value() {
  local digits least greatest
  digits=$(fact "$1" 7) least=$(fact "$1" 3) greatest=$(fact "$1" 4)
  [[ $(fact "$1" 2) == @(number|decimal|below|below_decimal) ]] && ((digits <= 6)) &&
    ! exceeds "$(scaled "${least#-}" "$digits")" 4294967295 && ! exceeds "$(scaled "${greatest#-}" "$digits")" 4294967295
}

may_be_column() {
  case $(fact "$1" 2) in
    number | decimal) ! exceeds "$(scaled "$(fact "$1" 4)" "$(fact "$1" 7)")" 9223372036854775807 ;;
    *) (($(fact "$1" 9) >= 1 && $(fact "$1" 9) <= 256)) ;;
  esac
}

why_no_column() {
  case $(fact "$1" 2) in
    number | decimal) printf 'its numbers are above 2^63 - 1' ;;
    *) (($(fact "$1" 9))) && printf 'it has more than 256 different words' || printf 'it is empty' ;;
  esac
}

# A decimal with that many digits behind the point, without the point.
scaled() { # number, digits
  local whole=${1%%.*} behind=
  [[ $1 == *.* ]] && behind=${1#*.}
  behind=${behind}000000000000000000
  plain "$whole${behind:0:$2}"
}

# A name that a schema may have.
name_of() {
  local text=${1,,}
  text=${text//[^a-z0-9_]/_}
  [[ $text == [a-z]* ]] || text=c_$text
  text=${text:0:16}
  [ "$text" = value ] && text=value_
  printf %s "$text"
}

# Fits each chosen column, with fewer bits where the rows would not have room.
fit_all() {
  local index bits=8 cells text other
  while :; do
    columns=() cells=1
    for index in "${chosen[@]}"; do
      text=$(fit "$index" "$bits")
      other=$(name_of "${titles[index]}")
      while [[ " ${columns[*]}" == *" $other:"* ]]; do other=${other:0:15}_; done
      columns+=("$other$text")
      text=${text#:}
      cells=$((cells + (1 << ${text:0:1})))
    done
    ((bits == 1 || rows <= 4194304 / cells)) && break
    bits=$((bits - 1))
  done
  ((rows <= 65536)) || notes+=("the file has $rows rows, and 65536 are the most: ask over a part of it")
}

# `:bits@start/step` of a column, with at most that many bits.
fit() { # column, most bits
  local least greatest common start=0 step=1 most=$((1 << $2))
  if [[ $(fact "$1" 2) != @(number|decimal) ]]; then
    printf ':%s' "$(bits_for $(($(fact "$1" 9) - 1)))"
    return
  fi
  least=$(scaled "$(fact "$1" 3)" "$(fact "$1" 7)") greatest=$(scaled "$(fact "$1" 4)" "$(fact "$1" 7)") common=$(fact "$1" 5)
  if ((greatest >= most || $(bits_for "$greatest") - $(bits_for $((greatest - least))) >= 2)); then
    start=$least
    if ((greatest - least >= most)); then
      if [[ $(fact "$1" 2) == number && ${#greatest} -le 15 ]] && ((common > 1 && (greatest - least) / common < most)); then
        step=$common
      else
        step=$(round_step "$least" "$greatest" "$most")
      fi
      # A start that is a multiple of the step makes buckets begin at round numbers.
      ((greatest / step - least / step < most)) && start=$((least / step * step))
    fi
  fi
  printf ':%s' "$(bits_for $(((greatest - start) / step)))"
  ((start == 0)) || printf '@%s' "$start"
  ((step == 1)) || printf '/%s' "$step"
}

# The least number of bits, from 1 on, that tells 0 to a number apart.
bits_for() {
  local bits=1
  while (($1 >> bits)); do bits=$((bits + 1)); done
  printf %s "$bits"
}

# The smallest round step with which the numbers fit: of seconds or milliseconds since 1970 a minute, an hour, a day and so on, of others
# 1, 2 or 5 with zeros.
round_step() { # least, greatest, most buckets
  local step unit=0 scale
  if (($1 >= 300000000 && $2 < 5000000000)); then unit=1; elif (($1 >= 300000000000 && $2 < 5000000000000)); then unit=1000; fi
  if ((unit)); then
    for step in 1 10 60 300 600 900 1800 3600 7200 10800 21600 43200 86400 172800 604800 1209600 2592000; do
      step=$((step * unit))
      (($2 / step - $1 / step < $3)) && printf %s "$step" && return
    done
  fi
  for ((scale = 1; ; scale *= 10)); do
    for step in $scale $((2 * scale)) $((5 * scale)); do
      (($2 / step - $1 / step < $3)) && printf %s "$step" && return
    done
  done
}

print_proposal() {
  local index number=0 note column length=5
  printf '%s has %s rows. A schema for it:\n\n  %s\n\n' "$(quoted_path "$file")" "$rows" "$(joined "${columns[@]}")"
  for column in "${columns[@]}"; do ((${#column} <= length)) || length=${#column}; done
  for index in "${chosen[@]}"; do
    printf '  %-*s  %s\n' "$length" "${columns[number]}" "$(describe "$index" "${columns[number]}")"
    number=$((number + 1))
  done
  printf '  %-*s  %s\n' "$length" value "$(describe_value)"
  for note in ${notes[@]+"${notes[@]}"}; do printf '\nNote: %s.\n' "$note"; done
  ((uneven == 0)) || printf '\nNote: %s rows have another number of fields than the header, and will be refused.\n' "$uneven"
  printf '\nGo on with\n\n'
  print_command
}

# What a column holds, and what its step loses.
describe() { # column, its part of the schema
  local step=1 text digits
  digits=$(fact "$1" 7)
  [[ $2 == */* ]] && step=${2#*/}
  if [[ $(fact "$1" 2) != @(number|decimal) ]]; then
    text="words, as numbers: $(words_as_numbers "$1")"
  else
    text="$(fact "$1" 3) to $(fact "$1" 4)"
    ((digits == 0)) || text+=", counted in units of 1/1$(printf '%0*d' "$digits" 0)"
    if ((step == 1)); then
      text+="; nothing is lost"
    elif [[ ${#step} -le 15 && $(fact "$1" 2) == number ]] && (($(fact "$1" 5) % step == 0)); then
      text+=", always $step apart; nothing is lost"
    else
      text+="; $step numbers in a row share a bucket$(time_of "$step" "$(fact "$1" 3)"), so a query can't tell them apart"
    fi
  fi
  (($(fact "$1" 6) == 0)) || text+="; $(fact "$1" 6) rows have no $(quoted "${titles[$1]}")"
  printf %s "$text"
}

# A step of seconds in words.
time_of() { # step, least number
  ((${#2} == 10)) || return 0
  case $1 in
    60) printf ', a minute' ;;
    3600) printf ', an hour' ;;
    86400) printf ', a day' ;;
    604800) printf ', a week' ;;
    ?????*) (($1 % 3600)) || printf ', %s hours' $(($1 / 3600)) ;;
    *) (($1 % 60)) || printf ', %s minutes' $(($1 / 60)) ;;
  esac
}

describe_value() {
  local digits title=${titles[value]}
  digits=$(fact "$value" 7)
  [ "$title" = value ] || printf 'column %s: ' "$title"
  printf '%s to %s' "$(fact "$value" 3)" "$(fact "$value" 4)"
  ((digits == 0)) || printf ', times 1%0*d, since values are whole numbers' "$digits" 0
  (($(fact "$value" 6) == 0)) || printf '; %s rows have none' "$(fact "$value" 6)"
}

# The words of a column in their order, which are numbered from 0.
sorted_words() {
  local IFS=$'\n' text
  text=$(fact "$1" 10)
  printf '%s\n' "${text//$'\001'/$'\n'}" | LC_ALL=C sort
}

words_as_numbers() {
  local word number=0 text=
  while IFS= read -r word; do
    ((number < 8)) && text+="${text:+, }$word $number"
    number=$((number + 1))
  done <<<"$(sorted_words "$1")"
  ((number <= 8)) || text+=" and so on up to $((number - 1))"
  printf %s "$text"
}

# The command to go on with. Where the file is not yet as the schema wants it, awk makes it so.
print_command() {
  local path ask query first
  path=$(quoted_path "$file")
  query=$(first_query)
  ask="$name ask $(joined "${columns[@]}") --query \"$query\""
  if is_as_it_is; then
    printf '  %s < %s\n' "$ask" "$path"
  elif ((quotes)); then
    printf '  %s\n\nover rows with the header %s. The file has quotes and needs a change first:\n' "$ask" "$(header_of)"
    printf 'write it anew without quotes (mlr --csv cat, or csvformat -u 0), and call this again.\n'
  else
    printf "  awk -F, -v OFS=, '%s' %s |\n    %s\n" "$(conversion)" "$path" "$ask"
  fi
}

# A path as a shell wants it.
quoted_path() {
  if [[ $1 =~ ^[A-Za-z0-9_./-]+$ ]]; then printf %s "$1"; else printf %s "${1@Q}"; fi
}

header_of() { joined "${columns[@]%%:*}" value; }

# Texts with commas between them.
joined() {
  local IFS=,
  printf %s "$*"
}

# What a column is used as: numbers of which some are below zero are numbers as values, and words as columns.
kind_of() {
  local kind
  kind=$(fact "$1" 2)
  case $kind in
    below*)
      if [ "$1" != "$value" ]; then kind=word; elif [ $kind = below ]; then kind=number; else kind=decimal; fi
      ;;
  esac
  printf %s "$kind"
}

is_as_it_is() {
  local index expected=1
  for index in "${chosen[@]}" "$value"; do
    [[ $index -eq $expected && $(kind_of "$index") == number && $(fact "$index" 6) -eq 0 ]] || return
    expected=$((expected + 1))
  done
  ((expected == ${#titles[@]} + 1)) && [ "$(joined "${titles[@]}")" = "$(header_of)" ]
}

# A count over the column with the fewest buckets, at the first row's number.
first_query() {
  local index number=0 best=0 fewest=9 bits first
  for index in "${!columns[@]}"; do
    bits=${columns[index]#*:} bits=${bits:0:1}
    if ((bits < fewest)); then fewest=$bits best=$index; fi
  done
  index=${chosen[best]}
  first=$(fact "$index" 8)
  if [[ $(fact "$index" 2) == @(number|decimal) ]]; then
    number=$(scaled "$first" "$(fact "$index" 7)")
  else
    while IFS= read -r bits && [ "$bits" != "$first" ]; do number=$((number + 1)); done <<<"$(sorted_words "$index")"
  fi
  printf 'count %s=%s' "${columns[best]%%:*}" "$number"
}

# The awk program that puts the columns in order, numbers words and takes the point out of decimals.
conversion() {
  local index begin= fields= guard= word list digits
  for index in "${chosen[@]}" "$value"; do
    digits=$(fact "$index" 7)
    (($(fact "$index" 6) == 0)) || guard+="${guard:+ && }\$$index != \"\""
    case $(kind_of "$index") in
      number) fields+="${fields:+, }\$$index" ;;
      decimal) fields+="${fields:+, }sprintf(\"%.0f\", \$$index * 1$(printf '%0*d' "$digits" 0))" ;;
      *)
        list=
        while IFS= read -r word; do list+="${list:+|}${word//\\/\\\\}"; done <<<"$(sorted_words "$index")"
        begin+="n = split(\"${list//\'/\'\\\'\'}\", w, \"|\"); for (i = 1; i <= n; i++) c$index[w[i]] = i - 1; "
        fields+="${fields:+, }c$index[\$$index]"
        ;;
    esac
  done
  [ -z "$begin" ] || printf 'BEGIN { %s} ' "$begin"
  ((returns == 0)) || printf '{ sub(/\\r$/, "") } '
  printf 'NR == 1 { print "%s"; next } %s{ print %s }' "$(header_of)" "${guard:+$guard }" "$fields"
}
