# Schemas: their columns, and why one is refused. The first fault from the left counts.
column_names=() column_bits=() column_starts=() column_steps=()

# Reads a schema into the four lists, and leaves in `fault` why it is refused, or nothing.
read_schema() {
  local piece pieces
  column_names=() column_bits=() column_starts=() column_steps=() fault=
  cut_at , "$1"
  pieces=("${cut[@]}")
  if ((${#pieces[@]} > 6)); then
    fault="a schema has at most 6 columns, and here are ${#pieces[@]}"
    return
  fi
  for piece in "${pieces[@]}"; do
    read_column "$piece"
    [ -z "$fault" ] || return
  done
}

# A text cut at each sign, into `cut`. Empty pieces count.
cut_at() { # sign, text
  local IFS=$'\001' text
  text=$(printf %s "$2" | tr "$1" '\001'; printf '\001')
  set -f
  cut=($text)
  set +f
}

# Reads one column, `name:bits@start/step`.
read_column() {
  local piece=$1 column bits='' rest start=0 step=1 earlier
  column=${piece%%:*}
  [[ $piece == *:* ]] && bits=${piece#*:}
  rest=${bits#"${bits%%[@/]*}"}
  bits=${bits%%[@/]*}
  if [[ $rest == @* ]]; then start=${rest#@} start=${start%%/*}; fi
  if [[ $rest == */* ]]; then step=${rest#*/}; fi
  fault=$(column_fault)
  [ -z "$fault" ] || return
  for earlier in ${column_names[@]+"${column_names[@]}"}; do
    [ "$earlier" != "$column" ] || fault="the schema has two columns named $column"
  done
  column_names+=("$column") column_bits+=("$bits") column_starts+=("$start") column_steps+=("$step")
}

# The fault of the column that read_column has cut.
column_fault() {
  if [ -z "$column" ]; then
    printf 'column %s of the schema has no name' "$((${#column_names[@]} + 1))"
  elif [ "$column" = value ]; then
    printf "no column may be named value: that is the name of each row's last field"
  elif [[ ! $column =~ ^[a-z][a-z0-9_]*$ ]]; then
    printf '%s is no name of a column: a name has small letters, digits and underscores, and begins with a letter' "$(quoted "$column")"
  elif ((${#column} > 16)); then
    printf '%s is no name of a column: a name has at most 16 letters, and this has %s' "$(quoted "$column")" "${#column}"
  elif [[ $piece != *:* ]]; then
    printf 'column %s has no bits: write %s:2 for 4 buckets, up to %s:8 for 256' "$column" "$column" "$column"
  elif [[ ! $bits =~ ^[1-8]$ ]]; then
    printf 'the bits of column %s are %s, and have to be one digit from 1 to 8' "$column" "$(quoted "$bits")"
  elif ! is_number "$start"; then
    printf 'the start of column %s, behind @, is %s, which is no number from 0 to 2^64 - 1' "$column" "$(quoted "$start")"
  elif ! is_number "$step" || [ "$(plain "$step")" = 0 ]; then
    printf 'the step of column %s, behind /, is %s, which is no number from 1 to 2^64 - 1' "$column" "$(quoted "$step")"
  fi
}

# The raw numbers that have a bucket in a column: `0 to 3`.
numbers_of() { # index
  local last
  last=$(last_of "${column_starts[$1]}" $((1 << column_bits[$1])) "${column_steps[$1]}")
  if exceeds "$last" "$largest_number"; then last=$largest_number; fi
  printf '%s to %s' "$(plain "${column_starts[$1]}")" "$last"
}

# Whether a raw number has a bucket in a column.
has_bucket() { # number, index
  local ends
  ends=$(numbers_of "$2")
  ! exceeds "${ends% to *}" "$1" && ! exceeds "$1" "${ends#* to }"
}

# How many rows the schema has room for.
room() {
  local bits cells=1
  for bits in "${column_bits[@]}"; do cells=$((cells + (1 << bits))); done
  local rows=$((4194304 / cells))
  printf %s $((rows < 65536 ? rows : 65536))
}

# The header that an input of the schema has.
header() {
  local IFS=,
  printf '%s,value' "${column_names[*]}"
}
