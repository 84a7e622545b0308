# Queries: why one is refused. The first fault from the left counts.
query_fault() {
  local aggregate predicates predicate seen=' '
  cut_at ' ' "$1"
  aggregate=${cut[0]} predicates=("${cut[@]:1}")
  if [[ $aggregate != @(count|sum) ]]; then
    printf 'a query begins with count or sum, and %s is neither' "$(quoted "$aggregate")"
    nearest "$aggregate" count sum
  elif ((${#predicates[@]} == 0)); then
    printf 'behind %s comes at least one condition, as %s ' "$aggregate" "$aggregate"
    printf '%s=%s' "${column_names[0]}" "$(plain "${column_starts[0]}")"
  elif ((${#predicates[@]} > 4)); then
    printf 'a query has at most 4 conditions, one for a column, and this has %s' "${#predicates[@]}"
  else
    for predicate in "${predicates[@]}"; do
      predicate_fault "$predicate" && return
    done
  fi
}

# Queries by the buckets of a column: the last piece is its name, and the one before it is `by`.
group_fault() {
  local text=$1 column=${1##* } front=${1% *} numbers
  if [[ " $text" != *' by '* || ${front##* } != by ]]; then
    numbers=$(numbers_of 0)
    printf 'groups asks by the buckets of a column, so by and its name come last, as sum '
    printf '%s<=%s by %s' "${column_names[0]}" "${numbers#* to }" "${column_names[0]}"
  elif [[ " ${column_names[*]} " != *" $column "* ]]; then
    printf '%s is no column of this schema%s' "$(quoted "$column")" "$(nearest_or "$column" "${column_names[@]}")"
  else
    query_fault "${text% by *}"
  fi
}

# Prints the fault of a predicate, and answers whether it has one.
predicate_fault() {
  local piece=$1 column=${1%%[<=]*} index known=-1 numbers number
  if [ -z "$piece" ]; then
    printf 'there is one space too many: exactly one stands before each condition'
    return
  fi
  if [[ $column == *[\>!] || ! ($piece =~ ^[^=\<]+(=|\<=)([0-9]+)$ || $piece =~ ^[^=\<]+(=)([0-9]+)\.\.([0-9]+)$) ]]; then
    printf '%s is no condition%s; write name=number, name<=number or name=low..high' "$(quoted "$piece")" "$(form_hint "$piece")"
    return
  fi
  numbers=("${BASH_REMATCH[@]:2}")
  for number in "${numbers[@]}"; do
    is_number "$number" && continue
    printf '%s in %s is too large: numbers go up to 2^64 - 1' "$(quoted "$number")" "$(quoted "$piece")"
    return
  done
  for index in "${!column_names[@]}"; do [ "${column_names[index]}" != "$column" ] || known=$index; done
  if ((known < 0)); then
    printf '%s is no column of this schema%s' "$(quoted "$column")" "$(nearest_or "$column" "${column_names[@]}")"
    return
  fi
  if [[ $seen == *" $column "* ]]; then
    printf '%s has two conditions, and a column may have one' "$column"
    return
  fi
  seen+="$column "
  for number in "${numbers[@]}"; do
    has_bucket "$number" "$known" && continue
    printf '%s has no bucket in column %s, which takes %s' "$(plain "$number")" "$column" "$(numbers_of "$known")"
    return
  done
  if ((${#numbers[@]} == 2)) && exceeds "${numbers[0]}" "${numbers[1]}"; then
    printf 'the interval %s begins behind its end' "$(quoted "$piece")"
    return
  fi
  return 1
}

# What is wrong with the form of a predicate, where that is plain to see.
form_hint() {
  case $1 in
    *'>='* | *'>'*) printf ': there is no > or >=, so name an interval up to the last number' ;;
    *'!='*) printf ': there is no NOT' ;;
    *'=='*) printf ': one = is enough' ;;
    *-*) printf ': an interval is written with two dots, and numbers have no sign' ;;
    *'<'[!=]*) printf ': there is no < alone' ;;
    *=*.*) [[ $1 == *..* ]] || printf ': numbers are whole' ;;
    by | BY) printf ': groups alone asks by the buckets of a column' ;;
    and | AND | or | OR | '&&' | '||') printf ': conditions follow each other with a space, and all have to hold' ;;
  esac
}
