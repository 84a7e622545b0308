# Schedules: why one is refused as a word, before any step is made.
schedule_fault() {
  local token index=0 tokens why
  cut_at ' ' "$1"
  tokens=("${cut[@]}")
  if [ -z "$1" ]; then
    printf 'the schedule is empty, and has 1 to 4096 steps'
    return
  fi
  for token in "${tokens[@]}"; do
    if ! is_step "$token"; then
      printf 'step %s of %s %s' "$index" "${#tokens[@]}" "$(step_fault "$token")"
      return
    fi
    index=$((index + 1))
  done
  printf 'the schedule has %s steps, and 4096 are the most' "${#tokens[@]}"
}

# Each actor and each query is a number from 0 to 15, each server one from 0 to 2.
number_to_15='0{0,18}(1[0-5]|[0-9])'
number_to_2='0{0,19}[0-2]'
is_step() {
  [[ $1 =~ ^([df]$number_to_15|[pl]$number_to_15\.$number_to_2|a$number_to_15\.$number_to_15)$ ]]
}

step_fault() {
  local actor
  if [ -z "$1" ]; then
    printf 'is empty: exactly one space stands between two steps, and none at either end'
  elif [[ $1 =~ ^[df]([0-9]+)$ || $1 =~ ^[pla]([0-9]+)\.[0-9]+$ ]]; then
    actor=${BASH_REMATCH[1]}
    if ! [[ $actor =~ ^$number_to_15$ ]]; then
      printf 'is %s: actors are numbered 0 to 15' "$(quoted "$1")"
    elif [[ $1 == a* ]]; then
      printf 'is %s: queries are numbered 0 to 15' "$(quoted "$1")"
    else
      printf 'is %s: servers are numbered 0 to 2' "$(quoted "$1")"
    fi
  else
    printf 'is %s, which is none of d<a>, p<a>.<k>, l<a>.<k>, f<a> and a<a>.<q>' "$(quoted "$1")"
  fi
}
