# A step of a replay that isn't allowed where it stands. The steps before it were, so they are gone through once more, without rows, up
# to the refused one, whose one reason is then told.
explain_step() { # step, words
  local refused=$1 words=("${@:2}") last= word schedule= queries=0 tokens index actor server
  local drawn=0 places=() open=() put=() fixed=() floor=() agreed=() prefixes=(0 0 0)
  local -A there=()
  for word in "${words[@]}"; do
    case $last:$word in
      --schedule:*) schedule=$word ;;
      *:--schedule=*) schedule=${word#*=} ;;
    esac
    [[ $last == --query || $word == --query=* ]] && queries=$((queries + 1))
    last=$word
  done
  read -ra tokens <<<"$schedule"
  for ((index = 0; index < refused; index++)); do
    name_token "${tokens[index]}"
    "step_${tokens[index]:0:1}"
  done
  name_token "${tokens[refused]}"
  tell schedules "step $refused of ${#tokens[@]} is ${tokens[refused]}: $("why_${tokens[refused]:0:1}")"
}

# The actor of a token, and the server or query behind its dot.
name_token() {
  [[ $1 =~ ^.([0-9]+)(\.([0-9]+))?$ ]]
  actor=$((10#${BASH_REMATCH[1]})) server=$((10#${BASH_REMATCH[3]:-0}))
}

rise_floor() { ((${floor[actor]:-0} >= $1)) || floor[actor]=$1; }

step_d() {
  open[actor]=yes places[actor]=$drawn put[actor]= agreed[actor]=
  drawn=$((drawn + 1))
}

step_p() {
  there[$server,${places[actor]}]=yes
  while [ -n "${there[$server,${prefixes[server]}]-}" ]; do prefixes[server]=$((prefixes[server] + 1)); done
  [[ ${put[actor]} == *$server* ]] || put[actor]+=$server
  agreed[actor]=
  if ((${#put[actor]} == 3)); then
    open[actor]=
    rise_floor $((places[actor] + 1))
  fi
}

step_l() {
  rise_floor "${prefixes[server]}"
  agreed[actor]=
}

# The first fix, the second and the third each see one server; what they saw stands in a text, with a space before each.
step_f() {
  local seen=(${fixed[actor]-}) least
  agreed[actor]=
  if ((prefixes[${#seen[@]}] < ${floor[actor]:-0})); then
    fixed[actor]=
    return
  fi
  seen+=("${prefixes[${#seen[@]}]}")
  fixed[actor]=${seen[*]}
  if ((${#seen[@]} == 3)); then
    least=$(printf '%s\n' "${seen[@]}" | sort -n | head -n 1)
    fixed[actor]= agreed[actor]=yes
    rise_floor "$least"
  fi
}

step_a() { :; }

# Whether fixes of the actor are under way, which is then the reason.
fixes() {
  local seen=(${fixed[actor]-})
  ((${#seen[@]})) || return
  printf 'actor %s has fixed %s of the three servers, so its only step is f%s' "$actor" "${#seen[@]}" "$actor"
}

why_d() {
  local missing=() each
  fixes && return
  if [ -n "${open[actor]-}" ]; then
    for each in 0 1 2; do [[ ${put[actor]} == *$each* ]] || missing+=("$each"); done
    printf 'the row that actor %s drew is not yet at %s' "$actor" "$(listed "${missing[@]/#/server }")"
  else
    printf 'no row is left: the input has %s' "$drawn"
  fi
}

why_p() { fixes || printf 'actor %s has no row to put: it has drawn none, or its row is at all three servers' "$actor"; }

why_l() { fixes; }

why_a() {
  fixes && return
  if [ -z "${agreed[actor]-}" ]; then
    printf 'actor %s has no agreement: it needs three fixes, f%s f%s f%s, ' "$actor" "$actor" "$actor" "$actor"
    printf 'since its last draw, piece or look'
  else
    printf 'there is no query %s: the queries are numbered 0 to %s' "$server" "$((queries - 1))"
  fi
}

why_f() { printf 'a fix is always allowed'; }
