# Completion of Waldo's words for bash: source this file. It offers commands and topics, the options that a command has left, and their
# values: in that of --query the columns of the schema that stands before it, steps of a schedule, numbers of a short range.
# Commands, options and what these take come from the guide.

_waldo_home=$(dirname "$(readlink -f "${BASH_SOURCE[0]}")")

# Lines of the guide's words, read at the first completion: command NAME ROWS, and option COMMAND NAME TAKEN, with tabs.
_waldo_lines() {
  [[ -n ${_waldo_guide-} ]] || _waldo_guide=$(awk -f "$_waldo_home/../launcher/words.awk" "$_waldo_home/../docs/guide.md" 2>/dev/null)
  printf '%s\n' "$_waldo_guide"
}

_waldo_commands() { _waldo_lines | awk '$1 == "command" { print $2 }'; }

# What an option takes, where that is a short range of numbers.
_waldo_numbers() { # command, option
  _waldo_lines | awk -F '\t' -v command="$1" -v option="$2" '$1 == "option" && $2 == command && $3 == option { print $4 }' |
    sed -n 's/^a number from \([0-9]*\) to \([0-9]\{1,2\}\)$/\1 \2/p' | while read -r first last; do seq "$first" "$last"; done
}

# Cuts the line up to the cursor into words as the shell would, with their quotes taken off. Bash's own list of words is cut at
# `=`, `:` and `@` too. `_waldo_quote` is the quote that is open at the cursor.
_waldo_words() {
  local line=$1 char word='' begun='' index
  _waldo_list=()
  _waldo_quote=
  for ((index = 0; index < ${#line}; index++)); do
    char=${line:index:1}
    if [[ -n $_waldo_quote ]]; then
      if [[ $char == "$_waldo_quote" ]]; then _waldo_quote=; else word+=$char; fi
    elif [[ $char == [\"\'] ]]; then
      _waldo_quote=$char begun=1
    elif [[ $char == [[:space:]] ]]; then
      [[ -n $begun ]] && _waldo_list+=("$word")
      word='' begun=
    else
      word+=$char begun=1
    fi
  done
  _waldo_list+=("$word")
}

# The options of a command that may still stand; words behind the first are those that stand already.
_waldo_options() {
  local option word seen
  for option in $(_waldo_lines | awk -v command="$1" '$1 == "option" && $2 == command { print $3 }'); do
    seen=0
    for word in "${@:2}"; do [[ ${word%%=*} == "$option" ]] && ((seen++)); done
    if ((seen == 0)) || [[ ($option == --shift || $option == --query && $1 != @(tamper|tree)) && $seen -lt 16 ]]; then echo "$option"; fi
  done
}

# The texts that a query, as far as it is typed, can go on with: a column that has no predicate yet, with `=` and `<=`; in one of `groups`
# that has a predicate also ` by ` and each column, with which it ends.
_waldo_queries() {
  local command=$1 schema=$2 text=$3 begun beginnings piece='' pieces column columns
  if [[ $text == *' '* ]]; then
    beginnings=("${text% *}")
    piece=${text##* }
  else
    mapfile -t beginnings < <(compgen -W 'count sum' -- "$text")
  fi
  IFS=, read -ra columns <<<"$schema"
  for begun in "${beginnings[@]}"; do
    read -ra pieces <<<"$begun"
    [[ ${pieces[0]-} == @(count|sum) && $piece != *[=\<]* && " $begun " != *' by '?*' ' ]] || continue
    if [[ $command == groups && ${#pieces[@]} -gt 1 ]]; then
      _waldo_by
      [[ ${pieces[-1]} != by ]] || continue
    fi
    ((${#pieces[@]} < 5)) || continue
    for column in "${columns[@]%%:*}"; do
      [[ $column == "$piece"* && $begun != *" $column"[=\<]* ]] && printf '%s\n' "$begun $column=" "$begun $column<="
    done
  done
}

# Where `by` may come, or has come, the columns behind it.
_waldo_by() {
  local column
  for column in "${columns[@]%%:*}"; do
    if [[ ${pieces[-1]} == by ]]; then
      [[ $column != "$piece"* ]] || printf '%s\n' "$begun $column"
    elif [[ by == "$piece"* ]]; then
      printf '%s\n' "$begun by $column"
    fi
  done
}

# The texts that a schedule, as far as it is typed, can go on with: one more step of actor 0.
_waldo_steps() {
  local begun=''
  [[ $1 == *' '* ]] && begun="${1% *} "
  compgen -W 'd0 p0.0 p0.1 p0.2 l0.0 f0 a0.0' -- "${1##* }" | sed "s/^/$begun/"
}

_waldo() {
  local _waldo_list _waldo_quote current before open='' value
  COMPREPLY=()
  _waldo_words "${COMP_LINE:0:COMP_POINT}"
  local words=("${_waldo_list[@]}") last=$((${#_waldo_list[@]} - 1))
  current=${words[last]}
  before=${words[last - 1]}
  if [[ $before == *'<' || $before == *'>' || $current == '<'* ]]; then
    compopt -o default 2>/dev/null
  elif ((last == 1)); then
    mapfile -t COMPREPLY < <(compgen -W "$(_waldo_commands) schema plot help" -- "$current")
  elif [[ ${words[1]} == help ]]; then
    ((last == 2)) && mapfile -t COMPREPLY < <(
      compgen -W "$(_waldo_commands) schema plot commands schemas queries rows schedules messages" -- "$current"
    )
  elif [[ ${words[1]} == schema ]]; then
    compopt -o default 2>/dev/null
  elif [[ ${words[1]} == plot ]]; then
    if [[ $current == -* ]]; then
      mapfile -t COMPREPLY < <(compgen -W --svg -- "$current")
    else
      compopt -o default 2>/dev/null
    fi
  elif ((last == 2)); then
    :
  elif [[ $before == --query || $current == --query=* ]]; then
    # A query has spaces, so without an open quote the texts begin with one. Two texts at least are offered where there is any, so
    # that the shell doesn't close the quote behind them.
    [[ $before == --query ]] && value=$current || value=${current#--query=}
    [[ -n $_waldo_quote ]] || open='"'
    mapfile -t COMPREPLY < <(_waldo_queries "${words[1]}" "${words[2]}" "$value" | sed "s/^/$open/")
    compopt -o nospace 2>/dev/null
  elif [[ $before == --schedule || $current == --schedule=* ]]; then
    [[ $before == --schedule ]] && value=$current || value=${current#--schedule=}
    [[ -n $_waldo_quote ]] || open='"'
    mapfile -t COMPREPLY < <(_waldo_steps "$value" | sed "s/^/$open/")
    compopt -o nospace 2>/dev/null
  elif [[ $before == --* && $before != *=* ]]; then
    mapfile -t COMPREPLY < <(compgen -W "$(_waldo_numbers "${words[1]}" "$before")" -- "$current")
  elif [[ $current == --*=* ]]; then
    mapfile -t COMPREPLY < <(compgen -W "$(_waldo_numbers "${words[1]}" "${current%%=*}")" -- "${current#*=}")
  else
    mapfile -t COMPREPLY < <(compgen -W "$(_waldo_options "${words[1]}" "${words[@]:3:last-3}")" -- "$current")
  fi
}

complete -F _waldo waldo ./waldo
