#!/usr/bin/env zsh
# Prints what zsh offers at the end of a line, with a comma between two: an interactive zsh loads the completion, is sent the line and a
# Tab key, and a compadd of ours writes down what it is given.
zmodload zsh/zpty || exit 2
folder=${0:A:h}
heard=$(mktemp) || exit 2
zpty shell zsh -f -i
zpty -w shell "PS1=; fpath=(${(q)folder} \$fpath); autoload -U compinit; compinit -u -D; setopt no_beep; bindkey -e
compadd() {
  if [[ \${@[1,(i)(-|--)]} == *-(O|A|D)\ * ]]; then builtin compadd \"\$@\"; return; fi
  local -a hits; builtin compadd -A hits \"\$@\"; print -rl -- \$hits >>${(q)heard}; builtin compadd \"\$@\"
}
finish() { print fini''shed; BUFFER=; zle .accept-line; }
zle -N finish; bindkey '^G' finish; print rea''dy"
zpty -r -m shell line '*ready*'
zpty -n -w shell "$1"$'\t\a'
zpty -r -m shell line '*finished*'
zpty -d shell
LC_ALL=C sort -u $heard | grep -v '^$' | paste -sd , -
rm -f $heard
