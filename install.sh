#!/bin/sh
# Installs Waldo for the shell: links to the launcher, to the man page and to the completions, in PREFIX, which is ~/.local where
# none is given. The links point here, so this folder has to stay. With --remove they are taken away again.
set -u
usage() { echo "usage: ./install.sh [--remove] [PREFIX]"; }

remove=
case ${1-} in
  --remove) remove=yes; shift ;;
  -h | --help) usage; exit 0 ;;
  -*) usage >&2; exit 2 ;;
esac
prefix=${1-${HOME:+$HOME/.local}}
if [ -z "$prefix" ] || [ $# -gt 1 ]; then
  echo "install.sh: HOME is not set, so name a folder" >&2
  usage >&2
  exit 1
fi
home=$(cd "$(dirname "$0")" && pwd -P && echo .) || exit 1
home=${home%??}
mkdir -p "$prefix" || exit 1
prefix=$(cd "$prefix" && pwd -P && echo .) || exit 1
prefix=${prefix%??}

# What is linked, and where.
links() {
  echo "waldo bin/waldo"
  echo "docs/waldo.1 share/man/man1/waldo.1"
  echo "completions/waldo.bash share/bash-completion/completions/waldo"
  echo "completions/_waldo share/zsh/site-functions/_waldo"
}

# Whether a place holds our link.
is_ours() { # from, to
  [ -L "$prefix/$2" ] && [ "$prefix/$2" -ef "$home/$1" ]
}

links | while read -r from to; do
  if is_ours "$from" "$to"; then
    rm -f -- "$prefix/$to"
  elif [ -e "$prefix/$to" ] || [ -L "$prefix/$to" ]; then
    [ -n "$remove" ] && continue
    echo "install.sh: $prefix/$to is there and is not ours: move it away first" >&2
    exit 1
  fi
  [ -n "$remove" ] && continue
  mkdir -p "$(dirname "$prefix/$to")" && ln -s -- "$home/$from" "$prefix/$to" || exit 1
done || exit 1

if [ -n "$remove" ]; then
  echo "removed from $prefix"
else
  echo "installed in $prefix; ./install.sh --remove takes it away"
  case :$PATH: in
    *":$prefix/bin:"*) ;;
    *) echo "$prefix/bin is not on your PATH: add it, and 'waldo' works everywhere" ;;
  esac
fi
