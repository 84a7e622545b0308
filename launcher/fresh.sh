# Freshness, for any POSIX shell. The program stands in built/ with a checksum of itself and of its sources: crates.txt, HANDLES, and the
# files in src and specs of each crate that it uses. It runs only where a new checksum is the same: so it never runs for other sources,
# and a copy of a built tree needs no build. Proofs are no part, since what was proved of the same code and statements stays proved.
#
# built/sources has the checksum, then those crates in which no folder stands deeper than src and specs, then all folders of the others.
# Names count besides contents, so a file or a folder that is new there is seen as well. So is a change of what is used: crates.txt has it.

# Lists the sources that `crates` and `folders` tell of: names from the top, then a line for each file with its checksum. The program's
# may stand behind them. A pattern that fits nothing counts as it is. Folders are kept from cksum, whose versions differ there: so
# where there are some a file needs an ending, as all sources have. Only a new shell may call this.
list_sources() { # [the program]
  program=${1-}
  cd -- "$home" || return
  files='crates.txt HANDLES' names=
  for crate in $crates; do files="$files crates/$crate/src/* crates/$crate/specs/*"; done
  for folder in $folders; do files="$files $folder/*.*" names="$names $folder/*"; done
  set -- $names
  printf '%s\n' "$*"
  set -- $files
  printf '%s\n' "$*"
  exec cksum "$@" $program
} </dev/null 2>/dev/null

is_fresh() {
  [ -x "$home/built/waldo_cli" ] && [ -r "$home/built/sources" ] || return
  kept= crates= folders=
  { read -r kept; read -r crates; read -r folders; } <"$home/built/sources" 2>/dev/null
  # In this language names have the same order for everyone, and the tools start soonest.
  [ -n "$kept" ] && [ "$(LC_ALL=C; export LC_ALL; list_sources built/waldo_cli | cksum)" = "$kept" ]
}
