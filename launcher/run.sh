# Runs the program, and hands on what it answered.

answer= status=0 child= ended=

# Starts a command whose output comes through stream 4 and whose input is stream 3. It waits for a word, since the shell may take its
# streams away as soon as it has ended.
start() {
  coproc CHILD { read -r; exec "$@" <&3 3<&-; }
  exec 4<&"${CHILD[0]}"
  child=$CHILD_PID
  trap 'pass_on TERM' TERM
  trap 'pass_on HUP' HUP
  trap 'pass_on INT' INT
  echo >&"${CHILD[1]}"
}

# A signal to the launcher is its child's as well. A child of the shell ignores INT.
pass_on() {
  local signal=$1
  ended=$1
  [[ $child == -* || $signal != INT ]] || signal=TERM
  kill -s "$signal" -- "$child" 2>/dev/null
}

# Waits for the child. A launcher that was told to end ends so too.
await() {
  { wait "${child#-}"; } 2>/dev/null
  status=$?
  if [ -n "$ended" ]; then
    { wait "${child#-}"; } 2>/dev/null
    trap - "$ended"
    kill -s "$ended" "$$"
  fi
  trap - TERM HUP INT
}

# The servers' cells come to some hundred MiB. In large pages, all from the heap, the system hands them out sooner; a C library that can't
# ask so goes on without. With the library bound at the start it is no chance whether large pages come: docs/DECISIONS.md says why.
# Under a limit on memory nothing is set, so that no answer hangs on it.
memory_setting=glibc.malloc.hugetlb=1:glibc.malloc.mmap_threshold=1073741824:glibc.malloc.trim_threshold=1073741824:glibc.malloc.arena_max=4
set_memory() {
  local overcommit= limits=
  [ -z "${GLIBC_TUNABLES+set}" ] || return
  read -r overcommit </proc/sys/vm/overcommit_memory
  [[ $overcommit == [01] ]] || return
  # Lines such as `Max data size  unlimited  unlimited  bytes`, the soft limit first. Read at once, since a line at a time takes longer.
  IFS= read -r -d '' limits </proc/self/limits
  [[ $limits == *'Max data size '+( )'unlimited '*'Max address space '+( )'unlimited '* ]] || return
  export GLIBC_TUNABLES=$memory_setting LD_BIND_NOW=1
} 2>/dev/null

# Says of a run that waits at a terminal what it waits for. Refused words are refused before anything is read.
announce() {
  local refused
  [ -t 0 ] && reads_rows "${1-}" || return
  refused=$("$built/waldo_cli" "$@" </dev/null 2>/dev/null)
  [[ $refused == 'waldo: '@(bad|missing)* ]] ||
    say "rows are read from the terminal, and end with Ctrl-D on a line of its own; those of a file come with < FILE"
}

run() {
  local piece=
  if [ -t 0 ]; then
    . "$home/launcher/words.sh"
    announce "$@"
  fi
  set_memory
  exec 3<&0
  start "$built/waldo_cli" "$@"
  while [ -z "$ended" ] && IFS= read -r -N 65536 -u 4 piece; do answer+=$piece; done
  answer+=$piece
  await
  finish "$@"
}

# Prints the answer, explains a status that isn't 0, and ends with it. Only status 0 becomes 4 where not all is taken.
finish() {
  trap '' PIPE
  if [ -n "$answer" ] && { [ -n "$closed_output" ] || ! printf %s "$answer"; } 2>/dev/null && [ "$status" -eq 0 ]; then
    status=4
  fi
  if [ "$status" -ne 0 ]; then
    . "$home/launcher/explain.sh"
    explain "$@"
  fi
  exit "$status"
}
