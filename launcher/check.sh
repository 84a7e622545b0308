#!/usr/bin/env bash
# Attacks the launcher with a program and a prover that are fakes, in a copy of its files under an odd name. Nothing is proved or
# built here, and it takes some seconds. What a machine lacks is skipped with a line. Words name the checks to make, as `signals`.
set -u
cd "$(dirname "$0")/.." || exit 2
room=$(mktemp -d) || exit 2
trap 'chmod -R u+w -- "$room"; rm -rf -- "$room"' EXIT
unset GLIBC_TUNABLES
tree="$room/odd 'name\" with
a line feed"
failed=0 cases=0

is() { # what, wanted, got
  cases=$((cases + 1))
  [ "$2" = "$3" ] && return
  printf 'FAILED: %s\n  wanted %s\n  got    %s\n' "$1" "$2" "$3"
  failed=1
}
has() { # what, wanted part, got
  cases=$((cases + 1))
  [[ $3 == *"$2"* ]] && return
  printf 'FAILED: %s\n  wanted .. %s ..\n  got    %s\n' "$1" "$2" "$3"
  failed=1
}
skip() { echo "skipped, $1"; }
exists() { if [ -e "$1" ]; then echo yes; else echo no; fi; }

# The fake program says TEXT and ends with STATUS; it writes down that it ran, and sleeps if it is told to.
make_tree() {
  mkdir -p "$tree"/crates/{waldo_cli/src,low/src,low/specs/deep,spare/src} "$tree/built" "$room/bin"
  cp -r waldo launcher docs README.md install.sh completions "$tree"
  echo 'Handles allowed: none.' >"$tree/HANDLES"
  printf 'low:\nspare: low\nwaldo_cli: low\n' >"$tree/crates.txt"
  echo 'fn main() {}' | tee "$tree"/crates/{waldo_cli/src/main.rt,low/src/lib.rt,spare/src/lib.rt} >"$tree/crates/low/specs/deep/words.rt"
  # Names that languages put in orders of their own, and odd ones.
  echo '// more' | tee "$tree"/crates/low/src/{Ab,a_b,aB,ab,Äb,-n,'a b','a\b',"a'b"}.rt >/dev/null
  cat >"$room/program" <<'PROGRAM'
#!/bin/sh
echo $$ >>"$ROOM/ran"
echo "${GLIBC_TUNABLES-none}" >"$ROOM/settings"
[ -z "${SLEEP-}" ] || exec sleep 60
[ -z "${READ-}" ] || cat
printf "${TEXT-answer\n}"
exit "${STATUS-0}"
PROGRAM
  cat >"$room/bin/rt" <<'PROVER'
#!/bin/sh
echo "$PWD: $*" >>"$ROOM/proved"
[ -z "${SLEEP_RT-}" ] || { echo $$ >"$ROOM/rt"; sleep 60; }
[ -z "${BREAK-}" ] || { echo "error: a goal is open"; exit 1; }
[ -z "${EDIT-}" ] || echo '// more' >>../low/src/lib.rt
sleep 0.3
mkdir -p out
{ cat "$ROOM/program"; echo "# built"; } >out/waldo_cli
chmod +x out/waldo_cli
echo 'ask 0 rows 1 count 1'
PROVER
  chmod +x "$room/program" "$room/bin/rt"
  export ROOM=$room PATH=$room/bin:$PATH
  place
}

# Puts the fake program into the tree as one that was built of its sources.
place() {
  [ -f "$tree/built/sources" ] || rm -rf -- "$tree/built/sources"
  mkdir -p "$tree/built"
  cp "$room/program" "$tree/built/waldo_cli"
  (
    home=$tree built=$tree/built
    . "$tree/launcher/fresh.sh"
    . "$tree/launcher/build.sh"
    find_sources $(crates_in_order)
    keep_checksum "$(sources_now built/waldo_cli)"
  )
  rm -f "$room/ran" "$room/proved"
}

# Runs the launcher: text, lines and status are left in `out`, `err` and `status`.
call() {
  out=$("$tree/waldo" "$@" 2>"$room/err" </dev/null; echo ":$?")
  status=${out##*:} out=${out%:*} err=$(cat "$room/err")
}

check_writes() {
  local command text
  for command in ask replay race make trace; do
    for text in 0:4 2:2 3:3 5:5 6:6 7:7; do
      STATUS=${text%:*} "$tree/waldo" $command host:2 >/dev/full 2>/dev/null </dev/null
      is "a full disk, $command, status ${text%:*}" "${text#*:}" $?
      STATUS=${text%:*} "$tree/waldo" $command host:2 >&- 2>/dev/null </dev/null
      is "a closed output, $command, status ${text%:*}" "${text#*:}" $?
    done
  done
  STATUS=5 "$tree/waldo" ask host:2 2>/dev/null </dev/null | :
  is "a reader that has ended, status 5" 5 "${PIPESTATUS[0]}"
  TEXT= "$tree/waldo" ask host:2 >/dev/full 2>/dev/null </dev/null
  is "nothing to write to a full disk" 0 $?
  "$tree/waldo" help >/dev/full 2>"$room/err"
  is "help to a full disk" "4 1" "$? $(wc -l <"$room/err")"
  out=$(TEXT='a\n\nb\n\n\n' "$tree/waldo" ask </dev/null; echo .)
  is "line feeds at the end of a text" $'a\n\nb\n\n\n.' "$out"
}

check_streams() {
  READ=yes "$tree/waldo" ask host:2 <&- >/dev/null 2>"$room/err"
  has "a closed input is one that can't be read" "cat" "$(cat "$room/err")"
  STATUS=3 "$tree/waldo" ask host:2 <&- >&- 2>&-
  is "all streams closed" 3 $?
  is "an input comes through" "rows" "$(printf rows | READ=yes TEXT= "$tree/waldo" ask host:2)"
}

# Waits until a file is there, for ten seconds at most.
wait_for() {
  local turn
  for turn in {1..100}; do [ -s "$1" ] && return; sleep 0.1; done
  echo "FAILED: $1 did not come"
  failed=1
}

# The fakes sleep for a minute, which nothing waits for.
check_signals() {
  local signal child launcher start=$SECONDS
  local signals=TERM:143
  [[ $(trap -p HUP) ]] || signals+=" HUP:129" # a caller that ignores HUP, such as nohup, hands that on
  for signal in $signals; do
    rm -f "$room/ran"
    SLEEP=yes "$tree/waldo" ask host:2 >/dev/null 2>&1 </dev/null &
    launcher=$!
    wait_for "$room/ran"
    kill -s "${signal%:*}" $launcher
    { wait $launcher; } 2>/dev/null
    is "the launcher ends by ${signal%:*}" "${signal#*:}" $?
    child=$(tail -n 1 "$room/ran")
    is "${signal%:*} reaches the program" no "$(kill -0 "$child" 2>/dev/null && echo yes || echo no)"
  done
  rm -f "$room/ran"
  SLEEP=yes bash -c 'trap - INT; exec "$0" ask host:2' "$tree/waldo" >/dev/null 2>&1 </dev/null &
  launcher=$!
  wait_for "$room/ran"
  kill -s TERM "$(tail -n 1 "$room/ran")"
  { wait $launcher; } 2>/dev/null
  is "a program that a signal ends gives its status" 143 $?
  echo '// changed' >>"$tree/crates/low/src/lib.rt"
  rm -f "$room/rt"
  SLEEP_RT=yes "$tree/waldo" ask host:2 >/dev/null 2>&1 </dev/null &
  launcher=$!
  wait_for "$room/rt"
  kill -s TERM $launcher
  { wait $launcher; } 2>/dev/null
  is "the launcher ends by TERM in a build" 143 $?
  is "TERM reaches the prover" no "$(kill -0 "$(cat "$room/rt")" 2>/dev/null && echo yes || echo no)"
  is "all of these end at once" yes "$([ $((SECONDS - start)) -lt 50 ] && echo yes || echo no)"
  place
}

check_interrupt() {
  local code='import os, signal, subprocess, sys
signal.signal(signal.SIGINT, signal.SIG_DFL)
child = subprocess.Popen(sys.argv[1:], stdin=subprocess.DEVNULL, stdout=subprocess.DEVNULL, stderr=subprocess.DEVNULL)
import time
for turn in range(100):
    if os.path.exists(os.environ["ROOM"] + "/ran"): break
    time.sleep(0.1)
child.send_signal(signal.SIGINT)
print(child.wait())'
  command -v python3 >/dev/null || { skip "since there is no python3: INT"; return; }
  rm -f "$room/ran"
  is "the launcher ends by INT" -2 "$(SLEEP=yes python3 -c "$code" "$tree/waldo" ask host:2)"
  is "INT ends the program" no "$(kill -0 "$(tail -n 1 "$room/ran")" 2>/dev/null && echo yes || echo no)"
}

check_terminal() {
  local code='import os, pty, sys
child, stream = pty.fork()
if child == 0: os.execv(sys.argv[1], sys.argv[1:])
os.write(stream, b"rows\n\x04")
heard = b""
try:
    while True:
        piece = os.read(stream, 4096)
        if not piece: break
        heard += piece
except OSError: pass
os.waitpid(child, 0)
sys.stdout.write(heard.decode())'
  command -v python3 >/dev/null || { skip "since there is no python3: a terminal"; return; }
  out=$(READ=yes python3 -c "$code" "$tree/waldo" ask host:2)
  has "a run that waits at a terminal says so" "rows are read from the terminal" "$out"
  has "and reads from it" "answer" "$out"
  out=$(READ=yes python3 -c "$code" "$tree/waldo" race host:2)
  has "so does a race" "rows are read from the terminal" "$out"
  out=$(python3 -c "$code" "$tree/waldo" make host:2)
  is "make waits for nothing" no "$([[ $out == *terminal* ]] && echo yes || echo no)"
  out=$(TEXT='waldo: bad word 1\n' STATUS=2 python3 -c "$code" "$tree/waldo" ask host:9)
  is "a refused word waits for nothing" no "$([[ $out == *terminal* ]] && echo yes || echo no)"
}

check_freshness() {
  local copy=$room/copy
  call ask host:2
  is "a fresh program runs" "answer:0" "${out%$'\n'}:$status"
  touch "$tree/crates/low/src/lib.rt"
  PATH=${PATH#*:} call ask host:2
  is "a later file time changes nothing" 0 "$status"
  cp -r -- "$tree" "$copy"
  is "a copy of a built tree runs without the toolchain" answer "$(PATH=${PATH#*:} "$copy/waldo" ask host:2 </dev/null)"
  rm -rf -- "$copy"
  rm -f "$room/ran"
  echo '// changed' >>"$tree/crates/low/specs/deep/words.rt"
  touch -d '2001-01-01' "$tree/crates/low/specs/deep/words.rt"
  BREAK=yes call ask host:2
  is "a failed proof gives status 1" 1 "$status"
  is "a stale program does not run" no "$(exists "$room/ran")"
  is "the old program stays" yes "$(exists "$tree/built/waldo_cli")"
  has "the old program is named" "the program in built/ is of older sources, so it stays there and is not run" "$err"
  has "the prover's words are shown" "a goal is open" "$err"
  PATH=/usr/bin:/bin call ask host:2
  is "no toolchain gives status 1" 1 "$status"
  has "no toolchain is said" "command rt is not on the PATH" "$err"
  EDIT=yes call ask host:2
  has "sources that change during a build" "changed during the build" "$err"
  is "and the program does not run" "1 no" "$status $(exists "$room/ran")"
  call ask host:2
  is "after a build the new program runs" "answer:0" "${out%$'\n'}:$status"
  has "the build says how many crates" "proving and building its 2 crates" "$err"
  has "and how long it takes" "is estimated at half an hour" "$err"
  has "the new program is in its place" "# built" "$(tail -n 1 "$tree/built/waldo_cli")"
  rm -f "$room/proved"
  call ask host:2
  is "a second call builds nothing" no "$(exists "$room/proved")"
  echo '// other' >>"$tree/built/waldo_cli"
  call ask host:2
  is "another program in its place is not run, but built anew" yes "$(exists "$room/proved")"
  is "nothing is left over in built/" "sources waldo_cli" "$(ls "$tree/built" | paste -sd ' ' -)"
  place
}

# Makes a change in the sources, then looks whether a call builds, and whether the fresh tree runs again.
sees() { # what, wanted, command ..
  local what=$1 wanted=$2
  shift 2
  rm -f "$room/proved" "$room/ran"
  (cd -- "$tree/crates" && "$@") || { echo "FAILED: $what could not be made"; failed=1; }
  BREAK=yes call ask host:2
  is "$what: the call builds" "$wanted" "$(exists "$room/proved")"
  is "$what: the old program runs only where it doesn't" "$([ "$wanted" = no ] && echo yes || echo no)" "$(exists "$room/ran")"
  place
}

same_size_and_time() {
  cp -p low/src/lib.rt "$room/before" && tr m n <"$room/before" >low/src/lib.rt && touch -r "$room/before" low/src/lib.rt &&
    [ "$(stat -c '%s %y' low/src/lib.rt)" = "$(stat -c '%s %y' "$room/before")" ] && ! cmp -s low/src/lib.rt "$room/before"
}
swap() { mv low/src/lib.rt low/src/held && mv low/src/ab.rt low/src/lib.rt && mv low/src/held low/src/ab.rt; }
in_new_folder() { mkdir -p "$1" && echo '// new' >"$1/words.rt"; }
old_times() { find . -exec touch -d 2001-01-01 {} +; }

halve() { head -c $(($(wc -c <"$1") / 2)) "$1" >"$room/half" && mv "$room/half" "$1"; }

check_sources() {
  local folder
  sees "no change" no :
  sees "a source of the same size and time" yes same_size_and_time
  sees "two sources whose contents are swapped" yes swap
  sees "a new file in src" yes touch low/src/new.rt
  sees "a new file in src, its folder's time set back" yes eval "touch low/src/newer.rt; old_times"
  sees "a new file without an ending" yes touch waldo_cli/src/new
  sees "the first file in specs" yes eval "mkdir waldo_cli/specs; touch waldo_cli/specs/Lib.antt"
  sees "a new file in a deeper folder" yes touch low/specs/deep/new.rt
  sees "a new folder with a file" yes in_new_folder low/src/folder
  sees "a new folder in a deeper one" yes in_new_folder low/specs/deep/deepest
  sees "a file that is changed there" yes eval "echo >>low/specs/deep/deepest/words.rt"
  sees "a file under an odd name" yes eval "echo >>'low/src/a b.rt'"
  sees "a file under a name that is no option" yes eval "echo >>low/src/-n.rt"
  sees "a file whose name has a backslash" yes eval "echo >>'low/src/a\\b.rt'"
  sees "a file with another name" yes mv low/src/newer.rt low/src/newest.rt
  sees "a removed file" yes rm low/src/newest.rt
  sees "an empty file that is removed" yes rm low/src/new.rt
  sees "a removed folder" yes rm -r low/specs/deep/deepest
  sees "times that are set back" no old_times
  sees "a proof" no in_new_folder low/proofs
  sees "a crate that the program doesn't use" no eval "echo >>spare/src/lib.rt; touch spare/src/new.rt"
  sees "a crate that it uses from now on" yes eval "printf 'low:\nspare: low\nwaldo_cli: low spare\n' >../crates.txt"
  sees "that crate, changed" yes eval "echo >>spare/src/lib.rt"
  sees "a crate without a use" yes eval "printf 'low:\nspare: low\nwaldo_cli: low\n' >../crates.txt"
  sees "HANDLES" yes eval "echo >>../HANDLES"
  for folder in /dev/null "$tree/HANDLES"; do sees "a list of sources that is ${folder##*/}" yes cp "$folder" ../built/sources; done
  sees "a list of sources that ends early" yes eval "sed -i 1q ../built/sources"
  sees "a list of sources that is cut in half" yes halve ../built/sources
  sees "a list of sources with a quote" yes eval "echo \"x='\" >../built/sources"
  sees "a list of sources with patterns" yes eval "printf '%s\n' '1 2' '*' '* ../*' >../built/sources"
  sees "a list of sources without a checksum" yes eval "sed -i 1s/.*// ../built/sources"
  sees "no list of sources" yes rm ../built/sources
  sees "a folder in the list's place" yes eval "rm -f ../built/sources; mkdir ../built/sources"
}

# Each shell and language that is there finds the same program fresh.
check_shells() {
  local shell language
  for shell in bash "bash --posix" dash "busybox sh" ksh mksh yash; do
    command -v ${shell%% *} >/dev/null || continue
    rm -f "$room/proved"
    is "by $shell" "answer no" "$($shell "$tree/waldo" ask host:2 2>/dev/null </dev/null) $(exists "$room/proved")"
  done
  for language in C POSIX $(locale -a 2>/dev/null | grep -iE '^(C|en_US|de_DE)\.utf-?8$'); do
    rm -f "$room/proved"
    is "in $language" "answer no" "$(LC_ALL=$language "$tree/waldo" ask host:2 2>/dev/null </dev/null) $(exists "$room/proved")"
  done
  is "with variables of these names" answer "$(BASH_VERSION=5.2 IFS=/ LC_ALL= crates=x folders=x kept=x part=help home=/ \
    "$tree/waldo" ask host:2 </dev/null)"
  mkdir -p "$room/few" && ln -sf "$(command -v cksum)" "$(command -v readlink)" "$room/few"
  out=$(PATH=$room/few /bin/sh "$tree/waldo" ask host:2 2>&1 </dev/null; echo "$?")
  [ -n "$(/bin/sh -c 'echo "${BASH_VERSION-}"')" ] ||
    is "without bash: one line and status 1" $'waldo: the launcher wants bash, which is not on the PATH\n1' "$out"
  rm -f "$room/few/cksum" "$room/ran"
  ln -sf "$(command -v bash)" "$(command -v awk)" "$room/few"
  PATH=$room/few /bin/sh "$tree/waldo" ask host:2 >/dev/null 2>&1 </dev/null
  is "without cksum nothing runs" "1 no" "$? $(exists "$room/ran")"
  echo >"$tree/built/sources"
  PATH=$room/few /bin/sh "$tree/waldo" ask host:2 >/dev/null 2>&1 </dev/null
  is "nor with an empty list of sources" "1 no" "$? $(exists "$room/ran")"
  place
}

check_two_builds() {
  rm -rf -- "$tree/built"
  "$tree/waldo" ask host:2 >"$room/one" 2>/dev/null </dev/null &
  "$tree/waldo" ask host:2 >"$room/two" 2>/dev/null </dev/null
  wait
  is "two builds at once" "answer answer" "$(cat "$room/one" "$room/two" | paste -sd ' ' -)"
  place
}

check_read_only() {
  local as=()
  if [ "$(id -u)" = 0 ]; then
    if ! command -v setpriv >/dev/null; then
      skip "since root may write everywhere and there is no setpriv: a tree that can't be written"
      return
    fi
    as=(setpriv --reuid 65534 --regid 65534 --clear-groups)
    chmod 755 "$room"
  fi
  chmod -R a-w,a+rX -- "$tree"
  is "a built tree that can't be written" answer "$(ROOM=/nonexistent "${as[@]}" "$tree/waldo" ask host:2 2>/dev/null </dev/null)"
  chmod u+w "$tree/HANDLES"
  echo >>"$tree/HANDLES"
  out=$(ROOM=/nonexistent "${as[@]}" "$tree/waldo" ask host:2 2>&1 </dev/null; echo "$?")
  has "a changed tree that can't be written" "the folder built/ can't be written" "$out"
  is "and its status" 1 "${out##*$'\n'}"
  chmod -R u+w -- "$tree"
  place
}

check_memory() {
  local overcommit=
  { read -r overcommit </proc/sys/vm/overcommit_memory; } 2>/dev/null
  (ulimit -v 100000 && "$tree/waldo" ask host:2 >/dev/null </dev/null)
  is "no memory settings where memory is limited" none "$(cat "$room/settings")"
  (ulimit -d 100000 && "$tree/waldo" ask host:2 >/dev/null </dev/null)
  is "no memory settings where data is limited" none "$(cat "$room/settings")"
  GLIBC_TUNABLES=mine call ask host:2
  is "the user's memory settings stay" mine "$(cat "$room/settings")"
  (ulimit -v 30000 && "$tree/waldo" ask host:2 >"$room/one" </dev/null)
  is "30,000 KB are enough" answer "$(cat "$room/one")"
}

check_no_proc() {
  if ! unshare -rm mount -t tmpfs none /proc 2>/dev/null; then
    skip "since this user may not mount: a system without /proc"
    return
  fi
  local hide='mount -t tmpfs none /proc && exec "$0" ask host:2'
  is "without /proc" "rows" "$(printf rows | READ=yes TEXT= unshare -rm sh -c "$hide" "$tree/waldo")"
  rm -rf -- "$tree/built"
  is "a build without /proc" "answer" "$(unshare -rm sh -c "$hide" "$tree/waldo" 2>/dev/null </dev/null)"
  place
}

check_places() {
  local folder=$room/links
  mkdir -p "$folder" && ln -s "$tree/waldo" "$folder/waldo" && ln -s waldo "$folder/again"
  is "through two links" answer "$("$folder/again" ask host:2 </dev/null)"
  is "by the PATH" answer "$(PATH=$folder:$PATH waldo ask host:2 </dev/null)"
  has "through a link its name has no folder" "See 'waldo help commands'" "$(TEXT='waldo: bad word 0\n' STATUS=2 "$folder/waldo" asc 2>&1)"
  is "from its own folder" answer "$(cd "$tree" && ./waldo ask host:2 </dev/null)"
  is "by bash without a folder" answer "$(cd "$tree" && bash waldo ask host:2 </dev/null)"
  is "by sh" answer "$(sh "$tree/waldo" ask host:2 </dev/null)"
  is "without HOME" answer "$(env -u HOME "$tree/waldo" ask host:2 </dev/null)"
  is "with a CDPATH and a name of its own folder" answer "$(cd "$room" && CDPATH=$room:/tmp "${tree##*/}/waldo" ask host:2 </dev/null)"
  is "in POSIX mode" answer "$(POSIXLY_CORRECT=1 "$tree/waldo" ask host:2 </dev/null)"
  cp "$tree/waldo" "$folder/alone"
  out=$("$folder/alone" ask host:2 2>&1 </dev/null; echo "$?")
  has "a copy that stands alone" "stands alone" "$out"
  is "and its one line and status" "2 1" "$(wc -l <<<"$out") ${out##*$'\n'}"
}

check_no_build() {
  local words
  rm -rf -- "$tree/built" "$room/proved"
  for words in help -h --help --version "help commands" "help schemas" "help queries" "help rows" "help schedules" "help messages" \
    "help schema" "help plot" "ask --help" "replay -h" "race --help" "race help" "make help" "help ask" "help race" "help trace" \
    "help groups" "groups --help"; do
    call $words
    is "$words has text, status 0 and no line" "0::yes" "$status:$err:$([ ${#out} -gt 40 ] && echo yes)"
  done
  call help race
  has "help on race has its options" "--writers N" "$out"
  is "and is what race --help says" "$("$tree/waldo" race --help)" "${out%$'\n'}"
  call frobnicate host:2
  is "an unknown command" "waldo: bad word 0:2" "${out%$'\n'}:$status"
  call
  is "no words" "waldo: missing command:2" "${out%$'\n'}:$status"
  call help frobnicate
  is "help on nothing" ":2" "$out:$status"
  is "none of these starts a build" no "$(exists "$room/proved")"
  place
}

# The line for a text and a status of the program, with words: `text|status|words, as the shell reads them|the line`.
check_lines() {
  local text wanted words
  while IFS='|' read -r text wanted words line; do
    [ -n "$text" ] || continue
    eval "set -- $words"
    TEXT=$text\\n STATUS=$wanted call "$@"
    is "$words, text and status" "$(printf "$text\\n."):$wanted" "$out.:$status"
    has "$words, its line" "$line" "$err"
    is "$words, one line of at most 300 bytes" "1 yes" "$(wc -l <"$room/err") $([ ${#err} -le 300 ] && echo yes)"
  done <"$tree/launcher/lines.txt"
}

check_install() {
  local prefix="$room/pre fix"
  "$tree/install.sh" "$prefix" >/dev/null
  is "the installed command runs" answer "$("$prefix/bin/waldo" ask host:2 </dev/null)"
  is "the man page and completions are there" "yes yes yes" "$(exists "$prefix/share/man/man1/waldo.1") $(
    exists "$prefix/share/bash-completion/completions/waldo") $(exists "$prefix/share/zsh/site-functions/_waldo")"
  "$tree/install.sh" "$prefix" >/dev/null
  is "a second install" 0 $?
  "$tree/install.sh" --remove "$prefix" >/dev/null
  is "after the removal nothing is left" "" "$(find "$prefix" ! -type d)"
  mkdir -p "$prefix/bin" && echo mine >"$prefix/bin/waldo"
  "$tree/install.sh" "$prefix" >/dev/null 2>&1
  is "a file of the user's is left alone" "1 mine" "$? $(cat "$prefix/bin/waldo")"
  env -u HOME "$tree/install.sh" >/dev/null 2>"$room/err"
  is "no HOME and no prefix" 1 $?
}

check_schema() {
  local file="$room/a 'file.csv"
  printf 'Time Of,state,Load\n1700000000,ok,1.5\n1700003600,bad,2\n1700007200,ok,2.25\n' >"$file"
  call schema "$file"
  is "a schema's status" 0 "$status"
  has "a schema for a CSV file" "time_of:2@1699999200/3600,state:1" "$out"
  has "what is lost" "always 3600 apart; nothing is lost" "$out"
  is "its command makes rows of the file" "time_of,state,value 1700000000,1,150 1700003600,0,200 1700007200,1,225" \
    "$(cd "$tree" && READ=yes TEXT= bash -c "$(sed -n '/^  awk/,$p' <<<"$out")" | paste -sd ' ' -)"
  call schema "$file" nothing
  is "a column that isn't there" 2 "$status"
  printf 'day,value\n0,-45\n1,30\n' >"$file"
  call schema "$file"
  has "values below zero" "-45 to 30" "$out"
  has "which need no change" "ask day:1 --query \"count day=0\" < " "$out"
  printf 'a,b,c,d,e,f,g,Degrees\n0,1,0,1,0,1,0,-4.5\n1,1,0,1,0,1,0,-0.25\n' >"$file"
  call schema "$file"
  has "six columns and decimals below zero" "a:1,b:1,c:1,d:1,e:1,f:1 --query" "$out"
  has "the seventh is left out" "g is left out: a schema has at most six columns" "$out"
  is "its command makes whole numbers" "a,b,c,d,e,f,value 0,1,0,1,0,1,-450 1,1,0,1,0,1,-25" \
    "$(cd "$tree" && READ=yes TEXT= bash -c "$(sed -n '/^  awk/,$p' <<<"$out")" | paste -sd ' ' -)"
  printf 'day,value\n0,-4294967296\n' >"$file"
  call schema "$file" day value
  is "a value that is too far below zero" "2 1" "$status $(grep -c 'from -4294967295 to 4294967295' <<<"$err")"
  call schema /nonexistent
  is "a file that isn't there" 3 "$status"
}

# Four buckets of a sum, as groups prints them: 0, 20, 0 and 15.
totals() { printf 'group 0 bucket %s rows 3 sum %s\n' 0 0 1 20 2 0 3 15; }

check_plot() {
  local folder="$room/pic tures" here="$room/a 'text with
a line feed" wanted
  mkdir -p "$folder"
  totals >"$here"
  wanted='query 0: sum by bucket, over 3 rows
bucket 0 | 0
bucket 1 |################################################## 20
bucket 2 | 0
bucket 3 |###################################### 15
         +------------------------+------------------------+
         0                       10                       20'
  call plot "$here"
  is "bars of a file under an odd name" "$wanted:0:" "${out%$'\n'}:$status:$err"
  is "bars of a pipe" "$wanted" "$(totals | "$tree/waldo" plot)"
  is "bars of a named pipe" "$wanted" "$("$tree/waldo" plot <(totals) </dev/null)"
  rm -rf -- "$tree/built" "$room/proved"
  call plot "$here" --svg "$folder/-a 'b.svg"
  is "with a picture, the same bars" "$wanted:0:" "${out%$'\n'}:$status:$err"
  is "neither needs a build" no "$(exists "$room/proved")"
  place
  is "the picture is whole" "</svg>" "$(tail -n 1 "$folder/-a 'b.svg")"
  has "it has a title" ">query 0: sum by bucket, over 3 rows</text>" "$(cat "$folder/-a 'b.svg")"
  has "a scale" ">15</text>" "$(cat "$folder/-a 'b.svg")"
  has "and each total" "<title>bucket 3: 15</title>" "$(cat "$folder/-a 'b.svg")"
  is "nothing is left beside it" "-a 'b.svg" "$(ls -A "$folder")"
  is "others may read it as the umask says" 640 "$(cd "$folder" && umask 027 && "$tree/waldo" plot "$here" --svg=-x.svg >/dev/null </dev/null && stat -c %a ./-x.svg)"
  check_plot_totals
  check_plot_negative
  check_plot_lines
  check_plot_words
  check_plot_writes
}

check_plot_totals() {
  local most=9223372036854775807
  out=$(printf 'group 0 bucket 0 rows 65536 sum %s\ngroup 0 bucket 1 rows 65536 sum 1\n' $most | "$tree/waldo" plot)
  has "the greatest total, digit by digit" " $most" "$out"
  has "its scale" "5000000000000000000     10000000000000000000" "$out"
  has "a total that is too small for its bar" "bucket 1 |. 1" "$out"
  is "no rows" "2 1" "$(printf 'group 0 bucket %s rows 0 count 0\n' 0 1 | "$tree/waldo" plot | grep -c '| 0$') $(
    printf 'group 0 bucket %s rows 1 count 0\n' 0 1 | "$tree/waldo" plot | grep -c 'over 1 row$')"
  is "256 buckets" "256 64" "$(for ((i = 0; i < 256; i++)); do echo "group 0 bucket $i rows 9 count 9"; done |
    "$tree/waldo" plot --svg "$room/wide.svg" | grep -c '#') $(grep -o '<rect' "$room/wide.svg" | wc -l | awk '{ print int($1 / 4) }')"
  out=$(printf 'group 0 bucket 0 altered total 16 weighted 7\ngroup 0 bucket 1 rows 3 sum 4\n' |
    "$tree/waldo" plot --svg "$room/refused.svg" 2>"$room/err"; echo "$?")
  is "a refused bucket has status 7" 7 "${out##*$'\n'}"
  has "and is said to be refused" "bucket 0 | refused: the check found it altered" "$out"
  has "the others are drawn" "bucket 1 |######################################## 4" "$out"
  is "its line" 1 "$(wc -l <"$room/err")"
  has "in the picture too" "bucket 0: refused" "$(cat "$room/refused.svg")"
}

# A negative total has its bar to the left of the axis at 0, or below it in the picture.
check_plot_negative() {
  local wanted='query 0: sum by bucket, over 4 rows
bucket 0                          | 0
bucket 1                          |######################### 20
bucket 2       ###################| -15
bucket 3                         #| -1
         +------------------------+------------------------+
        -20                       0                       20'
  negative() { printf 'group 0 bucket %s rows 4 sum %s\n' "$@"; }
  is "totals on both sides of 0" "$wanted" "$(negative 0 0 1 20 2 -15 3 -1 | "$tree/waldo" plot --svg "$room/both.svg")"
  has "a bar above the axis" 'y="50.00" width="120.00" height="120.00" fill="#36c"><title>bucket 1: 20</title>' "$(cat "$room/both.svg")"
  has "a bar below the axis" 'y="170.00" width="120.00" height="90.00" fill="#36c"><title>bucket 2: -15</title>' "$(cat "$room/both.svg")"
  has "the axis at 0" "M190 170H830" "$(cat "$room/both.svg")"
  has "a scale on both sides" ">-20</text>" "$(cat "$room/both.svg")"
  wanted='query 0: sum by bucket, over 4 rows
bucket 0 ##################################################| -5
bucket 1                                                   | 0
         +------------------------+------------------------+
        -5                      -2.5                       0'
  is "no total above 0" "$wanted" "$(negative 0 -5 1 0 | "$tree/waldo" plot --svg "$room/below.svg")"
  has "in the picture" 'y="50.00" width="240.00" height="240.00" fill="#36c"><title>bucket 0: -5</title>' "$(cat "$room/below.svg")"
  out=$(negative 0 -9223372036854775807 1 -1 | "$tree/waldo" plot)
  has "the least total, digit by digit" "#| -9223372036854775807" "$out"
  has "a negative total that is too small for its bar" " .| -1" "$out"
}

# A wrong text has status 5 and one line that names the place: `the text, as printf reads it|part of the line`.
check_plot_lines() {
  local text line
  while IFS='|' read -r text line; do
    out=$(printf "$text" | "$tree/waldo" plot --svg "$room/none.svg" 2>"$room/err"; echo "$?")
    is "plot of $text" "5 1" "$out $(wc -l <"$room/err")"
    has "its line" "$line" "$(cat "$room/err")"
  done <<'LINES'
|there is no line
\n|line 1 is no line that groups prints
waldo: bad word 3\n|groups refused its words or its rows: 'waldo: bad word 3'
ask 0 rows 3 sum 35\n|line 1 is no line that groups prints: 'ask 0 rows 3 sum 35'
group 0 bucket 0 rows 3 sum 1\ngroup 0 bucket 1 rows 3 sum 1|the last line has no end
group 0 bucket 0 rows 3 sum 1\n|query 0 ends with bucket 0
group 0 bucket 0 rows 3 sum 1\ngroup 0 bucket 1 rows 3 sum 1\ngroup 0 bucket 2 rows 3 sum 1\n|query 0 ends with bucket 2
group 0 bucket 0 rows 3 sum 1\ngroup 0 bucket 2 rows 3 sum 1\n|line 2 has bucket 2 of query 0 where bucket 1 of query 0
group 0 bucket 1 rows 3 sum 1\n|line 1 has bucket 1 of query 0 where bucket 0 of query 0
group 1 bucket 0 rows 3 sum 1\n|line 1 begins query 1 where query 0
group 0 bucket 0 rows 3 sum 1\ngroup 0 bucket 1 rows 4 sum 1\n|line 2 has 4 rows and a sum, and an earlier line of query 0 has 3 rows
group 0 bucket 0 rows 3 sum 1\ngroup 0 bucket 1 rows 3 count 1\n|an earlier line of query 0 has 3 rows and a sum
group 0 bucket 0 rows 3 count 4\n|line 1 counts 4 of 3 rows
group 0 bucket 0 rows 3 count -1\n|line 1 counts -1 of 3 rows
group 0 bucket 0 rows 3 sum 9223372036854775808\n|line 1 is no line
group 0 bucket 0 rows 3 sum -9223372036854775808\n|line 1 is no line
group 0 bucket 0 rows 65537 sum 1\n|line 1 is no line
group 0 bucket 0 rows 3 sum 01\n|line 1 is no line
group 0 bucket 0 rows 3 sum 1e3\n|line 1 is no line
group 0 bucket 0 rows 3 sum -0\n|line 1 is no line
group 0 bucket 0 rows 3 sum -01\n|line 1 is no line
group 0 bucket 0 rows 3 sum --1\n|line 1 is no line
group 0 bucket 0  rows 3 sum 1\n|line 1 is no line
group 0 bucket 0 rows 3 sum 1 \n|line 1 is no line
group 0 bucket 0 rows 3 sum 1\r\n|line 1 is no line
group 0 bucket 0 altered total 340282366920938463463374607431768211456 weighted 0\n|line 1 is no line
\033[31mgroup\n|'?[31mgroup'
group 0 bucket 0 rows 3\000 sum 1\n|has a byte 0
LINES
  is "none of these leaves a picture" no "$(exists "$room/none.svg")"
  head -c 600000 /dev/zero | tr '\0' x | "$tree/waldo" plot >/dev/null 2>"$room/err"
  is "a text without an end" "5 1" "$? $(wc -l <"$room/err")"
  out=$(yes "group 0 bucket 0 rows 3 sum 1" | "$tree/waldo" plot 2>&1; echo "$?")
  has "a text that never ends" "more than 500000 bytes" "$out"
}

# Wrong words have status 2 and one line: `the words|part of the line`.
check_plot_words() {
  local words line
  while IFS='|' read -r words line; do
    eval "set -- $words"
    call plot "$@"
    is "plot $words" "2:1" "$status:$(wc -l <"$room/err")"
    has "its line" "$line" "$err"
  done <<'WORDS'
--svg|--svg needs the name of the file
--svg=|--svg needs the name of the file
--svg a --svg b|a second --svg
--png a|'--png' is no option of plot
a b|plot reads one file
''|is empty
WORDS
  call plot /nonexistent
  is "a file that isn't there" "3:1" "$status:$(wc -l <"$room/err")"
  call plot "$room"
  is "a folder" "3:1" "$status:$(wc -l <"$room/err")"
  call plot --help
  is "help on plot" 0 "$status"
  has "has its option" "--svg FILE" "$out"
}

check_plot_writes() {
  local old="$room/old.svg"
  totals | "$tree/waldo" plot >/dev/full 2>/dev/null
  is "a full disk, plot" 4 $?
  totals | "$tree/waldo" plot >&- 2>/dev/null
  is "a closed output, plot" 4 $?
  totals | "$tree/waldo" plot --svg "$room/nowhere/x.svg" >"$room/one" 2>"$room/err"
  is "a picture in no folder: status, bars and lines" "4 0 1" "$? $(wc -l <"$room/one") $(wc -l <"$room/err")"
  echo old >"$old"
  (
    trap '' XFSZ
    ulimit -f 0
    totals | "$tree/waldo" plot --svg "$old" 2>/dev/null | cat >/dev/null
    exit "${PIPESTATUS[1]}"
  )
  is "no room for the picture: the old one stays" "4 old" "$? $(cat "$old")"
  is "and nothing beside it" "" "$(find "$room" -maxdepth 1 -name '.waldo-plot*')"
  totals | "$tree/waldo" plot --svg "$old" >/dev/null
  has "a picture takes the old one's place" "<svg" "$(cat "$old")"
  for old in /dev/null /dev/full "$room" "$room/"; do
    totals | "$tree/waldo" plot --svg "$old" >/dev/null 2>"$room/err"
    is "a picture as $old" "4 1" "$? $(wc -l <"$room/err")"
  done
}

all=(writes streams signals interrupt terminal freshness sources shells two_builds
  read_only memory no_proc places no_build lines install schema plot)
make_tree
for check in "${@:-${all[@]}}"; do
  "check_$check"
done
[ $# -gt 0 ] || [ "$cases" -gt 150 ] || { echo "FAILED: only $cases cases"; failed=1; }
[ $failed -eq 0 ] && echo "the launcher stands $cases attacks and cases"
exit $failed
