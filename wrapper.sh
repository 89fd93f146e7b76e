# shellcheck shell=bash
# What the wrappers of the five programs share. A wrapper sets `top`, the folder of the repository; `name`, the program's;
# `scripts`, its commands that read a script; and `malformed`, what may be wrong with a line. Then comes its function
# `is_command`, whether words are ones that the program knows, and it calls `main` with its own words. The usage is in
# docs/usage/, made by check/programs.py.
#
# Standard output and status are the program's own. What else helps is written to standard error, unless NAME_QUIET=1 in
# the environment (as SSHLINK_QUIET) asks for nothing. Whatever fails here ends with status 126, or with 127 if there is no
# `rt`, and never with a status of the program.
: "${top:?}" "${name:?}" "${scripts?}" "${malformed?}"

say() { [ "$quiet" = 1 ] || printf '%s: %s\n' "$name" "$*" >&2; }

fail() {
  local status=$1
  shift
  quiet='' say "$@"
  exit "$status"
}

usage() { cat "$top/docs/usage/$name.txt" || exit 126; }

# Bytes from outside, made fit for a terminal: control characters become ^X or M-X.
shown() { LC_ALL=C cat -t; }

# Standard output, also made fit for a terminal if it is one.
to_output() { if [ -t 1 ]; then shown; else cat; fi; }

# The program's crate and all that it stands on, each once.
crates_below() {
  awk -F: -v want="$name" '
    /^[a-z]/ { split($1, head, " "); below[head[1]] = $2 }
    function visit(crate,   deps, count, i) {
      if (crate in seen || !(crate in below)) return
      seen[crate] = 1
      print crate
      count = split(below[crate], deps, " ")
      for (i = 1; i <= count; i++) visit(deps[i])
    }
    END { visit(want) }' "$top/crates.txt"
}

# The folders that the proof of the program reads.
folders_read() {
  local crate part
  for crate in $(crates_below); do
    for part in src specs proofs; do
      [ ! -d "$top/crates/$crate/$part" ] || printf '%s\n' "$top/crates/$crate/$part"
    done
  done
}

# Whether a source changed, came or went since the program was built. The sources are looked through once a minute at most:
# the file beside the program has the second of the last look that found no change.
is_stale() {
  local now looked='' folders
  printf -v now '%(%s)T' -1
  if [ "${1:-}" != anew ] && [ -f "$fresh" ] && [ "$fresh" -nt "$program" ]; then read -r looked <"$fresh"; fi
  if [[ $looked =~ ^[0-9]{1,12}$ ]] && ((now >= looked && now - looked < 60)); then
    return 1
  fi
  mapfile -t folders < <(folders_read)
  [ -z "$(find "$top/crates.txt" "${folders[@]}" -newer "$program" -print -quit)" ] || return 0
  { echo "$now" >"$fresh"; } 2>/dev/null
  return 1
}

# What would run: the version, the commit if there is one, and whether it is proved.
version() {
  local number commit='' state
  read -r number <"$top/VERSION" || fail 126 "there is no file VERSION in $top"
  if commit=$(git -C "$top" rev-parse --short=12 HEAD 2>/dev/null); then
    [ -z "$(git -C "$top" status --porcelain -- crates crates.txt 2>/dev/null)" ] || commit+=', changed'
    commit=" ($commit)"
  else
    commit=''
  fi
  if [ ! -x "$program" ]; then
    state='not proved'
  elif is_stale anew; then
    state='proved, but its sources have changed since'
  else
    state='proved'
  fi
  echo "$name of Lirghette $number$commit: $state"
}

needs_rt() {
  command -v rt >/dev/null || fail 127 "$1, and there is no rt, the Rattle kit's command, on the path"
  command -v python3 >/dev/null || fail 126 "$1, and rt needs python3, which isn't on the path"
}

# How far a build is, by what `rt` wrote: which crate of how many, how many of its functions, what is left, and the minutes.
progress_in() {
  local crate all=0 built=0 left
  for crate in $(crates_below); do
    all=$((all + 1))
    [ ! -e "$top/crates/$crate/out/rlib/stamp" ] || built=$((built + 1))
  done
  left=$((all - built - 1))
  [ "$left" -ge 0 ] || left=0
  awk -v minutes="$((SECONDS / 60))" -v number="$((all - left))" -v all="$all" -v left="$left" '
    /^rt: chose --jobs/ { crate = $NF; far = "" }
    /^so far: [0-9]/ { far = ", " $3 " of " $5 " functions" }
    END {
      printf "%s; %d to come after it; %d minutes so far\n", (crate ? "crate " number " of " all ", " crate far : "reading the sources"), left, minutes
    }' "$1"
}

prove() {
  needs_rt "the program can't be proved"
  local log job
  log=$(mktemp) || fail 126 "there is no room for a file of notes"
  say "proving and building the program; from nothing this takes half an hour or more on four processors"
  # With no words the program writes its usage and ends with status 2.
  (cd "$crate" && exec rt run </dev/null) >"$log" 2>&1 &
  job=$!
  # shellcheck disable=SC2064
  trap "kill $job 2>/dev/null; rm -f '$log'; exit 130" INT TERM
  while kill -0 "$job" 2>/dev/null; do
    for _ in 1 2 3 4 5 6 7 8; do
      sleep 1
      kill -0 "$job" 2>/dev/null || break
    done
    say "$(progress_in "$log")"
  done
  wait "$job"
  trap - INT TERM
  if [ ! -x "$program" ] || ! grep -q '^usage$' "$log"; then
    tail -n 20 "$log" | shown >&2
    fail 126 "the program isn't built; what rt wrote is in $log"
  fi
  rm -f "$log"
  # What rt left as it was is as new as its sources.
  touch -c "$program" 2>/dev/null
  say "proved and built"
}

# Runs the program unproved, and ends with its status.
try() {
  needs_rt "the program isn't built"
  say "not proved yet: this run is of the program compiled with checks. ./$name --prove proves and builds it"
  local told status
  told=$(mktemp) || fail 126 "there is no room for a file of notes"
  (cd "$crate" && rt try -- "$@") 2>"$told" | to_output
  status=$(sed -n 's/^run=ended status=\([0-9]*\) .*/\1/p' "$told")
  if [ -z "$status" ]; then
    tail -n 20 "$told" | shown >&2
    rm -f "$told"
    fail 126 "the program couldn't be tried"
  fi
  rm -f "$told"
  say_status "$status"
  exit "$status"
}

# The program's status for the first so many lines of the script.
status_of() {
  head -n "$3" "$2" | "$program" "$1" >/dev/null 2>&1
  echo "${PIPESTATUS[1]}"
}

# The first step with which a script is refused. Its lines that set something come first, and if they are refused by
# themselves, no step is to blame. From there on more lines are refused, too, since the first refusal ends a run.
refused_line() {
  local low high mid
  high=$(wc -l <"$2")
  [ "$high" -gt 0 ] && [ "$high" -le 4096 ] || return
  low=$(LC_ALL=C awk '$1 == "set" || $1 == "window" { last = NR } END { print last + 0 }' "$2")
  [ "$(status_of "$1" "$2" "$low")" = 0 ] && [ "$(status_of "$1" "$2" "$high")" = 1 ] || return
  while [ $((high - low)) -gt 1 ]; do
    mid=$(((low + high) / 2))
    if [ "$(status_of "$1" "$2" "$mid")" = 1 ]; then high=$mid; else low=$mid; fi
  done
  echo "$high"
}

# Says which line of a script in a file brought status 1 or 3. A record that isn't accepted has no such line: the program's
# answer names the place.
say_line() {
  local word=$1 status=$2 script=$3 line='' kind=''
  [ "$quiet" != 1 ] && [ -f "$script" ] || return
  case $status$word in
  1run | 1channels) line=$(refused_line "$word" "$script") ;;
  3*) read -r _ line kind < <("$program" "$word" <"$script") ;;
  esac
  [[ $line =~ ^[1-9][0-9]*$ ]] || return
  say "line $line: $(LC_ALL=C sed -n "${line}p" "$script" | LC_ALL=C cut -c1-200 | shown)"
  case $kind in
  NotBuilt) say "the command $word has no such form (docs/SCRIPTS.md, \"Forms\")" ;;
  Malformed) say "$malformed (docs/SCRIPTS.md, \"Forms\")" ;;
  esac
}

# What a status means that needs no script to be explained.
say_status() {
  case $1 in
  2) [ "$quiet" = 1 ] || usage >&2 ;;
  4) say "standard input couldn't be read" ;;
  5) say "standard output couldn't be written" ;;
  6) say "out of memory" ;;
  esac
}

# Whether the words are a command that reads a script, with or without a file for it.
reads_script() { [[ $# -gt 0 && " $scripts " == *" $1 "* ]]; }

main() {
  crate=$top/crates/$name
  program=$crate/out/$name
  fresh=$program.fresh
  local variable=${name^^}_QUIET
  quiet=${!variable:-}
  [ -d "$crate" ] || fail 126 "there is no folder $crate"
  case $*  in
  -h | --help) usage; exit 0 ;;
  --version) version; exit 0 ;;
  --prove) prove; exit 0 ;;
  esac
  # The script from a file that is named behind the command.
  if [ $# = 2 ] && reads_script "$1" && [ -f "$2" ]; then
    exec <"$2" || fail 126 "$(printf %s "$2" | shown) can't be read"
    set -- "$1"
  fi
  if [ $# = 1 ] && reads_script "$1"; then
    # (with standard error closed for a moment: /dev/null would take the place of the input that is closed)
    { exec 3<&0; } 2>&- || { say "standard input is closed"; exit 4; }
    [ ! -t 0 ] || say "reading the script from the terminal, up to an end of file (Ctrl-D)"
  fi
  if [ ! -x "$program" ]; then
    if ! is_command "$@"; then
      echo usage || exit 5
      say_status 2
      exit 2
    fi
    run_unproved "$@"
  fi
  run_proved "$@"
}

# What a program does that is tried if it isn't proved yet. A wrapper may define another.
run_unproved() { try "$@"; }

run_proved() {
  if [ "$quiet" = 1 ] && [ ! -t 1 ]; then exec "$program" "$@"; fi
  if is_stale; then
    say "the program is older than its sources: ./$name --prove proves and builds it anew"
  fi
  # The script's file, which stays open to be read again.
  { exec 3<&0; } 2>&- || exec 3</dev/null
  local status
  if [ -t 1 ]; then
    "$program" "$@" | shown
    status=${PIPESTATUS[0]}
  else
    "$program" "$@"
    status=$?
  fi
  case $status in
  1 | 3) say_line "${1:-}" "$status" "/proc/$$/fd/3" ;;
  *) say_status "$status" ;;
  esac
  exit "$status"
}
