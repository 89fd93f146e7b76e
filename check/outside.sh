#!/usr/bin/env bash
# Usage: check/outside.sh [--program FILE] [TABLE]
# Tries each row of the table (cases/outside/table.txt if none is given), whose head says what its columns are: the
# program's words, what outside it refuses, the script, the status, and what is written. Prints each row that is
# answered otherwise. Where there is no cc, rows in which a call is refused by its number are passed over. The programs
# are the proved ones. With --program the rows of `sshlink` alone are tried, with that file in its place.
set -u
top=$(cd "$(dirname "${BASH_SOURCE[0]}")/.." && pwd)
# shellcheck source=check/begin.sh
source "$top/check/begin.sh" || exit 1
given=
while [ $# -gt 0 ]; do
  case $1 in
  --help) usage; exit ;;
  --program) given=$(named_program "${2:-}") || exit 2; shift ;;
  -*) usage >&2; exit 2 ;;
  *) break ;;
  esac
  shift
done
[ $# -le 1 ] || { usage >&2; exit 2; }
table=$(realpath "${1:-$top/cases/outside/table.txt}")
[ -f "$table" ] || { echo "there is no file ${1:-$table}" >&2; exit 2; }
cd "$top" || exit 1
room=$(mktemp -d) || exit 1
trap 'rm -rf "$room"' EXIT
object=
if command -v cc >/dev/null; then
  object=$room/refuse.so
  cc -O1 -shared -fPIC -o "$object" check/refuse.c || exit 1
fi

# Lines with `;` between them, each with its end.
lines() { [ "$1" = - ] || printf '%s\n' "$1" | sed 's/ *; */\n/g'; }

# What a row says is written.
wanted_text() {
  case $1 in
  'as '*) cat "${1#as }" ;;
  'first '*' of '*)
    local count=${1#first }
    head -c "${count%% *}" "${1#* of }"
    ;;
  *) lines "$1" ;;
  esac
}

passed=0
failed=0
skipped=0
while IFS='|' read -r words refused script status text; do
  case $words in '' | '#'*) continue ;; esac
  name=sshlink
  case $words in *:*) name=${words%%:*} words=${words#*:} ;; esac
  read -ra call <<<"$words"
  [ -z "$given" ] || [ "$name" = sshlink ] || continue
  program=${given:-$top/crates/$name/out/$name}
  [ -x "$program" ] || "./$name" --prove </dev/null || exit 1
  read -ra refusal <<<"$refused"
  read -r script <<<"$script"
  read -r status <<<"$status"
  read -r text <<<"$text"
  input=$room/script
  output=$room/written
  : >"$output"
  environment=()
  closed=
  for ((i = 0; i < ${#refusal[@]}; i++)); do
    case ${refusal[i]} in
    -) ;;
    directory) input=$room ;;
    full) output=/dev/full ;;
    no-input | no-output) closed=${refusal[i]} ;;
    read | write | alloc | room)
      environment=("LD_PRELOAD=$object" "REFUSE_${refusal[i]^^}=${refusal[i + 1]}")
      i=$((i + 1))
      ;;
    *) echo "$table: nothing is called ${refusal[i]}" >&2; exit 2 ;;
    esac
  done
  if [ ${#environment[@]} -gt 0 ] && [ -z "$object" ]; then
    skipped=$((skipped + 1))
    continue
  fi
  if [ -f "$script" ]; then cp "$script" "$room/script"; else lines "$script" >"$room/script"; fi
  wanted_text "$text" >"$room/wanted"
  (
    [ "$closed" != no-input ] || exec <&-
    [ "$closed" != no-output ] || exec >&-
    exec env "${environment[@]}" "$program" ${call[@]+"${call[@]}"} 2>/dev/null
  ) <"$input" >"$output"
  ended=$?
  if [ "$ended" = "$status" ] && cmp -s "$room/written" "$room/wanted"; then
    passed=$((passed + 1))
  else
    failed=$((failed + 1))
    echo "$words|$refused| $script: status $ended, written: $(head -c 200 "$room/written")"
  fi
done <"$table"
[ "$skipped" = 0 ] || echo "outside: $skipped rows passed over, since there is no cc"
echo "outside: $passed passed, $failed failed"
[ "$failed" = 0 ] && [ "$passed" -gt 0 ]
