#!/usr/bin/env bash
# Usage: check/vectors.sh [FILE..]
# Compares the rows of the files (each *.txt at or below vectors/ if none is given) with what the crates' public calls
# answer, and prints each row that differs and how many passed and failed. Then each file is read again with all wanted
# answers spoiled, of which none may pass: no contract says what these programs answer, so this shows that they compare.
# Files of vectors/exchange/ are read by the program crates/check_exchange, vectors/machines/steps.txt by
# crates/check_machines, vectors/machines/transport.txt by crates/check_transport, vectors/services.txt by
# crates/check_services, vectors/powers.txt by crates/check_powers, vectors/real_parts.txt by crates/check_parts, those of
# vectors/peers/ by crates/check_replay and by crates/check_vectors, all others by the latter.
# Where a program is missing, or older than its sources, it is proved and built first.
set -u
case ${1:-} in
--help) sed -n '2,/^[^#]/s/^# \{0,1\}//p' "$0"; exit ;;
esac
top=$(cd "$(dirname "${BASH_SOURCE[0]}")/.." && pwd)

for file in "$@"; do
  [ -f "$file" ] || { echo "there is no file $file" >&2; exit 2; }
done

# Builds a program where it is stale.
build() {
  local program=$top/crates/$1/out/$1
  if [ ! -x "$program" ] || [ -n "$(find "$top/crates.txt" "$top"/crates -name out -prune -o \
    \( -name '*.rt' -o -name '*.antt' -o -name crates.txt \) -newer "$program" -print -quit)" ]; then
    mkdir -p "$top/crates/$1/out"
    (cd "$top/crates/$1" && rt run </dev/null) >"$program.log" 2>&1
    touch -c "$program"
  fi
  [ -x "$program" ] || { tail -n 20 "$program.log"; echo "vectors: $1 isn't built"; exit 1; }
}

passed=0
failed=0
# Lets a program read a file.
read_by() {
  local written
  written=$("$top/crates/$1/out/$1" <"$2")
  if [[ ${written##*$'\n'} =~ ^([0-9]+)\ passed,\ ([0-9]+)\ failed$ ]]; then
    passed=$((passed + BASH_REMATCH[1]))
    failed=$((failed + BASH_REMATCH[2]))
  else
    failed=$((failed + 1))
    echo "$2: no answer of $1"
  fi
  [ "$written" = "${written##*$'\n'}" ] || { echo "$2"; echo "${written%$'\n'*}"; }
  # check_replay learns from the rows of what stood on a wire, and answers the four others
  local rows='^[a-z]'
  [ "$1" != check_replay ] || rows='^(agreed|carried|polled|damaged) '
  written=$(sed -E "/$rows/s/ = /&spoiled /" "$2" | "$top/crates/$1/out/$1")
  if [[ ! ${written##*$'\n'} =~ ^0\ passed,\ [1-9] ]]; then
    failed=$((failed + 1))
    echo "$2: rows pass in $1 with spoiled answers: ${written##*$'\n'}"
  fi
}

for program in check_vectors check_exchange check_machines check_transport check_replay check_services check_powers check_parts; do
  build "$program"
done
if [ $# = 0 ]; then
  mapfile -t files < <(find "$top/vectors" -name '*.txt' | sort)
else
  files=("$@")
fi
for file in "${files[@]}"; do
  case $(realpath "$file") in
    */exchange/*) read_by check_exchange "$file" ;;
    */machines/transport.txt) read_by check_transport "$file" ;;
    */machines/*) read_by check_machines "$file" ;;
    */services.txt) read_by check_services "$file" ;;
    */powers.txt) read_by check_powers "$file" ;;
    */real_parts.txt) read_by check_parts "$file" ;;
    */peers/*) read_by check_vectors "$file"; read_by check_replay "$file" ;;
    *) read_by check_vectors "$file" ;;
  esac
done
echo "vectors: $passed passed, $failed failed"
[ "$failed" = 0 ] && [ "$passed" -gt 0 ]
