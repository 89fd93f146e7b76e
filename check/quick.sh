#!/usr/bin/env bash
# Usage: check/quick.sh
# Runs all tests, cases and rows by unproved programs, compiled with checks (`rt try`), and what else the gate compares. It
# proves nothing, and takes some minutes on four processors: the fast loop next to .ci/run. Files of rows named
# NAME_long.txt and the cases in cases/long are for the gate alone. Prints what fails; the last line is 'N passed, M failed'.
set -u
case ${1:-} in
--help) sed -n '2,/^[^#]/s/^# \{0,1\}//p' "$0"; exit ;;
esac
cd "$(dirname "$0")/.." || exit 1
command -v rt >/dev/null || { echo "there is no rt to try programs with"; exit 127; }
room=$(mktemp -d) || exit 1
trap 'rm -rf "$room"' EXIT
mkdir "$room/results"

# Each job writes lines `pass` or `FAIL what` to a file of its own.
pass() { echo pass; }
fail() { echo "FAIL $*"; }

# The program of a folder of cases.
program_of() { if [ -f "$1/../program" ]; then cat "$1/../program"; else echo sshlink; fi; }

# Lays the cases of a program out as `rt try --cases` wants them, in so many heaps.
lay_out() {
  local program=$1 heaps=$2 number=0 args case to name
  while read -r args; do
    case=${args%/args}
    [ "$(program_of "$case")" = "$program" ] || continue
    to=$room/cases/$program.$((number++ % heaps))
    mkdir -p "$to"
    name=${case#cases/}
    name=${name//\//--}
    if [ -f "$case/repeat" ]; then
      read -r count text <"$case/repeat"
      yes "$text" | head -n "$count" >"$to/$name"
    else
      cp "$case/stdin" "$to/$name" 2>/dev/null || : >"$to/$name"
    fi
    cp "$case/args" "$to/$name.args"
    cp "$case/stdout" "$to/$name.stdout"
    mkdir -p "$room/statuses"
    cp "$case/status" "$room/statuses/$name"
  done < <(find cases -name args -not -path 'cases/long/*' -not -path 'cases/words/*' | sort)
}

examples() {
  local script word program name
  for script in examples/*.txt; do
    name=example--$(basename "$script" .txt)
    program=sshlink
    case $(basename "$script") in
    run*) word=run ;;
    attack*) word=attack ;;
    service*) word=service program=sshservice ;;
    audit*) word=audit program=sshaudit ;;
    channels*) word=channels program=sshmux ;;
    *) word=clear ;;
    esac
    mkdir -p "$room/cases/$program.0" "$room/statuses"
    cp "$script" "$room/cases/$program.0/$name"
    echo "$word" >"$room/cases/$program.0/$name.args"
    cp "${script%.txt}.stdout" "$room/cases/$program.0/$name.stdout"
    cp "${script%.txt}.status" "$room/statuses/$name"
  done
}

# Tries a program on a heap of cases: output and status of each.
try_cases() {
  local folder=$1 program line name status
  program=$(basename "$folder")
  program=${program%.*}
  (cd "crates/$program" && rt try --seconds 60 --cases "$folder" 2>&1) >"$folder.log"
  grep '^case=' "$folder.log" | while read -r line; do
    name=$(sed -n 's/^case=\([^ ]*\) .*/\1/p' <<<"$line")
    status=$(sed -n 's/.* run=ended status=\([0-9]*\) .*/\1/p' <<<"$line")
    if [ "$status" = "$(cat "$room/statuses/$name")" ] && [[ $line == *output=expected* || $line == *output=none* ]]; then
      pass
    else
      fail "$program $name: $line"
    fi
  done
  grep -q '^cases=[1-9]' "$folder.log" || fail "$program wasn't tried: $(tail -n 1 "$folder.log")"
}

# Tries a program that compares rows, on each of its files.
try_rows() {
  local program=$1 file folder=$room/rows.$1
  shift
  mkdir "$folder"
  for file in "$@"; do
    [[ $file == *_long.txt ]] || cp "$file" "$folder/$(tr / - <<<"${file#vectors/}")"
  done
  (cd "crates/$program" && rt try --seconds 400 --cases "$folder" 2>&1) >"$folder.log"
  awk -v program="$program" '
    /^== / { name = $2 }
    /^[0-9]+ passed, [0-9]+ failed$/ {
      for (i = 0; i < $1; i++) print "pass"
      for (i = 0; i < $3; i++) print "FAIL " program " " name ": a row"
      seen++
    }
    /^cases=/ { cases = substr($1, 7) }
    END { if (!cases || seen != cases) print "FAIL " program ": " seen + 0 " of " cases + 0 " files of rows were answered" }' "$folder.log"
}

# Runs the tests of a crate, unproved.
try_tests() {
  local said
  said=$(cd "crates/$1" && rt try --test 2>&1)
  if [[ $said =~ (^|$'\n')run=ended\ status=0 ]]; then pass; else fail "tests of $1: $(tail -n 3 <<<"$said")"; fi
}

# Runs a check of the repository's own, which is one to pass.
check() {
  local said
  if said=$("$@" 2>&1); then pass; else fail "$*: $(tail -n 5 <<<"$said")"; fi
}

# Starts a job, once fewer than four run.
start() {
  while [ "$(jobs -rp | wc -l)" -ge 4 ]; do wait -n; done
  started=$((started + 1))
  "$@" >"$room/results/$started" &
}
started=0

lay_out sshlink 3
for program in sshservice sshaudit sshmux; do lay_out "$program" 1; done
examples
# The rows of real parts take longest, some two minutes.
start try_rows check_parts vectors/real_parts.txt
for folder in "$room"/cases/*; do start try_cases "$folder"; done
mapfile -t others < <(find vectors -name '*.txt' -not -path 'vectors/exchange/*' -not -path 'vectors/machines/*' \
  -not -path vectors/services.txt -not -path vectors/powers.txt -not -path vectors/real_parts.txt | sort)
start try_rows check_vectors "${others[@]}"
start try_rows check_exchange vectors/exchange/*.txt
mapfile -t machines < <(find vectors/machines -name '*.txt' -not -name transport.txt | sort)
start try_rows check_machines "${machines[@]}"
start try_rows check_transport vectors/machines/transport.txt
start try_rows check_services vectors/services.txt
start try_rows check_powers vectors/powers.txt
start try_rows check_replay vectors/peers/*.txt
while read -r crate; do start try_tests "$crate"; done < <(grep -l '#\[test\]' crates/*/src/*.rt | cut -d/ -f2 | sort -u)
start check check/edited.sh
start check check/library.sh
start check check/wrappers.sh
for script in edits documents reference grammar programs layers names; do start check "check/$script.py"; done
start check check/english.py
start check vectors/machines/model.py vectors/machines/*.txt
start check cases/attack_model.py
start check vectors/damaged.py vectors/peers/*.txt
wait
cat "$room"/results/* | grep '^FAIL' | cut -c6-
passed=$(cat "$room"/results/* | grep -c '^pass$')
failed=$(cat "$room"/results/* | grep -c '^FAIL')
echo "$passed passed, $failed failed"
[ "$failed" = 0 ] && [ "$passed" -gt 0 ]
