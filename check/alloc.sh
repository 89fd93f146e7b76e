#!/usr/bin/env bash
# Usage: check/alloc.sh [--program FILE] [--bound N STEP] [SCRIPT..]
# Lets each allocation of the program fail in turn, on each script (those of examples/ if none is given), by the
# command `run` or `attack`, by `service` of `sshservice`, or by `channels` of `sshmux`, where the script's name begins so,
# and by `clear` elsewhere. Each
# run has to end with
# status 6 and nothing written, or, where a growth has another way, with the report and status that it has without a
# failure. Without one it has to agree with the .stdout and .status beside the script, where these are. How many runs
# ended either way is printed for each script, and each run that did neither with its number. With --bound only the
# first N allocations fail, and each STEP-th after them. The programs are the proved ones if none is given. Needs cc, and
# glibc.
set -u
top=$(cd "$(dirname "${BASH_SOURCE[0]}")/.." && pwd)
# shellcheck source=check/begin.sh
source "$top/check/begin.sh" || exit 1
given=
bound=
step=1
while [ $# -gt 0 ]; do
  case $1 in
  --help) usage; exit ;;
  --program) given=$(named_program "${2:-}") || exit 2; shift ;;
  --bound)
    [[ ${2:-} =~ ^[0-9]{1,9}$ && ${3:-} =~ ^[1-9][0-9]{0,8}$ ]] || { usage >&2; exit 2; }
    bound=$2 step=$3
    shift 2
    ;;
  -*) usage >&2; exit 2 ;;
  *) break ;;
  esac
  shift
done
for script in "$@"; do
  [ -f "$script" ] || { echo "there is no file $script" >&2; exit 2; }
done
[ $# -gt 0 ] || set -- "$top"/examples/*.txt
command -v cc >/dev/null || { echo "alloc: passed over, since there is no cc"; exit 0; }
workers=$(nproc)
room=$(mktemp -d) || exit 1
trap 'rm -rf "$room"' EXIT
cc -O1 -shared -fPIC -o "$room/refuse.so" "$top/check/refuse.c" || exit 1

# The numbers of the allocations that are to fail, of so many.
numbers() {
  if [ -z "$bound" ] || [ "$bound" -ge "$1" ]; then
    seq "$1"
  else
    seq "$bound"
    seq "$((bound + step))" "$step" "$1"
  fi
}

# Every so many-th of the numbers of one worker: runs the program on each, and writes how many ended either way.
work() {
  local worker=$1 word=$2 script=$3 n ended failed none=0 same=0 wrong=0
  local written=$room/$worker.written
  while read -r n; do
    REFUSE_ALLOC=$n REFUSE_TELL=9 LD_PRELOAD=$room/refuse.so "$program" "$word" \
      <"$script" >"$written" 2>"$room/$worker.err" 9>"$room/$worker.told"
    ended=$?
    read -r _ _ _ failed <"$room/$worker.told"
    if [ "$failed" = 1 ] && [ "$ended" = 6 ] && [ ! -s "$written" ]; then
      none=$((none + 1))
    elif [ "$failed" = 1 ] && [ "$ended" = "$wanted" ] && cmp -s "$written" "$room/report"; then
      same=$((same + 1))
    else
      wrong=$((wrong + 1))
      echo "$script: allocation $n: status $ended, $(wc -c <"$written") bytes written" >&2
      head -n 1 "$room/$worker.err" >&2
    fi
  done
  echo "$none $same $wrong" >"$room/$worker.counts"
}

scripts=0
runs=0
failures=0
for script in "$@"; do
  name=sshlink
  case $(basename "$script") in
  run*) word=run ;;
  attack*) word=attack ;;
  service*) word=service name=sshservice ;;
  channels*) word=channels name=sshmux ;;
  *) word=clear ;;
  esac
  program=${given:-$top/crates/$name/out/$name}
  [ -x "$program" ] || "$top/$name" --prove || exit 1
  REFUSE_TELL=9 LD_PRELOAD=$room/refuse.so "$program" "$word" <"$script" >"$room/report" 9>"$room/told"
  wanted=$?
  read -r allocations _ <"$room/told"
  if [ -f "${script%.txt}.stdout" ]; then
    if [ "$wanted" != "$(cat "${script%.txt}.status")" ] || ! cmp -s "$room/report" "${script%.txt}.stdout"; then
      echo "$script: without a failure the status is $wanted, and the report another" >&2
      failures=$((failures + 1))
    fi
  fi
  for ((worker = 0; worker < workers; worker++)); do
    numbers "$allocations" | awk -v w="$worker" -v all="$workers" 'NR % all == w' >"$room/$worker.numbers"
    work "$worker" "$word" "$script" <"$room/$worker.numbers" &
  done
  wait
  read -r none same wrong < <(awk '{ n += $1; s += $2; w += $3 } END { print n, s, w }' "$room"/*.counts)
  rm "$room"/*.counts
  echo "$(realpath --relative-to="$top" "$script"): $allocations allocations, $((none + same + wrong)) failed in" \
    "turn: $none times status 6, $same times the same report, $wrong times neither"
  scripts=$((scripts + 1))
  runs=$((runs + none + same + wrong))
  failures=$((failures + wrong))
done
echo "alloc: $scripts scripts, $runs runs, $failures wrong, $SECONDS seconds"
[ "$failures" = 0 ] && [ "$runs" -gt 0 ]
