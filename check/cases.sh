#!/usr/bin/env bash
# Usage: check/cases.sh [FOLDER]
# Runs a program on each case of the folder, or, if none is given, on those of cases/ and on the examples, and
# compares what it writes and its exit status. A case is a folder with `args` (one word a line), `stdin`, `stdout` and
# `status`; in place of `stdin` a line `COUNT TEXT` in `repeat` stands for so many lines of the text. The program is
# `sshlink`, or that which `program` names in the folder that the case stands in. An example is a script NAME.txt of the
# command `clear`, or of `run` or `attack` or, for `sshservice`, of `service` or, for `sshaudit`, of `audit` or, for
# `sshmux`, of `channels` where its name
# begins so, with NAME.stdout and NAME.status beside it.
set -u
case ${1:-} in
--help) sed -n '2,/^[^#]/s/^# \{0,1\}//p' "$0"; exit ;;
esac
cd "$(dirname "$0")/.." || exit 1
[ -d "${1:-cases}" ] || { echo "there is no folder $1" >&2; exit 2; }
# The proved programs, with nothing beside their own answers.
for program in sshlink sshservice sshaudit sshmux; do
  [ -x "crates/$program/out/$program" ] || "./$program" --prove || exit 1
done
export SSHLINK_QUIET=1 SSHSERVICE_QUIET=1 SSHAUDIT_QUIET=1 SSHMUX_QUIET=1
agree=0
differ=0
written=$(mktemp)
trap 'rm -f "$written"' EXIT

# judge NAME STATUS STDOUT WANTED_STATUS
judge() {
  if [ "$2" = "$(cat "$4")" ] && cmp -s "$written" "$3"; then
    agree=$((agree + 1))
  else
    differ=$((differ + 1))
    echo "$1 differs"
  fi
}

lines() { yes "$2" | head -n "$1"; }

while read -r args; do
  case=$(dirname "$args")
  mapfile -t words <"$args"
  program=sshlink
  [ ! -f "$case/../program" ] || read -r program <"$case/../program"
  if [ -f "$case/repeat" ]; then
    read -r count text <"$case/repeat"
    lines "$count" "$text" | "./$program" "${words[@]}" >"$written"
  else
    "./$program" "${words[@]}" <"$case/stdin" >"$written"
  fi
  judge "$case" "$?" "$case/stdout" "$case/status"
done < <(find "${1:-cases}" -name args | sort)
if [ "$#" = 0 ]; then
  for script in examples/*.txt; do
    program=sshlink
    case $(basename "$script") in
    run*) word=run ;;
    attack*) word=attack ;;
    service*) word=service program=sshservice ;;
    audit*) word=audit program=sshaudit ;;
    channels*) word=channels program=sshmux ;;
    *) word=clear ;;
    esac
    "./$program" "$word" <"$script" >"$written"
    judge "$script" "$?" "${script%.txt}.stdout" "${script%.txt}.status"
  done
fi
echo "cases: $agree passed, $differ failed"
[ "$differ" = 0 ] && [ "$agree" -gt 0 ]
