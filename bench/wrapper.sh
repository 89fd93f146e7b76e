#!/usr/bin/env bash
# Usage: bench/wrapper.sh
# Runs examples/clear.txt 200 times by ./sshlink and 200 times by the program itself, and prints the milliseconds of a call
# of each. Needs the proved program (./sshlink --prove).
set -eu
# shellcheck source=bench/begin.sh
. "$(dirname "$0")/begin.sh"
program=crates/sshlink/out/sshlink
[ -x "$program" ] || ./sshlink --prove

# The milliseconds of a call of a command.
milliseconds() {
  local start=$EPOCHREALTIME
  for _ in {1..200}; do "$1" clear <examples/clear.txt >/dev/null 2>&1; done
  awk -v start="$start" -v end="$EPOCHREALTIME" 'BEGIN { printf "%.1f", (end - start) * 5 }'
}

echo "./sshlink $(milliseconds ./sshlink) ms, the program itself $(milliseconds "$program") ms"
