#!/usr/bin/env bash
# Usage: check/edited.sh
# Shows that what the sides of a run are said to deliver came through `Transport::feed`: a body that opened the packets
# itself, or that copied what was submitted, would meet the same clauses. So the edit `payload_not_queued` of
# `ssh_transport` is applied to a copy of the crates, and the program is tried there, unproved. Both the report of
# examples/run.txt and that of a server which is fed a whole recorded wire must come out otherwise. It takes about half a
# minute.
set -u
case ${1:-} in
--help) sed -n '2,/^[^#]/s/^# \{0,1\}//p' "$0"; exit ;;
esac
[ $# = 0 ] || { echo "usage: check/edited.sh" >&2; exit 2; }
cd "$(dirname "$0")/.." || exit 1
edit=crates/ssh_transport/planted/payload_not_queued.edit
attack=cases/attack/client_wire_whole
copy=$(mktemp -d)
trap 'rm -rf "$copy"' EXIT
mkdir "$copy/cases"
tar -c --exclude=out crates crates.txt HANDLES | tar -x -C "$copy" || exit 1

# What stands behind `KEY: ` in the edit's only line of that key.
line_of() { sed -n "s/^$1: //p" "$edit"; }

file=$copy/crates/ssh_transport/$(line_of file)
old=$(line_of old)
new=$(line_of new)
text=$(cat "$file"; echo .)
[[ $text == *"$old"* ]] || { echo "edited: $edit no longer applies"; exit 1; }
text=${text/"$old"/"$new"}
printf %s "${text%.}" >"$file"

# Each case of `rt try`: standard input, words, and the output that it has without the edit.
cp examples/run.txt "$copy/cases/run"
echo run >"$copy/cases/run.args"
cp examples/run.stdout "$copy/cases/run.stdout"
cp "$attack/stdin" "$copy/cases/attack"
cp "$attack/args" "$copy/cases/attack.args"
cp "$attack/stdout" "$copy/cases/attack.stdout"

tried=$(cd "$copy/crates/sshlink" && rt try --cases "$copy/cases" 2>&1)
differing=$(grep -c '^case=.* run=ended .* output=differs ' <<<"$tried")
[ "$differing" = 2 ] || tail -n 20 <<<"$tried"
echo "edited: $differing of 2 reports differ where no payload is queued"
[ "$differing" = 2 ]
