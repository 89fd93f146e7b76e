#!/usr/bin/env bash
# Usage: check/planted.sh [CRATE..]
# Tries the edits that stand in crates/NAME/planted/, of all crates that have some if none is named. The gate tries
# the few in must-fail/; these are tried by whoever changes the crate. It works on a copy of the
# repository, and prints each edit that the proofs didn't refuse, each that couldn't be tried, and each that was refused
# only since a proof names what it took away: such an edit says little of the contract.
set -u
case ${1:-} in
--help) sed -n '2,/^[^#]/s/^# \{0,1\}//p' "$0"; exit ;;
esac
cd "$(dirname "$0")/.." || exit 1
for name in "$@"; do
  [ -d "crates/$name" ] || { echo "there is no crate $name" >&2; exit 2; }
done
if [ $# = 0 ]; then
  mapfile -t names < <(find crates -path '*/planted/*.edit' | cut -d/ -f2 | sort -u)
  set -- "${names[@]}"
fi
copy=$(mktemp -d)
trap 'rm -rf "$copy"' EXIT
cp -r crates crates.txt HANDLES "$copy" || exit 1
cd "$copy" || exit 1
status=0
for name in "$@"; do
  rm -rf "crates/$name/must-fail"
  if ! cp -r "crates/$name/planted" "crates/$name/must-fail" 2>/dev/null; then
    echo "$name: no planted edits"
    continue
  fi
  (cd "crates/$name" && rt lib) >"$copy/log" 2>&1
  rt must-fail "$name" >"$copy/log" 2>&1 || status=1
  grep -E 'NOT REFUSED|BAD EDIT|NOT TRIED|this says little' "$copy/log"
  edits=$(find "crates/$name/must-fail" -name '*.edit' | wc -l)
  echo "$name: $(grep -c ': refused, as it must be' "$copy/log") of $edits planted edits refused"
done
exit "$status"
