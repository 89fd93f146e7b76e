#!/usr/bin/env bash
# Usage: check/library.sh [FOLDER]
# Makes the repository of examples/library in an empty folder (FOLDER, which is kept, if one is named), as
# docs/LIBRARY.md does: the files without `.in`, `git init`, and `./vendor`. Then its program runs (`rt try`), and
# what it prints is compared with its `stdout`. Prints each difference, and then whether both are the same.
set -u
case $#,${1:-} in
1,-h | 1,--help) sed -n '2,/^[^#]/s/^# \{0,1\}//p' "$0"; exit ;;
0,) ;;
1,-* | 1,) echo 'usage: check/library.sh [FOLDER]' >&2; exit 2 ;;
1,*) ;;
*) echo 'usage: check/library.sh [FOLDER]' >&2; exit 2 ;;
esac
top=$(cd -- "$(dirname -- "${BASH_SOURCE[0]}")/.." && pwd) || exit 1
room=$(mktemp -d) || exit 1
trap 'rm -rf "$room"' EXIT
folder=${1:-$room/library}
mkdir -p "$folder" || exit 1
[ -z "$(ls -A "$folder")" ] || { echo "library: $folder isn't empty" >&2; exit 2; }
cp -r "$top/examples/library/." "$folder" || exit 1
find "$folder" -name '*.in' -exec sh -c 'for file; do mv "$file" "${file%.in}"; done' sh {} + || exit 1
cd "$folder" && git init -q || exit 1
"$top/vendor" . ssh_modp ssh_transport ssh_service || exit 1
cd crates/talk || exit 1
data=()
for file in data/*; do
  data+=(--data "${file#data/}=$file")
done
# Under load it may take longer than the minute that `rt try` gives a program.
RT_SECONDS=${RT_SECONDS:-300} rt try "${data[@]}" >"$room/written" 2>"$room/told"
status=$?
if [ "$status" = 0 ] && diff -u stdout "$room/written"; then
  echo "library: two sides talk in a repository that stands on copied crates"
else
  cat "$room/told"
  echo "library: the program of examples/library ended with status $status, or printed something else"
  exit 1
fi
