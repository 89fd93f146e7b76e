# shellcheck shell=bash
# What scripts of this folder begin with that try the programs. `usage` prints the script's head. `named_program FILE`
# prints the whole path of a program, and fails where there is none.

usage() { sed -n '2,/^[^#]/s/^# \{0,1\}//p' "$0"; }

named_program() {
  local file
  file=$(realpath "$1" 2>/dev/null)
  [ -x "$file" ] || { echo "there is no program $1" >&2; return 2; }
  echo "$file"
}
