# shellcheck shell=bash
# What each script of this folder begins with. It takes no words but --help, which prints its head, and it works at the top
# of the repository, where its Python finds measuring.py. `build NAME..` builds those of these programs that aren't built.
case ${1:-} in
'') ;;
--help) sed -n '2,/^[^#]/s/^# \{0,1\}//p' "$0"; exit ;;
*) echo "$0 takes no words: $*" >&2; exit 2 ;;
esac
cd "$(dirname "$0")/.." || exit 1
export PYTHONPATH=bench PYTHONDONTWRITEBYTECODE=1

build() {
  local name
  for name in "$@"; do
    [ -x "crates/$name/out/$name" ] || (cd "crates/$name" && rt run >/dev/null 2>&1)
    [ -x "crates/$name/out/$name" ] || { echo "$name isn't built: see rt run in crates/$name" >&2; exit 1; }
  done
}
