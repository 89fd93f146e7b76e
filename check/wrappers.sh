#!/usr/bin/env bash
# Usage: check/wrappers.sh
# Tries the wrappers of the programs (./sshlink and the others) in a copy of the repository whose programs, and whose
# `rt`, are stand-ins: small scripts that answer what a row wants. Nothing is built. ./vendor is tried on crates of one
# line. A row is a call with its status, and with what it must write, or must not, to standard output and standard
# error. Prints each row that comes out otherwise, and then how many passed and failed. Rows that need a terminal are
# passed over if there is no python3 to make one.
set -u
case ${1:-} in
--help) sed -n '2,/^[^#]/s/^# \{0,1\}//p' "$0"; exit ;;
esac
cd "$(dirname "$0")/.." || exit 1
room=$(mktemp -d) || exit 1
trap 'rm -rf "$room"' EXIT
tree="$room/a tree"
tools=$room/tools
mkdir -p "$tree/crates" "$tools" "$room/links" "$room/elsewhere"
mkdir "$tree/docs"
cp sshlink sshservice sshaudit sshmux sshpipe wrapper.sh install LICENSE NOTICE VERSION crates.txt "$tree"
cp -r docs/usage docs/man "$tree/docs"
for crate in ssh_wire ssh_link sshlink sshservice sshaudit sshmux sshpipe; do
  mkdir -p "$tree/crates/$crate/src"
  echo '//! A source.' >"$tree/crates/$crate/src/lib.rt"
done
# What the wrappers may call, and no `rt` and no `python3` among it.
for tool in bash awk cat cut dirname env find git grep head ls mktemp readlink rm sed sleep tail touch tr wc; do
  ln -s "$(command -v "$tool")" "$tools/$tool" || exit 1
done

passed=0
failed=0
skipped=0

# A stand-in for a program: a script that is run in its place, as new as it is wanted.
program() {
  local file=$tree/crates/$1/out/$1
  mkdir -p "${file%/*}"
  rm -f "$file.fresh"
  { echo '#!/bin/bash'; cat; } >"$file"
  chmod +x "$file"
}

unbuilt() { rm -rf "$tree/crates/$1/out"; }

# row NAME STATUS STDOUT STDERR COMMAND..: the command's status; and of both outputs a pattern that they match, or, behind
# a `!`, that they don't.
row() {
  local name=$1 status=$2 wanted_out=$3 wanted_err=$4 got=0
  shift 4
  "$@" >"$room/out" 2>"$room/err" || got=$?
  if [ "$got" = "$status" ] && fits "$wanted_out" "$room/out" && fits "$wanted_err" "$room/err"; then
    passed=$((passed + 1))
  else
    failed=$((failed + 1))
    echo "$name: status $got (wanted $status)"
    sed 's/^/  out: /' "$room/out" | cat -t
    sed 's/^/  err: /' "$room/err" | cat -t
  fi
}

fits() {
  case $1 in
  '') ! [ -s "$2" ] ;;
  '*') true ;;
  '!'*) ! LC_ALL=C grep -qE -- "${1#!}" "$2" ;;
  *) LC_ALL=C grep -qE -- "$1" "$2" ;;
  esac
}

# Runs a command where only these tools are on the path, and what else is named first.
bare() { PATH=$1$tools "${@:2}"; }

# Runs a command at a terminal, whose input is empty and whose output is written as it comes.
at_a_terminal() {
  python3 - "$@" <<'PY'
import os, pty, sys
def typed(_):
    return b"\x04"
pid, there = pty.fork()
if pid == 0:
    os.execvp(sys.argv[1], sys.argv[1:])
os.write(there, b"\x04")
seen = b""
while True:
    try:
        piece = os.read(there, 4096)
    except OSError:
        break
    if not piece:
        break
    seen += piece
sys.stdout.buffer.write(seen)
sys.stdout.flush()
sys.exit(os.waitstatus_to_exitcode(os.waitpid(pid, 0)[1]))
PY
}

# Runs a command on a script, in which \n and the like are written out.
# shellcheck disable=SC2059
feed() { printf "$1" >"$room/script"; "${@:2}" <"$room/script"; }

# --- Called from anywhere
program sshlink <<'SH'
[ $# = 0 ] || { cat >/dev/null; echo "ran $*"; exit 0; }
SH
ln -s "$tree/sshlink" "$room/links/sshlink"
ln -s "$room/links/sshlink" "$room/links/again"
row 'by a path with blanks' 0 '^ran run$' '' feed 'settle\n' "$tree/sshlink" run
row 'by a symlink' 0 '^ran run$' '' feed 'settle\n' "$room/links/sshlink" run
row 'by a symlink to a symlink' 0 '^ran run$' '' feed 'settle\n' "$room/links/again" run
row 'by the path' 0 '^ran run$' '' env PATH="$tree:$PATH" bash -c 'echo settle | sshlink run'
row 'from another folder' 0 '^ran run$' '' bash -c "cd '$room/elsewhere' && echo settle | '../a tree/sshlink' run"
row 'by bash' 0 '^ran run$' '' feed 'settle\n' bash "$tree/sshlink" run
mv "$tree/wrapper.sh" "$room/wrapper.sh"
row 'without wrapper.sh' 126 '' 'wrapper.sh' feed 'settle\n' "$tree/sshlink" run
mv "$room/wrapper.sh" "$tree/wrapper.sh"
mv "$tree/crates" "$room/crates"
row 'without its crate' 126 '' 'there is no folder' feed 'settle\n' "$tree/sshlink" run
mv "$room/crates" "$tree/crates"

# --- What is said of a refusal
program sshlink <<'SH'
script=$(tr -d '\000')
case $script in
*limits\ 0*) echo refused InvalidConfig Limit; exit 1 ;;
*submit\ client\ -*) echo refused PacketSize 0; exit 1 ;;
*fly*) echo script 2 NotBuilt; exit 3 ;;
esac
SH
row 'the step that was refused' 1 '^refused PacketSize 0$' '^sshlink: line 3: submit client -$' \
  feed '# a run\nsettle\nsubmit client -\nsettle\n' "$tree/sshlink" run
row 'a setting that was refused' 1 '^refused InvalidConfig' '!line' \
  feed 'set client limits 0 0\nsettle\n' "$tree/sshlink" run
row 'an attack that was refused' 1 '^refused InvalidConfig' '!line' \
  feed 'set client limits 0 0\nfeed client 00\n' "$tree/sshlink" attack
row 'a line of no form' 3 '^script 2 NotBuilt$' '^sshlink: line 2: fly$' feed 'settle\nfly\n' "$tree/sshlink" run
row 'a line of no form, quietly' 3 '^script 2 NotBuilt$' '' \
  env SSHLINK_QUIET=1 bash -c "printf 'settle\nfly\n' | '$tree/sshlink' run"
row 'a line with an escape sequence' 3 '*' '^sshlink: line 2: fly \^\[\]0;title\^G$' \
  feed 'settle\nfly \033]0;title\007\n' "$tree/sshlink" run
row 'no raw control character' 3 '*' "!$(printf '[\001-\010\013-\037\177-\377]')" \
  feed 'settle\nfly \033]0;title\007\n' "$tree/sshlink" run
row 'a line with zero bytes' 3 '*' '!warning' feed 'settle\nfly \000\n' "$tree/sshlink" run
program sshaudit <<'SH'
cat >/dev/null
echo packet client 5
exit 1
SH
row 'a record that is not accepted' 1 '^packet client 5$' '!line' feed '# a record\nsettle\n' "$tree/sshaudit" audit
program sshlink <<'SH'
exit $STATUS
SH
row 'reading failed' 4 '' "standard input couldn't be read" env STATUS=4 "$tree/sshlink" run </dev/null
row 'writing failed' 5 '' "standard output couldn't be written" env STATUS=5 "$tree/sshlink" run </dev/null
row 'out of memory' 6 '' 'out of memory' env STATUS=6 "$tree/sshlink" run </dev/null
row 'standard input closed' 4 '' '^sshlink: standard input is closed$' bash -c "'$tree/sshlink' run <&-"
row 'standard input closed, which gen needs not' 0 '' '' bash -c "STATUS=0 '$tree/sshlink' gen 1 0 <&-"

# --- Odd input and output
program sshlink <<'SH'
[ "$1" != gen ] || exit 0
script=$(tr -d '\000') || exit 4
case $script in
'') echo empty; exit 0 ;;
esac
echo "read ${#script}" || exit 5
SH
head -c 100000 /dev/urandom >"$room/random"
row 'an empty script' 0 '^empty$' '' "$tree/sshlink" run /dev/null
row 'an empty script by standard input' 0 '^empty$' '' "$tree/sshlink" run </dev/null
row 'random bytes' 0 '^read' '!warning|command substitution' bash -c "'$tree/sshlink' run <'$room/random'"
row 'standard input that is a folder' 4 '' "standard input couldn't be read" bash -c "'$tree/sshlink' run <'$room'"
row 'standard output closed' 5 '' "standard output couldn't be written" bash -c "echo x | '$tree/sshlink' run >&-"
row 'standard output full' 5 '' "standard output couldn't be written" bash -c "echo x | '$tree/sshlink' run >/dev/full"
row 'standard error closed' 0 '^read' '' bash -c "echo x | '$tree/sshlink' run 2>&-"
row 'cut off by head' 0 '^re' '' bash -c "set -o pipefail; echo x | '$tree/sshlink' run | head -c 2"
row 'no environment' 0 '^read' '' env -i PATH="$PATH" bash -c "echo x | '$tree/sshlink' run"
row 'two at once' 0 '^same$' '' bash -c "
  echo x | '$tree/sshlink' run >'$room/one' & echo x | '$tree/sshlink' run >'$room/two'; wait
  cmp '$room/one' '$room/two' && echo same"
rm -f "$tree/crates/sshlink/out/sshlink.fresh"
mkdir "$tree/crates/sshlink/out/sshlink.fresh"
row 'no note of the last look can be written' 0 '^read' '' bash -c "echo x | '$tree/sshlink' run"
rmdir "$tree/crates/sshlink/out/sshlink.fresh"

# --- Words
program sshlink <<'SH'
case $* in
run) cat; exit 0 ;;
*) echo usage; exit 2 ;;
esac
SH
printf 'from the file\n' >"$room/a script.txt"
row 'wrong words' 2 '^usage$' '^usage: sshlink' "$tree/sshlink" fly
row 'no words' 2 '^usage$' '^usage: sshlink' "$tree/sshlink"
row 'a script from a file' 0 '^from the file$' '' "$tree/sshlink" run "$room/a script.txt"
row 'a file that is not there' 2 '^usage$' '^usage: sshlink' "$tree/sshlink" run "$room/none"
row 'help' 0 '^usage: sshlink' '' "$tree/sshlink" --help
row 'a word that is no flag' 2 '^usage$' '^usage: sshlink' "$tree/sshlink" -V
row 'nothing to prove with, though built' 127 '' "can't be proved, and there is no rt" bare '' "$tree/sshlink" --prove
for name in sshlink sshservice sshaudit sshmux sshpipe; do
  unbuilt "$name"
  row "$name unproved, wrong words, without rt" 2 '^usage$' "^usage: $name" bare '' "$tree/$name" fly
  row "$name unproved, help" 0 "^usage: $name" '' bare '' "$tree/$name" -h
  row "$name unproved, no words" 2 '^usage$' "^usage: $name" bare '' "$tree/$name"
  row "$name unproved, the word help" 2 '^usage$' "^usage: $name" bare '' "$tree/$name" help
  row "$name unproved, version" 0 "^$name of Lirghette .*: not proved$" '' bare '' "$tree/$name" --version
done

# --- What is needed
row 'without rt' 127 '' '^sshlink: the program isn.t built, and there is no rt' bare '' "$tree/sshlink" run </dev/null
row 'nothing to prove with' 127 '' "^sshlink: the program can't be proved, and there is no rt" bare '' "$tree/sshlink" --prove
mkdir -p "$room/rt only"
printf '#!/bin/bash\nexit 1\n' >"$room/rt only/rt"
chmod +x "$room/rt only/rt"
row 'without python3' 126 '' 'rt needs python3' bare "$room/rt only:" "$tree/sshlink" run </dev/null
row 'sshpipe unproved' 126 '' '\./sshpipe --prove proves and builds it' env PATH="$room/rt only:$PATH" "$tree/sshpipe" server key

# --- Tried, and proved
mkdir -p "$room/kit"
cat >"$room/kit/rt" <<'SH'
#!/bin/bash
case $1 in
try) echo "tried ${*:3}"; cat; echo 'run=ended status=0 proved=no' >&2 ;;
run)
  echo 'rt: chose --jobs 1 for ssh_wire'
  echo 'so far: 3 of 9 functions'
  sleep 9
  mkdir -p out
  printf '#!/bin/bash\necho usage\nexit 2\n' >out/sshlink
  chmod +x out/sshlink
  echo usage
  ;;
esac
SH
chmod +x "$room/kit/rt"
if command -v python3 >/dev/null; then
  row 'tried' 0 '^tried run$' 'not proved yet' env PATH="$room/kit:$PATH" bash -c "echo settle | '$tree/sshlink' run"
  row 'version, unproved' 0 '^sshlink of Lirghette [0-9.]+.*: not proved$' '' "$tree/sshlink" --version
  row 'proving' 0 '' 'crate [0-9]+ of [0-9]+, ssh_wire, 3 of .* functions; [0-9]+ to come after it' \
    env PATH="$room/kit:$PATH" "$tree/sshlink" --prove
else
  skipped=$((skipped + 3))
fi
program sshlink <<'SH'
cat >/dev/null
SH
touch -d '1 minute ago' "$tree"/crates/*/src "$tree"/crates/*/src/* "$tree/crates.txt"
row 'version, proved' 0 '^sshlink of Lirghette [0-9.]+.*: proved$' '' "$tree/sshlink" --version
touch -d '1 minute' "$tree/crates/sshmux/src/lib.rt"
row 'version, a source changed that it does not stand on' 0 ': proved$' '' "$tree/sshlink" --version
touch -d '1 minute' "$tree/crates/ssh_wire/src/lib.rt"
row 'version, a source changed' 0 ': proved, but its sources have changed since$' '' "$tree/sshlink" --version
rm -f "$tree/crates/sshlink/out/sshlink.fresh"
row 'run, a source changed' 0 '' 'older than its sources' "$tree/sshlink" run </dev/null
rm "$tree/crates/ssh_wire/src/lib.rt"
touch -d '1 minute' "$tree/crates/ssh_wire/src"
row 'version, a source gone' 0 ': proved, but its sources have changed since$' '' "$tree/sshlink" --version
unbuilt sshpipe
row 'version of sshpipe' 0 '^sshpipe of Lirghette [0-9.]+.*: not proved$' '' "$tree/sshpipe" --version

# --- Installed
echo '//! A source.' >"$tree/crates/ssh_wire/src/lib.rt"
touch -d '1 minute ago' "$tree"/crates/*/src "$tree"/crates/*/src/* "$tree/crates.txt"
row 'nothing is installed that is not proved' 1 '' 'install: sshservice .*: not proved' "$tree/install" "$room/prefix"
row 'nothing was copied' 2 '' '*' ls "$room/prefix"
for name in sshlink sshservice sshaudit sshmux sshpipe; do program "$name" </dev/null; done
touch -d '1 minute ago' "$tree"/crates/*/src "$tree"/crates/*/src/* "$tree/crates.txt"
row 'installed' 0 '^installed in .*: sshlink sshservice sshaudit sshmux sshpipe$' '' "$tree/install" "$room/prefix"
row 'the installed files' 0 '^bin/sshpipe share/doc/lirghette/LICENSE share/man/man1/sshpipe.1 $' '' \
  bash -c "cd '$room/prefix' && ls bin/sshpipe share/doc/lirghette/LICENSE share/man/man1/sshpipe.1 | tr '\n' ' '"
row 'no prefix' 2 '' '^usage' "$tree/install"

# --- Crates copied into another repository
source=$room/source
there="$room/a repository"
mkdir -p "$source" "$there"
cp vendor VERSION LICENSE NOTICE "$source"
printf '%s\n' '# Crates' 'low: hex' 'mid: low thiserror' 'aside:' 'high: mid' >"$source/crates.txt"
for crate in low mid aside high; do
  mkdir -p "$source/crates/$crate/src" "$source/crates/$crate/planted" "$source/crates/$crate/out"
  echo "//! The crate $crate." | tee "$source/crates/$crate/src/lib.rt" >"$source/crates/$crate/out/made"
  echo 'file: src/lib.rt' >"$source/crates/$crate/planted/wrong.edit"
done
# What stands in the other repository, with the first lines of files.
standing() { (cd "$there" && { find crates -type f ! -name VENDORED | sort | xargs head -qn1; cat crates.txt; } 2>/dev/null); }
row 'copied to no folder' 2 '' '^usage' "$source/vendor"
row 'copied to a folder that is not there' 1 '' 'there is no folder' "$source/vendor" "$room/nothing" low
row 'copied to a folder that is no repository' 1 '' 'git init' "$source/vendor" "$there" low
mkdir "$there/.git"
row 'copied, no crate named' 1 '' 'no crate is named' "$source/vendor" "$there"
row 'copied, a crate that is not there' 1 '' 'no crate lowest' "$source/vendor" "$there" lowest
row 'copied, a word of sed' 1 '' 'no crate l.w' "$source/vendor" "$there" l.w
row 'nothing was copied so far' 0 '^$' '' bash -c "ls '$there'; echo"
echo 'own: mid' >"$there/crates.txt"
row 'copied' 0 'copied to .*: 2 crates of commit unknown' '' "$source/vendor" "$there" mid
row 'the copies, and lines of crates.txt' 0 '^//! The crate low. //! The crate mid. own: mid # .* low: hex mid: low thiserror # ' '' \
  bash -c "cd '$there' && cat crates/*/src/lib.rt crates.txt | tr '\n' ' '"
row 'neither edits nor what was made' 1 '' '' bash -c "find '$there' | grep -E 'planted|out|aside|high'"
row 'the license' 0 'NOTICE' '' bash -c "cmp '$source/LICENSE' '$there/crates/VENDORED.LICENSE'; ls '$there/crates'"
row 'the sums' 0 'crates/mid/src/lib.rt: OK' '' bash -c "cd '$there' && sha256sum -c crates/VENDORED"
cp "$there/crates.txt" "$room/before"
row 'copied again' 0 ': 2 crates' '' "$source/vendor" "$there"
row 'crates.txt is the same then' 0 '' '' cmp "$room/before" "$there/crates.txt"
echo '//! Low, newer.' >"$source/crates/low/src/lib.rt"
echo '//! New.' >"$source/crates/low/src/new.rt"
rm "$source/crates/mid/src/lib.rt"
echo '//! Mid, elsewhere.' >"$source/crates/mid/src/main.rt"
row 'brought up to date' 0 ': 3 crates' '' "$source/vendor" "$there" high
row 'what stands then' 0 '^//! The crate high. //! Low, newer. //! New. //! Mid, elsewhere. own: mid # .* high: mid # ' '' \
  bash -c "cd '$there' && cat crates/*/src/*.rt crates.txt | tr '\n' ' '"
echo '//! Changed there.' >"$there/crates/low/src/lib.rt"
echo '//! Added there.' >"$there/crates/mid/src/added.rt"
rm "$there/crates/high/src/lib.rt"
sed -i 's/^low: hex/low: hex bytes/' "$there/crates.txt"
standing >"$room/before"
row 'a file changed there' 1 '' 'crates/low/src/lib.rt was changed' "$source/vendor" "$there"
row 'a file added there' 1 '' 'crates/mid/src/added.rt was added' "$source/vendor" "$there"
row 'a file removed there' 1 '' 'crates/high/src/lib.rt was removed' "$source/vendor" "$there"
row 'a line changed there' 1 '' 'lines of ./vendor in crates.txt were changed' "$source/vendor" "$there"
standing >"$room/after"
row 'nothing is written then' 0 '' '' cmp "$room/before" "$room/after"
rm -r "$there/crates" "$there/crates.txt"
mkdir -p "$there/crates/low/src"
echo '//! Another crate of that name.' >"$there/crates/low/src/lib.rt"
row 'a crate in the way' 1 '' 'crates/low/src/lib.rt was added' "$source/vendor" "$there" mid
rm -r "$there/crates/low"
ln -s "$source/crates/low" "$there/crates/low"
row 'a link in the way' 1 '' 'crates/low is no plain file' "$source/vendor" "$there" mid
rm "$there/crates/low"
echo 'low:' >"$there/crates.txt"
row 'a line in the way' 1 '' 'crates.txt has a line for low of its own' "$source/vendor" "$there" mid
printf '%s\n' '# crate gone' >"$there/crates/VENDORED"
row 'a crate that is gone' 1 '' 'no crate gone any more' "$source/vendor" "$there"
row 'copied into itself' 1 '' 'this repository itself' bash -c "mkdir '$source/.git'; '$source/vendor' '$source' mid"

# --- At a terminal
if command -v python3 >/dev/null; then
  program sshlink <<'SH'
cat >/dev/null
printf 'refused NoCommonAlgo Kex ours a theirs \033[31m\n'
SH
  touch -d '1 minute ago' "$tree"/crates/*/src "$tree"/crates/*/src/* "$tree/crates.txt"
  row 'a script typed' 0 'reading the script from the terminal' '' at_a_terminal "$tree/sshlink" run
  row 'a name with an escape sequence, shown' 0 'theirs \^\[\[31m' '' at_a_terminal "$tree/sshlink" run
  row 'the same into a pipe, as it is' 0 "$(printf 'theirs \033\\[31m')" '' "$tree/sshlink" run </dev/null
else
  skipped=$((skipped + 3))
fi
echo "wrappers: $passed passed, $failed failed, $skipped passed over"
[ "$failed" = 0 ] && [ "$passed" -gt 0 ]
