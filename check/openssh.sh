#!/usr/bin/env bash
# Usage: check/openssh.sh
# Lets `sshpipe` talk to OpenSSH over pipes, as a server to `ssh` and as a client to `sshd -i`, and to Dropbear's
# `dbclient` and `dropbear -i` where they are there: with each key exchange, signature algorithm, cipher and MAC that both
# have, with a host key that isn't known, with a peer that is cut off within an exchange, and with a limit that begins
# exchanges anew. It prints a row of Markdown for each connection, and ends with status 1 where one differs from what is
# wanted. Where OpenSSH isn't there it says so in one line, and passes over. Nothing listens on an address.
# SSHPIPE names the program; where it isn't set, the crate's own is taken, and built first where it is stale.
set -u
case ${1:-} in
--help) sed -n '2,/^[^#]/s/^# \{0,1\}//p' "$0"; exit ;;
esac
top=$(cd "$(dirname "${BASH_SOURCE[0]}")/.." && pwd)
PATH=$PATH:/usr/sbin
for program in ssh sshd ssh-keygen; do
  command -v $program >/dev/null || { echo "openssh: passed over, since there is no $program"; exit 0; }
done
sshd=$(command -v sshd)

# Builds the program where it is stale.
pipe=${SSHPIPE:-$top/crates/sshpipe/out/sshpipe}
if [ -z "${SSHPIPE:-}" ]; then
  if [ ! -x "$pipe" ] || [ -n "$(find "$top/crates.txt" "$top"/crates -name out -prune -o \
    \( -name '*.rt' -o -name '*.antt' -o -name crates.txt \) -newer "$pipe" -print -quit)" ]; then
    mkdir -p "$top/crates/sshpipe/out"
    (cd "$top/crates/sshpipe" && rt run </dev/null) >"$pipe.log" 2>&1
    touch -c "$pipe"
  fi
fi
[ -x "$pipe" ] || { echo "openssh: sshpipe isn't built"; exit 1; }

room=$(mktemp -d)
trap 'rm -rf "$room"' EXIT
chmod 711 "$room"
seconds=${SECONDS_EACH:-60}
for key in host other; do ssh-keygen -q -t rsa -b 2048 -N '' -C $key -f "$room/$key"; done
for key in host other; do (printf 'pipe '; cut -d' ' -f1,2 "$room/$key.pub") >"$room/known_$key"; done
release=$(ssh -V 2>&1 | sed 's/,.*//')
good=0
bad=0

# Prints a row: peer, its part, key exchange, signature algorithm, cipher, MAC, how many exchanges, and the outcome.
row() {
  local wanted=$1 outcome=$2
  shift 2
  if [[ $outcome == "$wanted" ]]; then good=$((good + 1)); else bad=$((bad + 1)); outcome="**$outcome**, wanted: $wanted"; fi
  printf '| %s | %s |\n' "$(printf '%s' "$1"; shift; printf ' | %s' "$@")" "$outcome"
}

# The names of ours that the peer has too.
both() {
  local kind=$1 name
  shift
  for name in "$@"; do ssh -Q "$kind" | grep -qx -- "$name" && echo "$name"; done
}

# ssh as the client: key exchange, signature algorithm, cipher, MAC, known hosts, limit.
by_ssh() {
  timeout "$seconds" ssh -F none -v -o ProxyCommand="$pipe server $room/host $6" -o UserKnownHostsFile="$room/$5" \
    -o GlobalKnownHostsFile=/dev/null -o StrictHostKeyChecking=yes -o KexAlgorithms="$1" -o HostKeyAlgorithms="$2" \
    -o Ciphers="$3" -o MACs="$4" -o IdentityAgent=none -o BatchMode=yes -o PreferredAuthentications=none user@pipe \
    </dev/null >"$room/log" 2>&1
}

# Whether what was told of the first exchange is this.
told() {
  grep -q "^sshpipe: exchange 1 $1 $2 $3 $4 $4 strict" "$room/log"
}

ssh_row() {
  local outcome='no service'
  by_ssh "$1" "$2" "$3" "$4" known_host ''
  if told "$1" "$2" "$3" "$4" && grep -q 'is known and matches the RSA host key' "$room/log" \
    && grep -q 'SSH2_MSG_SERVICE_ACCEPT received' "$room/log" && grep -q 'Permission denied ()' "$room/log"; then
    outcome='service granted, login refused'
  fi
  row 'service granted, login refused' "$outcome" "$release" client "$1" "$2" "$3" "$4" "$(grep -c '^sshpipe: exchange' "$room/log")"
}

# Lets so many bytes through as they come, or all.
let_through() {
  if [ -n "$1" ]; then dd bs=1 count="$1" status=none; else exec cat; fi
}

# sshd as the server, behind a named pipe: key exchange, signature algorithm, cipher, MAC, known key, limit, and how many
# bytes of it are let through.
by_sshd() {
  mkdir -p /run/sshd 2>/dev/null
  printf '%s\n' "HostKey $room/host" 'PidFile none' 'UsePAM no' 'StrictModes no' 'LogLevel DEBUG1' \
    "KexAlgorithms $1" "HostKeyAlgorithms $2" "Ciphers $3" "MACs $4" >"$room/config"
  rm -f "$room/fifo"
  mkfifo "$room/fifo"
  # shellcheck disable=SC2094 # both ends of one fifo
  timeout "$seconds" "$pipe" client "$room/$5.pub" ${6:+"$6"} <"$room/fifo" 2>"$room/log" \
    | timeout "$seconds" "$sshd" -i -e -d -f "$room/config" 2>"$room/sshd.log" | let_through "${7:-}" >"$room/fifo"
  status=${PIPESTATUS[0]}
}

sshd_row() {
  local outcome='no service'
  by_sshd "$1" "$2" "$3" "$4" host ''
  if [ "$status" = 0 ] && told "$1" "$2" "$3" "$4" && grep -q '^sshpipe: the service is granted' "$room/log"; then
    outcome='service granted'
  fi
  row 'service granted' "$outcome" "$release" server "$1" "$2" "$3" "$4" "$(grep -c '^sshpipe: exchange' "$room/log")"
}

# A row of Dropbear, whose names are those that were chosen.
dropbear_row() {
  local names count
  count=$(grep -c '^sshpipe: exchange' "$room/log")
  read -r -a names < <(sed -n 's/^sshpipe: exchange 1 //p' "$room/log")
  [ -z "$3" ] || [ "$count" -gt 1 ] || outcome='no second exchange'
  row "$1" "$outcome" "$release${3:+, limit $3}" "$2" "${names[@]:0:4}" "$count"
}

kexes=$(both kex diffie-hellman-group14-sha256 diffie-hellman-group15-sha512 diffie-hellman-group16-sha512 diffie-hellman-group-exchange-sha256)
signatures=$(both sig rsa-sha2-256 rsa-sha2-512)
ciphers=$(both cipher aes128-ctr aes192-ctr aes256-ctr aes128-cbc aes192-cbc aes256-cbc aes128-gcm@openssh.com aes256-gcm@openssh.com)
macs=$(both mac hmac-sha2-256 hmac-sha2-512 hmac-sha1 hmac-sha2-256-etm@openssh.com hmac-sha2-512-etm@openssh.com hmac-sha1-etm@openssh.com)
kex=diffie-hellman-group14-sha256

echo '| peer | its part | key exchange | signature | cipher | MAC | exchanges | outcome |'
echo '|---|---|---|---|---|---|---|---|'
for part in ssh_row sshd_row; do
  for name in ${KEXES:-$kexes}; do $part "$name" rsa-sha2-512 aes128-ctr hmac-sha2-256; done
  for name in $signatures; do $part $kex "$name" aes256-gcm@openssh.com hmac-sha2-512; done
  for name in $ciphers; do $part $kex rsa-sha2-256 "$name" hmac-sha2-256-etm@openssh.com; done
  for name in $macs; do $part $kex rsa-sha2-256 aes256-ctr "$name"; done
done

# A host key that isn't the known one.
by_ssh $kex rsa-sha2-512 aes128-ctr hmac-sha2-256 known_other ''
outcome='host taken'
grep -q 'Host key verification failed' "$room/log" && outcome='host refused by ssh'
row 'host refused by ssh' "$outcome" "$release" client $kex rsa-sha2-512 aes128-ctr hmac-sha2-256 0
by_sshd $kex rsa-sha2-512 aes128-ctr hmac-sha2-256 other ''
outcome="status $status"
[ "$status" = 1 ] && outcome=$(sed -n 's/^sshpipe: //p' "$room/log")
row 'refused UnknownKey' "$outcome" "$release" server $kex rsa-sha2-512 aes128-ctr hmac-sha2-256 0

# A server that is cut off within its exchange.
by_sshd $kex rsa-sha2-512 aes128-ctr hmac-sha2-256 host '' 900
outcome="status $status"
[ "$status" = 0 ] && outcome=$(sed -n 's/^sshpipe: //p' "$room/log")
row 'the input has ended' "$outcome" "$release, cut off" server $kex rsa-sha2-512 aes128-ctr hmac-sha2-256 0

# Dropbear's client and server, with a limit that begins exchanges anew. OpenSSH takes part in none before a login.
if { command -v dbclient && command -v dropbear && command -v dropbearconvert; } >/dev/null; then
  dropbear=$(command -v dropbear)
  release=$("$dropbear" -V 2>&1 | sed -n '1s/ /_/p')
  dropbearconvert openssh dropbear "$room/host" "$room/host_dropbear" >/dev/null 2>&1
  for limit in '' 17; do
    timeout "$seconds" dbclient -T -J "$pipe server $room/host $limit" -y user@pipe true </dev/null >"$room/log" 2>&1
    outcome='no service'
    grep -q 'No auth methods could be used' "$room/log" && outcome='service granted, login refused'
    dropbear_row 'service granted, login refused' client "$limit"
    # It reads and writes one socket.
    timeout "$seconds" python3 -c '
import socket, subprocess, sys
here, there = socket.socketpair()
log = open(sys.argv[1], "w")
peer = subprocess.Popen([sys.argv[2], "-i", "-r", sys.argv[3]], stdin=there, stdout=there, stderr=subprocess.DEVNULL)
there.close()
status = subprocess.call(sys.argv[4:], stdin=here, stdout=here, stderr=log)
peer.terminate()
sys.exit(status)' "$room/log" "$dropbear" "$room/host_dropbear" "$pipe" client "$room/host.pub" $limit
    outcome="status $?"
    [ "$outcome" = 'status 0' ] && outcome=$(sed -n 's/^sshpipe: the/the/p' "$room/log")
    dropbear_row 'the service is granted' server "$limit"
  done
else
  echo 'Dropbear was passed over, since it is not there.'
fi

echo
echo "$good as wanted, $bad otherwise."
[ "$bad" = 0 ]
