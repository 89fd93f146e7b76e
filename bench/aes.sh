#!/usr/bin/env bash
# Usage: bench/aes.sh
# Encrypts messages of 32 KiB under a key of 32 bytes by each mode of ssh_aes for about two seconds, and by OpenSSL with
# its AES and carry-less product instructions switched off, and prints bytes per second of processor time of both. If
# valgrind is installed, it also prints how many instructions ssh_aes runs for each byte of 1 MiB, less what a run of no
# message takes. Then it lists the conditional jumps and the indexed loads of each function of ssh_aes in the machine
# code, as bench/machine_code.py says, and fails if one depends on something loaded and has no reason there. Needs rt
# (once, to build crates/speed_aes and crates/speed_packets), openssl, objdump and python3.
set -eu
# shellcheck source=bench/begin.sh
. "$(dirname "$0")/begin.sh"
build speed_aes speed_packets
python3 - crates/speed_aes/out/speed_aes <<'PYTHON'
import os, re, subprocess, sys

from measuring import instructions, least, shown

program = sys.argv[1]
plain = dict(os.environ, OPENSSL_ia32cap="~0x200000200000000")


def seconds(mode, count):
    """Seconds of processor time."""
    return least([program, mode, count], times=1)[1]


def speed(mode):
    """Bytes per second, less what a run of no message takes."""
    count = 64
    while seconds(mode, count) < 1:
        count *= 2
    return count * 32768 / (seconds(mode, count) - seconds(mode, 0))


def openssl(mode):
    words = ["openssl", "speed", "-seconds", "2", "-bytes", "32768", "-evp", "aes-256-" + mode]
    written = subprocess.run(words, env=plain, capture_output=True, text=True, check=True).stdout
    return 1000 * float(re.search(r"([0-9.]+)k\s*$", written).group(1))


def each(mode):
    """Instructions for each byte of 1 MiB, less what a run of no message takes."""
    counted, none = (instructions([program, mode, count]) for count in (32, 0))
    return None if counted is None else (counted - none) / (32 * 32768)


print(f"{'mode':6}{'ssh_aes':>16}{'openssl':>16}   bytes per second{'':6}instructions a byte")
for mode in ("ctr", "cbc", "gcm"):
    print(f"{mode:6}{speed(mode):16,.0f}{openssl(mode):16,.0f}{shown(each(mode)):>44}")
PYTHON
echo
python3 bench/machine_code.py crates/speed_aes/out/speed_aes crates/speed_packets/out/speed_packets
