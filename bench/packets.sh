#!/usr/bin/env bash
# Usage: bench/packets.sh
# Seals payloads of 64 bytes and of 32 KiB under each kind of key for about a second, and opens them, and prints the
# payload bytes per second of processor time of both. Opening is what a run that seals and opens takes longer than one
# that seals.
# Beside them it prints the bytes per second of OpenSSL's cipher and then its HMAC over as many bytes, with its AES
# and carry-less product instructions switched off; and, where valgrind is installed, how many instructions sealing
# and opening run for each byte of 1 MiB, less what a run of no packet takes. Its last line has the instructions for each
# byte of 1 MiB and of 2 MiB of output that is taken in pieces of 64 bytes: they are alike, as no piece is moved. Needs
# rt (once, to build crates/speed_packets), openssl and python3.
set -eu
# shellcheck source=bench/begin.sh
. "$(dirname "$0")/begin.sh"
build speed_packets
python3 - crates/speed_packets/out/speed_packets <<'PYTHON'
import functools, os, re, subprocess, sys

from measuring import instructions, least, shown

program = sys.argv[1]
plain = dict(os.environ, OPENSSL_ia32cap="~0x200000200000000")
kinds = [
    ("none", "none"),
    ("aes256-ctr", "hmac-sha2-256"),
    ("aes256-ctr", "hmac-sha2-256-etm@openssh.com"),
    ("aes256-cbc", "hmac-sha2-256"),
    ("aes256-cbc", "hmac-sha2-256-etm@openssh.com"),
    ("aes256-gcm@openssh.com", "none"),
]


def seconds(kind, how, length, count):
    """Seconds of processor time."""
    words = [program, *kind, how, str(length), str(count)]
    written, spent, _ = least(words, times=1)
    if written.decode().strip() != str(length * count):
        sys.exit(f"{' '.join(words)}: {written}")
    return spent


def speeds(kind, length):
    """Payload bytes per second, sealed and opened, less what a run of no packet takes."""
    count = 64
    while seconds(kind, "seal", length, count) < 1:
        count *= 2
    sealing = seconds(kind, "seal", length, count)
    both = seconds(kind, "open", length, count)
    none = seconds(kind, "seal", length, 0)
    return length * count / (sealing - none), length * count / (both - sealing)


@functools.cache
def openssl_time(length, *words):
    words = ["openssl", "speed", "-seconds", "1", "-bytes", str(length), *words]
    written = subprocess.run(words, env=plain, capture_output=True, text=True, check=True).stdout
    return 0.001 / float(re.search(r"([0-9.]+)k\s*$", written).group(1))


def openssl(kind, length):
    """Bytes per second of the cipher and then the MAC."""
    cipher, mac = kind
    if cipher == "none":
        return "-"
    total = openssl_time(length, "-evp", "aes-256-" + cipher[7:10])
    if mac != "none":
        total += openssl_time(length, "-hmac", "sha256")
    return f"{1 / total:,.0f}"


def each(kind, length):
    """Instructions for each byte of 1 MiB, sealed and opened."""
    count = 2**20 // length
    none, sealing, both = (
        instructions([program, *kind, *words]) for words in (("seal", length, 0), ("seal", length, count), ("open", length, count))
    )
    return (None, None) if none is None else ((sealing - none) / 2**20, (both - sealing) / 2**20)


print(f"{'':52}{'bytes per second':>46}{'instructions a byte':>22}")
print(f"{'cipher and MAC':46}{'bytes':>6}{'sealed':>16}{'opened':>16}{'openssl':>14}{'sealed':>11}{'opened':>11}")
for kind in kinds:
    for length in (64, 32768):
        sealed, opened = speeds(kind, length)
        run = each(kind, length)
        print(
            f"{' '.join(kind):46}{length:6}{sealed:16,.0f}{opened:16,.0f}{openssl(kind, length):>14}"
            f"{shown(run[0]):>11}{shown(run[1]):>11}"
        )


def taken(count):
    """Instructions for each payload byte of so many packets of 32 KiB whose output is taken in pieces of 64 bytes."""
    words = [program, "none", "none"]
    sealing, taking = (instructions([*words, how, 32768, count]) for how in ("seal", "take"))
    return None if sealing is None else (taking - sealing) / (32768 * count)


print(f"output taken in pieces of 64 bytes: {shown(taken(32))} instructions a byte of 1 MiB, {shown(taken(64))} of 2 MiB")
PYTHON
