#!/usr/bin/env bash
# Usage: bench/run.sh
# Runs links in which a client sends payloads to a server, under new keys behind each megabyte, in pieces of 4 KiB: 16 and
# 64 MB of payloads of 32 KiB, and 25,000 and 100,000 payloads of 64 bytes. It prints seconds of processor time, nanoseconds
# for a byte of payload and how often that is what sealing and opening the same packets takes, how the time grows by four
# times the load, and the peak of memory for a byte on the wires. Then the same of `sshlink gen 1 10000` and
# `gen 1 100000`, with the instructions for a byte of payload where valgrind is there. Needs rt (once, to build
# crates/speed_link, crates/speed_packets and crates/sshlink) and python3.
set -eu
# shellcheck source=bench/begin.sh
. "$(dirname "$0")/begin.sh"
build speed_link speed_packets sshlink
python3 - crates/speed_link/out/speed_link crates/speed_packets/out/speed_packets crates/sshlink/out/sshlink <<'PYTHON'
import sys

from measuring import instructions, least, shown

link, packets, sshlink = sys.argv[1:]
kinds = [("aes256-gcm@openssh.com", "none"), ("aes256-ctr", "hmac-sha2-256-etm@openssh.com")]
loads = [(32768, 512), (32768, 2048), (64, 25000), (64, 100000)]


def measured(*words):
    """The numbers that are written, seconds, and the peak of memory in bytes."""
    written, seconds, peak = least(words)
    numbers = [int(word) for word in written.decode().split() if word.isdigit()]
    if not numbers:
        sys.exit(f"{words}: {written}")
    return numbers, seconds, peak


print(f"{'cipher and MAC':48}{'bytes':>6}{'payloads':>9}{'seconds':>9}{'ns a byte':>10}{'to packets':>11}{'growth':>8}{'peak a byte':>12}")
for kind in kinds:
    before = None
    for length, count in loads:
        carried = length * count
        (delivered, wires), seconds, peak = measured(link, *kind, length, count, 4096, 1 << 20)
        if delivered != carried:
            sys.exit(f"{delivered} of {carried} bytes were delivered")
        _, none, _ = measured(packets, *kind, "open", length, 0)
        _, alone, _ = measured(packets, *kind, "open", length, count)
        growth = None if before is None or before[0] != length else seconds / before[1]
        print(
            f"{' '.join(kind):48}{length:6}{count:9}{seconds:9.3f}{seconds / carried * 1e9:10.1f}"
            f"{seconds / (alone - none):11.2f}{shown(growth, '.2f'):>8}{peak / wires:12.2f}"
        )
        before = length, seconds


print(f"\n{'call':20}{'payload bytes':>14}{'seconds':>9}{'ns a byte':>10}{'growth':>8}{'peak a byte':>12}{'instructions a byte':>21}")
before = None
for count in ["10000", "100000"]:
    numbers, seconds, peak = measured(sshlink, "gen", "1", count)
    # steps, and for each side what it sent, finished, the payloads delivered to it, and their bytes
    carried, wires = numbers[4] + numbers[8], numbers[1] + numbers[5]
    counted = instructions([sshlink, "gen", "1", count])
    growth = None if before is None else seconds / before
    each = None if counted is None else counted / carried
    print(f"{'gen 1 ' + count:20}{carried:14}{seconds:9.3f}{seconds / carried * 1e9:10.1f}{shown(growth, '.2f'):>8}{peak / wires:12.2f}{shown(each):>21}")
    before = seconds
PYTHON
