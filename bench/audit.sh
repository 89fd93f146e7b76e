#!/usr/bin/env bash
# Usage: bench/audit.sh
# Audits the records of links in which a client sends payloads of 32 KiB, of 1 and of 10 megabytes in all. It prints
# the bytes on both wires, seconds of processor time, nanoseconds for a byte of the wires, how the time grows by ten times
# the load, and the peak of memory for a byte of the wires. Where valgrind is installed, it prints the instructions for a
# byte of the wires too, what reading the script takes of them, what opening the same packets takes, and what is left. The
# script has four hexadecimal digits for each byte of a wire, two of a submit and two of a wire. What reading it takes is
# measured by the same script with configurations that have no names in common. Needs rt (once, to build crates/sshlink,
# crates/sshaudit and crates/speed_packets) and python3.
set -eu
# shellcheck source=bench/begin.sh
. "$(dirname "$0")/begin.sh"
build sshlink sshaudit speed_packets
python3 - crates/sshlink/out/sshlink crates/sshaudit/out/sshaudit crates/speed_packets/out/speed_packets <<'PYTHON'
import pathlib, subprocess, sys, tempfile

from measuring import instructions, least, shown

sshlink, sshaudit, packets = sys.argv[1:]
LENGTH = 32768
kinds = [("aes256-gcm@openssh.com", "none"), ("aes256-ctr", "hmac-sha2-256-etm@openssh.com")]


def record(room, kind, count):
    """The record of a link of so many payloads, and how many bytes stand on its wires."""
    settings = [f"set {side} {what} {name}" for side in ("client", "server") for what, name in zip(("cipher", "mac"), kind) if name != "none"]
    payload = "5e" + "61" * (LENGTH - 1)
    script, report = room / "script", room / "report"
    script.write_text("\n".join([*settings, *[f"submit client {payload}"] * count, "settle", ""]))
    with script.open() as given, report.open("w") as written:
        subprocess.run([sshlink, "run"], stdin=given, stdout=written, check=True)
    made = room / "record"
    with made.open("w") as written:
        subprocess.run(["check/transcript.py", script, report], stdout=written, check=True)
    wires = sum(len(line.split()[2]) // 2 for line in made.read_text().splitlines() if line.startswith("wire "))
    return made, wires


def measured(made):
    """Seconds, and the peak of memory in bytes. The audit has to answer yes."""
    written, seconds, peak = least([sshaudit, "audit"], made)
    if not written.startswith(b"yes\n"):
        sys.exit("the record isn't accepted")
    return seconds, peak


def reading(made, kind):
    """Instructions to read the record: those of a script whose configurations have no cipher in common."""
    other = made.parent / "other"
    other.write_text(made.read_text().replace(f"set client cipher {kind[0]}", "set client cipher aes192-ctr", 1))
    with other.open() as given:
        if subprocess.run([sshaudit, "audit"], stdin=given, capture_output=True).stdout != b"config\n":
            sys.exit("the configurations have names in common")
    return instructions([sshaudit, "audit"], other)


def opening(kind):
    """Instructions for a byte of payload to open packets: what opening and sealing takes over sealing alone."""
    counts = [instructions([packets, *kind, how, LENGTH, 32]) for how in ("open", "seal")]
    return None if None in counts else (counts[0] - counts[1]) / (LENGTH * 32)


print(f"{'cipher and MAC':48}{'wire bytes':>11}{'seconds':>9}{'ns a byte':>10}{'growth':>8}{'peak a byte':>12}{'instructions':>13}{'reading':>9}{'opening':>9}{'rest':>7}")
with tempfile.TemporaryDirectory() as room:
    for kind in kinds:
        before, opened = None, opening(kind)
        for count in (32, 320):
            made, wires = record(pathlib.Path(room), kind, count)
            seconds, peak = measured(made)
            counted = instructions([sshaudit, "audit"], made) if count == 32 else None
            each = None if counted is None else counted / wires
            read = None if each is None else reading(made, kind) / wires
            rest = None if each is None or opened is None else each - read - opened
            growth = None if before is None else seconds / before
            print(
                f"{' '.join(kind):48}{wires:11}{seconds:9.3f}{seconds / wires * 1e9:10.1f}{shown(growth, '.2f'):>8}"
                f"{peak / wires:12.2f}{shown(each):>13}{shown(read):>9}{shown(opened):>9}{shown(rest):>7}"
            )
            before = seconds
PYTHON
