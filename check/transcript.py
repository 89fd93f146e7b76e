#!/usr/bin/env python3
"""Usage: check/transcript.py SCRIPT REPORT

Prints the record of a run, as `./sshaudit audit` reads it: the script, and behind it the secret, the wires and the lengths.
REPORT is what `./sshlink run` wrote for the script. All steps of the script but the last are submits, and the last is a settle:
so there is one exchange, whose values stand in clear, and before the settle each side had sent its version line alone.
The secret is that of the test agreement of `sshlink`: SHA-256 of five strings, the name of the key exchange, two empty ones
for a group that isn't there, the client's value and the server's.
"""
import hashlib
import pathlib
import struct
import sys


def packets(wire):
    """The payloads of the packets in clear at the front of a wire, behind its version line."""
    at = wire.index(b"\n") + 1
    while True:
        length, padding = struct.unpack(">IB", wire[at:at + 5])
        yield wire[at + 5:at + 4 + length - padding]
        if wire[at + 5] == 21:
            return
        at += 4 + length


def string(data):
    return struct.pack(">I", len(data)) + data


def strings(data):
    while data:
        size = struct.unpack(">I", data[:4])[0]
        yield data[4:4 + size]
        data = data[4 + size:]


def secret(report, wires):
    name = next(line.split()[3] for line in report if line.startswith("client exchange 1 "))
    client = next(strings(next(p for p in packets(wires["client"]) if p[0] == 30)[1:]))
    _, server, _ = strings(next(p for p in packets(wires["server"]) if p[0] == 31)[1:])
    return hashlib.sha256(b"".join(map(string, (name.encode(), b"", b"", client, server)))).hexdigest()


def main():
    if len(sys.argv) != 3 or sys.argv[1].startswith("-"):
        print(__doc__.strip())
        sys.exit(0 if sys.argv[1:] in (["--help"], ["-h"]) else 2)
    script = pathlib.Path(sys.argv[1]).read_text()
    report = pathlib.Path(sys.argv[2]).read_text().splitlines()
    steps = [line.split()[0] for line in script.splitlines() if line and line.split()[0] not in ("#", "set")]
    steps = [step for step in steps if not step.startswith("#")]
    if not steps or steps[-1] != "settle" or set(steps[:-1]) - {"submit"}:
        sys.exit("the last step has to be a settle, and all others submits")
    wires = {line.split()[0]: bytes.fromhex(line.split()[2]) for line in report if line.split()[1] == "wire"}
    first = [wires[side].index(b"\n") + 1 for side in ("client", "server")]
    print(script, end="" if script.endswith("\n") else "\n")
    print("secret", secret(report, wires))
    for side in ("client", "server"):
        print("wire", side, wires[side].hex())
    for _ in steps:
        print("sent", *first)
    print("sent", len(wires["client"]), len(wires["server"]))


if __name__ == "__main__":
    main()
