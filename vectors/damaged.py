#!/usr/bin/env python3
"""Usage: vectors/damaged.py vectors/peers/*.txt
Works out from a recorded connection's rows what its row `damaged` should answer, and prints each that differs or lacks.

The rule. Each packet of the peer is damaged once in each way: a bit of its packet length, its padding length, its payload, its
padding, or its tag is flipped, where it has one; it is left out, doubled, or swapped with the next. A tag covers all of a packet
under keys. In clear, the exchange hash covers the payloads, and their order is fixed. So what can go unnoticed in clear is the
padding alone, and all of a guessed packet but its packet length, since that packet is ignored (RFC 4253 section 7.1).
"""

import os
import sys


def has_guess(payload):
    """Whether a KEXINIT says that a guess follows (RFC 4253 section 7.1): the boolean behind its ten lists."""
    at = 17
    for _ in range(10):
        at += 4 + int.from_bytes(payload[at:at + 4], "big")
    return payload[at] == 1


def worked_out(lines, side):
    """The answer of the row, by the rows before it."""
    peer = "s2c" if side == "client" else "c2s"
    clear, keyed, guesses, keys = 0, 0, 0, False
    for line in lines:
        words = line.split()
        if len(words) < 2 or words[1] != peer:
            continue
        if words[0] == "keys":
            keys = True
        elif words[0] in ("packet", "padded"):
            payload = bytes.fromhex(words[-1])
            keyed, clear = keyed + keys, clear + (not keys)
            # The only recorded guess is a wrong one.
            guesses += payload[0] == 20 and has_guess(payload)
    n = clear + keyed
    kinds = [("length", n, 0), ("padding_length", n, guesses), ("payload", n, guesses), ("padding", n, clear),
             ("tag", keyed, 0), ("left_out", n, 0), ("doubled", n, 0), ("swapped", n - 1, 0)]
    return " ".join("%s %d %d" % kind for kind in kinds)


def main():
    if "--help" in sys.argv:
        print(__doc__)
        return 0
    differ = 0
    for name in sys.argv[1:]:
        if not os.path.isfile(name):
            print("there is no file", name, file=sys.stderr)
            return 2
        with open(name) as file:
            lines = file.read().splitlines()
        side = next(line.split()[1] for line in lines if line.startswith("carried "))
        row = "damaged %s = %s" % (side, worked_out(lines, side))
        if row not in lines:
            differ += 1
            print(name, row, sep="\n")
    print("damaged: %d connections, %d differ" % (len(sys.argv) - 1, differ))
    return 1 if differ else 0


sys.exit(main())
