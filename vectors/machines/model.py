#!/usr/bin/env python3
"""A plain model of both machines of a key exchange and of one side's transport, for the rows of this folder.

Usage: vectors/machines/model.py FILE..

It reads the left side of each row, works out what should stand on the right side, and compares. It prints each row that
differs, with its line and what the model has, and how many rows agree. The status is 0 where all rows agree and there is
one at least.

It was written from RFC 4251 (forms), RFC 4253 (version lines, packets, KEXINIT, hash and keys), RFC 4419 (group exchange),
RFC 5647 (padding under Galois counter mode), OpenSSH's strict key exchange and the order of refusals that this repository
decided on, and not from its code. It keeps whole lists where the code keeps cursors. It can't encrypt: under keys it
knows how long what a side writes is. Under Galois counter mode it opens what comes; under another cipher it takes a packet
that comes for one that nobody sealed. All that is drawn is zeros.

`exchange.py` has the machines, `transport.py` the transport, `galois.py` the cipher, and this file the rows. With the
packets of `sealing.py` the same transport writes and reads every byte: `cases/attack_model.py`.
"""

import os
import sys

sys.dont_write_bytecode = True

from exchange import DEFAULTS, TEST_KEY, Agreement, Config, Groups, Hosts, Machine, Parts, Refused, Unmodelled, \
    clear_packet, packet_size
from transport import Transport

# Rows `play`.

def hexadecimal(word):
    return b"" if word == "-" else bytes.fromhex(word)


def settings(word):
    return [] if word == "default" else [item.split("=", 1) for item in word.split(";")]


def list_of(text):
    if text.count("*") == 2:
        count, unit, rest = text.split("*")
        text = unit * int(count) + rest
    return [] if text == "-" else text.removesuffix(",").split(",")


def preferences(word):
    return DEFAULTS | {kind: list_of(text) for kind, text in settings(word)}


def entries(word):
    """Keys or certificates: an algorithm and its blobs each."""
    return [] if word == "-" else [(w[0], *map(hexadecimal, w[1:])) for w in (e.split(":") for e in word.split(","))]


def changes(words):
    """What is given in place of messages, by their number over both sides."""
    found = {}
    for word in words:
        at, how = word.split(":")
        found.setdefault(int(at), []).append(how)
    return found


def changed(how, message):
    """What is given in place of a message: a payload or none, and its number."""
    payload, number = message
    if how == "none":
        return None, number
    if how == "same":
        return message
    if how.startswith("#"):
        return payload, int(how[1:])
    return hexadecimal(how), number


def play(words):
    client_preferred, server_preferred, keys, certificates, cause, given, *messages = words
    client = Config("client", preferences(client_preferred), b"SSH-2.0-client")
    server = Config("server", preferences(server_preferred), b"SSH-2.0-server")
    server.keys, server.certificates = entries(keys), entries(certificates)
    given, messages = dict(settings(given)), changes(messages)
    number = {name: int(value) for name, value in given.items() if value.isdigit()}
    client.sizes = [number.get(n, d) for n, d in zip(("least", "wanted", "most"), client.sizes)]
    if "blob" in number:
        server.keys = [("ssh-ed25519", bytes(number["blob"]))]
    trusted = [(blob, blob) for _, blob in server.keys] + [c[1:] for c in server.certificates]
    machines = []
    for config in (client, server):
        agreement = Agreement(number.get(config.side + "_agreement", 0), given.get(config.side + "_without"))
        hosts = Hosts([] if given.get("trust") == "none" else trusted, number.get(config.side + "_hosts", 0))
        groups = Groups(number.get("bits", 0), number.get(config.side + "_groups", 0))
        order, _, session = cause.partition(":")
        cause_of = (order, hexadecimal(session) if session else b"")
        machines.append(Machine(config, Parts(agreement, hosts, groups), (client.id, server.id), cause_of))
    found = talk(machines, messages)
    if found[-1] != "":
        return " ".join(found)
    one, other = machines
    if not (one.done and other.done):
        return " ".join(found[:-1] + ["open"])
    same = (one.hash, one.session, one.keys) == (other.hash, other.session, other.keys)
    session = "own" if one.session == one.hash else one.session.hex() or "-"
    return " ".join(found[:-1] + ["same" if same else "other", str(len(one.hash)), session])


def talk(machines, messages):
    """What the steps answer, the client's first. The last word is empty where none was refused."""
    found, count = [], 0
    # What each side has sent: a payload, and its number plus one.
    sent = [[(m.kexinit, 1)] for m in machines]
    taken = [0, 0]
    turn = True
    while turn:
        turn = False
        for side, machine in enumerate(machines):
            if machine.done or taken[side] == len(sent[1 - side]):
                continue
            message = sent[1 - side][taken[side]]
            taken[side], count, turn = taken[side] + 1, count + 1, True
            for how in messages.get(count, ["same"]):
                if machine.done:
                    break
                found.append(machine.config.side)
                try:
                    written, reset = machine.step(*changed(how, message))
                    size = sum(packet_size(len(p)) for p in written)
                except Refused as refused:
                    return found + [str(refused)]
                sent[side] += [(p, len(sent[side]) + 1 + i) for i, p in enumerate(written)]
                if machine.done:
                    found += ["done", b"".join(map(clear_packet, written)).hex() or "-"]
                else:
                    found += [str(size)] + ["reset"] * reset
    return found + [""]


# Rows `calls`.

def calls(words):
    side, preferred, given, *asked = words
    config = Config(side, preferences(preferred), b"")
    config.keys = [TEST_KEY]
    line, limits = ("id", b"SSH-2.0-own"), [2 ** 30, 2 ** 30]
    for name, value in settings(given):
        if name in ("id", "rawid"):
            line = (name, value.encode() if name == "id" else hexadecimal(value))
        elif name in ("write", "read"):
            limits[name == "read"] = int(value)
        elif name in ("least", "wanted", "most"):
            config.sizes[("least", "wanted", "most").index(name)] = int(value)
        elif name == "macs":
            config.preferred = config.preferred | {"mac": ["none"] * int(value)}
        elif name == "blob":
            config.keys = [("ssh-ed25519", bytes(int(value)))]
        else:
            raise Unmodelled(name)
    parts = Parts(Agreement(), Hosts([(blob, blob) for _, blob in config.keys]), Groups())
    try:
        transport = Transport(config, parts, *line, limits)
    except Refused as refused:
        return str(refused)
    found = []
    for call in asked:
        name, *given = call.split(":")
        try:
            if name == "pieces":
                pieces(transport, int(given[0]), hexadecimal(given[1]), found)
            else:
                found.append(getattr(transport, name)(*map(hexadecimal, given)) or "ok")
        except Refused as refused:
            found.append(str(refused))
    state = ["failed"] if transport.failed else ["inside"] if transport.inside() else []
    counts = (len(transport.waiting), transport.finished, transport.delivered, transport.written)
    return " ".join(found + state + [str(c) for c in counts])


def pieces(transport, size, text, found):
    """Takes the bytes in pieces, and polls behind each until none is delivered."""
    for at in range(0, len(text), size):
        if transport.take(text[at:at + size]) != str(len(text[at:at + size])):
            raise Unmodelled("a piece that doesn't fit")
        while (payload := transport.poll()) != "none":
            found.append(payload)
    found.append("none")


KINDS = {"play": play, "calls": calls}


def main(files):
    if "--help" in files:
        print(__doc__)
        return 0
    agreed = differed = 0
    for file in files:
        if not os.path.isfile(file):
            print("there is no file", file, file=sys.stderr)
            return 2
        with open(file, encoding="utf-8") as rows:
            for at, row in enumerate(rows, 1):
                row = row.rstrip("\n")
                if not row or row.startswith("#"):
                    continue
                given, _, wanted = row.partition(" = ")
                kind, *words = given.split()
                try:
                    found = KINDS[kind](words)
                except Unmodelled as beyond:
                    found = f"nothing, for it lacks {beyond}"
                if found == wanted:
                    agreed += 1
                else:
                    differed += 1
                    print(f"{file}:{at}: the model has: {found}")
    print(f"{agreed} agree, {differed} differ")
    return 0 if agreed and not differed else 1


if __name__ == "__main__":
    sys.exit(main(sys.argv[1:]))
