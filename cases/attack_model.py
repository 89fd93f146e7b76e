#!/usr/bin/env python3
"""Usage: cases/attack_model.py [--write] [CASE..]

A plain model of the commands `attack` and `run`. It computes the report of each case, of all in cases/attack and
cases/run_* if none is named, prints the first line of each that differs from what is there, and how many agree. The
status is 1 if one differs. With --write it writes stdout and status of the named cases instead. Scripts that break the
grammar are left out.

It was written from docs/SCRIPTS.md and the standards: RFC 4251, 4253, 4344, 4419 and 5647, RFC 8439 for the generator,
and OpenSSH's strict key exchange and `-etm` MACs. The machines, the stand-in components and AES are those of
vectors/machines, which say what they come from; all hashes are python3's own. It computes every byte that a side
sends."""

import pathlib
import re
import struct
import sys

sys.dont_write_bytecode = True
HERE = pathlib.Path(__file__).resolve().parent
sys.path.insert(0, str(HERE.parent / "vectors" / "machines"))

from exchange import CERTIFICATE, DEFAULTS, TEST_KEY, Agreement, Config, Groups, Hosts, Parts, Refused  # noqa: E402
from sealing import Clear, opened, sealed, sealer  # noqa: E402
from transport import Transport, line_of  # noqa: E402

OTHER = {"client": "server", "server": "client"}


class Generator:
    """ChaCha20 (RFC 8439 section 2.3) with a counter of 64 bits. Each draw begins at a whole word."""

    def __init__(self, seed):
        self.key, self.count, self.left = seed.to_bytes(8, "little") + bytes(24), 0, b""

    def block(self):
        start = [0x61707865, 0x3320646E, 0x79622D32, 0x6B206574, *struct.unpack("<8I", self.key), self.count, 0, 0, 0]
        words = start[:]

        def quarter(*at):
            for x, y, z, turn in ((0, 1, 3, 16), (2, 3, 1, 12), (0, 1, 3, 8), (2, 3, 1, 7)):
                words[at[x]] = (words[at[x]] + words[at[y]]) % 2 ** 32
                mixed = words[at[x]] ^ words[at[z]]
                words[at[z]] = (mixed << turn | mixed >> 32 - turn) % 2 ** 32

        for _ in range(10):
            for i in range(4):
                quarter(i, 4 + i, 8 + i, 12 + i)
            for i in range(4):
                quarter(i, 4 + (i + 1) % 4, 8 + (i + 2) % 4, 12 + (i + 3) % 4)
        self.count += 1
        return struct.pack("<16I", *((a + b) % 2 ** 32 for a, b in zip(words, start)))

    def draw(self, count):
        words = (count + 3) // 4 * 4
        while len(self.left) < words:
            self.left += self.block()
        drawn, self.left = self.left[:count], self.left[words:]
        return drawn


class Side(Transport):
    """A transport with its bytes."""

    def __init__(self, config, parts, kind, text, limits):
        super().__init__(config, parts, kind, text, limits)
        self.wire, self.fed, self.given, self.exchanges = line_of(kind, text), 0, [], []
        self.writer, self.reader, self.own_number = Clear(), Clear(), 0

    def write(self, payload):
        self.wire += sealed(self.writer, self.own_number, payload, self.parts.draw)
        self.own_number = (self.own_number + 1) % 2 ** 32
        super().write(payload)

    def opened(self):
        found = opened(self.reader, self.number, self.waiting)
        if found is None:
            return None
        payload, self.waiting = found
        self.number = (self.number + 1) % 2 ** 32
        self.read_count += len(payload)
        return payload

    def next_delivered(self):
        payload = super().next_delivered()
        if payload is not None:
            self.given.append(payload)
        return payload

    def take_keys(self, machine):
        super().take_keys(machine)
        self.exchanges.append(machine)
        client_start, server_start, client_key, server_key, client_mac, server_mac = machine.keys
        macs, cipher = machine.names.macs, machine.names.cipher
        ways = {"client": sealer(cipher, macs["client"], client_key, client_start, client_mac),
                "server": sealer(cipher, macs["server"], server_key, server_start, server_mac)}
        self.writer, self.reader = ways[self.config.side], ways[OTHER[self.config.side]]
        if machine.names.strict:
            self.own_number = 0

    def take_in(self, piece):
        self.fed += len(piece)
        self.feed(piece)

    def step(self, words):
        if words[0] == "feed":
            self.take_in(bytes_of(words[1]))
        elif words[0] == "submit":
            self.submit(bytes_of(words[1]))
        else:
            self.rekey()

    def report(self):
        side = self.config.side
        lines = [f"wire {shown(self.wire)}", f"taken {self.fed}", f"finished {len(self.exchanges)}"]
        for count, made in enumerate(self.exchanges, 1):
            n = made.names
            key = n.key + CERTIFICATE if n.certificate else n.key
            strict = "strict" if n.strict else "plain"
            lines.append(f"exchange {count} {n.kex} {key} {n.cipher} {n.macs['client']} {n.macs['server']} {strict} "
                         f"{shown(made.hash)} {shown(made.session)}")
        lines += [f"delivered {shown(payload)}" for payload in self.given]
        return [f"{side} {line}" for line in lines]


def bytes_of(word):
    return b"" if word == "-" else bytes.fromhex(word)


def shown(text):
    return text.hex() or "-"


def told(refused):
    """A refusal as a report spells it."""
    if refused.lists:
        kind, ours, theirs = refused.lists
        return f"NoCommonAlgo {kind} ours {','.join(ours) or '-'} theirs {','.join(theirs) or '-'}"
    return " ".join(re.findall(r"\w+", re.sub(r"\w+: ", "", str(refused))))


class Setup:
    """What the `set` lines say."""

    def __init__(self):
        self.kind = {"client": ("id", b"SSH-2.0-sshlink_client"), "server": ("id", b"SSH-2.0-sshlink_server")}
        self.limits = {side: [2 ** 30, 2 ** 30] for side in OTHER}
        self.seed = {"client": 1, "server": 2}
        self.refuse = {side: {} for side in OTHER}
        self.config = {side: Config(side, dict(DEFAULTS), b"") for side in OTHER}
        self.keys, self.certificates, self.bits = [], [], 0

    def take(self, side, what, words):
        if what in ("id", "rawid"):
            self.kind[side] = (what, words[0].encode() if what == "id" else bytes_of(words[0]))
        elif what in ("kex", "key", "cert", "cipher", "mac"):
            self.config[side].preferred[what] = [] if words[0] == "-" else words[0].split(",")
        elif what == "limits":
            self.limits[side] = [int(word) for word in words]
        elif what == "gex":
            self.config[side].sizes = [int(word) for word in words]
        elif what == "seed":
            self.seed[side] = int(words[0])
        elif what == "refuse":
            self.refuse[side][words[0]] = int(words[1])
        elif what == "host":
            self.keys.append((words[0], bytes_of(words[1])))
        elif what == "hostcert":
            self.certificates.append((words[0], bytes_of(words[1]), bytes_of(words[2])))
        elif what == "group":
            self.bits = int(words[0])

    def sides(self):
        self.keys = self.keys or [TEST_KEY]
        self.config["server"].keys, self.config["server"].certificates = self.keys, self.certificates
        trusted = [(blob, blob) for _, blob in self.keys] + [c[1:] for c in self.certificates]
        found = {}
        for side, config in self.config.items():
            at = self.refuse[side]
            parts = Parts(Agreement(at.get("agreement", 0)), Hosts(trusted, at.get("hosts", 0)),
                          Groups(self.bits, at.get("groups", 0)), Generator(self.seed[side]).draw)
            found[side] = Side(config, parts, *self.kind[side], self.limits[side])
        return found


def steps_of(text):
    """What the lines set, and the words of each step."""
    setup, steps = Setup(), []
    for line in text.split("\n"):
        words = [word for word in line.removesuffix("\r").split(" ") if word]
        if words and words[0] == "set":
            setup.take(words[1], words[2], words[3:])
        elif words and not words[0].startswith("#"):
            steps.append(words)
    return setup, steps


def attack(setup, steps):
    """Each side is fed what its lines say, and each step is answered."""
    sides, answers = setup.sides(), []
    for count, words in enumerate(steps, 1):
        try:
            sides[words[1]].step([words[0], *words[2:]])
            answers.append(f"answer {count} ok")
        except Refused as refused:
            answers.append(f"answer {count} {told(refused)}")
    return sides["client"].report() + sides["server"].report() + answers


def deliver(sides, side, count):
    """The side takes that many bytes of the peer's, or all that wait; whether any waited."""
    one, other = sides[side], sides[OTHER[side]]
    piece = other.wire[one.fed:one.fed + count]
    one.take_in(piece)
    return bool(piece)


def run(setup, steps):
    """Both sides are joined."""
    sides = setup.sides()
    for words in steps:
        if words[0] == "settle":
            while any([deliver(sides, side, len(sides[OTHER[side]].wire)) for side in ("server", "client")]):
                pass
        elif words[0] == "deliver":
            deliver(sides, words[1], int(words[2]))
        else:
            sides[words[1]].step([words[0], *words[2:]])
    return sides["client"].report() + sides["server"].report()


def answer(command, text):
    """Status and report of a script without a faulty line."""
    try:
        lines = {"attack": attack, "run": run}[command](*steps_of(text))
    except Refused as refused:
        return 1, f"refused {told(refused)}\n"
    return 0, "".join(line + "\n" for line in lines)


def main():
    if "--help" in sys.argv:
        print(__doc__)
        return 0
    write = "--write" in sys.argv
    named = [pathlib.Path(word) for word in sys.argv[1:] if word != "--write"]
    if write and not named:
        print("--write wants the names of cases", file=sys.stderr)
        return 2
    folders = ("attack", "run_one", "run_groups", "run_rekeys")
    named = named or sorted(it.parent for folder in folders for it in HERE.glob(folder + "/*/args"))
    agreed = differed = 0
    for case in named:
        if not (case / "stdin").is_file():
            print("there is no case", case, file=sys.stderr)
            return 2
        command = (case / "args").read_text().strip()
        status, text = answer(command, (case / "stdin").read_bytes().decode("utf-8"))
        if write:
            (case / "stdout").write_text(text, encoding="utf-8")
            (case / "status").write_text(f"{status}\n")
        wanted = (case / "stdout").read_text(encoding="utf-8")
        if (status, text) == (int((case / "status").read_text()), wanted):
            agreed += 1
            continue
        differed += 1
        pairs = zip(text.split("\n"), wanted.split("\n"))
        found = next((one for one, other in pairs if one != other), "another number of lines, or another status")
        print(f"{case.parent.name}/{case.name}: the model has: {found}")
    print(f"attack and run: {agreed} agree, {differed} differ")
    return 1 if differed or not agreed else 0


if __name__ == "__main__":
    sys.exit(main())
