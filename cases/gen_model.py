"""A plain model of `sshlink gen SEED COUNT`, written from docs/SCRIPTS.md, RFC 4253 and RFC 5647.

It keeps the lengths of packets and no bytes: the summary has only numbers. `summary(seed, count)` is the text.
"""
from collections import deque

LIMIT = 65536
OTHER = {"client": "server", "server": "client"}
LINE = {"client": len(b"SSH-2.0-sshlink_client\r\n"), "server": len(b"SSH-2.0-sshlink_server\r\n")}
KEXINIT, NEWKEYS, INIT, REPLY = 20, 21, 30, 31

KEX = [
    "mlkem768x25519-sha256", "curve25519-sha256", "curve25519-sha256@libssh.org",
    "diffie-hellman-group-exchange-sha256", "diffie-hellman-group18-sha512", "diffie-hellman-group17-sha512",
    "diffie-hellman-group16-sha512", "diffie-hellman-group15-sha512", "diffie-hellman-group14-sha256",
]
EXTENSIONS = {
    "client": ["ext-info-c", "kex-strict-c-v00@openssh.com"],
    "server": ["ext-info-s", "kex-strict-s-v00@openssh.com"],
}
# A server offers the algorithms of its keys, a client all.
KEYS = {
    "client": [
        "ssh-ed25519", "ecdsa-sha2-nistp256", "ecdsa-sha2-nistp384", "ecdsa-sha2-nistp521", "rsa-sha2-512",
        "rsa-sha2-256", "ssh-rsa",
    ],
    "server": ["ssh-ed25519"],
}
CIPHERS = ["aes256-gcm@openssh.com", "aes256-ctr", "aes192-ctr", "aes128-ctr"]
MACS = ["hmac-sha2-512-etm@openssh.com", "hmac-sha2-256-etm@openssh.com", "hmac-sha2-512", "hmac-sha2-256"]


def string(length):
    return 4 + length


def names(items):
    return string(len(",".join(items)))


def kexinit(side):
    """Type, cookie, ten lists, a flag and a number (RFC 4253 section 7.1)."""
    lists = [KEX + EXTENSIONS[side], KEYS[side], CIPHERS, CIPHERS, MACS, MACS, ["none"], ["none"], [], []]
    return 1 + 16 + sum(names(items) for items in lists) + 1 + 4


# The payloads of an exchange of two messages: values have 32 bytes, the key 16, and a signature is the algorithm's name
# and a digest of 32 bytes.
REPLY_LENGTH = 1 + string(16) + string(32) + string(string(len("ssh-ed25519")) + string(32))
LENGTHS = {INIT: 1 + string(32), REPLY: REPLY_LENGTH, NEWKEYS: 1}


def padded(length, block):
    """The padding length, the payload and at least four bytes of padding fill whole blocks."""
    return (1 + length + 4 + block - 1) // block * block


def packet(length, keyed):
    """In clear the packet length counts into the blocks of 8; under Galois counter mode it doesn't, and a tag follows."""
    if keyed:
        return 4 + padded(length, 16) + 16
    return (4 + 1 + length + 4 + 7) // 8 * 8


class Side:
    """One side, seen by the lengths of what it writes and reads."""

    def __init__(self, name):
        self.name, self.sent, self.out = name, LINE[name], deque()
        self.taken, self.whole = 0, LINE[OTHER[name]]
        self.heard, self.keyed, self.stage = False, False, None
        self.written, self.read, self.held = 0, 0, deque()
        self.finished, self.delivered = 0, []

    def outside(self):
        return self.stage is None and self.finished > 0

    def write(self, kind, length):
        size = packet(length, self.keyed)
        self.sent += size
        self.written += length
        self.out.append((kind, length, size))

    def begin(self):
        self.write(KEXINIT, kexinit(self.name))
        self.stage = "kexinit"

    def go_on(self):
        while self.outside():
            if self.written >= LIMIT or self.read >= LIMIT:
                self.begin()
            elif self.held:
                self.write("payload", self.held.popleft())
            else:
                return

    def submit(self, length):
        if not self.outside():
            self.held.append(length)
            return
        self.write("payload", length)
        self.go_on()

    def rekey(self):
        if self.outside():
            self.begin()

    def take(self, count, peer):
        """Takes so many bytes of what the other sent, and handles each packet that is whole."""
        self.taken += min(count, peer.sent - self.taken)
        if not self.heard and self.taken >= self.whole:
            self.heard = True
            self.begin()
        while self.heard and peer.out and self.whole + peer.out[0][2] <= self.taken:
            kind, length, size = peer.out.popleft()
            self.whole += size
            self.read += length
            self.handle(kind, length)
            self.go_on()

    def handle(self, kind, length):
        if kind == "payload":
            self.delivered.append(length)
        elif kind == KEXINIT:
            if self.stage is None:
                self.begin()
            assert self.stage == "kexinit"
            if self.name == "client":
                self.write(INIT, LENGTHS[INIT])
            self.stage = REPLY if self.name == "client" else INIT
        elif kind == NEWKEYS:
            assert self.stage == NEWKEYS
            self.keyed, self.stage, self.written, self.read = True, None, 0, 0
            self.finished += 1
        else:
            assert kind == self.stage
            if kind == INIT:
                self.write(REPLY, LENGTHS[REPLY])
            self.write(NEWKEYS, LENGTHS[NEWKEYS])
            self.stage = NEWKEYS


def summary(seed, count):
    state, steps = seed, 0
    sides = {name: Side(name) for name in OTHER}

    def draw():
        nonlocal state
        state = (state * 6364136223846793005 + 1442695040888963407) % 2**64
        return state >> 33

    def side_of(number):
        return "client" if number % 2 == 0 else "server"

    for turn in range(count):
        side = sides[side_of(draw())]
        side.submit(1 + draw() % 1000)
        steps += 2
        if draw() % 16 == 0:
            side.rekey()
            steps += 1
        number = draw()
        taker = side_of(number)
        sides[taker].take(number % 4096, sides[OTHER[taker]])
    steps += 1
    client, server = sides["client"], sides["server"]
    while client.taken < server.sent or server.taken < client.sent:
        server.take(client.sent, client)
        client.take(server.sent, server)
    text = f"steps {steps}\n"
    for name, side in sides.items():
        text += f"{name} sent {side.sent} finished {side.finished} "
        text += f"delivered {len(side.delivered)} bytes {sum(side.delivered)}\n"
    return text
