"""The part of the model that is one side's transport (RFC 4253 sections 4.2, 7 and 9; OpenSSH's strict key exchange).
`model.py` says what it is for."""

import galois
from exchange import LONGEST_PACKET, LONGEST_PAYLOAD, MACS, Machine, Refused, Unmodelled, late, names, packet_size

# The messages of the first exchange under strict key exchange, by who sends them.
ORDERS = {"client": ((20, 30, 21), (20, 34, 32, 21)), "server": ((20, 31, 21), (20, 31, 33, 21))}
OTHER_LINES = 20
LONGEST_LINE = 255
# What is kept of the input at most: a packet length, the longest packet, the longest tag.
LONGEST_INPUT = 4 + LONGEST_PACKET + 64


def line_of(kind, text):
    return text + b"\r\n" if kind == "id" else text


def judge_config(config, kind, text, limits):
    """The first test that refuses the configuration of a transport."""
    line = line_of(kind, text)
    body = text if kind == "id" else text[:-2] if text.endswith(b"\r\n") else text[:-1] if text.endswith(b"\n") else None
    lists = [names(l)[4:] for l in config.advertised()]
    blobs = [blob for _, blob in config.keys] + [c[1] for c in config.certificates]
    tests = (
        ("Id", not text.startswith((b"SSH-2.0-", b"SSH-1.99-")) or body is None or b"\r" in body or b"\n" in body
         or len(line) > LONGEST_LINE),
        ("Limit", any(not 1 <= l <= 2 ** 30 for l in limits)),
        ("GroupSizes", not config.sizes[0] <= config.sizes[1] <= config.sizes[2]),
        ("KexNone", "none" in config.preferred["kex"]),
        ("NameList", any(len(l) > 1024 for l in config.advertised()) or any(len(l) > 16384 for l in lists)),
        ("HostBlob", any(len(b) > 65536 for b in blobs)),
    )
    for fault, holds in tests:
        if holds:
            raise Refused(f"InvalidConfig({fault})")
    return body


class Transport:
    def __init__(self, config, parts, kind, text, limits):
        self.config, self.parts, self.limits = config, parts, limits
        self.id = judge_config(config, kind, text, limits)
        self.written = len(line_of(kind, text))
        self.peer_id, self.other_lines, self.waiting = None, 0, b""
        self.failed, self.machine, self.held, self.delivered = False, None, [], 0
        self.finished, self.first = 0, None
        self.number, self.read_count, self.write_count = 0, 0, 0
        self.cipher, self.own_mac, self.peer_mac = "clear", "none", "none"
        self.peer_nonce, self.peer_key = b"", b""

    def inside(self):
        return self.machine is not None or not self.finished

    def write(self, payload):
        self.written += packet_size(len(payload), self.cipher, self.own_mac)
        self.write_count += len(payload)
        if not self.inside():
            self.judge_limits()

    def judge_limits(self):
        if self.write_count >= self.limits[0] or self.read_count >= self.limits[1]:
            self.begin()

    def begin(self):
        ids = (self.id, self.peer_id) if self.config.side == "client" else (self.peer_id, self.id)
        cause = ("strict" if self.first.names.strict else "plain", self.first.hash) if self.first else ("first", b"")
        self.machine = Machine(self.config, self.parts, ids, cause)
        self.write(self.machine.kexinit)

    # The calls.

    def rekey(self):
        if self.failed:
            raise Refused("Disconnect")
        if not self.inside():
            self.begin()

    def submit(self, payload):
        if self.failed:
            raise Refused("Disconnect")
        if not 1 <= len(payload) <= LONGEST_PAYLOAD:
            raise Refused(f"PacketSize({len(payload)})")
        if not (5 <= payload[0] <= 7 or payload[0] >= 50):
            raise Refused("Inconsistent")
        if self.inside():
            self.held.append(payload)
        else:
            self.write(payload)

    def feed(self, piece):
        if self.failed:
            raise Refused("Disconnect")
        self.waiting += piece
        while self.next_delivered() is not None:
            self.delivered += 1

    def take(self, piece):
        if self.failed:
            raise Refused("Disconnect")
        count = min(len(piece), LONGEST_INPUT - len(self.waiting))
        self.waiting += piece[:count]
        return str(count)

    def poll(self):
        if self.failed:
            raise Refused("Disconnect")
        payload = self.next_delivered()
        return "none" if payload is None else payload.hex()

    def next_delivered(self):
        """Handles what waits up to a payload that is delivered: that, or nothing."""
        try:
            while self.peer_id is None and self.take_line():
                pass
            while self.peer_id is not None:
                payload = self.opened()
                if payload is None:
                    return None
                if self.handle(payload):
                    return payload
            return None
        except Refused:
            self.failed, self.waiting = True, b""
            raise

    # Version lines.

    def take_line(self):
        """Takes a whole line, if there is one."""
        end = self.waiting.find(b"\n", 1) + 1
        if not 0 < end <= LONGEST_LINE:
            if len(self.waiting) >= LONGEST_LINE:
                raise Refused("Version")
            return False
        line, self.waiting = self.waiting[:end - 1].removesuffix(b"\r"), self.waiting[end:]
        if line.startswith((b"SSH-2.0-", b"SSH-1.99-")) and is_text(line):
            self.peer_id = line
            self.begin()
            return True
        self.other_lines += 1
        if self.config.side == "server" or self.other_lines > OTHER_LINES:
            raise Refused("Version")
        return True

    # Packets.

    def opened(self):
        """The next packet's payload, if it is whole."""
        in_clear = self.cipher in ("clear", "none")
        by_block = self.cipher.endswith(("-ctr", "-cbc"))
        etm = self.peer_mac.endswith("-etm@openssh.com")
        if len(self.waiting) < (16 if by_block else 4):
            return None
        if by_block and not etm:
            raise Unmodelled("a packet length that is encrypted")
        tag = 0 if in_clear else MACS[self.peer_mac] if by_block else 16
        length = int.from_bytes(self.waiting[:4], "big")
        if length > LONGEST_PACKET or by_block and length + 4 + tag < 16:
            raise Refused(f"PacketSize({length})")
        if len(self.waiting) < 4 + length + tag:
            return None
        if by_block:
            raise Refused("PacketAuth")
        packet, behind = self.waiting[4:4 + length], self.waiting[4 + length:]
        if not in_clear:
            packet = galois.opened(self.peer_key, self.peer_nonce, self.waiting[:4], packet, behind[:tag])
            if packet is None:
                raise Refused("DecryptionError")
            count = int.from_bytes(self.peer_nonce[4:], "big") + 1
            self.peer_nonce = self.peer_nonce[:4] + (count % 2 ** 64).to_bytes(8, "big")
        self.waiting = behind[tag:]
        padding = packet[0] if packet else 0
        if padding > length:
            raise Refused("IndexOutOfBounds")
        payload = packet[1:max(1, length - padding)]
        if not payload:
            raise Refused(f"PacketSize({length})")
        self.number = (self.number + 1) % 2 ** 32
        self.read_count += len(payload)
        return payload

    def handle(self, payload):
        """Whether it is delivered."""
        message, delivers = payload[0], False
        if message == 1:
            raise Refused("Disconnect")
        machine = self.machine
        if not self.finished and machine.names and machine.names.strict:
            place = self.number - 1 - machine.guess_ignored
            reaching = [o[place] for o in ORDERS["client" if self.config.side == "server" else "server"] if place < len(o)]
            if reaching and message not in reaching:
                raise late(message, place)
        if message in (2, 3, 4):
            pass
        elif message in (20, 21) or 30 <= message <= 34:
            if not self.inside():
                if message != 20:
                    raise Refused("Inconsistent")
                self.begin()
            self.carry(payload)
        elif 5 <= message <= 7 or message >= 50:
            if self.inside() and not (self.finished and not machine.names):
                raise Refused("Inconsistent")
            delivers = True
        else:
            raise Refused("Inconsistent")
        if not self.inside():
            self.judge_limits()
        return delivers

    def carry(self, payload):
        machine = self.machine
        written, _ = machine.step(payload, self.number)
        for message in written:
            self.write(message)
        if not machine.done:
            return
        if self.config.side == "client":
            self.parts.hosts.check(machine.host)
        self.take_keys(machine)
        self.read_count = self.write_count = 0
        self.finished, self.first, self.machine = self.finished + 1, self.first or machine, None
        while self.held and not self.inside():
            self.write(self.held.pop(0))

    def take_keys(self, machine):
        """The keys of an exchange hold from its end on."""
        self.cipher = machine.names.cipher
        self.own_mac = machine.names.macs[self.config.side]
        self.peer_mac = machine.names.macs["client" if self.config.side == "server" else "server"]
        self.peer_nonce, self.peer_key = machine.keys[self.config.side == "client"], machine.keys[2 + (self.config.side == "client")]
        if machine.names.strict:
            self.number = 0


def is_text(line):
    try:
        return bool(line.decode("utf-8"))
    except UnicodeDecodeError:
        return False
