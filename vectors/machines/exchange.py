"""The part of the model that is an exchange: forms, packets, negotiation, what is handed in, and the machine of either side.
`model.py` says what it is for."""

import hashlib

LONGEST_PAYLOAD = 262157
LONGEST_PACKET = 262177

# Names of key exchanges: whether groups are exchanged, the digest, whether the secret is hashed as a string.
EXCHANGES = {
    "mlkem768x25519-sha256": (False, "sha256", True),
    "curve25519-sha256": (False, "sha256", False),
    "curve25519-sha256@libssh.org": (False, "sha256", False),
    "diffie-hellman-group-exchange-sha1": (True, "sha1", False),
    "diffie-hellman-group-exchange-sha256": (True, "sha256", False),
    "diffie-hellman-group1-sha1": (False, "sha1", False),
    "diffie-hellman-group14-sha1": (False, "sha1", False),
    "diffie-hellman-group14-sha256": (False, "sha256", False),
    "diffie-hellman-group15-sha512": (False, "sha512", False),
    "diffie-hellman-group16-sha512": (False, "sha512", False),
    "diffie-hellman-group17-sha512": (False, "sha512", False),
    "diffie-hellman-group18-sha512": (False, "sha512", False),
    "ecdh-sha2-nistp256": (False, "sha256", False),
    "ecdh-sha2-nistp384": (False, "sha384", False),
    "ecdh-sha2-nistp521": (False, "sha512", False),
    "none": (False, "sha256", False),
}
STRICT = {"client": "kex-strict-c-v00@openssh.com", "server": "kex-strict-s-v00@openssh.com"}
INFO = {"client": "ext-info-c", "server": "ext-info-s"}
EXTENSIONS = set(STRICT.values()) | set(INFO.values())

# Lengths of a cipher's key and nonce. A name in counter or chaining mode needs a MAC.
CIPHERS = {
    "clear": (0, 0), "none": (0, 0), "aes128-gcm@openssh.com": (16, 12), "aes256-gcm@openssh.com": (32, 12),
    "aes128-ctr": (16, 16), "aes192-ctr": (24, 16), "aes256-ctr": (32, 16),
    "aes128-cbc": (16, 16), "aes192-cbc": (24, 16), "aes256-cbc": (32, 16),
}
# The length of a MAC's key and tag.
MACS = {"none": 0}
for _digest, _length in (("hmac-sha1", 20), ("hmac-sha2-256", 32), ("hmac-sha2-512", 64)):
    MACS[_digest] = MACS[_digest + "-etm@openssh.com"] = _length
CERTIFICATE = "-cert-v01@openssh.com"
ECDSA = "ecdsa-sha2-nistp"

DEFAULTS = {
    "kex": ["mlkem768x25519-sha256", "curve25519-sha256", "curve25519-sha256@libssh.org",
            "diffie-hellman-group-exchange-sha256", "diffie-hellman-group18-sha512", "diffie-hellman-group17-sha512",
            "diffie-hellman-group16-sha512", "diffie-hellman-group15-sha512", "diffie-hellman-group14-sha256",
            "ext-info-c", "ext-info-s", STRICT["client"], STRICT["server"]],
    "key": ["ssh-ed25519", "ecdsa-sha2-nistp256", "ecdsa-sha2-nistp384", "ecdsa-sha2-nistp521", "rsa-sha2-512",
            "rsa-sha2-256", "ssh-rsa"],
    "cert": [],
    "cipher": ["aes256-gcm@openssh.com", "aes256-ctr", "aes192-ctr", "aes128-ctr"],
    "mac": ["hmac-sha2-512-etm@openssh.com", "hmac-sha2-256-etm@openssh.com", "hmac-sha2-512", "hmac-sha2-256"],
    "compression": ["none"],
}
TEST_KEY = ("ssh-ed25519", b"sshlink-test-key")


class Refused(Exception):
    """A refusal, by its text in a row; and the kind and both lists, if no name is in common."""

    def __init__(self, text, lists=None):
        super().__init__(text)
        self.lists = lists


class Unmodelled(Exception):
    """A row that needs what this model doesn't have."""


# Forms (RFC 4251 section 5).

def u32(number):
    return number.to_bytes(4, "big")


def string(text):
    return u32(len(text)) + text


def mpint(magnitude):
    bare = magnitude.lstrip(b"\0")
    return string(b"\0" + bare if bare and bare[0] >= 0x80 else bare)


def names(items):
    return string(",".join(items).encode())


def encoding(fault):
    return Refused(f"SshEncoding({fault})")


class Reader:
    """Fields of a message, one after the other."""

    def __init__(self, text):
        self.left = text

    def take(self, count):
        if len(self.left) < count:
            raise encoding("Length")
        taken, self.left = self.left[:count], self.left[count:]
        return taken

    def u8(self):
        return self.take(1)[0]

    def u32(self):
        return int.from_bytes(self.take(4), "big")

    def string(self):
        return self.take(self.u32())

    def text(self):
        try:
            return self.string().decode("utf-8")
        except UnicodeDecodeError:
            raise encoding("CharacterEncoding") from None

    def mpint(self):
        body = self.string()
        if body and (body[0] >= 0x80 or (body[0] == 0 and (len(body) == 1 or body[1] < 0x80))):
            raise encoding("MpintEncoding")
        return body.lstrip(b"\0")

    def names(self):
        text = self.string()
        if len(text) > 16384:
            raise encoding("Length")
        try:
            text = text.decode("utf-8")
        except UnicodeDecodeError:
            raise encoding("CharacterEncoding") from None
        if not text:
            return []
        items = (text[:-1] if len(text) > 1 and text.endswith(",") else text).split(",")
        for place, name in enumerate(items):
            if not name or not name.isascii():
                raise encoding("CharacterEncoding")
            if place >= 1024:
                raise encoding("Length")
        return items

    def end(self):
        if self.left:
            raise encoding("TrailingData")


# Packets (RFC 4253 section 6, RFC 5647 section 7.2).

def packet_size(payload, cipher="clear", mac="none"):
    """How many bytes a packet of so many payload bytes has on the wire, its tag included."""
    if not payload:
        return 0
    if payload > LONGEST_PAYLOAD:
        raise Refused(f"PacketSize({payload})")
    own_tag = cipher.endswith("-gcm@openssh.com")
    block = 8 if cipher in ("clear", "none") else 16
    # Where the length is not encrypted, it isn't counted for the padding.
    counted = 1 + payload if own_tag or (block == 16 and mac.endswith("-etm@openssh.com")) else 5 + payload
    padding = block - counted % block
    if padding < 4:
        padding += block
    tag = 16 if own_tag else 0 if block == 8 else MACS[mac]
    return 5 + payload + padding + tag


def clear_packet(payload):
    return u32(packet_size(len(payload)) - 4) + bytes([packet_size(len(payload)) - 5 - len(payload)]) + payload \
        + bytes(packet_size(len(payload)) - 5 - len(payload))


# Negotiation (RFC 4253 section 7.1).

def is_compatible(key, name):
    return key == name or is_rsa(key) and is_rsa(name)


def is_rsa(name):
    return name in ("ssh-rsa", "rsa-sha2-256", "rsa-sha2-512")


class Config:
    """What a side is set up with."""

    def __init__(self, side, preferred, text_of_id):
        self.side, self.preferred, self.id = side, preferred, text_of_id
        self.keys, self.certificates = [], []
        self.sizes = [2048, 3072, 8192]

    def certificate_names(self):
        """The plain names of the certificates that a server can present."""
        found = []
        for algorithm, _, key_blob in self.certificates:
            if any(blob == key_blob for _, blob in self.keys):
                fitting = [n for n in self.preferred["key"] if is_compatible(algorithm, n)]
                found += [n for n in fitting if n not in found]
        return found

    def host_key_names(self):
        """The host key list that it advertises."""
        if self.side == "client":
            return [n + CERTIFICATE for n in self.preferred["cert"]] + self.preferred["key"]
        held = [n for n in self.preferred["key"] if any(is_compatible(k, n) for k, _ in self.keys)]
        return [n + CERTIFICATE for n in self.certificate_names()] + held

    def advertised(self):
        """The lists of its KEXINIT in their order, those of the languages aside."""
        other = "server" if self.side == "client" else "client"
        kex = [n for n in self.preferred["kex"] if n not in (STRICT[other], INFO[other])]
        lists = [kex, self.host_key_names()]
        for kind in ("cipher", "mac", "compression"):
            lists += [self.preferred[kind]] * 2
        return lists

    def kexinit(self, cookie):
        return bytes([20]) + cookie + b"".join(names(l) for l in self.advertised() + [[], []]) + bytes(5)


def no_common(kind, ours, theirs):
    def shown(items):
        return "NameList([" + ", ".join(f'Text {{ text: "{n}" }}' for n in items) + "])"
    text = f"NoCommonAlgo {{ kind: {kind}, ours: {shown(ours)}, theirs: {shown(theirs)} }}"
    return Refused(text, (kind, ours, theirs))


class Names:
    """What the peer's KEXINIT and the own lists agree on; or a refusal, the first in the order of the fields."""

    def __init__(self, config, payload, cause):
        self.config = config
        if len(payload) < 17:
            raise Refused("Inconsistent")
        read = Reader(payload[17:])
        own_kex = [n for n in config.preferred["kex"] if n not in EXTENSIONS]
        theirs = read.names()
        compared = [n for n in theirs if n not in EXTENSIONS]
        self.kex, first_kex = self.choose("Kex", own_kex, compared)
        other = "server" if config.side == "client" else "client"
        requested = STRICT[config.side] in config.preferred["kex"]
        self.strict = requested and STRICT[other] in theirs or cause[0] == "strict"
        host_key, first_key = self.choose("Key", config.host_key_names(), read.names())
        self.certificate = host_key.endswith(CERTIFICATE)
        self.key = host_key.removesuffix(CERTIFICATE)
        self.cipher, _ = self.choose("Cipher", config.preferred["cipher"], read.names())
        read.text()
        self.macs = {"client": self.choose_mac(read.names()), "server": self.choose_mac(read.names())}
        for _ in ("client", "server"):
            self.choose("Compression", config.preferred["compression"], read.names())
        read.text(), read.text()
        follows = read.u8() != 0
        read.u32()
        read.end()
        self.ignore_guessed = follows and not (first_kex and first_key)

    def choose(self, kind, ours, theirs):
        """The first name of the client's list that the server's has, and whether both first names are equal."""
        client, server = (ours, theirs) if self.config.side == "client" else (theirs, ours)
        for name in client:
            if name in server:
                return name, ours[:1] == theirs[:1]
        raise no_common(kind, ours, theirs)

    def choose_mac(self, theirs):
        ours = self.config.preferred["mac"]
        needed = self.cipher.endswith(("-ctr", "-cbc"))
        try:
            name, _ = self.choose("Mac", ours, theirs)
        except Refused:
            if needed:
                raise
            return "none"
        if needed and name == "none":
            raise no_common("Mac", ours, theirs)
        return name


# What is handed in. Each part refuses the call whose number is given, 0 being none's.

class Calls:
    def __init__(self, refuse_at):
        self.refuse_at, self.calls = refuse_at, 0

    def is_refused(self):
        self.calls += 1
        return self.calls == self.refuse_at


class Agreement(Calls):
    """A public value is 32 drawn bytes, the secret a hash of both values, the name and the group. Offers all but `none`
    and one other name."""

    def __init__(self, refuse_at=0, without=None):
        super().__init__(refuse_at)
        self.without = without

    def offers(self, name):
        return name not in ("none", self.without)

    def start(self, draw):
        if self.is_refused():
            raise Refused("Kex")
        return draw(32)

    def agree(self, name, group, client, server, peers):
        if self.is_refused() or len(peers) != 32:
            raise Refused("Kex")
        parts = (name.encode(), *(group or (b"", b"")), client, server)
        return hashlib.sha256(b"".join(map(string, parts))).digest()


def signature_of(name, key_blob, digest):
    """A signature in the form of the name's algorithm, whose value is a hash."""
    value = hashlib.sha256(string(name.encode()) + string(key_blob) + string(digest)).digest()
    return string(name.encode()) + string(mpint(value) * 2 if name.startswith(ECDSA) else value)


def canonical(signature):
    """An ECDSA signature with both scalars in their shortest form; any other as it is."""
    try:
        read = Reader(signature)
        name, scalars = read.text(), Reader(read.string())
        read.end()
        one, other = scalars.string(), scalars.string()
        scalars.end()
    except Refused:
        return signature
    if not name.startswith("ecdsa-sha2-"):
        return signature
    return string(name.encode()) + string(mpint(one) + mpint(other))


class Hosts(Calls):
    """Signs, and judges signatures of the hosts that it trusts, each a blob with its key's."""

    def __init__(self, trusted, refuse_at=0):
        super().__init__(refuse_at)
        self.trusted = trusted

    def sign(self, name, key_blob, digest):
        if self.is_refused():
            raise Refused("Signature")
        return signature_of(name, key_blob, digest)

    def verify(self, name, blob, digest, signature):
        key_blobs = [key for host, key in self.trusted if host == blob]
        if self.is_refused() or not key_blobs or signature_of(name, key_blobs[0], digest) != canonical(signature):
            raise Refused("WrongServerSig")

    def check(self, blob):
        if self.is_refused() or all(host != blob for host, _ in self.trusted):
            raise Refused("UnknownKey")


class Groups(Calls):
    """A number of so many bits, or of the preferred size where that is 0: first and last bit set, the others clear."""

    def __init__(self, bits=0, refuse_at=0):
        super().__init__(refuse_at)
        self.bits = bits

    def look_up(self, sizes):
        if self.is_refused():
            raise Refused("Kex")
        bits = self.bits or sizes[1]
        prime = 1 << bits - 1 | 1 if bits else 0
        return prime.to_bytes((bits + 7) // 8, "big"), b"\x02"


class Parts:
    """`draw` gives that number of bytes: zeros, unless a generator is given."""

    def __init__(self, agreement, hosts, groups, draw=bytes):
        self.agreement, self.hosts, self.groups, self.draw = agreement, hosts, groups, draw


# The machines (RFC 4253 sections 7 and 8, RFC 4419 section 3).

class Machine:
    """One side of an exchange, from its own KEXINIT on. `step` answers the payloads that it writes, and whether the
    numbers of its packets begin again; `done` is told at the end."""

    def __init__(self, config, parts, ids, cause=("first", b"")):
        self.config, self.parts, self.cause = config, parts, cause
        self.is_client = config.side == "client"
        self.kexinit = config.kexinit(parts.draw(16))
        self.text = {"client_id": ids[0], "server_id": ids[1], config.side: self.kexinit}
        self.names, self.group, self.sizes, self.done = None, None, None, False
        self.ignore_guessed, self.guess_ignored = False, False
        self.state = self.created

    def step(self, payload, number):
        if payload is None:
            raise Refused("KexInit")
        if self.ignore_guessed:
            self.ignore_guessed, self.guess_ignored = False, True
            return [], False
        return self.state(payload, number)

    def created(self, payload, number):
        if payload[:1] != bytes([20]):
            raise Refused("KexInit")
        names = Names(self.config, payload, self.cause)
        if names.strict and self.cause[0] == "first" and number != 1:
            raise late(20, (number - 1) % 2 ** 32)
        if names.kex != "none" and not self.parts.agreement.offers(names.kex):
            raise Refused("UnknownAlgo")
        self.names, self.text["server" if self.is_client else "client"] = names, payload
        self.by_group, self.digest, self.by_string = EXCHANGES[names.kex]
        self.ignore_guessed = names.ignore_guessed
        if names.kex == "none":
            self.hash = self.k = b""
            self.finish()
            return [bytes([21])], False
        if not self.is_client:
            self.state = self.sizes_awaited if self.by_group else self.value_awaited
            return [], False
        if not self.by_group:
            return self.send_value(30), False
        self.sizes, self.state = self.config.sizes, self.group_awaited
        return [bytes([34]) + b"".join(map(u32, self.sizes))], False

    def send_value(self, message):
        self.value, self.state = self.parts.agreement.start(self.parts.draw), self.reply_awaited
        return [bytes([message]) + string(self.value)]

    def expect(self, payload, message):
        if payload[:1] != bytes([message]):
            raise Refused("KexInit")
        return Reader(payload[1:])

    def group_awaited(self, payload, _):
        read = self.expect(payload, 31)
        group = read.mpint(), read.mpint()
        read.end()
        if not self.sizes[0] <= int.from_bytes(group[0], "big").bit_length() <= self.sizes[2]:
            raise Refused("KexInit")
        self.group = group
        return self.send_value(32), False

    def sizes_awaited(self, payload, _):
        read = self.expect(payload, 34)
        self.sizes = [read.u32() for _ in range(3)]
        read.end()
        self.group = self.parts.groups.look_up(self.sizes)
        self.state = self.value_awaited
        return [bytes([31]) + b"".join(map(mpint, self.group))], False

    def value_awaited(self, payload, _):
        read = self.expect(payload, 32 if self.by_group else 30)
        client = read.string()
        read.end()
        value = self.parts.draw(32)
        secret = self.parts.agreement.agree(self.names.kex, self.group, client, value, client)
        blob, key_blob = self.presented()
        self.settle(blob, client, value, secret)
        signature = self.parts.hosts.sign(self.names.key, key_blob, self.hash)
        self.state = self.newkeys_awaited
        reply = bytes([33 if self.by_group else 31]) + string(blob) + string(value) + string(signature)
        return [reply, bytes([21])], self.names.strict

    def presented(self):
        """The blob of the host's certificate or key that is shown, and of the key that signs."""
        if self.names.certificate:
            for algorithm, blob, key_blob in self.config.certificates:
                if is_compatible(algorithm, self.names.key) and any(k == key_blob for _, k in self.config.keys):
                    return blob, key_blob
        return next((blob, blob) for k, blob in self.config.keys if is_compatible(k, self.names.key))

    def reply_awaited(self, payload, _):
        read = self.expect(payload, 33 if self.by_group else 31)
        self.host, server = read.string(), read.string()
        secret = self.parts.agreement.agree(self.names.kex, self.group, self.value, server, server)
        signature = read.string()
        read.end()
        self.settle(self.host, self.value, server, secret)
        self.parts.hosts.verify(self.names.key, self.host, self.hash, signature)
        self.state = self.newkeys_awaited
        return [bytes([21])], self.names.strict

    def newkeys_awaited(self, payload, _):
        if payload[:1] != bytes([21]):
            raise Refused("Kex")
        Reader(payload[1:]).end()
        self.finish()
        return [], False

    def settle(self, blob, client, server, secret):
        """The exchange hash (RFC 4253 section 8, RFC 4419 section 3)."""
        self.k = (string if self.by_string else mpint)(secret)
        text = [self.text[n] for n in ("client_id", "server_id", "client", "server")] + [blob]
        chosen = b"".join(map(u32, self.sizes)) + b"".join(map(mpint, self.group)) if self.by_group else b""
        whole = b"".join(map(string, text)) + chosen + string(client) + string(server) + self.k
        self.hash = hashlib.new(self.digest, whole).digest()

    def finish(self):
        """Session id and keys (RFC 4253 section 7.2)."""
        self.session = self.hash if self.cause[0] == "first" else self.cause[1]
        key, nonce = CIPHERS[self.names.cipher]
        lengths = (nonce, nonce, key, key, MACS[self.names.macs["client"]], MACS[self.names.macs["server"]])
        self.keys = [self.key(bytes([ord("A") + i]), length) for i, length in enumerate(lengths)]
        self.done = True

    def key(self, letter, length):
        blocks = b""
        while len(blocks) < length:
            behind = blocks or letter + self.session
            blocks += hashlib.new(self.digest, self.k + self.hash + behind).digest()
        return blocks[:length]


def late(message, place):
    return Refused(f"StrictKeyExchangeViolation {{ message_type: {message}, sequence_number: {place} }}")
