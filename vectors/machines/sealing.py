"""One direction of a connection under keys: packets sealed and opened, byte by byte (RFC 4253 section 6, RFC 4344
section 4, RFC 5647 section 7, OpenSSH's MACs over the encrypted packet). `cases/attack_model.py` needs it;
`transport.py` knows lengths alone."""

import hmac

import galois
from exchange import LONGEST_PACKET, MACS, Refused, packet_size, u32

DIGESTS = {"hmac-sha1": "sha1", "hmac-sha2-256": "sha256", "hmac-sha2-512": "sha512"}


class Clear:
    """Before the first keys, and under the cipher `none`. `tag` is the length of a tag, `probe` how many bytes have to
    wait before a length is judged, and `shortest` how many bytes a packet has at least, without its tag."""

    def __init__(self):
        self.cipher, self.mac, self.tag, self.probe, self.shortest = "clear", "none", 0, 4, 4

    def padding(self, count, draw):
        return bytes(count)

    def seal(self, number, packet):
        return packet

    def length(self, waiting):
        return int.from_bytes(waiting[:4], "big")

    def open(self, number, packet, tag):
        """The packet in clear, or none where the tag is another's."""
        return packet


class Galois(Clear):
    def __init__(self, cipher, key, nonce):
        super().__init__()
        self.cipher, self.tag, self.key, self.nonce = cipher, 16, key, nonce

    def padding(self, count, draw):
        return draw(count)

    def next_nonce(self):
        """RFC 5647 section 7.1: the first four bytes stay, the others count the packets."""
        nonce = self.nonce
        self.nonce = nonce[:4] + ((int.from_bytes(nonce[4:], "big") + 1) % 2 ** 64).to_bytes(8, "big")
        return nonce

    def seal(self, number, packet):
        return packet[:4] + galois.sealed(self.key, self.next_nonce(), packet[:4], packet[4:])

    def open(self, number, packet, tag):
        text = galois.opened(self.key, self.nonce, packet[:4], packet[4:], tag)
        self.next_nonce()
        return None if text is None else packet[:4] + text


class Blocks(Clear):
    """Counter mode and chaining mode, with an HMAC over the packet in clear or over the encrypted one. `state` is the
    next counter block, or the last encrypted block."""

    def __init__(self, cipher, mac, key, start, mac_key):
        super().__init__()
        self.cipher, self.mac, self.keys, self.state, self.mac_key = cipher, mac, galois.expanded(key), start, mac_key
        self.etm = mac.endswith("-etm@openssh.com")
        self.digest = DIGESTS[mac.removesuffix("-etm@openssh.com")]
        # In chaining mode the block that shows an encrypted length has to be the packet's own.
        self.tag, self.probe, self.shortest = MACS[mac], 16, 16 if cipher.endswith("-cbc") and not self.etm else 4

    def padding(self, count, draw):
        return draw(count)

    def tag_of(self, number, text):
        return hmac.new(self.mac_key, u32(number) + text, self.digest).digest()

    def encrypt(self, text, state):
        """The text encrypted, and the state after it."""
        out = b""
        for at in range(0, len(text), 16):
            block = text[at:at + 16]
            if self.cipher.endswith("-ctr"):
                out += galois.xor(block, galois.encrypted(self.keys, state))
                state = ((int.from_bytes(state, "big") + 1) % 2 ** 128).to_bytes(16, "big")
            else:
                state = galois.encrypted(self.keys, galois.xor(block, state))
                out += state
        return out, state

    def decrypt(self, text, state):
        if self.cipher.endswith("-ctr"):
            return self.encrypt(text, state)
        out = b""
        for at in range(0, len(text), 16):
            out += galois.xor(galois.decrypted(self.keys, text[at:at + 16]), state)
            state = text[at:at + 16]
        return out, state

    def seal(self, number, packet):
        front = packet[:4] if self.etm else b""
        text, self.state = self.encrypt(packet[len(front):], self.state)
        return front + text + self.tag_of(number, front + text if self.etm else packet)

    def length(self, waiting):
        first = waiting[:16] if self.etm else self.decrypt(waiting[:16], self.state)[0]
        return int.from_bytes(first[:4], "big")

    def open(self, number, packet, tag):
        front = packet[:4] if self.etm else b""
        text, state = self.decrypt(packet[len(front):], self.state)
        if self.tag_of(number, packet if self.etm else front + text) != tag:
            return None
        self.state = state
        return front + text


def sealer(cipher, mac, key, start, mac_key):
    if cipher in ("clear", "none"):
        return Clear()
    if cipher.endswith("-gcm@openssh.com"):
        return Galois(cipher, key, start)
    return Blocks(cipher, mac, key, start, mac_key)


def sealed(direction, number, payload, draw):
    """A payload's packet on the wire."""
    whole = packet_size(len(payload), direction.cipher, direction.mac) - direction.tag
    padding = direction.padding(whole - 5 - len(payload), draw)
    return direction.seal(number, u32(whole - 4) + bytes([len(padding)]) + payload + padding)


def opened(direction, number, waiting):
    """The first packet's payload and what stands after it; or nothing, while it isn't whole."""
    if len(waiting) < direction.probe:
        return None
    length = direction.length(waiting)
    if length > LONGEST_PACKET or 4 + length + direction.tag < direction.probe or 4 + length < direction.shortest:
        raise Refused(f"PacketSize({length})")
    end = 4 + length + direction.tag
    if len(waiting) < end:
        return None
    packet = direction.open(number, waiting[:4 + length], waiting[4 + length:end])
    if packet is None:
        raise Refused("DecryptionError" if isinstance(direction, Galois) else "PacketAuth")
    padding = packet[4] if length else 0
    if padding > length:
        raise Refused("IndexOutOfBounds")
    payload = packet[5:max(5, 4 + length - padding)]
    if not payload:
        raise Refused(f"PacketSize({length})")
    return payload, waiting[end:]
