"""AES (FIPS 197) and its Galois counter mode (SP 800-38D), for the models of a transport. `model.py` says what for."""


def times(a, b):
    """The product of two bytes (FIPS 197 section 4.2)."""
    product = 0
    while b:
        product ^= a if b & 1 else 0
        a = (a << 1) ^ (0x11B if a & 0x80 else 0)
        b >>= 1
    return product


def substitute(byte):
    """FIPS 197 section 5.1.1."""
    inverse = next((c for c in range(256) if times(byte, c) == 1), 0)
    turned = [inverse << n | inverse >> 8 - n for n in range(5)]
    return (turned[0] ^ turned[1] ^ turned[2] ^ turned[3] ^ turned[4] ^ 0x63) & 0xFF


SUBSTITUTES = [substitute(byte) for byte in range(256)]
ORIGINALS = [SUBSTITUTES.index(byte) for byte in range(256)]
PRODUCTS = {factor: [times(byte, factor) for byte in range(256)] for factor in (2, 3, 9, 11, 13, 14)}


def expanded(key):
    """The round keys (FIPS 197 section 5.2)."""
    size, constant = len(key) // 4, 1
    words = [key[4 * i:4 * i + 4] for i in range(size)]
    for i in range(size, 4 * (size + 7)):
        word = words[-1]
        if i % size == 0:
            word = bytes(SUBSTITUTES[b] for b in word[1:] + word[:1])
            word, constant = bytes([word[0] ^ constant]) + word[1:], times(constant, 2)
        elif size > 6 and i % size == 4:
            word = bytes(SUBSTITUTES[b] for b in word)
        words.append(xor(words[i - size], word))
    whole = b"".join(words)
    return [whole[i:i + 16] for i in range(0, len(whole), 16)]


def xor(a, b):
    return bytes(x ^ y for x, y in zip(a, b))


def encrypted(keys, block):
    """FIPS 197 section 5.1."""
    state = xor(block, keys[0])
    for key in keys[1:]:
        state = bytes(SUBSTITUTES[state[(5 * i) % 16]] for i in range(16))
        if key is not keys[-1]:
            columns = [state[i:i + 4] for i in range(0, 16, 4)]
            state = bytes(PRODUCTS[2][c[i]] ^ PRODUCTS[3][c[(i + 1) % 4]] ^ c[(i + 2) % 4] ^ c[(i + 3) % 4]
                          for c in columns for i in range(4))
        state = xor(state, key)
    return state


def decrypted(keys, block):
    """FIPS 197 section 5.3."""
    state = block
    for key in keys[:0:-1]:
        state = xor(state, key)
        if key is not keys[-1]:
            columns = [state[i:i + 4] for i in range(0, 16, 4)]
            state = bytes(PRODUCTS[14][c[i]] ^ PRODUCTS[11][c[(i + 1) % 4]] ^ PRODUCTS[13][c[(i + 2) % 4]]
                          ^ PRODUCTS[9][c[(i + 3) % 4]] for c in columns for i in range(4))
        state = bytes(ORIGINALS[state[(13 * i) % 16]] for i in range(16))
    return xor(state, keys[0])


def product(x, y):
    """SP 800-38D section 6.3."""
    z = 0
    for bit in range(127, -1, -1):
        z ^= y if x >> bit & 1 else 0
        y = y >> 1 ^ (0xE1 << 120 if y & 1 else 0)
    return z


def stream(keys, nonce, length):
    """What a text of this length is masked with (SP 800-38D section 6.5, from the second counter block on)."""
    return b"".join(encrypted(keys, nonce + (2 + i).to_bytes(4, "big")) for i in range(length // 16 + 1))


def tag_of(keys, nonce, front, text):
    """The tag of an encrypted text and what stands in clear before it (SP 800-38D section 7.1)."""
    secret = int.from_bytes(encrypted(keys, bytes(16)), "big")
    blocks = [part + bytes(-len(part) % 16) for part in (front, text)]
    blocks.append((8 * len(front)).to_bytes(8, "big") + (8 * len(text)).to_bytes(8, "big"))
    whole, digest = b"".join(blocks), 0
    for i in range(0, len(whole), 16):
        digest = product(digest ^ int.from_bytes(whole[i:i + 16], "big"), secret)
    return xor(digest.to_bytes(16, "big"), encrypted(keys, nonce + (1).to_bytes(4, "big")))


def sealed(key, nonce, front, text):
    """A text encrypted, with its tag after it."""
    keys = expanded(key)
    masked = xor(text, stream(keys, nonce, len(text)))
    return masked + tag_of(keys, nonce, front, masked)


def opened(key, nonce, front, text, tag):
    """What a text of this tag decrypts to, or None where the tag is another's (SP 800-38D section 7.2)."""
    keys = expanded(key)
    return xor(text, stream(keys, nonce, len(text))) if tag_of(keys, nonce, front, text) == tag else None
