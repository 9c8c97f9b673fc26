"""The cipher, the derived keys, the tape and the checksum."""

import hashlib

# The words that are mixed with one another, in the order of the quarter rounds of ChaCha20.
QUARTERS = [
    (0, 4, 8, 12),
    (1, 5, 9, 13),
    (2, 6, 10, 14),
    (3, 7, 11, 15),
    (0, 5, 10, 15),
    (1, 6, 11, 12),
    (2, 7, 8, 13),
    (3, 4, 9, 14),
]


def chacha_words(key, counter, stream):
    """The sixteen words of one block of ChaCha20, with a counter and a stream number of 64 bits."""
    words = [0x61707865, 0x3320646E, 0x79622D32, 0x6B206574]
    words += [int.from_bytes(key[at : at + 4], "little") for at in range(0, 32, 4)]
    words += [counter & 0xFFFFFFFF, counter >> 32, stream & 0xFFFFFFFF, stream >> 32]
    x = words[:]
    for _ in range(10):
        for a, b, c, d in QUARTERS:
            xa, xb, xc, xd = x[a], x[b], x[c], x[d]
            xa = (xa + xb) & 0xFFFFFFFF
            xd ^= xa
            xd = (xd << 16 | xd >> 16) & 0xFFFFFFFF
            xc = (xc + xd) & 0xFFFFFFFF
            xb ^= xc
            xb = (xb << 12 | xb >> 20) & 0xFFFFFFFF
            xa = (xa + xb) & 0xFFFFFFFF
            xd ^= xa
            xd = (xd << 8 | xd >> 24) & 0xFFFFFFFF
            xc = (xc + xd) & 0xFFFFFFFF
            xb ^= xc
            x[a], x[b], x[c], x[d] = xa, (xb << 7 | xb >> 25) & 0xFFFFFFFF, xc, xd
    return [(a + b) & 0xFFFFFFFF for a, b in zip(words, x)]


def xored(key, stream, data):
    """Bytes under the keystream of a stream, from its beginning."""
    blocks = range(-(-len(data) // 64))
    keystream = b"".join(word.to_bytes(4, "little") for block in blocks for word in chacha_words(key, block, stream))[: len(data)]
    return (int.from_bytes(data, "big") ^ int.from_bytes(keystream, "big")).to_bytes(len(data), "big")


def derived(key, purpose, salt):
    """The key for this purpose, which is derived from the disk's key and a formatting's salt."""
    return hashlib.sha256(bytes([0, 0, 0, 1]) + key + purpose + salt).digest()


class Tape:
    """The words of the commands of a device with this number of trees."""

    def __init__(self, key, trees):
        self.key, self.trees = key, trees

    def words(self, ticket):
        """The two words of each tree: the spare one and the new one."""
        first = 4 * self.trees * ticket
        halves = [self.half(first + at) for at in range(4 * self.trees)]
        words = [low | high << 32 for low, high in zip(halves[::2], halves[1::2])]
        return list(zip(words[::2], words[1::2]))

    def half(self, at):
        return chacha_words(self.key, at // 16, 0)[at % 16]


def siphash(data):
    """SipHash-1-3 of some bytes, with keys of zeros (Aumasson and Bernstein, 2012)."""
    v = [0x736F6D6570736575, 0x646F72616E646F6D, 0x6C7967656E657261, 0x7465646279746573]
    padded = data + bytes(7 - len(data) % 8) + bytes([len(data) % 256])
    for at in range(0, len(padded), 8):
        word = int.from_bytes(padded[at : at + 8], "little")
        v[3] ^= word
        sip_round(v)
        v[0] ^= word
    v[2] ^= 0xFF
    for _ in range(3):
        sip_round(v)
    return v[0] ^ v[1] ^ v[2] ^ v[3]


def sip_round(v):
    def add_turned(at, other, bits, turn):
        v[at] = (v[at] + v[other]) % 2**64
        v[other] = (v[other] << bits | v[other] >> 64 - bits) % 2**64 ^ v[at]
        if turn:
            v[at] = (v[at] << 32 | v[at] >> 32) % 2**64

    add_turned(0, 1, 13, True)
    add_turned(2, 3, 16, False)
    add_turned(0, 3, 21, False)
    add_turned(2, 1, 17, True)
