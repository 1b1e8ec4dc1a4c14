"""AES-256 both ways, in XTS and in CBC with ciphertext stealing, for stored blocks and names
(docs/FORMATS.md)."""
import functools
import struct

from parts.common.ciphers import round_keys, substitution, times, xored

ROUNDS = 14


@functools.lru_cache(maxsize=None)
def tables():
    """What a byte of a column adds to it in a round: forwards and backwards, for each of its four rows."""
    box = substitution()
    back = bytes(box.index(number) for number in range(256))
    forward = [_column(box[number], (2, 1, 1, 3)) for number in range(256)]
    backward = [_column(back[number], (14, 9, 13, 11)) for number in range(256)]
    return [_turned(forward, row) for row in range(4)], [_turned(backward, row)
                                                         for row in range(4)], box, back


def _column(byte, factors):
    return int.from_bytes(bytes(times(byte, factor) for factor in factors), "big")


def _turned(table, row):
    return [(word >> 8 * row | word << 32 - 8 * row) & 0xFFFFFFFF for word in table]


class Aes:
    """A key with its rounds, for one block at a time (FIPS 197, 5.1 and 5.3.5)."""

    def __init__(self, key):
        assert len(key) == 32
        self.words = struct.unpack(">60I", round_keys(key))
        unmixed = [_unmixed(word) for word in self.words[4:-4]]
        self.back = [*self.words[-4:], *(word for at in range(ROUNDS - 2, -1, -1)
                                         for word in unmixed[4 * at:4 * at + 4]), *self.words[:4]]

    def encrypted(self, block):
        """The block encrypted."""
        return _through(block, self.words, tables()[0], tables()[2], 1)

    def decrypted(self, block):
        """The block decrypted."""
        return _through(block, self.back, tables()[1], tables()[3], 3)


def _unmixed(word):
    backward, box = tables()[1], tables()[2]
    return (backward[0][box[word >> 24]] ^ backward[1][box[word >> 16 & 255]]
            ^ backward[2][box[word >> 8 & 255]] ^ backward[3][box[word & 255]])


def _through(block, words, table, box, step):
    """A block through all rounds: row r of a column comes from the column r steps on."""
    one, two, three, four = table
    state = [x ^ y for x, y in zip(struct.unpack(">4I", block), words)]
    for at in range(4, 4 * ROUNDS, 4):
        state = [one[state[number] >> 24] ^ two[state[(number + step) % 4] >> 16 & 255] ^ three[
            state[(number + 2) % 4] >> 8 & 255]
                 ^ four[state[(number + 3 * step) % 4] & 255] ^ words[at + number] for number in range(4)]
    last = [(box[state[number] >> 24] << 24 | box[state[(number + step) % 4] >> 16 & 255] << 16
             | box[state[(number + 2) % 4] >> 8 & 255] << 8
             | box[state[(number + 3 * step) % 4] & 255]) ^ words[4 * ROUNDS + number]
            for number in range(4)]
    return struct.pack(">4I", *last)


def in_xts(key, index, unit, back=False):
    """A data unit in XTS (IEEE 1619): the first half of the key encrypts, the second makes the tweaks."""
    cipher = Aes(key[:32])
    tweak = int.from_bytes(Aes(key[32:]).encrypted(index.to_bytes(16, "little")), "little")
    made = []
    for at in range(0, len(unit), 16):
        mask = tweak.to_bytes(16, "little")
        block = xored(unit[at:at + 16], mask)
        made.append(xored(cipher.decrypted(block) if back else cipher.encrypted(block), mask))
        tweak = tweak << 1 ^ (0x87 if tweak >> 127 else 0)
        tweak &= 2**128 - 1
    return b"".join(made)


def in_cts(key, iv, text):
    """At least 16 bytes in CBC with ciphertext stealing, form CS3: the last two blocks change places."""
    cipher, last, made = Aes(key), iv, []
    for at in range(0, len(text), 16):
        last = cipher.encrypted(xored(text[at:at + 16].ljust(16, b"\0"), last))
        made.append(last)
    if len(made) == 1:
        return made[0]
    made[-2], made[-1] = made[-1], made[-2]
    return b"".join(made)[:len(text)]


def from_cts(key, iv, stored):
    """What `in_cts` made the bytes of."""
    cipher = Aes(key)
    if len(stored) == 16:
        return xored(cipher.decrypted(stored), iv)
    short = len(stored) % 16 or 16
    whole = stored[:len(stored) - 16 - short]
    swapped, stolen = stored[len(whole):len(whole) + 16], stored[len(whole) + 16:]
    opened = cipher.decrypted(swapped)
    before = stolen + opened[short:]
    made, last = [], iv
    for at in range(0, len(whole), 16):
        made.append(xored(cipher.decrypted(whole[at:at + 16]), last))
        last = whole[at:at + 16]
    made.append(xored(cipher.decrypted(before), last))
    made.append(xored(opened[:short], stolen))
    return b"".join(made)
