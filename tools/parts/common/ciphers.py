"""AES-256, HMAC's padded keys and states, and HKDF, as the standards say them, for values that a run holds.

FIPS 197, FIPS 180-4, RFC 2104, RFC 5869. Nothing here is fast: a run has a few dozen keys.
"""
import functools
import hashlib
import hmac
import math
import struct


def times(one, other):
    """The product of two bytes in the field of AES (FIPS 197, 4.2)."""
    product = 0
    while other:
        if other & 1:
            product ^= one
        one = (one << 1) ^ (0x11B if one & 0x80 else 0)
        other >>= 1
    return product


@functools.lru_cache(maxsize=None)
def substitution():
    """The S-box (FIPS 197, 5.1.1): the inverse, and then the affine map."""
    box = []
    for byte in range(256):
        inverse = next((number for number in range(256) if times(byte, number) == 1), 0)
        turned = inverse
        for shift in range(1, 5):
            turned ^= (inverse << shift | inverse >> (8 - shift)) & 0xFF
        box.append(turned ^ 0x63)
    return bytes(box)


def round_keys(key):
    """The 240 bytes of the round keys of AES-256, which begin with the key (FIPS 197, 5.2)."""
    words, round_constant = [key[at:at + 4] for at in range(0, 32, 4)], 1
    while len(words) < 60:
        last = words[-1]
        if len(words) % 8 == 0:
            last = (last[1:] + last[:1]).translate(substitution())
            last = bytes([last[0] ^ round_constant]) + last[1:]
            round_constant = times(round_constant, 2)
        elif len(words) % 8 == 4:
            last = last.translate(substitution())
        words.append(xored(words[-8], last))
    return b"".join(words)


def xored(one, other):
    """The bytes of one, each with that of the other in it."""
    return bytes(a ^ b for a, b in zip(one, other))


def encrypted(key, block):
    """A block encrypted by AES-256 (FIPS 197, 5.1)."""
    keys = round_keys(key)
    state = xored(block, keys[:16])
    for number in range(1, 15):
        state = state.translate(substitution())
        state = bytes(state[(at + 4 * (at % 4)) % 16] for at in range(16))
        if number < 14:
            state = b"".join(mixed(state[at:at + 4]) for at in range(0, 16, 4))
        state = xored(state, keys[16 * number:16 * number + 16])
    return state


def mixed(column):
    """A column of the state after MixColumns (FIPS 197, 5.1.3)."""
    return bytes(times(column[at], 2) ^ times(column[(at + 1) % 4],
                                              3) ^ column[(at + 2) % 4] ^ column[(at + 3) % 4]
                 for at in range(4))


# The images of the bits of a byte in the basis in which the code inverts it, for the S-box and for its
# inverse (after Hamburg, "Accelerating AES with vector permute instructions", 2009), and what the second
# adds.
BASIS = (0x70, 0x2A, 0x98, 0x08, 0x4D, 0x7C, 0x7D, 0x81)
INVERSE_BASIS = (0x5F, 0x54, 0x04, 0x1A, 0x65, 0x05, 0xE6, 0x94)
INVERSE_BASIS_CONSTANT = 0xE8
SUBSTITUTION_CONSTANT = bytes([0x63] * 16)


def in_basis(images, state):
    """Each byte of a state as the sum of the images of its bits."""
    def image(byte):
        return functools.reduce(lambda found, bit: found ^ images[bit] * (byte >> bit & 1), range(8), 0)
    return bytes(map(image, state))


def rotated(state, times):
    """A state with each row rotated to the left by its number, that many times."""
    return bytes(state[at % 4 + 4 * ((at // 4 + times * (at % 4)) % 4)] for at in range(16))


def mixed_back(column):
    """A column of the state after InvMixColumns (FIPS 197, 5.3.3)."""
    return bytes(times(column[at], 14) ^ times(column[(at + 1) % 4], 11) ^ times(column[(at + 2) % 4], 13)
                 ^ times(column[(at + 3) % 4], 9) for at in range(4))


def middle_keys(key):
    """The round keys between the first and the last."""
    keys = round_keys(key)
    return [keys[16 * number:16 * number + 16] for number in range(1, 14)]


def forward_keys(key):
    """These as `aes_core` prepares them to encrypt single blocks."""
    return b"".join(rotated(in_basis(BASIS, xored(round_key, SUBSTITUTION_CONSTANT)), 3 - number % 4)
                    for number, round_key in enumerate(middle_keys(key)))


def inverse_keys(key):
    """These as it prepares them to decrypt single blocks."""
    def prepared(number, key):
        columns = b"".join(mixed_back(key[at:at + 4]) for at in range(0, 16, 4))
        based = bytes(byte ^ INVERSE_BASIS_CONSTANT for byte in in_basis(INVERSE_BASIS, columns))
        return rotated(based, (number + 1) % 4)
    return b"".join(prepared(number, round_key) for number,
                    round_key in enumerate(reversed(middle_keys(key))))


def key_planes(key):
    """These in planes of bits, as it has them for eight blocks at a time: a byte of ones for each bit that
    is set."""
    def planes(number, key):
        state = rotated(xored(key, SUBSTITUTION_CONSTANT), 3 - number % 4)
        return b"".join(bytes(255 * (byte >> bit & 1) for byte in state) for bit in range(8))
    return b"".join(planes(number, round_key) for number, round_key in enumerate(middle_keys(key)))


def keystream(key, iv, length):
    """The keystream of AES-256 in counter mode, the counter being a number of 128 bits."""
    first = int.from_bytes(iv, "big")
    blocks = [((first + at) % 2**128).to_bytes(16, "big") for at in range(-(-length // 16))]
    return b"".join(encrypted(key, block) for block in blocks)[:length]


def mac(name, key, message):
    """HMAC under the hash of this name."""
    return hmac.new(key, message, name).digest()


def extracted(name, material):
    """HKDF's pseudorandom key, without salt (RFC 5869, 2.2)."""
    return mac(name, bytes(hashlib.new(name).digest_size), material)


def expanded(name, key, info, length):
    """What HKDF expands the pseudorandom key to (RFC 5869, 2.3)."""
    text, last, count = b"", b"", 0
    while len(text) < length:
        count += 1
        last = mac(name, key, last + info + bytes([count]))
        text += last
    return text[:length]


def padded(name, key):
    """HMAC's inner and outer key, as long as the key alone: after it the pads are known to all (RFC
    2104)."""
    assert len(key) <= hashlib.new(name).block_size
    return [bytes(byte ^ pad for byte in key) for pad in (0x36, 0x5C)]


def states(name, key):
    """The states of the two hashes of an HMAC after its padded keys: who has them can make its tags."""
    block = hashlib.new(name).block_size
    return [compressed(name, bytes(byte ^ pad for byte in key.ljust(block, b"\0"))) for pad in (0x36, 0x5C)]


@functools.lru_cache(maxsize=None)
def primes():
    """The first eighty primes."""
    found = []
    number = 2
    while len(found) < 80:
        if all(number % prime for prime in found):
            found.append(number)
        number += 1
    return found


def root_bits(number, power, bits):
    """The first bits of the fraction of a root: of a square root for 2, of a cubic one for 3."""
    scaled = number << (power * bits)
    root = math.isqrt(scaled) if power == 2 else cubic_root(scaled)
    return root % 2**bits


def cubic_root(number):
    """The whole part of a cubic root."""
    low, high = 0, 1 << (number.bit_length() // 3 + 1)
    while low < high:
        middle = (low + high + 1) // 2
        low, high = (middle, high) if middle**3 <= number else (low, middle - 1)
    return low


TURNS = {
    "sha256": (32, 64, (2, 13, 22), (6, 11, 25), (7, 18, 3), (17, 19, 10)),
    "sha512": (64, 80, (28, 34, 39), (14, 18, 41), (1, 8, 7), (19, 61, 6)),
}


def compressed(name, block):
    """The state of SHA-256 or SHA-512 after its first block, in words of the machine (FIPS 180-4, 6.2 and
    6.4)."""
    bits, rounds, big0, big1, small0, small1 = TURNS[name]
    most = 2**bits

    def turned(word, by):
        return (word >> by | word << (bits - by)) % most

    def big(word, by):
        return turned(word, by[0]) ^ turned(word, by[1]) ^ turned(word, by[2])

    def small(word, by):
        return turned(word, by[0]) ^ turned(word, by[1]) ^ word >> by[2]

    first = [root_bits(prime, 2, bits) for prime in primes()[:8]]
    words = list(struct.unpack(">16" + ("I" if bits == 32 else "Q"), block))
    for at in range(16, rounds):
        words.append((small(words[at - 2], small1) + words[at - 7] + small(words[at - 15], small0)
                      + words[at - 16]) % most)
    a, b, c, d, e, f, g, h = first
    for at in range(rounds):
        one = h + big(e, big1) + (e & f ^ ~e & g) + root_bits(primes()[at], 3, bits) + words[at]
        two = big(a, big0) + (a & b ^ a & c ^ b & c)
        a, b, c, d, e, f, g, h = (one + two) % most, a, b, c, (d + one) % most, e, f, g
    ended = [(x + y) % most for x, y in zip(first, (a, b, c, d, e, f, g, h))]
    return struct.pack("<8" + ("I" if bits == 32 else "Q"), *ended)
