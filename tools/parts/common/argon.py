"""Argon2id (RFC 9106) in one lane, for the few blocks that a run under test has.

It gives the tag and what the memory holds at the end.
"""
import hashlib
import struct

MOST = 2**64
WORDS, SLICES = 128, 4


def argon2id(password, salt, passes, kib):
    """The tag of 32 bytes, the first digest, and the blocks as they are at the end."""
    texts = b"".join(struct.pack("<I", len(field)) + field for field in (password, salt, b"", b""))
    digest = hashlib.blake2b(struct.pack("<6I", 1, 32, kib, passes, 0x13, 2) + texts).digest()
    count = kib // SLICES * SLICES
    memory = [[0] * WORDS for _ in range(count)]
    for at in (0, 1):
        memory[at] = list(struct.unpack("<128Q", long_hash(digest + struct.pack("<2I", at, 0), 1024)))
    for number in range(passes):
        for part in range(SLICES):
            fill_segment(memory, number, part, passes)
    blocks = [struct.pack("<128Q", *block) for block in memory]
    return long_hash(blocks[-1], 32), digest, blocks


def long_hash(text, length):
    """H' of RFC 9106, 3.3: a digest of any length."""
    text = struct.pack("<I", length) + text
    if length <= 64:
        return hashlib.blake2b(text, digest_size=length).digest()
    last, told = hashlib.blake2b(text).digest(), b""
    while length - len(told) > 64:
        told += last[:32]
        left = length - len(told)
        last = hashlib.blake2b(last, digest_size=min(left, 64)).digest()
    return told + last


def fill_segment(memory, number, part, passes):
    """Fills a quarter of the memory in this pass (RFC 9106, 3.4)."""
    size = len(memory) // SLICES
    by_place = number == 0 and part < 2
    for at in range(size):
        here = part * size + at
        if number == 0 and here < 2:
            continue
        if by_place:
            counter = [number, 0, part, len(memory), passes, 2, at // WORDS + 1] + [0] * (WORDS - 7)
            zero = [0] * WORDS
            pseudo = mixed(zero, mixed(zero, counter))[at % WORDS]
        else:
            pseudo = memory[here - 1][0]
        other = referenced(pseudo % 2**32, number, part, at, size)
        block = mixed(memory[here - 1], memory[other])
        memory[here] = [x ^ y for x, y in zip(block, memory[here])] if number else block


def referenced(pseudo, number, part, at, size):
    """The block that a pseudorandom word refers to (RFC 9106, 3.4.1.3 and 3.4.2)."""
    area = (part if number == 0 else SLICES - 1) * size + at - 1
    start = 0 if number == 0 else (part + 1) % SLICES * size
    back = area * (pseudo * pseudo >> 32) >> 32
    return (start + area - 1 - back) % (SLICES * size)


def mixed(one, other):
    """The compression G (RFC 9106, 3.5)."""
    both = [x ^ y for x, y in zip(one, other)]
    words = list(both)
    for row in range(8):
        permute(words, [16 * row + number for number in range(16)])
    for column in range(8):
        permute(words, [16 * (number // 2) + 2 * column + number % 2 for number in range(16)])
    return [x ^ y for x, y in zip(both, words)]


STEPS = ((0, 4, 8, 12), (1, 5, 9, 13), (2, 6, 10, 14), (3, 7, 11, 15),
         (0, 5, 10, 15), (1, 6, 11, 12), (2, 7, 8, 13), (3, 4, 9, 14))


def permute(words, places):
    """The permutation P on sixteen words (RFC 9106, 3.6)."""
    for step in STEPS:
        a, b, c, d = (places[place] for place in step)
        for first, second in ((32, 24), (16, 63)):
            words[a] = summed(words[a], words[b])
            words[d] = turned(words[d] ^ words[a], first)
            words[c] = summed(words[c], words[d])
            words[b] = turned(words[b] ^ words[c], second)


def summed(one, other):
    """The sum with a product of the low halves."""
    return (one + other + 2 * (one % 2**32) * (other % 2**32)) % MOST


def turned(word, by):
    """The word turned right."""
    return (word >> by | word << (64 - by)) % MOST
