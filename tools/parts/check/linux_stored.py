"""An image with names, targets and blocks that Linux 6.12 stored, and its listings, made of the kernel's
bytes.

The bytes are those of the vectors of record_tests and cipher_tests. Of a block they have the digest, so the
block is made here, and has to have it.
"""
import os
import re
from hashlib import sha256
from urllib.parse import quote_from_bytes

from parts import TOP
from parts.check.disk import BLOCK, CONTENTS, identifier, in_units, no_key_text, node_key


RAW = bytes(range(64))
BY_MODE, SIZE, SEED, FIRST_CHILD = 8, 9_192, 1, 200
NONCE = bytes(range(16))
PADS = {"4": 0, "8": 1, "16": 2, "32": 3}
UNITS = {0: "Block", 9: "U512", 10: "U1024", 11: "U2048", 12: "U4096"}
# The files: the number, the binary logarithm of the unit (0 for a whole block), and the nonce, where the key
# is the file's own.
FILES = [
    (56, 0, None), (116, 9, None), (146, 11, None),
    (161, 9, "ec675c89bde4a3d29efbc8d8305eef99"), (162, 10, "9ba8c48eb2cbbc778fb3b7a470b6e51f"),
    (163, 11, "2e6cc439e42c1da00e6865d3c18ecd77"), (164, 12, "8fe38d877faa31bcfbbdb70d0a4960e8"),
]


def vectors(crate, file):
    """The text of a file of vectors, each text of it in one line."""
    with open(os.path.join(TOP, "crates", crate, "src", file), encoding="utf-8") as source:
        return re.sub(r"\\\n\s*", "", source.read())


def rows(text, record, *fields):
    """Each record of a file of vectors, by its fields: words of Rattle or texts."""
    parts = "".join(rf"\s*{field}: \"?(?:\w+::P?)?([^,\"]+)\"?," for field in fields)
    return re.findall(rf"{record} {{{parts}\s*}}", text)


def context(flags, unit=0, nonce=None):
    """The context of a node under the key."""
    return bytes([2, 1, 4, flags, unit, 0, 0, 0]) + identifier(RAW) + (bytes.fromhex(nonce) if nonce
                                                                       else NONCE)


def contents():
    """The bytes of each file."""
    return bytes((131 * at + 29 * (at // 256) + SEED) % 256 for at in range(SIZE))


def stored_file(number, unit, nonce, digests):
    """The blocks of a file as the kernel stored them, and its context."""
    its = context(3 if nonce else BY_MODE | 3, unit, nonce)
    text = contents()
    blocks = [in_units(RAW, its, number, at // BLOCK, text[at:at + BLOCK].ljust(BLOCK, b"\0"))
              for at in range(0, SIZE, BLOCK)]
    key, inode = node_key(RAW, its, CONTENTS).hex(), 0 if nonce else number
    told = [digests[key, inode, unit, at] for at in (0, 1)]
    assert [sha256(block).hexdigest() for block in blocks[:2]] == told, number
    return its, blocks


def digests_of_blocks():
    """The digest of each block that the kernel stored, by key, inode, unit and place."""
    text = vectors("cipher_tests", "block_vectors.rt")
    keys = dict(re.findall(r"const (\w+): &str =\s*\"([0-9a-f]+)\";", text))
    numbers = {name: log for log, name in UNITS.items()}
    found = {}
    for key, inode, unit, size, seed, block, digest in rows(text, "Stored", "key", "inode", "unit", "size",
                                                            "seed", "block", "sha256"):
        if (int(size), int(seed)) == (SIZE, SEED):
            found[keys[key], int(inode), numbers[unit], int(block)] = digest
    return found


def nodes():
    """Each node but the root: number, parent, stored name, its lines, and what it shows without the key and
    with it."""
    text, digests = vectors("record_tests", "linux_vectors_by_mode.rt"), digests_of_blocks()
    names = rows(text, "StoredByMode", "directory", "pad", "plain", "stored", "listed")
    child, empty = FIRST_CHILD, sha256(b"").hexdigest()
    for folder in sorted({int(name[0]) for name in names}):
        own = sorted((name for name in names if int(name[0]) == folder), key=lambda fields: fields[3])
        its = context(BY_MODE | PADS[own[0][1]])
        entries = [f"entry {child + at} {child_fields[3]}" for at, child_fields in enumerate(own)]
        name = f"d{folder}"
        yield folder, [f"node {folder} dir {its.hex()}", *entries], *[f"0 {name} dir {len(own)}"] * 2
        for _, _, plain, _, listed in own:
            shown = quote_from_bytes(bytes.fromhex(plain), "-._~")
            yield child, [
                f"node {child} file {its.hex()} 0"], f"{folder} {listed} file 0 -", (
                    f"{folder} {shown} file 0 {empty}")
            child += 1
    for link, pad, plain, stored in rows(text, "TargetByMode", "link", "pad", "plain", "stored"):
        line = f"node {link} link {context(BY_MODE | PADS[pad]).hex()} {stored}"
        texts = no_key_text(bytes.fromhex(stored)).decode(), quote_from_bytes(bytes.fromhex(plain), "-._~")
        yield int(link), [line], *(f"0 l{link} link {text}" for text in texts)
    for number, unit, nonce in FILES:
        its, blocks = stored_file(number, unit, nonce, digests)
        lines = [f"node {number} file {its.hex()} {SIZE}", *(f"block {block.hex()}" for block in blocks)]
        shown = f"0 f{number} file {SIZE} {sha256(contents()).hexdigest()}"
        yield number, lines, f"0 f{number} file {SIZE} -", shown


def linux_image():
    """The image, its listing without the key, and the one with it."""
    found = sorted(nodes())
    tops = sorted((fields[2].split(" ")[1], fields[0]) for fields in found if fields[2].startswith("0 "))
    image = ["fsc-image 1", "node 0 dir -",
             *(f"entry {number} {name.encode().hex()}" for name, number in tops)]
    image += [line for fields in found for line in fields[1]]
    listings = [[f"0 - / dir {len(tops)}", *(f"{fields[0]} {fields[at]}" for fields in found)]
                for at in (2, 3)]
    return [("\n".join(listing) + "\n").encode() for listing in (image, *listings)]
