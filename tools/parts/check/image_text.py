"""The text of an image, how one is read, and its listing, as docs/FORMATS.md has them."""
import re
from hashlib import sha256
from urllib.parse import quote_from_bytes

from parts.check.disk import BLOCK, identifier, in_units, no_key_text, plain_name, stored_name

HEADER = b"fsc-image 1"
MAX_FILE = 1_048_576
SAFE = "-._~"


def image_of(disk):
    """The image of a disk: of the root, and of each node to which a name leads."""
    named = {0} | {number for node in disk.nodes.values() if node.kind == "dir"
                   for number in node.body.values()}
    lines = [HEADER]
    for number in sorted(named & reached(disk)):
        lines += lines_of(disk, disk.nodes[number])
    return b"".join(line + b"\n" for line in lines)


def reached(disk):
    """The nodes that names reach from the root: what was in a directory that is removed is removed too."""
    found, waiting = set(), [0]
    while waiting:
        node = disk.nodes[waiting.pop()]
        found.add(node.number)
        waiting += node.body.values() if node.kind == "dir" else []
    return found


def lines_of(disk, node):
    """The line of a node, and one for each entry or block."""
    raw = node.context and disk.raws.get(node.context[8:24])
    head = f"node {node.number} {node.kind} {node.context.hex() if node.context else '-'}"
    if node.kind == "dir":
        entries = sorted((disk.stored(node, name), child) for name, child in node.body.items())
        return [head.encode(), *(f"entry {child} {name.hex()}".encode() for name, child in entries)]
    if node.kind == "link":
        target = stored_name(raw, node.context, node.number, node.body) if node.context else node.body
        return [f"{head} {target.hex()}".encode()]
    blocks = [node.body[at:at + BLOCK].ljust(BLOCK, b"\0") for at in range(0, len(node.body), BLOCK)]
    if node.context:
        blocks = [in_units(raw, node.context, node.number, place, block) for place,
                  block in enumerate(blocks)]
    return [f"{head} {len(node.body)}".encode(), *(b"block " + block.hex().encode() for block in blocks)]


# ---- reading

NUMERAL = rb"(0|[1-9][0-9]{0,9})"
LINES = {
    "dir": re.compile(rb"node " + NUMERAL + rb" dir (-|[0-9a-f]{80})"),
    "file": re.compile(rb"node " + NUMERAL + rb" file (-|[0-9a-f]{80}) " + NUMERAL),
    "link": re.compile(rb"node " + NUMERAL + rb" link (-|[0-9a-f]{80}) ((?:[0-9a-f]{2}){1,255})"),
    "entry": re.compile(rb"entry " + NUMERAL + rb" ((?:[0-9a-f]{2}){1,255})"),
    "block": re.compile(rb"block ([0-9a-f]{8192})"),
}


class Stored:
    """A node as an image reports it."""

    def __init__(self, number, kind, context, more):
        self.number, self.kind, self.context, self.more = number, kind, context, more
        self.entries, self.blocks = [], []


def context_of(word):
    """The bytes of a context, None for none, or False where they are no context."""
    if word == b"-":
        return None
    context = bytes.fromhex(word.decode())
    well = context[:3] == b"\2\1\4" and context[3] & ~0x0B == 0 and context[4] in (
        0, 9, 10, 11, 12) and context[5:8] == bytes(3)
    return context if well else False


def node_of(line):
    """The node of a line, or None."""
    for kind in ("dir", "file", "link"):
        found = LINES[kind].fullmatch(line)
        if found and int(found[1]) < 2**32 and context_of(found[2]) is not False:
            more = None if kind == "dir" else int(found[3]) if kind == "file" else bytes.fromhex(
                found[3].decode())
            context = context_of(found[2])
            if kind == "file" and more > MAX_FILE or kind == "link" and context and len(more) < 16:
                return None
            return Stored(int(found[1]), kind, context, more)
    return None


def is_part(name):
    """Whether bytes may be a part of a path."""
    return b"/" not in name and b"\0" not in name and name not in (b".", b"..")


def read(text):
    """The nodes of an image and None; else None and the number of the line at fault."""
    pieces = text.split(b"\n")
    if pieces[0] != HEADER or len(pieces) == 1:
        return None, 1
    nodes, left = [], 0
    for number, line in enumerate(pieces[1:], 2):
        if number == len(pieces):
            return (None, number) if line or left or not nodes else with_children(nodes, pieces)
        if not goes_on(nodes, left, line):
            return None, number
        left = nodes[-1].left
    return None, len(pieces)


def goes_on(nodes, left, line):
    """Adds what a line contains to the nodes. False if it may not be there."""
    block, entry = LINES["block"].fullmatch(line), LINES["entry"].fullmatch(line)
    if left:
        if block:
            nodes[-1].blocks.append(bytes.fromhex(block[1].decode()))
            nodes[-1].left -= 1
        return bool(block)
    if entry and nodes and nodes[-1].kind == "dir":
        return entry_goes_on(nodes[-1], int(entry[1]), bytes.fromhex(entry[2].decode()))
    node = node_of(line)
    if node is None or (node.number <= nodes[-1].number if nodes
                        else (node.number, node.kind, node.context) != (0, "dir", None)):
        return False
    node.left = -(-node.more // BLOCK) if node.kind == "file" else 0
    nodes.append(node)
    return True


def entry_goes_on(folder, child, name):
    """The same for an entry of a directory."""
    well = len(name) >= 16 if folder.context else is_part(name)
    if child >= 2**32 or not well or folder.entries and folder.entries[-1][0] >= name:
        return False
    folder.entries.append((name, child))
    return True


def with_children(nodes, pieces):
    """The nodes, unless an entry may not lead where it does: then its line."""
    numbers, led = {node.number for node in nodes}, set()
    for number, line in enumerate(pieces, 1):
        entry = LINES["entry"].fullmatch(line)
        if entry:
            child = int(entry[1])
            if child == 0 or child not in numbers or child in led:
                return None, number
            led.add(child)
    return nodes, None


# ---- listing

def escaped(name):
    """Bytes as a word of a listing."""
    return quote_from_bytes(name, SAFE)


def listing(nodes, raw=None):
    """The listing of an image's nodes with a raw key, or with none."""
    at = {node.number: node for node in nodes}
    places = {child: (folder, name) for folder in nodes for name, child in folder.entries}
    lines = []
    for node in nodes:
        if is_reached(node.number, places):
            lines.append(
                f"{node.number} {place_of(node.number, places, raw)} {node.kind} {told(node, raw)}\n")
    assert at[0]
    return "".join(lines).encode()


def is_reached(number, places):
    """Whether entries lead from the root to a node."""
    seen = set()
    while number and number not in seen:
        seen.add(number)
        if number not in places:
            return False
        number = places[number][0].number
    return number == 0


def is_open(node, raw):
    """Whether a node is seen as it is with a raw key: where it has no policy, or that key's."""
    return node.context is None or raw is not None and identifier(raw) == node.context[8:24]


def word(node, stored, raw):
    """A name or target that this node stores, as a word: what it is, or the text that represents it."""
    if node.context is None:
        return escaped(stored)
    plain = plain_name(raw, node.context, node.number, stored) if is_open(node, raw) else b""
    return escaped(plain or no_key_text(stored))


def place_of(number, places, raw):
    """The number of the directory that a node is in, and its name there."""
    if number == 0:
        return "- /"
    folder, name = places[number]
    return f"{folder.number} {word(folder, name, raw)}"


def told(node, raw):
    """What a line contains of a node's body."""
    if node.kind == "dir":
        return str(len(node.entries))
    if node.kind == "link":
        return word(node, node.more, raw)
    if not is_open(node, raw):
        return f"{node.more} -"
    blocks = node.blocks
    if node.context:
        blocks = [in_units(raw, node.context, node.number, place, block, back=True) for place,
                  block in enumerate(blocks)]
    return f"{node.more} {sha256(b''.join(blocks)[:node.more]).hexdigest()}"
