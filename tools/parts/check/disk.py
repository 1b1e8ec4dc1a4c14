"""What is on a mount's disk after a script, from the script and its log, as docs/FORMATS.md and
docs/MODEL.md have it."""
from base64 import urlsafe_b64encode
from functools import lru_cache
from hashlib import sha256
from urllib.parse import unquote_to_bytes

from parts.check.aes import from_cts, in_cts, in_xts
from parts.common.ciphers import expanded, extracted
from parts.common.command_calls import begins, calls_of

BLOCK, MAX_NAME, MIN_STORED = 4_096, 255, 16
IDENTIFIER, OWN_KEY, MODE_KEY = 1, 2, 4
CONTENTS, NAMES = 1, 4
UUID = b"fsc-memory-mount"


@lru_cache(maxsize=None)
def drawn_from(raw, use, added, length):
    """What is derived from a raw key for a use."""
    return expanded("sha512", extracted("sha512", raw), b"fscrypt\0" + bytes([use]) + added, length)


def identifier(raw):
    """The identifier of a raw key."""
    return drawn_from(raw, IDENTIFIER, b"", 16)


def drawn(seed, caller, command, purpose, length):
    """What a command derives from the seed of a run."""
    number = (16 * command + purpose).to_bytes(8, "little")
    return expanded("sha512", extracted("sha512", seed), b"fsc draw" + bytes([caller]) + number, 64)[:length]


def node_key(raw, context, mode):
    """The key of a node, its own or the one of its mode, and the start of its numbers but for the node's."""
    length = 64 if mode == CONTENTS else 32
    if context[3] & 8:
        return drawn_from(raw, MODE_KEY, bytes([mode]) + UUID, length)
    return drawn_from(raw, OWN_KEY, context[24:], length)


def start(context, number):
    """Where the numbers of a node's units begin."""
    return number << 32 if context[3] & 8 else 0


def stored_name(raw, context, number, name):
    """A name, or a target, as it is stored under a policy."""
    padding = 4 << (context[3] & 3)
    length = min(-(-max(len(name), MIN_STORED) // padding) * padding, MAX_NAME)
    iv = start(context, number).to_bytes(8, "little") + bytes(8)
    return in_cts(node_key(raw, context, NAMES), iv, name.ljust(length, b"\0"))


def plain_name(raw, context, number, stored):
    """What a stored name decrypts to."""
    iv = start(context, number).to_bytes(8, "little") + bytes(8)
    return from_cts(node_key(raw, context, NAMES), iv, stored).split(b"\0")[0]


def in_units(raw, context, number, place, block, back=False):
    """A block of a file, encrypted unit by unit or decrypted."""
    size = 1 << context[4] if context[4] else BLOCK
    key, first = node_key(raw, context, CONTENTS), start(context, number) + place * (BLOCK // size)
    return b"".join(in_xts(key, first + at // size, block[at:at + size], back)
                    for at in range(0, BLOCK, size))


def no_key_text(stored):
    """The text in which a stored name is shown without its key."""
    shown = stored if len(stored) <= 149 else stored[:149] + sha256(stored[149:]).digest()
    return urlsafe_b64encode(bytes(8) + shown).rstrip(b"=")


class Node:
    """A node: what it is, its policy with its nonce, and its entries, contents or target as they are in
    plain."""

    def __init__(self, number, kind, context, body):
        self.number, self.kind, self.context, self.body = number, kind, context, body


class Disk:
    """The tree that the calls of a log make, and all raw keys of its script."""

    def __init__(self):
        self.nodes, self.next, self.raws, self.handles = {0: Node(0, "dir", None, {})}, 1, {}, {}

    def stored(self, folder, name):
        """A name as this directory stores it."""
        if folder.context is None:
            return name
        return stored_name(self.raws[folder.context[8:24]], folder.context, folder.number, name)

    def found(self, folder, part):
        """The plain name of an entry that a part of a path means: by that name, or by the text that is
        for it."""
        if part in folder.body:
            return part
        return next(name for name in folder.body if no_key_text(self.stored(folder, name)) == part)

    def at(self, path):
        """The directory of a path's last part, and that part."""
        parts, folder = [unquote_to_bytes(part) for part in path.split("/")[1:]], self.nodes[0]
        for part in parts[:-1]:
            folder = self.nodes[folder.body[self.found(folder, part)]]
        return folder, parts[-1]

    def node(self, path):
        """The node of a path."""
        if path == "/":
            return self.nodes[0]
        folder, part = self.at(path)
        return self.nodes[folder.body[self.found(folder, part)]]

    def make(self, path, kind, nonce, body):
        """A new node under the policy of its directory."""
        folder, part = self.at(path)
        context = folder.context and folder.context[:24] + nonce
        self.nodes[self.next] = Node(self.next, kind, context, body)
        folder.body[part] = self.next
        self.next += 1

    def take(self, path):
        """Takes a name away. A node that is open stays among the nodes, and no image shows it."""
        folder, part = self.at(path)
        return folder.body.pop(self.found(folder, part))

    def write(self, node, offset, given):
        """Writes bytes into a file, which grows by zeros where they begin after its end."""
        if given:
            node.body = node.body.ljust(offset, b"\0")[:offset] + given + node.body[offset + len(given):]


def commands_of(script):
    """The commands of each caller: their words."""
    callers = []
    for line in script.decode("latin-1").split("\n"):
        words = line.split(" ")
        if line and not line.startswith("#"):
            callers.append([]) if words[0] == "caller" else callers[-1].append(words)
    return callers


class Turns:
    """Which command of a caller made each of its calls."""

    def __init__(self, commands):
        self.commands, self.number, self.made = commands, 0, 0

    def of(self, call, reply):
        """The number and the words of the command that made this call."""
        while True:
            words = self.commands[self.number]
            wanted = calls_of(words)
            if self.made < len(wanted) and begins(" ".join(call), wanted[self.made]):
                break
            self.number, self.made = self.number + 1, 0
        found = self.number, words
        self.made += 1
        if self.made == len(wanted) or reply[0] == "refused":
            self.number, self.made = self.number + 1, 0
        return found


def disk_behind(script, log, seed):
    """The disk that a run of the script leaves whose log this is."""
    disk, commands = Disk(), commands_of(script)
    turns = [Turns(command) for command in commands]
    for raw in raw_keys(commands, seed):
        disk.raws[identifier(raw)] = raw
    for line in log.decode().splitlines():
        if not line.startswith("note "):
            head, _, told = line.partition(" = ")
            _, caller, _, *call = head.split(" ")
            number, words = turns[int(caller)].of(call, told.split(" "))
            if not told.startswith("refused"):
                done(disk, int(caller), call, told.split(" "), words,
                     drawn(seed, int(caller), number, 0, 16))
    return disk


def raw_keys(commands, seed):
    """All raw keys that the commands name or draw."""
    for caller, lines in enumerate(commands):
        for number, words in enumerate(lines):
            if words[0] == "add-key" and 64 <= len(words[1]) <= 128:
                yield bytes.fromhex(words[1])
            if words[0] == "policy-new":
                yield drawn(seed, caller, number, 0, 64)


def done(disk, caller, call, reply, words, nonce):
    """What a call that wasn't refused leaves."""
    verb, *asked = call
    if verb == "set-policy":
        node = disk.node(asked[0])
        node.context = node.context or bytes.fromhex(asked[1]) + nonce
    elif verb == "mkdir":
        disk.make(asked[0], "dir", nonce, {})
    elif verb == "create":
        disk.make(asked[0], "file", nonce, b"")
    elif verb == "symlink":
        disk.make(asked[0], "link", nonce, unquote_to_bytes(asked[1]))
    elif verb in ("unlink", "rmdir"):
        disk.take(asked[0])
    elif verb == "rename":
        moved = disk.take(asked[0])
        folder, part = disk.at(asked[1])
        folder.body[part] = moved
    elif verb == "open":
        disk.handles[caller, reply[1]] = disk.node(asked[0])
    elif verb == "write":
        given = bytes([int(words[4])]) * int(words[3]) if words[0] == "fill" else bytes.fromhex(
            words[3].strip("-"))
        disk.write(disk.handles[caller, asked[0]], int(asked[1]), given)
