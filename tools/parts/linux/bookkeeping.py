"""What a log of fsc contains of its mount: its nodes, names, handles and claims.

It takes each reply as the log has it and decides none. So it can say which facts hold where a kernel answers
otherwise, and what a refusal may rest on.
"""
import contextlib
import dataclasses
import urllib.parse

MAX_NAME = 255
ROOT = 0
CREATIONS = {"mkdir": "dir", "create": "file", "symlink": "link"}


@dataclasses.dataclass
class Node:
    """A node; `home` is the directory in which it has its name, or had it last."""
    number: int
    kind: str
    home: "Node" = None
    name: str = ""
    policy: str = ""
    linked: bool = True
    target: str = ""
    entries: dict = dataclasses.field(default_factory=dict)

    @property
    def key(self):
        """The identifier of the key that its policy names, or nothing."""
        return self.policy[16:]

    def above(self):
        """The directories above it, those too that it, or one of them, has left by an unlinking."""
        at = self.home
        while at is not None:
            yield at
            at = at.home


def parts_of(path):
    """The parts of a path, each as the word of the log."""
    return [part for part in path.split("/") if part]


def length_of(word):
    """The number of bytes of a word."""
    return len(urllib.parse.unquote_to_bytes(word))


class Bookkeeping:
    """The state after the lines that were fed."""

    def __init__(self):
        self.root = Node(ROOT, "dir")
        self.made = 0
        self.texts = {}
        self.handles = {}
        self.claims = {}
        self.lingering = set()
        self.view = {}

    def entry(self, directory, part):
        """The node to which a part leads in a directory, as the mount shows its names.

        A kernel is given its own name for a no-key text, so where its view is tried a text leads on in any
        case.
        """
        locked = self.locked(directory)
        if not locked and part in directory.entries:
            return directory.entries[part]
        return self.text_of(part, directory) if locked or self.view else None

    def text_of(self, text, directory):
        """The node that a no-key text names in a directory, or none."""
        home, name = self.texts.get(text, (None, ""))
        return directory.entries.get(name) if home is directory else None

    def walk(self, parts):
        """The directories that are looked into and the node at the end, or none and why."""
        at, passed = self.root, []
        for part in parts:
            if at.kind != "dir":
                return passed, None, "not-dir"
            passed.append(at)
            if length_of(part) > MAX_NAME:
                return passed, None, "name-too-long"
            at = self.entry(at, part)
            if at is None:
                return passed, None, "not-found"
        return passed, at, ""

    def through_link(self, path):
        """Whether a link depends on the way of a path."""
        parts = parts_of(path)
        nodes = (self.walk(parts[:at])[1] for at in range(1, len(parts)))
        return any(node is not None and node.kind == "link" for node in nodes)

    def parent(self, path):
        """The directory of a path's last part, or none and why; the root has none."""
        parts = parts_of(path)
        if not parts:
            return None, ""
        _, at, why = self.walk(parts[:-1])
        if at is not None and at.kind != "dir":
            at, why = None, "not-dir"
        if at is not None and length_of(parts[-1]) > MAX_NAME:
            why = "name-too-long"
        return at, why

    def node(self, path):
        """The node at a path, or none."""
        return self.walk(parts_of(path))[1]

    def named(self, at=None):
        """The nodes that have names, from a directory on."""
        at = at or self.root
        yield at
        for entry in at.entries.values():
            yield from self.named(entry)

    def open_nodes(self):
        """The nodes on which handles are open."""
        return list(self.handles.values())

    def users_of(self, key):
        """The open nodes whose policies name a key."""
        return [node for node in self.open_nodes() if node.key == key]

    def present(self, key):
        """Whether some user has a claim on a key."""
        return bool(self.claims.get(key))

    def keyless(self, node):
        """Whether a node has a policy on whose key there is no claim."""
        return bool(node.policy) and not self.present(node.key)

    def locked(self, node):
        """Whether the mount has a node locked, or a kernel by the view that is tried."""
        if node.number in self.view:
            return self.view[node.number]
        return self.keyless(node) and node not in self.open_nodes()

    @contextlib.contextmanager
    def seen(self, directories, locked):
        """As a kernel sees it that has these directories locked, or has them not."""
        self.view = {directory.number: locked for directory in directories}
        try:
            yield
        finally:
            self.view = {}

    def open_below(self, directory):
        """Whether something is open below a directory, or was so when it lost its name there."""
        return any(directory in node.above() for node in self.open_nodes())

    def feed(self, caller, user, verb, words, reply):
        """Takes a line of the log in."""
        told = reply.split(" ")
        if told[0] == "refused":
            return
        if verb in ("add-key", "remove-key", "remove-key-all"):
            self.feed_claims(user, verb, words, told)
        elif verb in CREATIONS:
            self.feed_creation(verb, words)
        elif verb == "set-policy":
            self.node(words[0]).policy = words[1]
        elif verb in ("unlink", "rmdir", "rename"):
            self.feed_name(verb, words)
        elif verb == "open":
            self.handles[caller, told[1]] = self.node(words[0])
        elif verb == "close":
            self.feed_close(caller, words[0])
        elif verb == "stat":
            self.feed_text(words[0], int(told[2]))

    def feed_claims(self, user, verb, words, told):
        """A claim is made, given up, or taken from all."""
        if verb == "add-key":
            self.claims.setdefault(told[1], set()).add(user)
            self.lingering.discard(told[1])
            return
        if verb == "remove-key":
            self.claims.get(words[0], set()).discard(user)
        else:
            self.claims[words[0]] = set()
        self.lingering.discard(words[0])

    def feed_creation(self, verb, words):
        """Nodes are numbered from 1 as they are made; a node takes its directory's policy."""
        home, _ = self.parent(words[0])
        self.made += 1
        name = parts_of(words[0])[-1]
        target = words[1] if verb == "symlink" else ""
        home.entries[name] = Node(self.made, CREATIONS[verb], home, name, home.policy, target=target)

    def feed_name(self, verb, words):
        """A name goes; a rename puts another."""
        node = self.node(words[0])
        del node.home.entries[node.name]
        if verb != "rename":
            node.linked = False
            return
        node.home, _ = self.parent(words[1])
        node.name = parts_of(words[1])[-1]
        node.home.entries[node.name] = node

    def feed_close(self, caller, handle):
        """With its last handle a key without claims goes, which in Linux lingers; so does that of what
        is above."""
        node = self.handles.pop((caller, handle))
        self.lingering |= {place.key for place in (node, *node.above()) if self.keyless(place)}

    def feed_text(self, path, number):
        """In a locked directory a part is the no-key text of the node that was reported."""
        parts = parts_of(path)
        _, home, _ = self.walk(parts[:-1])
        if not parts or home is None or home.kind != "dir" or not self.locked(home):
            return
        for entry in home.entries.values():
            if entry.number == number:
                self.texts[parts[-1]] = home, entry.name
