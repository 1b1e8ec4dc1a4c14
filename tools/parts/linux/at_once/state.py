"""The state of a mount as the search for an order needs it: no ciphers, and nodes by their numbers.

Nothing rests on it: what the search finds is asked of fsc check.
"""
import typing


class Node(typing.NamedTuple):
    """A node; `home` and `name` are where it has its name, or had it last."""

    kind: str
    policy: str
    home: int | None
    name: str
    body: object  # a directory's names, a file's bytes, a link's target

    @property
    def key(self):
        """The identifier of the key that its policy names, or nothing."""
        return self.policy[16:]


ROOT = 0
EMPTY = Node("dir", "", None, "", {})


class State:
    """Claims, nodes and handles, and what a kernel has between the points of calls under way.

    `inodes` has the kernel's number of each node of which a stat was made. `pins` are nodes of which a
    removal has not yet dropped the key; `removing` the removals between their points, as caller and key;
    `under_way` of each caller how far the walks of its call are, and whether the key of its creation was
    there when it was asked for."""

    __slots__ = (
        "claims",
        "nodes",
        "handles",
        "opened",
        "next",
        "inodes",
        "pins",
        "removing",
        "under_way",
        "frozen",
    )

    def __init__(self):
        self.claims, self.nodes, self.handles, self.opened = {}, {ROOT: EMPTY}, {}, {}
        self.next, self.inodes, self.under_way, self.frozen = 1, {}, {}, None
        self.pins, self.removing = frozenset(), ()

    def copy(self):
        """A state that may be changed."""
        made = State.__new__(State)
        made.claims, made.nodes, made.handles = dict(self.claims), dict(self.nodes), dict(self.handles)
        made.opened, made.next, made.inodes, made.under_way = (
            self.opened,
            self.next,
            self.inodes,
            self.under_way,
        )
        made.pins, made.removing, made.frozen = self.pins, self.removing, None
        return made

    def value(self):
        """All of the state as a value that can be compared."""
        if self.frozen is None:
            nodes = frozenset(
                (number, *node[:4], frozenset(node.body.items()) if node.kind == "dir" else node.body)
                for number, node in self.nodes.items()
            )
            self.frozen = (
                frozenset(self.claims.items()),
                nodes,
                frozenset(self.handles.items()),
                frozenset(self.inodes.items()),
                self.pins,
                self.removing,
                frozenset(self.under_way.items()),
            )
        return self.frozen

    def present(self, key):
        """Whether some user has a claim on a key."""
        return bool(self.claims.get(key))

    def above(self, number):
        """The directories above a node."""
        at = self.nodes[number].home
        while at is not None and at in self.nodes:
            yield at
            at = self.nodes[at].home

    def named(self, number):
        """Whether a node has a name."""
        node = self.nodes[number]
        return node.home in self.nodes and self.nodes[node.home].body.get(node.name) == number

    def path(self, number):
        """The parts of a node's path, or none where it has no name."""
        parts = []
        while number:
            if not self.named(number):
                return None
            parts.append(self.nodes[number].name)
            number = self.nodes[number].home
        return tuple(reversed(parts))

    def at(self, path):
        """The node at a path by plain names, whatever is locked, or none."""
        number = ROOT
        for part in path:
            node = self.nodes[number]
            number = node.body.get(part) if node.kind == "dir" else None
            if number is None:
                return None
        return number

    def held(self, above):
        """The nodes that are held: by handles, with `above` the encrypted directories above these, and by
        pins."""
        found = set(self.handles.values()) | self.pins
        if above:
            for number in list(self.handles.values()):
                found.update(above for above in self.above(number) if self.nodes[above].policy)
        return found

    def busy(self, key, above):
        """Whether a node of a key is held."""
        return any(self.nodes[outer].key == key for outer in self.held(above) if outer in self.nodes)

    def readable(self, number, above):
        """Whether a node is not locked."""
        node = self.nodes[number]
        return not node.policy or self.present(node.key) or number in self.held(above)

    def child(self, directory, part, above):
        """The node of a plain name in a directory, or none."""
        return self.nodes[directory].body.get(part) if self.readable(directory, above) else None

    def put(self, number, **change):
        """Changes a node."""
        self.nodes[number] = self.nodes[number]._replace(**change)

    def unlink(self, directory, name):
        """Takes a name out of a directory, and returns the node that had it."""
        body = dict(self.nodes[directory].body)
        number = body.pop(name)
        self.put(directory, body=body)
        return number

    def forget(self, number):
        """Drops a node that has neither name nor handle; the number of its inode may come again."""
        if (
            number
            and number in self.nodes
            and number not in self.handles.values()
            and number not in self.pins
            and not self.named(number)
        ):
            del self.nodes[number]
            self.inodes = {node: inode for node, inode in self.inodes.items() if node != number}

    def of_key(self, key):
        """The pinned nodes of a key."""
        return frozenset(pin for pin in self.pins if pin in self.nodes and self.nodes[pin].key == key)

    def without_pins(self, nodes):
        """The state without some of the pins."""
        new = self.copy()
        new.pins = new.pins - nodes
        for node in nodes:
            new.forget(node)
        return new
