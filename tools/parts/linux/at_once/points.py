"""The points of a call, and whether a kernel's reply is the mount's.

A level says how much of a kernel is allowed beyond the mount.
- AS_IS: nothing, each reply is the mount's.
- ROWS: what docs/LINUX.md says of calls made one at a time.
- TWO_POINTS: a removal has two points. At the first it takes the last claim, and each node of the key is
  pinned, as by a handle. Until the second each pin may be dropped; at the second none is left, and it
  replies. A close has two as well: what it held may be seen until race's removal after it ends.
- UNDER_WAY: a removal may reply busy=1 for a call under way, and pins may then stay until another removal.
- APART: a path is walked part by part, a creation asks for the key before it makes the name, and a write
  ends page by page.

A pin is a handle of one more caller, so that the log with the pins is one of a script with that caller.
"""
import dataclasses
import enum

from parts.linux.at_once import pages
from parts.linux.at_once.calls import REMOVALS
from parts.linux.at_once.walking import Refused

BUSY, FREE = "removed others=0 busy=1", "removed others=0 busy=0"
ONE_MORE_USER = 65_534


class Level(enum.IntEnum):
    """How much of a kernel is allowed beyond the mount."""

    AS_IS = 0
    ROWS = 1
    TWO_POINTS = 2
    UNDER_WAY = 3
    APART = 4


@dataclasses.dataclass(frozen=True)
class Point:
    """A point of a call: `whole`, the `first` and `last` of a removal or close, `walk` and `check` before a
    `whole`.

    A `clean` point has no call: race removes what nothing holds, between the calls together and those after.
    """

    call: object
    part: str
    begin: float
    end: float
    which: tuple = ()  # of a walk: which path, and the part


def points_of(call, level):
    """The points of a call."""
    made = []
    if level >= Level.TWO_POINTS and call.verb in (*REMOVALS, "close"):
        made += [("first", ()), ("last", ())]
    else:
        if level >= Level.APART and call.walks_apart:
            made += [
                ("walk", (number, part)) for number, path in enumerate(call.paths()) for part in path[:-1]
            ]
        if level >= Level.APART and call.check_apart:
            made.append(("check", ()))
        made.append(("whole", ()))
    return [Point(call, part, call.begin, call.end, which) for part, which in made]


def bound(state, node, inode):
    """Whether a node may have a number of the kernel; the first stat of a node binds it."""
    known = state.inodes.get(node)
    if known is None and inode not in state.inodes.values():
        state.inodes = {**state.inodes, node: inode}
        state.frozen = None
        return True
    return known == inode


def fits(state, level, call, ours):
    """Whether the kernel's reply is the mount's after this call."""
    theirs = call.reply
    if ours == theirs:
        return True
    if ours.startswith("refused ") and "|" in ours:
        return theirs.startswith("refused ") and theirs[8:] in ours[8:].split("|")
    if call.verb == "stat" and ours.startswith("stat ") and theirs.startswith("stat "):
        _, kind, node, size, encrypted, _ = ours.split(" ")
        _, other_kind, inode, other_size, other_encrypted, _ = theirs.split(" ")
        sized = (
            kind == "dir"
            or size == other_size
            or (level >= Level.APART and int(other_size) in pages.sizes_beside(state, call, int(node)))
        )
        return (
            (kind, encrypted) == (other_kind, other_encrypted) and sized and bound(state, int(node), inode)
        )
    if call.verb == "list" and ours.endswith(" locked"):
        shown = theirs.split(" ")
        return shown[:2] == ours.split(" ")[:2] and all(pages.is_text(name) for name in shown[3:])
    return call.verb == "read" and level >= Level.APART and pages.is_torn(state, call)


def resolved(state, call):
    """The call with the paths that its walks have found, at the nodes' paths now; none where a walk found
    nothing."""
    walks, _ = state.under_way.get(call.caller, ((), False))
    paths = []
    for number, path in enumerate(call.paths()):
        found = walks[number] if number < len(walks) else 0
        home = state.path(found) if found in state.nodes else None
        if home is None and not isinstance(found, str):
            raise Refused("not-found")
        paths.append(path if home is None else (*home, *path[-1:]))
    return dataclasses.replace(call, arguments=(*paths, *call.arguments[len(paths) :]))
