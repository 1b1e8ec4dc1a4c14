"""The kinds of difference between the mount and Linux, each with its row in docs/LINUX.md.

A kind says of a step in which the two answered otherwise whether it is the difference of the row:
what holds of the mount before the call, and both answers.
"""
import dataclasses
import itertools
import os

from parts import TOP
from parts.linux.bookkeeping import CREATIONS, MAX_NAME, length_of
from parts.linux.refusals import causes, is_policy, names_root, own_causes
from parts.linux.scripts import names_of

PAGE = "docs/LINUX.md"
ORDERS = {
    "creation": {("no-key", "exists")},
    "set-policy": {("not-dir", "inval"), ("inval", "exists"), ("inval", "not-empty"), ("inval", "no-key")},
    "rename": {(ours, theirs) for ours in ("no-key", "not-found", "name-too-long")
               for theirs in ("not-dir", "not-found", "name-too-long")}
              | {("no-key", "inval"), ("no-key", "exists")},
}


def is_key_call(step):
    """Whether the call is on a key that there is."""
    return step.verb in ("remove-key", "remove-key-all", "key-status")


def told_held(reply):
    """Whether a reply on a key without claims says that something of it is held; none where it says
    neither."""
    if reply.startswith("removed others=0") or reply.startswith("status incomplete"):
        return not reply.endswith("busy=0")
    if reply.startswith("status absent") or reply == "refused no-key":
        return False
    return None


def held_otherwise(step, here):
    """Whether of the mount and Linux just the one reports that a key is held, and all else is the same."""
    rest = [reply.split(" ")[2:] for reply in (step.ours, step.theirs) if reply.startswith("status")]
    return is_key_call(step) and (told_held(step.ours),
                                  told_held(step.theirs)) == (here, not here) and rest[:1] == rest[1:]


def fits(step):
    """Whether Linux's answer fits the view that is tried: a refusal has a cause there, and all else has
    none."""
    if step.verb == "list" and not step.refused and not step.denied:
        node = step.node()
        names = {entry.number: entry.name for entry in node.entries.values()} if node else {}
        plain = [names.get(name) == text for name, text in zip(step.listed(), names_of(step.theirs))]
        return node is not None and not any(plain) if step.books.locked(node) else all(plain)
    if step.verb == "stat" and not step.denied:
        node = step.node()
        wanted = "0" if node and step.books.locked(node) else "1"
        return node is not None and step.theirs.split(" ")[2] == str(node.number) and step.theirs[-1] in (
            "?", wanted)
    return step.denied in causes(step) if step.denied else not causes(step)


def fits_some(step, directories, locked):
    """Whether Linux's answer fits where it has some of these directories locked, or has them not.

    The mount's own has to fit what it has locked itself.
    """
    if step.refused and step.refused not in own_causes(step):
        return False
    with step.books.seen(directories, False):
        way = step.directories()
    directories = [directory for directory in directories if directory in way]
    for count in range(1, len(directories) + 1):
        for some in itertools.combinations(directories, count):
            with step.books.seen(some, locked):
                if fits(step):
                    return True
    return False


def other_order(step):
    """Both refuse, each for a cause that holds, and Linux is known to ask the second first."""
    pairs = ORDERS.get("creation" if step.verb in CREATIONS else step.verb, ())
    return (step.refused, step.denied) in pairs and {step.refused, step.denied} <= causes(step)


def open_directory(step):
    """A directory's handle keeps it readable here; Linux gives it its key only by a look-up or a listing."""
    if held_otherwise(step, True):
        return all(user.kind == "dir" for user in step.books.users_of(step.words[0]))
    books = step.books
    kept = [directory for directory in step.directories() if directory.kind == "dir"
            and directory in books.open_nodes() and books.keyless(directory)]
    return fits_some(step, kept, True)


def kept_plain(step, wanted):
    """The nodes that the mount has locked and for which this holds."""
    return [node for node in step.books.named() if step.books.locked(node) and wanted(node)]


def open_below(step):
    """Linux keeps what is above an open node unlocked."""
    kept = kept_plain(step, lambda node: step.books.open_below(node) and step.books.users_of(node.key))
    return fits_some(step, kept, False)


def open_unlinked(step):
    """Linux's dead entry of an open node holds the directory in which it was."""
    if held_otherwise(step, False):
        key = step.words[0]
        return not step.books.users_of(key) and any(
            above.key == key for node in step.books.open_nodes() for above in node.above())
    kept = kept_plain(step, lambda node: step.books.open_below(node) and not step.books.users_of(node.key))
    return fits_some(step, kept, False)


def lingering(step):
    """With its last close a key without claims goes here; in Linux it lingers, which drive lets it only if
    it is reported.

    The next removal takes it there, if nothing holds it any more.
    """
    if not step.raw:
        return False
    if is_key_call(step):
        taken = (step.refused, step.theirs) == ("no-key", "removed others=0 busy=0")
        return step.words[0] in step.books.lingering and (taken or held_otherwise(step, False))
    return fits_some(step, kept_plain(step, lambda node: node.key in step.books.lingering), False)


def of_root(step):
    """The calls that name the root, which Linux refuses otherwise."""
    return names_root(step) and step.refused in own_causes(step) and step.denied in causes(step)


def kind_of_node(step):
    """The kind of the node at the first path, or nothing."""
    node = step.node()
    return node.kind if node else ""


def opens_locked(step):
    """Linux opens a locked directory."""
    node = step.node()
    return (step.verb == "open" and kind_of_node(step) == "dir" and step.books.locked(node)
            and step.refused == "no-key"
            and step.theirs.startswith("handle") and "dir" in step.told)


def policy_by_root(step):
    """User 0 sets a policy on whose key no user has a claim."""
    return (step.verb == "set-policy" and step.user == 0 and step.refused == "no-key" and step.theirs == "ok"
            and not step.books.present(step.words[1][16:]))


def through_link(step):
    """Linux follows a link on the way, which drive reports as ELOOP."""
    return step.told.get("link") == "1" and step.refused in own_causes(step) and step.denied in causes(step)


def policy_of_link(step):
    """Linux opens no link to ask for its policy or to set it."""
    node = step.node()
    if kind_of_node(step) != "link" or step.denied != "ELOOP":
        return False
    told = f"policy {node.policy}" if node.policy else "refused no-data"
    return step.ours == {"set-policy": "refused not-dir", "get-policy": told}.get(step.verb)


def opens_link(step):
    """Linux refuses to open a link as one."""
    return step.verb == "open" and kind_of_node(step) == "link" and (step.refused, step.denied) == ("inval",
                                                                                                    "ELOOP")


def policy_of_file(step):
    """A file has a policy, and Linux looks at it first."""
    node = step.node()
    return (step.verb == "set-policy" and kind_of_node(step) == "file" and bool(node.policy)
            and step.refused == "not-dir"
            and (step.theirs == "ok") == (node.policy == step.words[1])
            and (step.theirs == "ok" or step.denied == "exists"))


def policy_of_locked_file(step):
    """Linux opens no locked file to set its policy."""
    return (step.verb == "set-policy" and kind_of_node(step) == "file" and step.books.keyless(step.node())
            and (step.refused, step.denied) == ("not-dir", "no-key"))


def asked_of_locked_file(step):
    """Linux opens no locked file to ask for its policy."""
    node = step.node()
    return (step.verb == "get-policy" and kind_of_node(step) == "file" and step.books.keyless(node)
            and step.ours == f"policy {node.policy}" and step.denied == "no-key")


def quota(step):
    """The mount's own quota."""
    held = sum(step.user in claim for claim in step.books.claims.values())
    return step.verb == "add-key" and step.refused == "quota" and held >= 64 and step.theirs.startswith(
        "added")


def short_key(step):
    """Linux takes keys of 16 to 31 bytes."""
    return (step.verb == "add-key" and step.refused == "inval" and 16 <= int(step.words[0]) < 32
            and step.theirs.startswith("added"))


def long_target(step):
    """Linux takes longer targets."""
    return (step.verb == "symlink" and length_of(step.words[1]) > MAX_NAME
            and step.refused == "name-too-long"
            and step.theirs == "ok")


def writes_directory(step):
    """Linux opens a directory for reading alone."""
    if step.verb != "write" or (step.refused, step.denied) != ("is-dir", "bad-handle"):
        return False
    node = step.books.handles.get((step.caller, step.words[0]))
    return node is not None and node.kind == "dir"


def units(step):
    """Linux 6.1 knows no data units."""
    return (step.verb == "set-policy" and is_policy(step.words[1]) and step.words[1][8:10] != "00"
            and step.denied == "inval" and (step.ours == "ok" or step.refused in own_causes(step)))


def other_policy(step):
    """Linux takes other modes, flags and versions."""
    return (step.verb == "set-policy" and step.refused == "inval" and not is_policy(step.words[1])
            and step.theirs == "ok")


def limits(step):
    """The mount's own limits."""
    if step.verb == "read":
        return step.refused == "too-big" and int(step.words[2]) > 4_096 and step.theirs.startswith("data ")
    if step.verb == "write":
        end = int(step.words[1]) + int(step.words[2])
        return step.refused == "too-big" and end > 1_048_576 and step.theirs == "ok"
    if step.verb in CREATIONS:
        home, _ = step.books.parent(step.words[0])
        return step.refused == "no-space" and home is not None and len(
            home.entries) >= 4_096 and step.theirs == "ok"
    return False


@dataclasses.dataclass
class Kind:
    """A kind of difference: the first cell of its row, and whether it is that of a step."""
    row: str
    holds: object


KINDS = [
    Kind("the root directory", of_root),
    Kind("links followed", through_link),
    Kind("opening a link", opens_link),
    Kind("SetPolicy, GetPolicy on a link", policy_of_link),
    Kind("SetPolicy on a file that has a policy", policy_of_file),
    Kind("SetPolicy on a locked file", policy_of_locked_file),
    Kind("GetPolicy of a locked file", asked_of_locked_file),
    Kind("SetPolicy by user 0", policy_by_root),
    Kind("data units", units),
    Kind("other modes, version 1", other_policy),
    Kind("raw keys", short_key),
    Kind("the quota", quota),
    Kind("targets of links", long_target),
    Kind("a directory opened for writing", writes_directory),
    Kind("limits", limits),
    Kind("opening a locked directory", opens_locked),
    Kind("the order of refusals", other_order),
    Kind("an open directory", open_directory),
    Kind("what an open file keeps unlocked", open_below),
    Kind("an open node without a name", open_unlinked),
    Kind("the status after the last close on a key without claims", lingering),
]


def kind_of(step):
    """The kind of a step's difference, or none."""
    return next((kind for kind in KINDS if kind.holds(step)), None)


def rows(head="what"):
    """The first cells of the tables of differences in docs/LINUX.md that begin with this head, each with its
    line."""
    found, within = {}, False
    with open(os.path.join(TOP, PAGE), encoding="utf-8") as page:
        for number, line in enumerate(page, 1):
            first = line.removeprefix("| ").partition(" | ")[0]
            within = line.startswith("|") and (within or first == head)
            if within and first != head and not first.startswith("|-"):
                found[first] = number
    return found
