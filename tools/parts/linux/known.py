"""What Linux answers to a call, if the state of the mount before the call decides that it answers otherwise.

Each function is for a kind of difference (kinds.py), a row of docs/LINUX.md. It returns Linux's answer, or
None if that is the mount's, or rests on more than that state: on what a kernel caches, or on its version.
A refusal is named as tools/parts/linux/drive names it; of a long answer the first words are returned.
"""
import dataclasses

from parts.linux.bookkeeping import CREATIONS, MAX_NAME, length_of, parts_of
from parts.linux.kinds import names_root
from parts.linux.refusals import causes, is_policy, of_entry

MAX_TARGET, MAX_ENCRYPTED_TARGET = 4_095, 4_093
MAX_CLAIMS = 188
MAX_READ, MAX_FILE, MAX_ENTRIES = 4_096, 1_048_576, 4_096
DONE = {"open": "handle", "list": "names", "stat": "stat", "readlink": "target", "get-policy": "policy"}


def first(found):
    """The answer by the first cause of these, or none."""
    return f"refused {found[0]}" if found else None


def root_directory(step):
    """The calls that name the root."""
    books, paths = step.books, step.paths()
    if not names_root(step) or step.refused != "inval":
        return None
    if step.verb == "rmdir":
        return "refused EBUSY"
    if step.verb == "set-policy" and is_policy(step.words[1]):
        if books.root.entries:
            return "refused not-empty"
        return "refused EPERM" if step.user in books.claims.get(step.words[1][16:], ()) else "refused no-key"
    if step.verb == "rename":
        ends = [of_entry(books, path) for path in paths if path != "/"]
        if all(home is not None for home, _, _ in ends):
            return "refused EBUSY" if paths[0] == "/" else "refused exists"
    return None


def links_followed(step):
    """A path leads through a link; drive asks Linux not to follow it."""
    if step.refused == "not-dir" and any(step.books.through_link(path) for path in step.paths()):
        return "refused ELOOP" if len(step.paths()) == 1 else None
    return None


def opening_a_link(step):
    """A link is opened."""
    node = step.node()
    return "refused ELOOP" if step.verb == "open" and node is not None and node.kind == "link" else None


def policy_of_a_link(step):
    """A link is asked for its policy, or gets one."""
    node = step.node()
    is_so = step.verb in ("set-policy", "get-policy") and node is not None and node.kind == "link"
    return "refused ELOOP" if is_so else None


def policy_of_a_file(step):
    """A policy is set on a file that has one and is not locked."""
    node = step.node()
    if step.verb != "set-policy" or node is None or node.kind != "file" or step.refused != "not-dir":
        return None
    if not node.policy or step.books.locked(node) or not is_policy(step.words[1]):
        return None
    return "ok" if node.policy == step.words[1] else "refused exists"


def locked_file(step):
    """The policy of a locked file is asked for, or set."""
    node = step.node()
    if step.verb in ("get-policy", "set-policy") and node is not None and node.kind == "file":
        return "refused no-key" if step.books.locked(node) else None
    return None


def locked_file_set(step):
    """A policy is set on a locked file."""
    return locked_file(step) if step.verb == "set-policy" else None


def locked_file_asked(step):
    """A locked file is asked for its policy."""
    return locked_file(step) if step.verb == "get-policy" else None


def policy_by_user_0(step):
    """User 0 sets a policy by a key that no user has a claim on."""
    is_so = step.verb == "set-policy" and step.user == 0 and step.refused == "no-key"
    return "ok" if is_so and not step.books.present(step.words[1][16:]) else None


def raw_keys(step):
    """A key of 16 to 31 bytes."""
    is_short = step.verb == "add-key" and 16 <= int(step.words[0]) < 32
    return "added" if is_short and step.refused == "inval" else None


def quota(step):
    """A user's claims beyond 64."""
    held = sum(step.user in claim for claim in step.books.claims.values())
    return "added" if step.verb == "add-key" and step.refused == "quota" and held < MAX_CLAIMS else None


def targets_of_links(step):
    """A long target."""
    if step.verb != "symlink" or step.refused != "name-too-long":
        return None
    home, why = step.books.parent(step.words[0])
    most = MAX_ENCRYPTED_TARGET if home is not None and home.policy else MAX_TARGET
    return "ok" if not why and MAX_NAME < length_of(step.words[1]) <= most else None


def directory_written(step):
    """A directory is written to through a handle, which Linux opens for reading."""
    return "refused bad-handle" if step.verb == "write" and step.refused == "is-dir" else None


def limits(step):
    """A limit of the mount is reached."""
    if step.verb == "read" and step.refused == "too-big":
        return "data"
    if step.verb == "write" and step.refused == "too-big":
        return "ok"
    if step.verb in CREATIONS and step.refused == "no-space":
        home, _ = step.books.parent(step.words[0])
        return "ok" if home is not None and len(home.entries) >= MAX_ENTRIES else None
    return None


def locked_directory_opened(step):
    """A locked directory is opened."""
    node = step.node()
    if step.verb == "open" and step.refused == "no-key" and node is not None and node.kind == "dir":
        return "handle"
    return None


def order_of_creation(step):
    """An entry that is there, in a locked directory."""
    home, node, why = of_entry(step.books, step.words[0])
    return "refused exists" if home is not None and not why and node is not None else None


def order_of_rename(step):
    """The refusals of a rename in Linux's order."""
    books, (old, new) = step.books, step.words
    home, node, _ = of_entry(books, old)
    to, taken, _ = of_entry(books, new)
    if home is None or step.refused not in ("no-key", "not-found", "name-too-long"):
        return None
    if to is None:
        return first([books.parent(new)[1]])
    found = ["name-too-long"] if length_of(parts_of(old)[-1]) > MAX_NAME else []
    found += ["not-found"] if node is None else []
    found += ["name-too-long"] if length_of(parts_of(new)[-1]) > MAX_NAME else []
    found += ["exists"] if taken is not None else []
    found += ["inval"] if node is not None and (to is node or node in to.above()) else []
    return first(found)


def order_of_set_policy(step):
    """Bytes that are no policy: the version comes first, another policy and entries before the rest."""
    node, policy = step.node(), step.words[1]
    if node is None or is_policy(policy):
        return None
    if policy[:2] not in ("01", "02"):
        return "refused inval" if step.refused == "not-dir" else None
    if step.refused != "inval" or policy[:2] != "02":
        return None
    return "refused exists" if node.policy else "refused not-empty" if node.entries else None


def order_of_refusals(step):
    """Two causes hold, and Linux asks the second first."""
    if names_root(step) or not step.refused:
        return None
    if step.verb in CREATIONS:
        return order_of_creation(step) if step.refused == "no-key" else None
    if step.verb == "rename":
        return order_of_rename(step)
    return order_of_set_policy(step) if step.verb == "set-policy" else None


def seen_plain(step, kept):
    """The answer of a kernel that has these directories unlocked."""
    with step.books.seen(kept, False):
        found = causes(step)
        node = step.node()
        if step.verb == "list" and node in kept:
            names = sorted(node.entries)
            return " ".join(["names", str(len(names)), "more=0", *names])
        if len(found) == 1:
            return first(list(found))
        return DONE.get(step.verb, "ok") if not found and step.paths() else None


def directories_above(step):
    """The locked directories, with a key that something open needs, above an open node."""
    books = step.books
    locked = (node for node in books.named() if books.locked(node))
    return [node for node in locked if books.open_below(node) and books.users_of(node.key)]


def above_an_open_file(step):
    """What is above an open node stays unlocked; its names are plain."""
    kept = directories_above(step)
    if not kept or not step.paths() or not (step.refused or step.verb == "list"):
        return None
    if not set(map(id, kept)) & set(map(id, step.directories())):
        with step.books.seen(kept, False):
            if not set(map(id, kept)) & set(map(id, step.directories())):
                return None
    return seen_plain(step, kept)


def held_by_a_dead_entry(step):
    """The key of a directory in which an open node had its name before it was unlinked."""
    books, key = step.books, step.words[0] if step.words else ""
    if step.verb not in ("remove-key", "remove-key-all", "key-status") or books.users_of(key):
        return None
    if not any(above.key == key for node in books.open_nodes() for above in node.above()):
        return None
    if step.ours == "removed others=0 busy=0":
        return "removed others=0 busy=1"
    return step.ours.replace("absent", "incomplete") if step.ours.startswith("status absent") else None


def after_the_last_close(step):
    """A key without claims whose last handle was closed, and of which a directory is still there."""
    key = step.words[0] if step.words else ""
    if key not in step.books.lingering or not any(node.key == key for node in step.books.named()):
        return None
    if step.verb == "key-status" and step.ours.startswith("status absent"):
        return step.ours.replace("absent", "incomplete")
    is_removal = step.verb.startswith("remove-key") and step.refused == "no-key"
    return "removed others=0 busy=0" if is_removal else None


@dataclasses.dataclass(frozen=True)
class Known:
    """The first cell of a row of docs/LINUX.md, and what Linux answers by it."""
    row: str
    answer: object


KNOWN = [
    Known("the root directory", root_directory),
    Known("links followed", links_followed),
    Known("opening a link", opening_a_link),
    Known("SetPolicy, GetPolicy on a link", policy_of_a_link),
    Known("SetPolicy on a file that has a policy", policy_of_a_file),
    Known("SetPolicy on a locked file", locked_file_set),
    Known("GetPolicy of a locked file", locked_file_asked),
    Known("SetPolicy by user 0", policy_by_user_0),
    Known("raw keys", raw_keys),
    Known("the quota", quota),
    Known("targets of links", targets_of_links),
    Known("a directory opened for writing", directory_written),
    Known("limits", limits),
    Known("opening a locked directory", locked_directory_opened),
    Known("the order of refusals", order_of_refusals),
    Known("what an open file keeps unlocked", above_an_open_file),
    Known("an open node without a name", held_by_a_dead_entry),
    Known("the status after the last close on a key without claims", after_the_last_close),
]


def known_answer(step):
    """Linux's answer and its row, where the mount's state decides that it isn't the mount's; else None."""
    for known in KNOWN:
        answer = known.answer(step)
        if answer is not None and answer.split(" ") != step.ours.split(" ")[:len(answer.split(" "))]:
            return answer, known.row
    return None
