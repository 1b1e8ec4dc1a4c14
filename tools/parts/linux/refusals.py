"""What a refusal of a call may rest on, in whatever order the causes are asked.

Each function reports the refusals for which there is a cause in the state before the call, as Linux names
them.
"""
import re

from parts.linux.bookkeeping import CREATIONS, MAX_NAME, ROOT, length_of, parts_of

POLICY = re.compile("020104(0[0-3]|0[89ab])(00|09|0a|0b|0c)000000.{32}")


def is_policy(policy):
    """Whether 48 digits are a policy for the mount."""
    return POLICY.fullmatch(policy) is not None


def of_walk(books, path):
    """The node at the end of a path, and why there is none; drive asks Linux not to follow links on the
    way."""
    _, node, why = books.walk(parts_of(path))
    return node, {why, "ELOOP" if books.through_link(path) else ""} - {""}


def of_policy(books, node, user, policy):
    """SetPolicy on a node."""
    causes = {"no-key"} if node.kind == "file" and books.locked(node) else set()
    if node.kind == "link":
        return {"ELOOP", "not-dir"}
    if node.policy == policy:
        return causes
    if node.kind == "file":
        causes.add("not-dir")
    if not is_policy(policy) or node.number == ROOT:
        causes.add("inval")
    if node.policy and node.policy != policy:
        causes.add("exists")
    if node.entries:
        causes.add("not-empty")
    claims = books.claims.get(policy[16:], set())
    if user not in claims and not (user == 0 and claims):
        causes.add("no-key")
    return causes


def of_node(step):
    """The calls that walk to a node."""
    books = step.books
    node, causes = of_walk(books, step.words[0])
    if node is None:
        return causes
    if step.verb == "set-policy":
        return of_policy(books, node, step.user, step.words[1])
    opened = {"ELOOP"} if node.kind == "link" else {"no-key"} if node.kind == "file" and books.locked(
        node) else set()
    return {
        "list": {"not-dir"} if node.kind != "dir" else set(),
        "readlink": {"inval"} if node.kind != "link" else set(),
        "open": opened | ({"inval"} if node.kind == "link" else set()),
        "get-policy": opened or ({"no-data"} if not node.policy else set()),
    }.get(step.verb, set())


def of_entry(books, path):
    """The directory of a path's last part, the node there, and why there is none of them."""
    home, why = books.parent(path)
    node = books.entry(home, parts_of(path)[-1]) if home is not None and not why else None
    return home, node, {why, "ELOOP" if books.through_link(path) else ""} - {""}


def of_parent(books, path):
    """Why there is no directory of a path's last part, or no such entry."""
    home, node, why = of_entry(books, path)
    return why | ({"not-found"} if home is not None and node is None else set())


def of_creation(step):
    """Mkdir, Create, Symlink."""
    home, node, causes = of_entry(step.books, step.words[0])
    causes |= {"exists"} if node is not None else set()
    causes |= {"no-key"} if home is not None and step.books.keyless(home) else set()
    if step.verb == "symlink" and length_of(step.words[1]) > MAX_NAME:
        causes.add("name-too-long")
    return causes


def of_removal(step):
    """Unlink, Rmdir."""
    _, node, causes = of_entry(step.books, step.words[0])
    if node is None:
        return causes or {"not-found"}
    if step.verb == "unlink":
        return {"is-dir"} if node.kind == "dir" else set()
    return {"not-dir"} if node.kind != "dir" else {"not-empty"} if node.entries else set()


def of_rename(step):
    """Rename, the new name not taken."""
    books = step.books
    home, node, causes = of_entry(books, step.words[0])
    to, taken, others = of_entry(books, step.words[1])
    causes |= others
    causes |= {"no-key"} if any(directory is not None
                                and books.locked(directory) for directory in (home, to)) else set()
    causes |= {"not-found"} if home is not None and node is None else set()
    causes |= {"exists"} if taken is not None else set()
    if to is not None and node is not None:
        causes |= {"inval"} if to is node or node in to.above() else set()
        causes |= {"x-dev"} if to.policy and to.policy != node.policy else set()
    if home is not None and taken is not None and (taken is home or taken in home.above()):
        causes.add("exists")
    return causes


def of_root(step):
    """The calls that name the root, which Linux takes for the caller's own."""
    books, paths = step.books, step.paths()
    if step.verb == "rename":
        ends = zip(paths, ({"EBUSY"}, {"exists"}))
        return set().union(*(at_root if path == "/" else of_parent(books, path) for path, at_root in ends))
    if step.verb == "set-policy":
        return {"EPERM"} | of_policy(books, books.root, step.user, step.words[1])
    return {"rmdir": {"EBUSY"}, "unlink": {"is-dir"}}.get(step.verb, {"exists"})


def names_root(step):
    """Whether a call that changes the tree or a policy names the root."""
    return "/" in step.paths() and step.verb in (*CREATIONS, "unlink", "rmdir", "rename", "set-policy")


def causes(step):
    """All refusals for which there is a cause."""
    if names_root(step):
        return of_root(step)
    if step.verb in CREATIONS:
        return of_creation(step)
    if step.verb in ("unlink", "rmdir"):
        return of_removal(step)
    if step.verb == "rename":
        return of_rename(step)
    return of_node(step) if step.paths() else set()


def own_causes(step):
    """The same as this mount names them: a file takes no policy, a locked directory isn't opened, the root
    stays."""
    if names_root(step):
        return {"inval"} if step.verb in ("rmdir", "rename", "set-policy") else of_root(step)
    found, node = causes(step), step.node()
    if step.verb == "set-policy" and node is not None and node.kind != "dir":
        found = found | {"not-dir"}
    if step.verb == "open" and node is not None and step.books.locked(node):
        found = found | {"no-key"}
    return found
