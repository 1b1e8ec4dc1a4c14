"""What the mount replies to a call, for the search alone, and with `linux` what Linux is known to reply
otherwise.

That is the rows of docs/LINUX.md on calls made one at a time: what an open file keeps unlocked, the order of
refusals, and a directory opened for writing. Where a refusal may be one of two, both are given.
"""
from parts.linux.at_once import key_answers
from parts.linux.at_once.state import Node
from parts.linux.at_once.walking import Refused, parent, walked


def answer(state, linux, user, caller, verb, arguments):
    """The reply to a call; the state is changed in place."""
    state.frozen = None
    try:
        return CALLS[verb](state, linux, user, caller, *arguments)
    except Refused as why:
        return f"refused {why}"


def creation(kind):
    """The call that makes a node of a kind."""

    def made(state, linux, user, caller, path, target=""):
        if not path:
            raise Refused("exists")
        home = parent(state, linux, path)
        node = state.nodes[home]
        if node.policy and not state.present(node.key):
            there = linux and state.readable(home, linux) and path[-1] in node.body
            raise Refused("exists|no-key" if there else "no-key")
        if path[-1] in node.body:
            raise Refused("exists")
        state.put(home, body={**node.body, path[-1]: state.next})
        state.nodes[state.next] = Node(
            kind, node.policy, home, path[-1], {"dir": {}, "file": b"", "link": target}[kind]
        )
        state.next += 1
        return "ok"

    return made


def readlink(state, linux, user, caller, path):
    node = state.nodes[walked(state, linux, path)]
    if node.kind != "link":
        raise Refused("inval")
    return f"target {node.body}"


def removal(directory):
    """The call that takes away the name of a directory, or of what is none."""

    def made(state, linux, user, caller, path):
        if not path:
            raise Refused("inval" if directory else "is-dir")
        home = parent(state, linux, path)
        number = state.child(home, path[-1], linux)
        if number is None:
            raise Refused("not-found")
        node = state.nodes[number]
        if directory != (node.kind == "dir"):
            raise Refused("not-dir" if directory else "is-dir")
        if directory and node.body:
            raise Refused("not-empty")
        state.unlink(home, path[-1])
        state.pins = state.pins - {number}  # what has neither name nor handle is dropped at once
        state.forget(number)
        return "ok"

    return made


def rename(state, linux, user, caller, old, new):
    if not old or not new:
        raise Refused("inval")
    if linux:
        return rename_in_linux(state, old, new)
    home = parent(state, linux, old)
    if not state.readable(home, linux):
        raise Refused("no-key")
    number = state.nodes[home].body.get(old[-1])
    if number is None:
        raise Refused("not-found")
    to = parent(state, linux, new)
    if not state.readable(to, linux):
        raise Refused("no-key")
    if new[-1] in state.nodes[to].body:
        raise Refused("exists")
    return moved(state, home, number, old, to, new)


def rename_in_linux(state, old, new):
    """Both directories are walked first; then a name that is missing or there comes before a locked
    directory."""
    home, to = parent(state, True, old), parent(state, True, new)
    number = state.child(home, old[-1], True)
    if number is None:
        raise Refused("not-found" if state.readable(home, True) else "not-found|no-key")
    if new[-1] in state.nodes[to].body and state.readable(to, True):
        raise Refused("exists")
    if number == to or number in state.above(to):
        raise Refused("inval")
    if not state.readable(to, True):
        raise Refused("no-key")
    return moved(state, home, number, old, to, new)


def moved(state, home, number, old, to, new):
    """The last checks of a rename, and what it does."""
    if number == to or number in state.above(to):
        raise Refused("inval")
    if state.nodes[to].policy and state.nodes[number].policy != state.nodes[to].policy:
        raise Refused("x-dev")
    state.unlink(home, old[-1])
    state.put(to, body={**state.nodes[to].body, new[-1]: number})
    state.put(number, home=to, name=new[-1])
    return "ok"


def list_names(state, linux, user, caller, path, _):
    number = walked(state, linux, path)
    node = state.nodes[number]
    if node.kind != "dir":
        raise Refused("not-dir")
    if not state.readable(number, linux):
        return f"names {len(node.body)} locked"
    return " ".join([f"names {len(node.body)} more=0", *sorted(node.body)])


def stat(state, linux, user, caller, path):
    number = walked(state, linux, path)
    node = state.nodes[number]
    flags = f"enc={int(bool(node.policy))} key={int(state.readable(number, linux))}"
    return f"stat {node.kind} {number} {len(node.body)} {flags}"


def open_node(state, linux, user, caller, path):
    number = walked(state, linux, path)
    if state.nodes[number].kind == "link":
        raise Refused("inval")
    if not state.readable(number, linux):
        raise Refused("no-key")
    count = state.opened.get(caller, 0)
    state.handles[caller, count] = number
    state.opened = {**state.opened, caller: count + 1}
    return f"handle {count}"


def opened_file(state, caller, handle):
    """The file on which a handle is open."""
    number = state.handles.get((caller, handle))
    if number is None:
        raise Refused("bad-handle")
    if state.nodes[number].kind == "dir":
        raise Refused("is-dir")
    return number


def read(state, linux, user, caller, handle, offset, length):
    body = state.nodes[opened_file(state, caller, handle)].body
    return f"data {body[offset:offset + length].hex() or '-'}"


def write(state, linux, user, caller, handle, offset, data):
    try:
        number = opened_file(state, caller, handle)
    except Refused as why:
        raise Refused("is-dir|bad-handle" if linux and str(why) == "is-dir" else str(why)) from None
    if data:
        body = state.nodes[number].body
        body += bytes(max(0, offset - len(body)))
        state.put(number, body=body[:offset] + data + body[offset + len(data) :])
    return "ok"


def close(state, linux, user, caller, handle):
    number = state.handles.pop((caller, handle), None)
    if number is None:
        raise Refused("bad-handle")
    state.forget(number)
    return "ok"


CALLS = {
    "add-key": key_answers.add_key,
    "remove-key": key_answers.remove_key,
    "remove-key-all": key_answers.remove_key_all,
    "key-status": key_answers.key_status,
    "set-policy": key_answers.set_policy,
    "get-policy": key_answers.get_policy,
    "mkdir": creation("dir"),
    "create": creation("file"),
    "symlink": creation("link"),
    "readlink": readlink,
    "unlink": removal(False),
    "rmdir": removal(True),
    "rename": rename,
    "list": list_names,
    "stat": stat,
    "open": open_node,
    "read": read,
    "write": write,
    "close": close,
    "drop-caches": lambda *_: "ok",
}
