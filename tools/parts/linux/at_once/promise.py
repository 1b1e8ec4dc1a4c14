"""What a user is promised of a removal: after one that replied busy=0, nothing of the key is seen.

That is asked of each call that began after such a removal and ended before the key was added again, by its
tickets, its reply, and the nodes at its paths in the order that was found.
"""
from parts.linux.at_once.calls import REMOVALS
from parts.linux.at_once.points import FREE


def key_seen(state, call):
    """The key of a plain name or of contents that a reply shows, by the state before; or nothing."""
    if call.reply.startswith("refused"):
        return ""
    if call.verb in ("read", "write"):
        node = state.nodes.get(state.handles.get((call.caller, call.arguments[0])))
        return node.key if node else ""
    if call.verb == "list":
        node = state.nodes.get(state.at(call.arguments[0]))
        shown = set(call.reply.split(" ")[3:])
        return node.key if node and shown & set(node.body) else ""
    homes = [state.at(path[:-1]) for path in call.paths() if path]
    keys = [state.nodes[home].key for home in homes if home is not None]
    return next((key for key in keys if key), "")


def asked_after(history):
    """Each call with the keys of which nothing may be seen: a removal had replied busy=0 before it began."""
    calls = history.all_calls()
    removals = [call for call in calls if call.verb in REMOVALS and call.reply == FREE]
    added = [call for call in calls if call.verb == "add-key"]
    for call in calls:
        keys = set()
        for removal in removals:
            key = removal.arguments[0]
            adding = [other for other in added if other.arguments[1] == key]
            again = any(other.begin < call.end and other.end > removal.begin for other in adding)
            if removal.end < call.begin and not again:
                keys.add(key)
        if keys:
            yield call, keys


def broken(history, seen):
    """How many calls were asked after a removal, and those that saw a key of which nothing may be seen.

    `seen` has the key that each call saw, by caller and index.
    """
    asked, wrong = 0, []
    for call, keys in asked_after(history):
        asked += bool(call.paths()) or call.verb in ("read", "write")
        if seen.get((call.caller, call.index)) in keys:
            wrong.append(call)
    return asked, wrong
