"""What the mount replies to a call on keys or policies, for the search alone."""
import re

from parts.linux.at_once.state import ROOT
from parts.linux.at_once.walking import Refused, walked

SOME_POLICY = re.compile("020104(0[0-3]|0[89ab])(00|09|0a|0b|0c)000000.{32}")


def add_key(state, linux, user, caller, length, key):
    if not 32 <= length <= 64:
        raise Refused("inval")
    state.claims[key] = state.claims.get(key, frozenset()) | {user}
    return f"added {key}"


def key_state(state, linux, key):
    """The word for the state of a key."""
    if state.present(key):
        return "present"
    return "incomplete" if state.busy(key, linux) else "absent"


def remove_key(state, linux, user, caller, key):
    found = key_state(state, linux, key)
    if found == "absent" or (found == "present" and user not in state.claims[key]):
        raise Refused("no-key")
    state.claims[key] = state.claims.get(key, frozenset()) - {user}
    if state.present(key):
        return "removed others=1 busy=0"
    return f"removed others=0 busy={int(state.busy(key, linux))}"


def remove_key_all(state, linux, user, caller, key):
    if user:
        raise Refused("access")
    if key_state(state, linux, key) == "absent":
        raise Refused("no-key")
    state.claims[key] = frozenset()
    return f"removed others=0 busy={int(state.busy(key, linux))}"


def key_status(state, linux, user, caller, key):
    users = state.claims.get(key, ())
    return f"status {key_state(state, linux, key)} self={int(user in users)} users={len(users)}"


def set_policy(state, linux, user, caller, path, policy):
    number = walked(state, linux, path)
    node = state.nodes[number]
    if node.kind != "dir":
        raise Refused("not-dir")
    if number == ROOT or not SOME_POLICY.fullmatch(policy):
        raise Refused("inval")
    if node.policy:
        if node.policy == policy:
            return "ok"
        raise Refused("exists")
    if node.body:
        raise Refused("not-empty")
    users = state.claims.get(policy[16:], ())
    if not users or (user and user not in users):
        raise Refused("no-key")
    state.put(number, policy=policy)
    return "ok"


def get_policy(state, linux, user, caller, path):
    node = state.nodes[walked(state, linux, path)]
    if not node.policy:
        raise Refused("no-data")
    return f"policy {node.policy}"
