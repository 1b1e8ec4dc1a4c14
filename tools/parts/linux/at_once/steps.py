"""The states after a point to which a kernel's reply leads.

Pins are dropped where a reply asks for it: as many pins as possible allow all that fewer allow.
"""
from parts.linux.at_once.answers import answer
from parts.linux.at_once.key_answers import key_state
from parts.linux.at_once.points import BUSY, FREE, ONE_MORE_USER, Level, fits, resolved
from parts.linux.at_once.walking import Refused, check_part, walked

MAX_CHOSEN = 6


def reply_at(state, level, call):
    """The reply at the last point of a call that may have had others before; the state is changed in
    place."""
    linux = level >= Level.ROWS
    if level < Level.APART or not (call.walks_apart or call.check_apart):
        return answer(state, linux, call.user, call.caller, call.verb, call.arguments)
    checked = state.under_way.get(call.caller, ((), False))[1]
    try:
        resolved_call = resolved(state, call) if call.walks_apart else call
        reply = answer(state, linux, resolved_call.user, resolved_call.caller, resolved_call.verb,
                       resolved_call.arguments)
        if reply == "refused no-key" and checked and call.reply == "ok":
            reply = with_claim(state, linux, resolved_call)
    except Refused as why:
        reply = f"refused {why}"
    state.under_way = {caller: under_way for caller,
                       under_way in state.under_way.items() if caller != call.caller}
    state.frozen = None
    return reply


def with_claim(state, linux, call):
    """The reply to a creation for which one more user has a claim on the directory's key meanwhile."""
    before = state.claims
    policies = {node.policy for node in state.nodes.values() if node.policy}
    state.claims = {
        **before,
        **{policy[16:]: frozenset({ONE_MORE_USER}) for policy in policies if not before.get(policy[16:])},
    }
    reply = answer(state, linux, call.user, call.caller, call.verb, call.arguments)
    state.claims = before
    return reply


def after(state, level, point):
    """The states after a point, as the kernel's reply asks for them."""
    call = point.call
    if point.part == "clean":
        return [state.without_pins(state.pins)]
    if point.part in ("walk", "check"):
        return [before_last(state, level, point)]
    if point.part != "whole":
        return (closed if call.verb == "close" else removed)(state, level, point)
    new = state.copy()
    if fits(new, level, call, reply_at(new, level, call)):
        return [new]
    return after_dropped(state, level, call) if state.pins else []


def after_dropped(state, level, call):
    """The states in which some pins on the way of the call are dropped, so that the reply fits."""
    if call.verb == "key-status":
        choices = [state.of_key(call.arguments[0])]
    else:
        choices = subsets(on_the_way(state, call))
    found = []
    for nodes in choices:
        new = state.without_pins(nodes)
        if fits(new, level, call, reply_at(new, level, call)):
            found.append(new)
    return found


def before_last(state, level, point):
    """The state after a part of a walk, or after a creation has asked for the key."""
    call, new = point.call, state.copy()
    walks, checked = state.under_way.get(call.caller, ((0,) * len(call.paths()), False))
    if point.part == "check":
        checked = key_is_there(state, call)
    else:
        number, part = point.which
        walks = (*walks[:number], stepped(state, walks[number], part), *walks[number + 1 :])
    new.under_way = {**state.under_way, call.caller: (walks, checked)}
    return new


def stepped(state, at, part):
    """The node after a part of a walk, or the refusal."""
    if isinstance(at, str):
        return at
    if at not in state.nodes:
        return "not-found"
    try:
        check_part(state, at, part)
    except Refused as why:
        return str(why)
    found = state.child(at, part, True)
    return "not-found" if found is None else found


def key_is_there(state, call):
    """Whether the directory of a creation has a policy whose key is present."""
    try:
        node = state.nodes[walked(state, True, call.arguments[0][:-1])]
    except Refused:
        return False
    return bool(node.policy) and state.present(node.key)


def subsets(nodes):
    """Each set of some of these nodes, small ones first."""
    nodes = sorted(nodes)
    made = [
        frozenset(node for at, node in enumerate(nodes) if bits >> at & 1)
        for bits in range(1, 1 << min(len(nodes), MAX_CHOSEN))
    ]
    return sorted(made, key=len)


def on_the_way(state, call):
    """The pinned nodes to which the paths of a call lead by plain names."""
    found = set()
    for path in call.paths():
        at = 0
        for part in path:
            at = state.nodes[at].body.get(part) if state.nodes[at].kind == "dir" else None
            if at is None:
                break
            found.add(at)
    return found & state.pins


def removed(state, level, point):
    """The states after the first or last point of a removal."""
    call = point.call
    (key,) = call.arguments
    if point.part == "last":
        return replied(state, level, call, key)
    choices = [state]
    if state.pins and call.reply == "refused no-key":
        choices.append(state.without_pins(state.of_key(key)))
    for choice in choices:
        new = choice.copy()
        ours = taken(new, call, key)
        if ours == call.reply:
            return [new]
        if ours == "last" and call.reply in (BUSY, FREE):
            new.removing = tuple(sorted((*new.removing, (call.caller, key))))
            if choice.present(key):
                new.pins |= {
                    number
                    for number, node in new.nodes.items()
                    if node.policy and node.key == key and new.named(number)
                }
            return [new]
    return []


def taken(state, call, key):
    """The reply of a removal that was not the last, or `last`; the claims are changed in place."""
    found = key_state(state, True, key)
    if call.verb == "remove-key-all" and call.user:
        return "refused access"
    if found == "absent" or (
        found == "present" and call.verb == "remove-key" and call.user not in state.claims[key]
    ):
        return "refused no-key"
    left = state.claims.get(key, frozenset()) - {call.user} if call.verb == "remove-key" else frozenset()
    state.claims[key] = left
    return "removed others=1 busy=0" if left else "last"


def replied(state, level, call, key):
    """The states after the last point of a removal. While another removal of the key goes on, that may hold
    pins."""
    if (call.caller, key) not in state.removing:
        return [state]
    new = state.copy()
    new.removing = tuple(removal for removal in new.removing if removal != (call.caller, key))
    free = new.without_pins(new.of_key(key))
    busy = free.busy(key, True)
    if call.reply == FREE:
        return [] if busy else [free]
    kept = level >= Level.UNDER_WAY
    if busy:
        return [free] + [new] * bool(kept and call.held_beside and new.pins)
    return [new] if kept and (call.held_beside or new.present(key)) else []


def closed(state, level, point):
    """The states after the first or last point of a close. What it held alone is pinned until race's removal
    ends."""
    call, new = point.call, state.copy()
    if point.part == "last":
        keys = {key for caller, key in state.removing if caller == call.caller}
        if not keys:
            return [state]
        new.removing = tuple(removal for removal in new.removing if removal[0] != call.caller)
        keys -= {key for _, key in new.removing}
        free = new.without_pins(frozenset().union(*map(new.of_key, keys)))
        return [free, new] if level >= Level.UNDER_WAY and new.pins != free.pins else [free]
    before = state.held(True)
    if not fits(new, level, call, answer(new, True, call.user, call.caller, "close", call.arguments)):
        return []
    lost = frozenset(
        number
        for number in before - new.held(True)
        if number in new.nodes and new.nodes[number].policy and not new.present(new.nodes[number].key)
        and new.named(number)
    )
    if lost:
        new.pins |= lost
        new.removing = tuple(sorted((*new.removing,
                                     *{(call.caller, new.nodes[number].key) for number in lost})))
    return [new]
