"""The log of an order, with one more caller for what is pinned, and that caller's section.

Where a removal of Linux is not one point, this caller opens each node of the key that has a name before the
removal's line, and closes it where a reply asks for it. So it holds the directories above an open file,
which stay readable in Linux. Where a creation has asked for the key before a removal and makes its name
after it, the caller adds the key for that moment. The replies of the log are the mount's.
"""
import dataclasses

from parts.linux.at_once import kinds
from parts.linux.at_once.answers import answer
from parts.linux.at_once.calls import PADS, REMOVALS, call_of, text_of
from parts.linux.at_once.points import ONE_MORE_USER, Level, fits, resolved
from parts.linux.at_once.promise import key_seen
from parts.linux.at_once.state import State
from parts.linux.at_once.texts import texts_of
from parts.linux.at_once.walking import Refused

PAD_OF = {digits: pad for pad, digits in PADS.items()}


@dataclasses.dataclass
class Line:
    """A line of the log: the call as the log has it, the mount's reply, and what the kernel replied, if it
    was asked."""

    caller: int
    user: int
    shown: str
    reply: str
    theirs: str | None = None

    def text(self, place):
        """The line as the log has it."""
        return f"{place} {self.caller} {self.user} {self.shown} = {self.reply}"


class Log:
    """The log of an order."""

    def __init__(self, program, history, order, level):
        self.program, self.history, self.level = program, history, level
        self.mount, self.lines, self.section = State(), [], []
        self.opened, self.drawn, self.raw_keys, self.changed, self.witnesses = {}, {}, {}, {}, []
        self.seen = {}
        before = State()
        for point, state in order.points:
            self.take(point, before, state)
            before = state

    @property
    def caller(self):
        """The number of the one more caller."""
        return len(self.history.users)

    def script(self):
        """The script of the log."""
        lines = []
        for user, own in zip(self.history.users, self.history.calls):
            lines += [f"caller {user}",
                      *(self.changed.get((call.caller, call.index), call.text) for call in own)]
        if self.section:
            lines += [f"caller {ONE_MORE_USER}", *self.section]
        return "".join(line + "\n" for line in lines)

    def texts(self):
        """The lines as text."""
        return [line.text(place) for place, line in enumerate(self.lines)]

    def above(self, state):
        """The encrypted directories above open nodes."""
        if self.level == Level.AS_IS:
            return set()
        return {
            above for number in state.handles.values() for above in state.above(number)
            if state.nodes[above].policy
        }

    def own_call(self, command):
        """A command of the one more caller, and its reply."""
        call = call_of(self.caller, ONE_MORE_USER, len(self.section), 0, 0, command)
        reply = answer(self.mount, False, call.user, call.caller, call.verb, call.arguments)
        self.section.append(command)
        self.lines.append(Line(call.caller, call.user, call.shown, reply))
        return reply

    def pin(self, nodes):
        """Opens nodes that have a name."""
        for node in sorted(nodes - set(self.opened)):
            path = self.mount.path(node)
            if path is None or self.mount.nodes[node].kind == "link":
                continue
            reply = self.own_call(f"open {text_of(path)}")
            if reply.startswith("handle "):
                self.opened[node] = int(reply.split(" ")[1])

    def unpin(self, nodes):
        """Closes what was opened of some nodes."""
        for node in sorted(nodes & set(self.opened)):
            self.own_call(f"close {self.opened.pop(node)}")

    def take(self, point, before, state):
        """A point, with the states of the search before and after it."""
        if point.part == "first" and state.pins - before.pins:
            self.pin(state.pins)
        self.unpin(before.pins - state.pins - self.above(before))
        if point.part in ("whole", "first"):
            self.take_call(point.call, before)
        elif point.part == "last" and point.call.verb in REMOVALS:
            self.note_end(point.call, before, state)
        wanted = state.pins | self.above(state)
        self.pin(wanted)
        self.unpin(set(self.opened) - wanted)

    def note_end(self, call, before, state):
        """Notes a removal that was busy for a call under way alone, or for a key that was added again."""
        free = before.without_pins(before.of_key(call.arguments[0]))
        if call.reply.endswith("busy=1") and (call.caller, call.arguments[0]) in before.removing:
            if not free.busy(call.arguments[0], True):
                again = before.present(call.arguments[0])
                self.witnesses.append((kinds.ADDED if again else kinds.UNDER_WAY, call))

    def take_call(self, call, before):
        """A call's line."""
        call_now = call
        if self.level == Level.APART and call.walks_apart:
            call_now = self.at_paths_now(call, before)
        if call.verb == "add-key":
            self.raw_keys[call.arguments[1]] = call.text.split(" ")[1]
        self.seen[call.caller, call.index] = key_seen(before, call_now)
        claimed = self.claim(call_now, before)
        without = self.reply_without_pins(call_now, before)
        reply = answer(self.mount, False, call_now.user, call_now.caller, call_now.verb, call_now.arguments)
        self.note_drawn(call_now, reply)
        self.note_witness(call_now, before, reply, without)
        theirs = self.shown_reply(call_now, reply)
        if reply.endswith(" locked"):
            reply = self.listing(call_now)
            theirs = reply if theirs is None else theirs
        self.lines.append(Line(call_now.caller, call_now.user, call_now.shown, reply,
                               reply if theirs is None else theirs))
        if claimed:
            self.own_call(f"remove-key raw:{claimed}")
            self.witnesses.append((kinds.CREATION, call))

    def shown_reply(self, call, reply):
        """The kernel's reply in the words of the log where it isn't the mount's, and else none."""
        if fits(self.mount, Level.AS_IS, call, reply):
            return None
        if call.verb == "stat" and reply.startswith("stat ") and call.reply.startswith("stat "):
            node = {inode: node for node, inode in self.mount.inodes.items()}
            words = call.reply.split(" ")
            if reply.split(" ")[2] not in map(str, self.mount.inodes):
                node[words[2]] = reply.split(" ")[2]
            return " ".join([*words[:2], str(node.get(words[2], words[2])), *words[3:]])
        return call.reply

    def at_paths_now(self, call, before):
        """The call at the paths that the nodes have now to which its walks have led."""
        try:
            call_now = resolved(before, call)
        except Refused:
            return call
        if call_now.arguments == call.arguments:
            return call
        words = call.text.split(" ")
        count = len(call.paths())
        words[1 : 1 + count] = map(text_of, call_now.arguments[:count])
        changed = call_of(call.caller, call.user, call.index, call.phase, call.line, " ".join(words))
        self.changed[call.caller, call.index] = changed.text
        self.witnesses.append((kinds.WALKS, call))
        return dataclasses.replace(call, shown=changed.shown, arguments=call_now.arguments)

    def claim(self, call, before):
        """Adds the key for a creation that had asked for it before; returns the raw key."""
        if not before.under_way.get(call.caller, ((), False))[1]:
            return None
        reply = answer(self.mount.copy(), False, call.user, call.caller, call.verb, call.arguments)
        home = self.mount.at(call.arguments[0][:-1])
        if reply != "refused no-key" or home is None:
            return None
        raw = self.raw_keys[self.mount.nodes[home].key]
        self.own_call(f"add-key {raw}")
        return raw

    def reply_without_pins(self, call, before):
        """The reply if nothing were pinned, where something is."""
        pinned = set(self.opened) & before.pins
        if not pinned:
            return None
        mount = self.mount.copy()
        for handle in pinned:
            mount.handles.pop((self.caller, self.opened[handle]), None)
        return answer(mount, False, call.user, call.caller, call.verb, call.arguments)

    def note_witness(self, call, before, reply, without):
        """Notes what a call saw of a removal between its points."""
        if without is None:
            return
        within = bool(before.removing)
        if call.verb == "add-key" and before.of_key(call.arguments[1]):
            self.witnesses.append((kinds.ADDED if within else kinds.UNDER_WAY, call))
        elif reply == without:
            return
        elif not within:
            self.witnesses.append((kinds.UNDER_WAY, call))
        elif call.verb == "key-status":
            self.witnesses.append((kinds.STATUS, call))
        elif call.verb in REMOVALS:
            self.witnesses.append((kinds.SECOND, call))
        else:
            self.witnesses.append((kinds.NAMES, call))

    def note_drawn(self, call, reply):
        """Notes which command drew the nonce of an encrypted directory."""
        if reply != "ok":
            return
        if call.verb == "set-policy":
            self.drawn.setdefault(self.mount.at(call.arguments[0]), call)
        elif call.verb == "mkdir" and self.mount.nodes[self.mount.next - 1].policy:
            self.drawn[self.mount.next - 1] = call

    def listing(self, call):
        """The listing of a locked directory, by its texts."""
        number = self.mount.at(call.arguments[0])
        node = self.mount.nodes[number]
        names = list(node.body)
        if names:
            known = sorted(
                {path[-1] for own in self.history.calls for call in own for path in call.paths() if path}
            )
            texts = texts_of(
                self.program, self.drawn[number], self.raw_keys[node.key], PAD_OF[node.policy[6:8]], known
            )
            names = sorted(texts[name] for name in names)
        return " ".join([f"names {len(names)} more=0", *names])
