"""What fsc check says of a script with a log, and of every order of a history."""
import copy
import subprocess

from parts.linux.at_once.calls import text_of
from parts.linux.bookkeeping import Bookkeeping
from parts.linux.scripts import SEED

MAX_RUNS = 3_000


def refused_at(program, script, lines):
    """Nothing where fsc check certifies the log, and else the number of lines that are good, and what it
    said."""
    text = script + "---\n" + "".join(line + "\n" for line in lines)
    run = subprocess.run(
        [program, "check", "--seed", SEED], input=text.encode(), capture_output=True, check=False
    )
    if run.returncode == 0:
        return None
    said = (run.stderr.decode().splitlines() or [f"status {run.returncode}"])[0]
    _, found, place = said.partition("refused at ")
    return (int(place) if found and place.isdigit() else -1), said


class Frame:
    """An order of some calls: how many each caller has made, what the log says of the mount, and the
    lines."""

    def __init__(self, positions, books, inodes, written, lines, untried):
        self.positions, self.books, self.inodes, self.written, self.lines = (
            positions,
            books,
            inodes,
            written,
            lines,
        )
        self.untried = untried

    def mark(self):
        """What two orders have in common after which the same calls fit."""
        nodes = tuple(
            sorted(
                (node.number, node.policy, node.home.number if node.home else None, node.name)
                for node in self.books.named()
            )
        )
        handles = tuple(sorted((handle, node.number) for handle, node in self.books.handles.items()))
        claims = tuple(
            sorted((key, tuple(sorted(users))) for key, users in self.books.claims.items() if users)
        )
        return (
            tuple(self.positions),
            nodes,
            handles,
            claims,
            tuple(sorted(self.inodes.items())),
            self.written,
        )


def reply_in_log(books, inodes, call):
    """The kernel's reply as the log has it after these lines, with the inode that it binds; none where it
    can't be."""
    if (
        call.verb == "open"
        and call.reply.startswith("handle")
        and books.node(text_of(call.arguments[0])) is None
    ):
        return None
    if call.verb != "stat" or not call.reply.startswith("stat "):
        return call.reply, None
    _, kind, inode, size, encrypted, _ = call.reply.split(" ")
    node = books.node(text_of(call.arguments[0]))
    there = {node.number for node in books.named()} | {node.number for node in books.open_nodes()}
    known = {number: inode for number, inode in inodes.items() if number in there}
    if (
        node is None
        or known.get(node.number, inode) != inode
        or inode in (other for number, other in known.items() if number != node.number)
    ):
        return None
    if node.kind == "dir":
        size = len(node.entries)
    return f"stat {kind} {node.number} {size} {encrypted} key={int(not books.locked(node))}", (
        node.number,
        inode,
    )


class AllOrders:
    """The orders of a history that respect its tickets, of which fsc check alone says how far each is
    good."""

    def __init__(self, program, history, max_runs=MAX_RUNS):
        self.program, self.history, self.max_runs, self.runs = program, history, max_runs, 0
        self.calls = history.calls
        sections = zip(history.users, self.calls)
        self.script = "".join(
            f"caller {user}\n" + "".join(call.text + "\n" for call in own) for user, own in sections
        )

    def enabled(self, positions):
        """The callers whose next call may be next, the earliest end first."""
        left = [caller for caller, own in enumerate(self.calls) if positions[caller] < len(own)]
        limit = min((self.calls[caller][positions[caller]].end for caller in left), default=0)
        found = [caller for caller in left if self.calls[caller][positions[caller]].begin < limit]
        return sorted(found, key=lambda caller: self.calls[caller][positions[caller]].end)

    def next_frame(self, frame):
        """A frame with one call more, of the first caller not tried, or none."""
        caller = frame.untried.pop(0)
        call = self.calls[caller][frame.positions[caller]]
        reply = reply_in_log(frame.books, frame.inodes, call)
        if reply is None:
            return None
        text, bound = reply
        books, (verb, *words) = copy.deepcopy(frame.books), call.shown.split(" ")
        try:
            books.feed(call.caller, call.user, verb, words, text)
        except (AttributeError, KeyError, ValueError):
            return None  # the mount would have refused it: no such reply comes after these lines
        positions = list(frame.positions)
        positions[caller] += 1
        written = frame.written
        if verb == "write" and text == "ok":
            node = frame.books.handles.get((call.caller, words[0]))
            written = (*written, (node.number if node else -1, call.caller, call.index))
        inodes = {**frame.inodes, **dict([bound] if bound else [])}
        line = f"{len(frame.lines)} {call.caller} {call.user} {call.shown} = {text}"
        return Frame(positions, books, inodes, written, [*frame.lines, line], self.enabled(positions))

    def ahead(self, frame, seen):
        """Frames after this one by the first choice each time, as far as none is known."""
        found = []
        while frame.untried:
            new = self.next_frame(frame)
            if new is None or new.mark() in seen:
                if found:
                    break
                continue
            found.append(new)
            frame = new
        return found

    def order(self):
        """The lines of an order that fsc check certifies; none where it refuses each; `undecided` after too
        many runs."""
        start = [0] * len(self.calls)
        stack, seen = [Frame(start, Bookkeeping(), {}, (), [], self.enabled(start))], set()
        while stack:
            found = self.ahead(stack[-1], seen)
            if not found:
                stack.pop()
                continue
            if self.runs == self.max_runs:
                return "undecided"
            self.runs += 1
            refusal = refused_at(self.program, self.script, found[-1].lines)
            if refusal is None:
                return found[-1].lines
            if refusal[0] < 0:
                raise ValueError(refusal[1])
            for after in found:
                if len(after.lines) > refusal[0]:
                    break
                seen.add(after.mark())
                stack.append(after)
        return None
