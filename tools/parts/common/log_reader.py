"""Reads a script and a log of it: each entry of the log, and the command of the script that made it.

The log is one that `fsc replay` or `fsc replay-linked` prints (docs/FORMATS.md, The log). Nothing is run.
"""
import dataclasses
import re
from typing import Optional

from parts.common.command_calls import calls_of, is_session

N, BYTES, ID = r"\d{1,10}", r"(?:-|(?:[0-9a-f]{2})+)", r"[0-9a-f]{32}"
PATH, WORD = r"/\S*", r"\S+"
LINE = re.compile(rf"({N}) ({N}) ({N}) (\S+(?: \S+)*) = (\S.*)")
NOTE = re.compile(rf"note ({N}) ({N}) ([a-z-]+)")
REFUSED = re.compile(rf"refused [a-z-]+(?: {N})?")
REMOVED = "removed others=[01] busy=[01]"
# the arguments of each call, and its reply unless it is refused
FORMS = {
    "add-key": (N, f"added {ID}"), "remove-key": (ID, REMOVED), "remove-key-all": (ID, REMOVED),
    "key-status": (ID, f"status (?:absent|present|incomplete) self=[01] users={N}"),
    "set-policy": (f"{PATH} {BYTES}", "ok"), "get-policy": (PATH, f"policy {BYTES}"),
    "mkdir": (PATH, "ok"), "create": (PATH, "ok"), "unlink": (PATH, "ok"), "rmdir": (PATH, "ok"),
    "symlink": (f"{PATH} {WORD}", "ok"), "readlink": (PATH, f"target {WORD}"),
    "rename": (f"{PATH} {PATH}", "ok"), "list": (f"{PATH} {N}", f"names {N} more=[01](?: {WORD})*"),
    "stat": (PATH, f"stat (?:dir|file|link) {N} {N} enc=[01] key=[01]"), "open": (PATH, f"handle {N}"),
    "close": (N, "ok"), "read": (f"{N} {N} {N}", f"data {BYTES}"), "write": (f"{N} {N} {N}", "ok"),
    "drop-caches": ("", "ok"), "meta-get": (WORD, f"record {N} {BYTES}"),
    "meta-put": (f"{WORD} {N} {N}", f"stored {N}"),
}
PAUSE = "pause"
ENDED_BY_REFUSAL = ("refused", "conflict", "no-memory")


class LogFault(Exception):
    """The text is no log, or none of the script."""


@dataclasses.dataclass
class Command:
    """A command of a script, with the number of its line."""
    line: int
    text: str

    @property
    def name(self):
        """Its first word."""
        return self.text.split(" ")[0]

    def is_session(self):
        """Whether it is a session command, which has a note."""
        return is_session(self.name)

    def calls(self):
        """The calls that it makes unless one ends it: the verb and, of a call on a record, the record."""
        words = self.text.split(" ")
        if self.is_session():
            return [(verb, record) for verb, _, record in (call.partition(" ") for call in calls_of(words))]
        verb, = calls_of(words)
        return [(verb, words[1] if verb.startswith("meta-") and len(words) > 1 else "")]


@dataclasses.dataclass
class Entry:
    """A line of a log: its mount, its place there, its caller, what was asked and what was replied.

    `line` is the line of the script whose command made the call; the last call of a session command has the
    command's outcome.
    """
    mount: int
    place: int
    caller: int
    user: str
    call: str
    reply: str
    line: Optional[int] = None
    outcome: Optional[str] = None

    @property
    def verb(self):
        """The name of the call."""
        return self.call.split(" ")[0]

    @property
    def words(self):
        """The words of the call after its name."""
        return self.call.split(" ")[1:]

    @property
    def answer(self):
        """The words of the reply."""
        return self.reply.split(" ")

    def refusal(self):
        """The name of the refusal, or None."""
        return self.answer[1] if self.answer[0] == "refused" else None


@dataclasses.dataclass
class Made:
    """A command of a script with its entries in the order of its calls, and a session command's outcome."""
    command: Command
    entries: list
    outcome: Optional[str]


@dataclasses.dataclass
class Log:
    """The entries of a log, mount by mount, and the outcome of each session command by caller and line."""
    entries: list
    notes: dict
    mounts: int


def sections(script):
    """The commands of each caller of a script, which is bytes."""
    found = []
    for number, line in enumerate(script.split(b"\n"), 1):
        if line and not line.startswith(b"#"):
            text = line.decode("latin-1")
            if text.split(" ")[0] == "caller":
                found.append([])
            elif found:
                found[-1].append(Command(number, text))
    return found


def read_log(text):
    """The log that a text is; a line that is none of a log is a LogFault."""
    lines = text.splitlines()
    linked = lines[:1] == ["mount 0"]
    mount, log = 0, Log([], {}, 2 if linked else 1)
    for number, line in enumerate(lines, 1):
        entry, note = LINE.fullmatch(line), NOTE.fullmatch(line)
        if linked and line in ("mount 0", "mount 1"):
            mount = int(line[-1])
        elif note:
            log.notes[int(note[1]), int(note[2])] = note[3]
        elif entry and is_entry(entry[4], entry[5]):
            log.entries.append(Entry(mount, int(entry[1]), int(entry[2]), entry[3], entry[4], entry[5]))
        else:
            raise LogFault(f"line {number} of the log is neither an entry nor a note: {line[:60]!r}")
    return log


def is_entry(call, reply):
    """Whether the call is one of a mount, and the reply one that it may have."""
    verb, _, arguments = call.partition(" ")
    form = FORMS.get(verb)
    if form is None or not re.fullmatch(form[0], arguments):
        return False
    return bool(REFUSED.fullmatch(reply) or re.fullmatch(form[1], reply))


def is_link(entry):
    """Whether the reply is the record that says that a protector is on the other mount."""
    label = entry.words[0].removeprefix("protector/")
    return entry.answer[0] == "record" and entry.answer[-1] == f"fsc-link 1\nname {label}\n".encode().hex()


class Placing:
    """The entries of one caller, from which its commands take theirs in order, on one mount or on two."""

    def __init__(self, caller, log):
        self.caller, self.notes = caller, log.notes
        self.home = caller % 2 if log.mounts == 2 else 0
        mine = [entry for entry in log.entries if entry.caller == caller]
        self.mine = [[entry for entry in mine if entry.mount == mount] for mount in (0, 1)]

    def taken(self, at, mount, verb, record):
        """The next entry of a mount, if it is of this verb and record, and the position after it."""
        entry = self.mine[mount][at[mount]] if at[mount] < len(self.mine[mount]) else None
        if entry is None or entry.verb != verb or (record and entry.words[0] != record):
            return None, at
        return entry, (at[0] + (mount == 0), at[1] + (mount == 1))

    def call_from(self, at, verb, record):
        """The entries of a call, which on mount 1 may follow a link, and the position after them."""
        if not (self.home and verb in ("meta-get", "meta-put") and record.startswith("protector/")):
            entry, after = self.taken(at, self.home, verb, record)
            return [entry] if entry else [], after
        loaded, after = self.taken(at, 1, "meta-get", record)
        if loaded is None:
            return [], at
        if loaded.reply == "refused no-memory" or (verb == "meta-get" and not is_link(loaded)):
            return [loaded], after
        entry, after = self.taken(after, 0 if is_link(loaded) else 1, verb, record)
        return [loaded, entry] if entry else [], after

    def ways(self, command, at):
        """Each way in which the command may have made the next entries: these, and the position then."""
        if command.name == PAUSE:
            return [([], at)]
        outcome, calls = self.notes.get((self.caller, command.line)), command.calls()
        found, made = [], []
        for verb, record in calls:
            entries, at = self.call_from(at, verb, record)
            if not entries:
                break
            made = made + entries
            found.append((made, at))
            if entries[-1].refusal():
                return [found[-1]] if not command.is_session() or outcome in ENDED_BY_REFUSAL else []
        if not command.is_session() or outcome == "ok":
            return found[-1:] if len(found) == len(calls) else []
        return found[:len(calls) - 1][::-1] if outcome and outcome not in ENDED_BY_REFUSAL else []

    def placed(self, commands):
        """Each command with its entries; a LogFault where the commands can't have made these entries."""
        reached = [{(0, 0): None}]
        for command in commands:
            ends = {}
            for at in reached[-1]:
                for entries, after in self.ways(command, at):
                    ends.setdefault(after, (at, entries))
            reached.append(ends)
        at, found = (len(self.mine[0]), len(self.mine[1])), []
        if at not in reached[-1]:
            raise LogFault("the log is not one of this script")
        for command, ends in zip(reversed(commands), reversed(reached[1:])):
            at, entries = ends[at]
            found.append(Made(command, entries, self.notes.get((self.caller, command.line))))
        return found[::-1]


def place_commands(script, log):
    """The commands of each caller with the entries that they made; each entry gets its line and outcome."""
    commands = sections(script)
    if any(entry.caller >= len(commands) for entry in log.entries):
        raise LogFault("the log is not one of this script")
    made = [Placing(caller, log).placed(mine) for caller, mine in enumerate(commands)]
    for of_command in (one for mine in made for one in mine):
        for entry in of_command.entries:
            entry.line = of_command.command.line
        if of_command.entries and of_command.command.is_session():
            of_command.entries[-1].outcome = of_command.outcome
    return made
