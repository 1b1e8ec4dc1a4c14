"""Whether a log is right where some calls of its run found no memory.

A refused call changes nothing that any call reports (docs/ANSWERS.md), and each command of a session ends
with the first call that is refused, if all its calls before only load records. So the others are answered as
in a run of the script in which the command is one that does nothing, `drop-caches`. What that run prints
comes from the program itself, which had memory then.
"""
import collections

from parts.common.command_calls import begins, calls_of, is_session

REFUSED = "refused no-memory"
IDLE = "drop-caches"

# Calls that take no memory, and so are never refused for want of it.
FREE = {"remove-key", "remove-key-all", "key-status", "close", IDLE}

# Outcomes that come with a refused call.
REFUSALS = {"refused", "conflict", "no-memory"}

Command = collections.namedtuple("Command", "caller line words")
Entry = collections.namedtuple("Entry", "caller user call reply")


class Wrong(Exception):
    """What is wrong with a log."""


def commands_of(script):
    """The commands of each caller, in order."""
    sections = []
    for number, line in enumerate(script.split("\n"), 1):
        words = line.split(" ")
        if not line or line.startswith("#"):
            continue
        if words[0] == "caller":
            sections.append([])
        else:
            sections[-1].append(Command(len(sections) - 1, number, words))
    return sections


def rotation_of(sections):
    """The commands in the order of a run in turns."""
    longest = max(map(len, sections), default=0)
    return [section[turn] for turn in range(longest) for section in sections if turn < len(section)]


def parsed(log):
    """The entries of a log, whose places count from 0, and its notes."""
    entries, notes = [], {}
    for line in log.splitlines():
        words = line.split(" ")
        if words[0] == "note":
            notes[int(words[1]), int(words[2])] = words[3]
        else:
            asked, reply = line.split(" = ", 1)
            _, caller, user, call = asked.split(" ", 3)
            entries.append(Entry(int(caller), user, call, reply))
    if written(entries, notes) != log:
        raise Wrong("a place is not the number of its entry, or a note is out of order")
    return entries, notes


def written(entries, notes):
    """The log of these."""
    lines = [f"{at} {entry.caller} {entry.user} {entry.call} = {entry.reply}" for at,
             entry in enumerate(entries)]
    lines += [f"note {caller} {line} {outcome}" for (caller, line), outcome in sorted(notes.items())]
    return "".join(line + "\n" for line in lines)


def grouped(order, log):
    """The entries of a run in turns, each with its command; and the notes."""
    entries, notes = parsed(log)
    owners = owners_of(order, entries, notes)
    if owners is None:
        raise Wrong("the entries are not those that the commands ask for")
    return list(zip(owners, entries)), notes


def owners_of(order, entries, notes):
    """The command of each entry, where the entries are those of the commands in this order; None where they
    aren't."""
    owners = []
    for number, command in enumerate(order):
        here = entries[len(owners):]
        counts = counts_of(command, here[:4], notes.get((command.caller, command.line)))
        for count in counts[1:]:
            rest = owners_of(order[number + 1:], here[count:], notes)
            if rest is not None:
                return owners + [command] * count + rest
        if not counts:
            return None
        owners += [command] * counts[0]
    return owners if len(owners) == len(entries) else None


def counts_of(command, entries, outcome):
    """How many of the entries may be the command's, which ended with this outcome.

    Where a record ended it, the entries alone may not show it: then the next command's may look like its own.
    """
    if command.words[0] == "pause":
        return [0]
    calls = calls_of(command.words)
    count = 0
    for call, entry in zip(calls, entries):
        if entry.caller != command.caller or not begins(entry.call, call):
            break
        count += 1
        if entry.reply.startswith("refused "):
            break
    if not count or not is_session(command.words[0]):
        return [count] if count else []
    is_refused = entries[count - 1].reply.startswith("refused ")
    if outcome in REFUSALS:
        return [count] if is_refused else []
    if outcome == "ok":
        return [count] if count == len(calls) and not is_refused else []
    return list(range(count - is_refused, 0, -1))


class Judge:
    """Judges logs of one script's runs, by what `replay` makes of scripts: the log of a run that has
    memory."""

    def __init__(self, script, replay):
        self.script, self.replay, self.known = script, replay, {}
        self.sections = commands_of(script)
        self.order = rotation_of(self.sections)

    def without(self, refused):
        """What the run prints in which these commands do nothing."""
        if refused not in self.known:
            lines = self.script.split("\n")
            for number in refused:
                lines[number - 1] = IDLE
            idle = [command._replace(words=[IDLE]) if command.line in refused else command
                    for command in self.order]
            self.known[refused] = grouped(idle, self.replay("\n".join(lines)))
        return self.known[refused]

    def check(self, log):
        """Raises Wrong where the log is not that of a run in turns in which some calls found no memory."""
        entries, notes = parsed(log)
        refused, made = frozenset(), {}
        at = 0
        while True:
            due = list(self.due(refused, made))
            while at < min(len(entries), len(due)) and entries[at] == due[at][1]:
                at += 1
            if at == len(entries) == len(due):
                break
            if at >= min(len(entries), len(due)):
                raise Wrong(f"there are {len(entries)} entries in place of {len(due)}")
            command = due[at][0]
            if entries[at] != due[at][1]._replace(reply=REFUSED) or entries[at].call.split(" ")[0] in FREE:
                raise Wrong(f"entry {at} is {entries[at]} in place of {due[at][1]}")
            made[command.line] = [entry for owner,
                                  entry in due[:at] if owner.line == command.line] + [entries[at]]
            refused |= {command.line}
            at += 1
        self.check_notes(notes, refused)

    def due(self, refused, made):
        """The entries of the run in which these commands were refused, with what they made before."""
        for command, entry in self.without(refused)[0]:
            if command.line in refused:
                yield from ((command, entry) for entry in made[command.line])
            else:
                yield command, entry

    def check_notes(self, notes, refused):
        """Each note is as in the run without the refused commands, and theirs report the lack of memory."""
        due = dict(self.without(refused)[1])
        due |= {(command.caller, command.line): "no-memory" for command in self.order
                if command.line in refused and is_session(command.words[0])}
        if notes != due:
            raise Wrong(f"the notes are {notes} in place of {due}")

    def check_callers(self, log):
        """The same of a run of many callers in threads, as far as each caller's own lines report it."""
        entries, notes = parsed(log)
        for caller, section in enumerate(self.sections):
            own = [entry for entry in entries if entry.caller == caller]
            owners = owners_of(section, own, notes)
            if owners is None:
                raise Wrong(f"caller {caller}'s entries are not those that its commands ask for")
            for command in section:
                outcome = notes.get((caller, command.line))
                mine = [entry for owner, entry in zip(owners, own) if owner is command]
                if (outcome is None) == is_session(command.words[0]):
                    raise Wrong(f"the note of line {command.line}")
                if any(entry.reply == REFUSED and entry.call.split(" ")[0] in FREE for entry in mine):
                    raise Wrong(f"the calls of line {command.line} are {mine}")
                if outcome is not None and (outcome == "no-memory") != (mine[-1].reply == REFUSED):
                    raise Wrong(f"the note of line {command.line} is {outcome} after {mine[-1]}")
