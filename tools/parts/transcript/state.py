"""Asks the mount, after a step of a transcript, who holds what, and before one which key a policy has.

The script is cut after the step, and then the callers ask: each user for the status of each key, each caller
whether its handles are open, and caller 0 for the directories, level by level from the root. None of it
changes what the mount answers.
"""
import dataclasses

from parts.transcript.script import script_of

CHANGING = ("add-key", "remove-key", "remove-key-all", "set-policy", "open", "close", "rename", "unlink",
            "rmdir")
PAGE = 128
SHORT = 8
DIGITS = "0123456789abcdef"
ID_LINE = len("id ") + 32


@dataclasses.dataclass(frozen=True)
class Directory:
    """An encrypted directory: its path as it is shown, its number, its key, and whether it is readable."""
    path: str
    number: str
    key: str
    readable: bool


@dataclasses.dataclass(frozen=True)
class Handle:
    """A handle that was opened: its caller and number, the path, the node's number and its key."""
    caller: int
    number: str
    path: str
    node: str
    key: str


class Asking:
    """Questions to the mount after the first steps of a transcript."""

    def __init__(self, program, transcript, steps):
        self.program, self.transcript, self.steps = program, transcript, steps

    def replies(self, questions):
        """The entry of each question, a caller and a command, asked in this order by each caller."""
        script = script_of(self.transcript.users, self.steps)
        script.level()
        places = [(caller, script.ask(caller, command)) for caller, command in questions]
        log = self.program.log(script)
        return [log[caller][at].entries[-1] for caller, at in places]


def is_change(entries):
    """Whether a call that was not refused may have changed keys, handles or directories."""
    return any(entry.verb in CHANGING and not entry.refusal() for entry in entries)


def key_of_policy(reply):
    """The identifier of the key that a policy names, or nothing."""
    return reply.split(" ")[1][16:] if reply.startswith("policy ") else ""


def opened(program, transcript, found):
    """The handles that these answers gave, each with the node and key that its path had then."""
    for at, answer in enumerate(found, 1):
        entry = answer.made.entries[-1]
        if entry.verb == "open" and not entry.refusal():
            asking = Asking(program, transcript, [answer.step for answer in found[:at]])
            caller, path = entry.caller, entry.words[0]
            node, policy = asking.replies([(caller, f"stat {path}"), (caller, f"get-policy {path}")])
            yield Handle(caller, entry.answer[1], path, node.answer[2], key_of_policy(policy.reply))


def questions_of(path, size):
    """What is asked of a directory: its policy, and each of its entries by its number in a listing."""
    found = [(0, f"get-policy {path}")]
    for start in range(0, size, PAGE):
        found.append((0, f"list {path} {start}"))
        found += [(0, f"stat {path.rstrip('/')}/*{at}") for at in range(min(PAGE, size - start))]
    return found


@dataclasses.dataclass
class Level:
    """A directory whose entries are asked for: its entry of `stat`, and whether the one above is readable.

    None represents a directory without a policy.
    """
    stat: object
    above: object

    @property
    def path(self):
        """The path by which it was asked for."""
        return self.stat.words[0]

    def readable(self):
        """Whether its names are shown in plain, or None of a directory without a policy."""
        return self.stat.answer[5] == "key=1" if self.stat.answer[4] == "enc=1" else None


def encrypted(asking, root, is_mixed):
    """The encrypted directories in plain ones, and those below of which one is readable and the other not.

    The mount is asked for what is below an encrypted directory only if that may be so.
    """
    level, found = [Level(root, None)], []
    while level:
        asked = [(directory, questions_of(directory.path, int(directory.stat.answer[3])))
                 for directory in level]
        entries = iter(asking.replies([question for _, questions in asked for question in questions]))
        level = []
        for directory, questions in asked:
            policy, *rest = (next(entries) for _ in questions)
            key = key_of_policy(policy.reply)
            if key and directory.readable() != directory.above:
                found.append(Directory(directory.path, directory.stat.answer[2], key, directory.readable()))
            if not key or is_mixed(key):
                level += [Level(one, directory.readable()) for one in rest
                          if one.answer[:2] == ["stat", "dir"]]
    return found


def identifier_in(entry):
    """The identifier in the policy's record that a call loaded, or nothing."""
    if entry.answer[0] != "record" or not entry.words[0].startswith("policy/"):
        return ""
    lines = bytes.fromhex(entry.answer[2].removeprefix("-")).split(b"\n")
    found = (line[3:].decode("latin-1") for line in lines if line.startswith(b"id ") and len(line) == ID_LINE)
    return next((digits for digits in found if not digits.strip(DIGITS)), "")


def identifier_of(program, transcript, steps, step):
    """The identifier of the policy that a step names, as its caller loads it after `steps`, or ""."""
    question = (step.caller, f"meta-get policy/{step.policy}")
    entry, = Asking(program, transcript, steps).replies([question])
    return identifier_in(entry)


def find_identifiers(program, transcript):
    """Puts identifiers in place of the policies that steps name by `id:POLICY`, in the order of the steps.

    The script is cut before such a step, and its caller loads the policy's record. Only `meta-put` gives a
    policy another identifier.
    """
    steps, known = [], {}
    for step in transcript.steps:
        if step.verb == "meta-put":
            known = {}
        if step.policy:
            identifier = known.get(step.policy) or identifier_of(program, transcript, steps, step)
            known[step.policy] = identifier
            if identifier:
                step = step.with_identifier(identifier)
            else:
                transcript.refuse(step, f"names the policy {step.policy}, which no line before it has made")
        steps.append(step)
    transcript.steps = steps


def keys_named(found):
    """The identifiers of the keys that the answers name, and the label of each policy that a record has."""
    keys, labels = {}, {}
    for entry in (entry for answer in found for entry in answer.made.entries):
        if entry.answer[0] == "added":
            keys[entry.answer[1]] = True
        if entry.verb == "set-policy" and not entry.refusal():
            keys[entry.words[1][16:]] = True
        if identifier_in(entry):
            labels[identifier_in(entry)] = entry.words[0].removeprefix("policy/")
    return list(keys), labels


def user_text(users, uid):
    """A user with the names of its callers."""
    return f"{' and '.join(user.name for user in users if user.uid == uid)} ({uid})"


class State:
    """What the mount says of keys, handles and directories after the first steps."""

    def __init__(self, program, transcript, found):
        self.users = transcript.users
        asking = Asking(program, transcript, [answer.step for answer in found])
        self.keys, self.labels = keys_named(found)
        if not self.users:
            self.handles, self.directories = [], []
            return
        given = list(opened(program, transcript, found))
        callers = {user.uid: at for at, user in reversed(list(enumerate(self.users)))}
        asked = [(at, f"key-status id:{key}") for key in self.keys for at in callers.values()]
        asked += [(handle.caller, f"read {handle.number} 0 0") for handle in given]
        *entries, root = asking.replies([*asked, (0, "stat /")])
        self.statuses = {(entry.words[0], int(entry.user)): entry.answer for entry in entries
                         if entry.verb == "key-status"}
        reads = [entry for entry in entries if entry.verb == "read"]
        self.handles = [handle for handle, read in zip(given, reads) if read.refusal() != "bad-handle"]
        self.directories = encrypted(asking, root, lambda key: self.state_of(key) == "incomplete")

    def state_of(self, key):
        """The state of a key, as it is reported to every user; absent if nothing named it."""
        return next((told[1] for (name, _), told in self.statuses.items() if name == key), "absent")

    def key_of(self, handle):
        """The key of a handle's node; a directory may have got its policy after it was opened."""
        return next((directory.key for directory in self.directories if directory.number == handle.node),
                    handle.key)

    def key_line(self, key):
        """A key with its state, claims and open handles."""
        claims = [uid for (name, uid), told in self.statuses.items() if name == key and told[2] == "self=1"]
        label = f" ({self.labels[key]})" if key in self.labels else ""
        text = f"key {key[:SHORT]}{label}: {self.state_of(key)}"
        if claims:
            text += "; claims of " + ", ".join(user_text(self.users, claim) for claim in sorted(claims))
        handles = [handle for handle in self.handles if self.key_of(handle) == key]
        if handles:
            named = (f"{self.users[handle.caller].name} {handle.number} on {handle.path}"
                     for handle in handles)
            text += "; open: " + ", ".join(named)
        return text

    def lines(self):
        """The state, a line for each key and each encrypted directory."""
        found = [self.key_line(key) for key in self.keys]
        for directory in self.directories:
            shown = "readable" if directory.readable else "locked"
            found.append(f"directory {directory.path} under {directory.key[:SHORT]}: {shown}")
        return found or ["no key and no encrypted directory"]


def told_states(program, transcript, found, at):
    """The state after each step that changed it, or after the last step up to line `at` alone."""
    if at is not None:
        count = sum(answer.step.line <= at for answer in found)
        yield at, State(program, transcript, found[:count]).lines()
        return
    last = None
    for count, answer in enumerate(found, 1):
        if is_change(answer.made.entries):
            lines = State(program, transcript, found[:count]).lines()
            if lines != last:
                yield answer.step.line, lines
            last = lines
