"""Scripts of fsc made ready for a kernel: their logs, and the calls that drive makes of them."""
import hmac
import subprocess

from parts.common.command_calls import begins, calls_of
from parts.linux.bookkeeping import Bookkeeping, CREATIONS, parts_of

SEED = "0" * 64
FILLER = "key-status id:" + "f" * 32
FILLED = "key-status " + "f" * 32 + " = status absent self=0 users=0"
NO_KEY = "A" * 10
PATHS = {"set-policy": 1, "get-policy": 1, "mkdir": 1, "create": 1, "symlink": 1, "readlink": 1, "unlink": 1,
         "rmdir": 1,
         "rename": 2, "list": 1, "stat": 1, "open": 1}
NOT_IN_LINUX = ("meta-get", "meta-put")
MAX_STATS = 10_000
NO_USER, STANDS_FOR_IT = 4_294_967_295, 4_294_967_293
MAX_PRINTED = 128


class Script:
    """The sections of a script: a user and its commands each."""

    def __init__(self, name, text):
        self.name, self.users, self.commands = name, [], []
        for line in text.splitlines():
            word, _, rest = line.partition(" ")
            if word == "caller":
                self.users.append(int(rest))
                self.commands.append([])
            elif line and not line.startswith("#"):
                self.commands[-1].append(line)

    def text(self):
        """The script in sections."""
        sections = (f"caller {user}\n" + "".join(command + "\n" for command in commands)
                    for user, commands in zip(self.users, self.commands))
        return "".join(sections)

    def rotation(self):
        """Each command with its caller, in the order in which a serial run takes them."""
        rounds = max(map(len, self.commands), default=0)
        return [(caller, commands[at]) for at in range(rounds)
                for caller, commands in enumerate(self.commands) if at < len(commands)]


def in_this_order(name, users, steps):
    """A script whose serial run takes the steps, a caller and a command each, one after the other.

    A round has a command of each caller, so if a caller has none it has a filler.
    """
    made = Script(name, "")
    made.users, made.commands = users, [[] for _ in users]
    last = len(users) - 1
    for caller, command in steps:
        if caller > last:
            fill(made, range(last + 1, caller))
        else:
            fill(made, range(last + 1, len(users)))
            fill(made, range(caller))
        made.commands[caller].append(command)
        last = caller
    return made


def fill(script, callers):
    """A filler for each of these callers."""
    for caller in callers:
        script.commands[caller].append(FILLER)


class Fault(Exception):
    """A script that fsc refuses."""


def replay(program, script):
    """The lines of a serial run's log, but for the notes."""
    run = subprocess.run([program, "replay", "--serial", "--seed", SEED], input=script.text().encode(),
                         capture_output=True, check=False)
    if run.returncode:
        raise Fault(f"{script.name}: {run.stderr.decode().strip()}")
    return [line for line in run.stdout.decode().splitlines() if not line.startswith("note ")]


def fields(line):
    """Caller, user, verb, words and reply of a line of the log."""
    asked, _, reply = line.partition(" = ")
    _, caller, user, verb, *words = asked.split(" ")
    return int(caller), int(user), verb, words, reply


def names_of(reply):
    """The names that a listing shows."""
    return reply.split(" ")[3:]


def derived_file_key(caller, number):
    """The key of 64 bytes that a caller's command of this number draws (docs/FORMATS.md, Draws)."""
    info = b"fsc draw" + bytes([caller]) + (16 * number).to_bytes(8, "little")
    fixed = hmac.digest(bytes(64), bytes.fromhex(SEED), "sha512")
    return hmac.digest(fixed, info + b"\x01", "sha512").hex()


def commands_of(script, log):
    """For each entry of a log the caller's command that made it, and the command's number."""
    at = [-1] * len(script.users)
    waiting = [[] for _ in script.users]
    for line in log:
        caller, _, verb, words, _ = fields(line)
        if waiting[caller] and begins(" ".join([verb, *words]), waiting[caller][0]):
            waiting[caller].pop(0)
        else:
            at[caller] += 1
            while script.commands[caller][at[caller]] == "pause":
                at[caller] += 1
            waiting[caller] = calls_of(script.commands[caller][at[caller]].split(" "))[1:]
        if " = refused" in line:
            waiting[caller] = []
        yield script.commands[caller][at[caller]], at[caller]


def texts_listed(log):
    """How many no-key texts each listing shows."""
    replies = (fields(line)[4] for line in log if fields(line)[2] == "list")
    return [sum(name.startswith(NO_KEY) for name in names_of(reply)) for reply in replies]


def stats_put(script, behind):
    """The script with that many `stat PATH/*k` after each of its listings."""
    if not any(behind):
        return script
    steps, counts = [], iter(behind)
    for caller, command in script.rotation():
        steps.append((caller, command))
        if command.startswith("list "):
            path = command.split(" ")[1].rstrip("/")
            steps += [(caller, f"stat {path}/*{k}") for k in range(next(counts))]
    return in_this_order(script.name, script.users, steps)


def with_stats(program, script):
    """The script with a `stat PATH/*k` after each name of a listing that is a no-key text, and its log.

    The log then reports which node each text is. A command more changes what later ones draw, and so the
    order of texts: it is tried until each listing has as many after it as it needs.
    """
    behind = [0] * sum(command.startswith("list ") for _, command in script.rotation())
    while True:
        made = stats_put(script, behind)
        log = replay(program, made)
        wanted = [max(pair) for pair in zip(behind, texts_listed(log), strict=True)]
        if wanted == behind or sum(wanted) * len(script.users) > MAX_STATS:
            return made, log
        behind = wanted


def learn_texts(books, behind, caller, path):
    """What the stats after a listing report of its texts."""
    for line in behind:
        if line.split(" ", 3)[3] == FILLED:
            continue
        who, _, verb, words, reply = fields(line)
        if verb != "stat" or who != caller or not words[0].startswith(path.rstrip("/") + "/"):
            return
        if reply.startswith("stat "):
            books.feed_text(words[0], int(reply.split(" ")[2]))


def in_linux(user):
    """The user that represents one of the mount: Linux has none of the last number."""
    return str(user if user != NO_USER else STANDS_FOR_IT)


class Calls:
    """The lines for drive of a script and its log, and the log without what no kernel has."""

    def __init__(self, script, log, mode):
        self.lines = [f"S\t{script.name}\t{mode}"]
        self.lines += [f"C\t{at}\t{in_linux(user)}" for at, user in enumerate(script.users)]
        self.log = [f"S {script.name} {mode}"]
        self.keys = {}
        self.books = Bookkeeping()
        owners = list(commands_of(script, log))
        for at, (line, (command, number)) in enumerate(zip(log, owners)):
            caller, user, verb, words, reply = fields(line)
            if line.split(" ", 3)[3] == FILLED:
                continue
            if command.startswith("policy-new ") and verb == "meta-put" and not reply.startswith("refused"):
                self.keys[command.split(" ")[1]] = derived_file_key(caller, number)
            if verb in NOT_IN_LINUX:
                continue
            if verb == "list":
                learn_texts(self.books, log[at + 1:at + 1 + len(script.users) * MAX_PRINTED], caller,
                            words[0])
            self.log.append(line)
            self.lines.append(self.call(line, command))
            self.books.feed(caller, user, verb, words, reply)

    def call(self, line, command):
        """The line for drive of an entry that a command made."""
        caller, user, verb, words, reply = fields(line)
        word, *given = command.split(" ")
        expected = "no" if reply.startswith("refused") else "ok"
        if verb == "add-key":
            words = [given[0] if word == "add-key" else self.keys.get(given[0], "00" * 64)]
        elif verb == "write":
            verb, words = word, given
        words = [self.shown(word) if at < PATHS.get(verb, 0) else word for at, word in enumerate(words)]
        if verb in CREATIONS:
            words.append(str(self.books.made + 1))
        if verb == "open":
            words.append(reply.split(" ")[1] if expected == "ok" else "0")
        return "\t".join(["X", str(caller), in_linux(user), expected, line.partition(" = ")[0], verb,
                          *words])

    def shown(self, path):
        """The path with `@N=` before each part that is the no-key text of a node N."""
        parts = parts_of(path)
        for at, part in enumerate(parts):
            passed, node, _ = self.books.walk(parts_of(path)[:at + 1])
            if node is not None and part not in passed[-1].entries:
                parts[at] = f"@{node.number}={part}"
        return "/" + "/".join(parts)
