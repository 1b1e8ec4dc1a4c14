"""Scripts whose callers make some of their calls at once, and what race is given of them."""
import dataclasses

from parts.linux.generator import identifier
from parts.linux.scripts import in_linux

BEFORE, TOGETHER, AFTER = 0, 1, 2
MARKERS = {"# together": TOGETHER, "# after": AFTER}
PADS = {"4": "00", "8": "01", "16": "02", "32": "03"}
REMOVALS = ("remove-key", "remove-key-all")
CREATIONS = ("mkdir", "create", "symlink")
PURE = ("stat", "list", "read", "get-policy", "key-status", "readlink", "drop-caches")
PATHS = {
    "rename": 2,
    **dict.fromkeys(
        ("set-policy", "get-policy", "readlink", "unlink", "rmdir", "list", "stat", "open", *CREATIONS), 1
    ),
}
MAX_PAUSE_NS = 100_000


def parts_of(path):
    """The parts of a path."""
    return tuple(part for part in path.split("/") if part)


def text_of(parts):
    """The path of these parts."""
    return "/" + "/".join(parts)


def id_of(keyref):
    """The identifier that a KEYREF means, in lower case."""
    sort, _, digits = keyref.partition(":")
    return digits.lower() if sort == "id" else identifier(digits)


@dataclasses.dataclass
class Call:
    """A command of a script, and in a history what a kernel replied to it and when.

    `arguments` are those of the mount's call, with paths as tuples of parts; `shown` is the call as a log
    has it."""

    caller: int
    user: int
    index: int
    phase: int
    line: int
    text: str
    verb: str = ""
    arguments: tuple = ()
    shown: str = ""
    for_race: tuple = ()
    begin: int = 0
    end: int = 0
    begin_ns: int = 0
    end_ns: int = 0
    reply: str = ""
    held_beside: bool = False  # of a removal: calls that may hold a node are under way
    writes: tuple = ()  # of a stat or read: the writes that overlap it
    walks_apart: bool = False  # a rename of another caller overlaps it
    check_apart: bool = False  # of a creation: a removal overlaps it

    def overlaps(self, other):
        """Whether neither call ended before the other began."""
        return self.begin < other.end and other.begin < self.end

    def paths(self):
        """The paths among the arguments."""
        return self.arguments[: PATHS.get(self.verb, 0)]

    def changed_nothing(self):
        """Whether a history without this call has every order that it has with it."""
        return self.reply.startswith("refused") or self.verb in PURE


def call_of(caller, user, index, phase, line, text):
    """The call that a command asks for."""
    verb, *words = text.split(" ")
    call = Call(caller, user, index, phase, line, text, verb)
    shown = race = words
    if verb == "add-key":
        call.arguments, shown = (len(words[0]) // 2, identifier(words[0])), [str(len(words[0]) // 2)]
    elif verb in (*REMOVALS, "key-status"):
        call.arguments = (id_of(words[0]),)
        shown = race = call.arguments
    elif verb in ("set-policy", "set-policy-bytes"):
        policy = words[1].lower()
        if verb == "set-policy":
            unit = int(words[3]) if len(words) > 3 else 0
            policy = f"020104{PADS[words[2]]}{unit:02x}000000{id_of(words[1])}"
        call.verb, call.arguments = "set-policy", (parts_of(words[0]), policy)
        shown = race = [words[0], policy]
    elif verb == "list":
        call.arguments, shown = (parts_of(words[0]), 0), [words[0], "0"]
    elif verb in ("read", "close"):
        call.arguments = tuple(map(int, words))
    elif verb in ("write", "fill"):
        data = (
            bytes.fromhex(words[2].replace("-", ""))
            if verb == "write"
            else bytes([int(words[3])]) * int(words[2])
        )
        call.verb, call.arguments = "write", (int(words[0]), int(words[1]), data)
        shown = [words[0], words[1], str(len(data))]
    else:
        count = PATHS.get(verb, 0)
        call.arguments = (*map(parts_of, words[:count]), *words[count:])
    call.shown = " ".join([call.verb, *shown])
    call.for_race = ("fill" if verb == "fill" else call.verb, *race)
    return call


class AtOnce:
    """A script in sections: the users of its callers and the calls of each, with the phase in which each is
    made."""

    def __init__(self, name, text):
        self.name, self.text, self.users, self.calls, self.markers = name, text, [], [], []
        phase = BEFORE
        for number, line in enumerate(text.splitlines(), 1):
            if line.startswith("caller "):
                self.users.append(int(line.split(" ")[1]))
                self.calls.append([])
                phase = BEFORE
            elif line in MARKERS:
                phase = MARKERS[line]
                self.markers.append((len(self.users), number, phase))
            elif line and not line.startswith("#"):
                own = self.calls[-1]
                own.append(call_of(len(self.users) - 1, self.users[-1], len(own), phase, number, line))

    def all_calls(self):
        """The calls of all callers."""
        return [call for own in self.calls for call in own]

    def keys(self):
        """The identifiers of the keys that the calls name."""
        found = {}
        for call in self.all_calls():
            if call.verb == "set-policy":
                found[call.arguments[1][16:]] = True
            elif call.verb in ("add-key", "key-status", *REMOVALS):
                found[call.arguments[-1]] = True
        return list(found)

    def for_race(self, mode, repeats, seed):
        """The lines that race reads."""
        lines = [f"S\t{self.name}-{mode}\t{mode}\t{repeats}\t{seed}\t{MAX_PAUSE_NS}"]
        lines += [f"C\t{at}\t{in_linux(user)}" for at, user in enumerate(self.users)]
        lines += [f"K\t{key}" for key in self.keys()]
        return lines + [
            "\t".join(["X", str(call.caller), str(call.phase), *call.for_race]) for call in self.all_calls()
        ]
