"""What a script for callers at once may not have, since no kernel or no log could say it: found before a
machine boots."""
import re

from parts.common.command_calls import is_session
from parts.linux.at_once.calls import BEFORE, PADS, TOGETHER
from parts.linux.scripts import NOT_IN_LINUX

MAX_CALLERS, MAX_WITH_KEYS, MAX_CALLS, MAX_KEYS = 8, 7, 256, 16
MAX_NAME, MAX_TARGET, MAX_READ, MAX_FILE, MAX_FILL = 20, 255, 4_096, 1_048_576, 65_536
OWN_USERS = (65_534, 4_000_000_000)
NUMBER, HEX, PATH = r"(0|[1-9][0-9]*)", r"(?:[0-9a-fA-F]{2})+", r"/|(?:/[A-Za-z0-9._~-]+)+"
KEYREF = r"id:[0-9a-fA-F]{32}|raw:(?:[0-9a-fA-F]{2}){32,64}"
POLICY = "020104(?:0[0-3]|0[89abAB])(?:00|09|0[abcABC])000000[0-9a-fA-F]{32}"
FORMS = {
    "add-key": (HEX,),
    "remove-key": (KEYREF,),
    "remove-key-all": (KEYREF,),
    "key-status": (KEYREF,),
    "set-policy-bytes": (PATH, POLICY),
    "get-policy": (PATH,),
    "mkdir": (PATH,),
    "create": (PATH,),
    "unlink": (PATH,),
    "rmdir": (PATH,),
    "rename": (PATH, PATH),
    "list": (PATH,),
    "stat": (PATH,),
    "open": (PATH,),
    "readlink": (PATH,),
    "symlink": (PATH, "[A-Za-z0-9._~-]+"),
    "read": (NUMBER,) * 3,
    "write": (NUMBER, NUMBER, f"-|{HEX}"),
    "fill": (NUMBER,) * 4,
    "close": (NUMBER,),
    "drop-caches": (),
}
LINK_VERBS = ("symlink", "readlink", "unlink", "stat", "list")


def faults_of_lines(text):
    """What single lines have that no script may have here."""
    for number, line in enumerate(text.splitlines(), 1):
        if not line or line.startswith("#"):
            continue
        verb, *words = line.split(" ")
        forms = FORMS.get(verb)
        if verb == "set-policy":
            forms = (PATH, KEYREF, "|".join(PADS), "0|9|1[0-2]")[: max(3, len(words))]
        if verb == "caller":
            if len(words) != 1 or not re.fullmatch(NUMBER, words[0]):
                yield number, "names no user"
            elif int(words[0]) in OWN_USERS:
                yield number, f"has the user {words[0]}, which the tool needs"
        elif is_session(verb) or verb in NOT_IN_LINUX:
            yield number, "is of a session or a record, which no kernel has"
        elif forms is None:
            yield number, f"has {verb}, which is no call of the mount"
        elif "*" in line or "%" in line:
            yield number, "has a star or %XX; names are letters, digits and - . _ ~ here"
        elif len(words) != len(forms) or not all(
            re.fullmatch(form, word) for form, word in zip(forms, words)
        ):
            yield number, f"isn't as docs/FORMATS.md says of {verb}, or is taken by Linux alone"
        else:
            yield from ((number, fault) for fault in faults_of_call(verb, words))


def faults_of_call(verb, words):
    """What Linux does and the mount refuses, or what isn't one call of Linux."""
    if verb == "add-key" and 32 <= len(words[0]) < 64:
        yield "adds a key of 16 to 31 bytes, which Linux takes and the mount refuses"
    if verb == "symlink" and len(words[1]) > MAX_TARGET:
        yield f"has a target of more than {MAX_TARGET} bytes, which Linux takes and the mount refuses"
    if verb == "read" and int(words[2]) > MAX_READ:
        yield f"reads more than {MAX_READ} bytes, which Linux does and the mount refuses"
    if verb == "fill" and (int(words[2]) > MAX_FILL or int(words[3]) > 255):
        yield f"fills more than {MAX_FILL} bytes, or with what is no byte"
    if verb in ("write", "fill"):
        length = int(words[2]) if verb == "fill" else len(words[2]) // 2
        if int(words[1]) + length > MAX_FILE:
            yield f"writes beyond {MAX_FILE} bytes, which Linux does and the mount refuses"
    for word in (word for word in words if word.startswith("/")):
        if any(len(part) > MAX_NAME for part in word.split("/")):
            yield f"has a name of more than {MAX_NAME} characters"
        if any(part in (".", "..") for part in word.split("/")):
            yield "has a part . or .., which Linux walks"
        if word == "/" and verb not in ("list", "stat", "open", "get-policy"):
            yield "changes the root, which is the caller's own in Linux"


def faults_of_sections(script):
    """What the sections have: markers out of order, and too many callers or calls."""
    if not script.users:
        yield 1, "has no caller"
    if len(script.users) > MAX_CALLERS:
        yield script.calls[MAX_CALLERS][0].line if script.calls[
            MAX_CALLERS
        ] else 1, f"is of caller {MAX_CALLERS + 1}; a script has at most {MAX_CALLERS}"
    elif len(script.users) > MAX_WITH_KEYS and any(call.verb == "add-key" for call in script.all_calls()):
        yield 1, f"has {len(script.users)} callers; with keys there are at most {MAX_WITH_KEYS}"
    last = {}
    for section, number, phase in script.markers:
        if section == 0:
            yield number, "is a marker before the first caller"
        elif phase != last.get(section, BEFORE) + 1:
            yield number, "is out of order: a section has # together once, then # after at most once"
        last[section] = phase
    for own in script.calls:
        if len(own) > MAX_CALLS:
            yield own[
                MAX_CALLS
            ].line, f"is call {MAX_CALLS + 1} of its caller; there are at most {MAX_CALLS}"
    if not any(call.phase == TOGETHER for call in script.all_calls()):
        yield 1, "has nothing that is made at once: no call comes after # together"
    if len(script.keys()) > MAX_KEYS:
        yield 1, f"names {len(script.keys())} keys; there are at most {MAX_KEYS}"


def faults_of_calls(script):
    """What some calls may not be beside others."""
    calls = script.all_calls()
    together = [call for call in calls if call.phase == TOGETHER]
    moved = [path for other in together if other.verb == "rename" for path in other.paths()]
    links = {call.arguments[0][-1] for call in calls if call.verb == "symlink"}
    policies = {call.arguments[0] for call in calls if call.verb == "set-policy"}
    for call in calls:
        if (
            call.phase == TOGETHER
            and call.verb == "list"
            and any(path == call.arguments[0][: len(path)] for path in moved)
        ):
            yield call.line, "lists a directory that may be renamed between Linux's open and its listing"
        parts = [part for path in call.paths()
                 for part in (path if call.verb not in LINK_VERBS else path[:-1])]
        if links & set(parts):
            yield call.line, "names a symlink, or leads through one, which Linux follows"
        if call.verb == "open" and call.arguments[0] in policies and not looked_into(script, call):
            yield call.line, "opens an encrypted directory: do so before # together, then stat a name in it"
        if call.verb == "set-policy" and not call.user and not claim_stays(script, call.arguments[1][16:]):
            yield call.line, "is a policy by user 0, which Linux takes without a claim: let a user's stay"


def looked_into(script, call):
    """Whether a directory is opened before, and a name in it looked up next."""
    behind = script.calls[call.caller][call.index + 1 : call.index + 2]
    return call.phase == BEFORE and any(
        other.verb == "stat" and other.arguments[0][:-1] == call.arguments[0] for other in behind
    )


def claim_stays(script, key):
    """Whether a user adds a key before, and none of that user's calls removes it."""
    calls = script.all_calls()
    if any(call.verb == "remove-key-all" and call.arguments[0] == key for call in calls):
        return False
    removing = {call.user for call in calls if call.verb == "remove-key" and call.arguments[0] == key}
    return any(
        call.verb == "add-key" and call.arguments[1] == key and call.phase == BEFORE
        and call.user not in removing
        for call in calls
    )


def faults(name, text, read):
    """Each fault of a script as a line of text; `read` makes a script of a name and a text."""
    found = list(faults_of_lines(text))
    if not found:
        script = read(name, text)
        found = [*faults_of_sections(script)] or [*faults_of_calls(script)]
    return [f"{name}: line {number} {what}" for number, what in found]
