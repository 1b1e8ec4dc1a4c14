"""What a kernel replied to the calls of scripts, as race prints it."""
import dataclasses

from parts.linux.at_once.calls import CREATIONS, REMOVALS, TOGETHER

FIELDS = 7


@dataclasses.dataclass
class History:
    """The calls of a script's callers with their replies in one repetition."""

    name: str
    users: list
    calls: list

    def all_calls(self):
        """The calls of all callers."""
        return [call for own in self.calls for call in own]

    def without(self, calls):
        """The history without some calls."""
        gone = set(map(id, calls))
        return History(
            self.name, self.users, [[call for call in own if id(call) not in gone] for own in self.calls]
        )

    def copy(self):
        """The history with calls of its own."""
        return History(
            self.name, self.users, [[dataclasses.replace(call) for call in own] for own in self.calls]
        )

    def overlaps(self):
        """How many pairs of calls of two callers are made together, and how many of them overlap."""
        calls = [call for call in self.all_calls() if call.phase == TOGETHER]
        pairs = [
            (one, other)
            for at, one in enumerate(calls)
            for other in calls[:at]
            if one.caller != other.caller
        ]
        return len(pairs), sum(one.overlaps(other) for one, other in pairs)

    def note_overlaps(self):
        """Notes at each call what of other callers overlaps it, before any call is left out."""
        calls = self.all_calls()
        renames = [call for call in calls if call.verb == "rename" and call.reply == "ok"]
        removals = [call for call in calls if call.verb in REMOVALS
                    and call.reply.startswith("removed others=0")]
        writes = [call for call in calls if call.verb == "write" and call.reply == "ok"]
        for call in calls:
            beside = [other for other in calls if other is not call and call.overlaps(other)]
            call.held_beside = call.verb in REMOVALS and any(
                other.verb not in ("key-status", "add-key") for other in beside
            )
            if call.verb in ("stat", "read"):
                call.writes = tuple(other for other in writes if call.overlaps(other))
            call.walks_apart = any(len(path) > 1 for path in call.paths()) and any(
                other.caller != call.caller and call.overlaps(other) for other in renames
            )
            call.check_apart = (
                call.verb in CREATIONS and call.reply == "ok"
                and any(call.overlaps(other) for other in removals)
            )


def bytes_of(runs):
    """The digits of the bytes of `COUNTxBYTE,..`."""
    if runs == "-":
        return runs
    pairs = [part.partition("x") for part in runs.split(",")]
    return "".join(byte * int(count) for count, _, byte in pairs)


def take_reply(history, words):
    """Puts a reply at its call; whether the words were whole."""
    if len(words) < FIELDS or not all(word.isdigit() for word in words[: FIELDS - 1]):
        return False
    caller, index, *numbers = map(int, words[: FIELDS - 1])
    if caller >= len(history.calls) or index >= len(history.calls[caller]):
        return False
    call = history.calls[caller][index]
    call.begin, call.end, call.begin_ns, call.end_ns = numbers
    call.reply = words[FIELDS - 1]
    if call.reply.startswith("data "):
        call.reply = "data " + bytes_of(call.reply[5:])
    return True


def read_answers(name, scripts):
    """The whole histories of some scripts, and what else race printed."""
    by_name = {script.name: script for script in scripts}
    found, faults, at, ended = [], [], None, False
    with open(name, encoding="utf-8", errors="replace") as lines:
        for line in (line.rstrip("\n") for line in lines):
            words = line.split("\t")
            if line.startswith("F"):
                faults.append(line)
            elif line == "END":
                ended = True
                break
            elif words[0] == "R" and len(words) == 3:
                script = by_name.get(words[1].rpartition("-")[0])
                at = script and History(f"{words[1]}-{words[2]}", script.users, script.calls).copy()
                found += [at] if at else []
            elif at is not None and not take_reply(at, words):
                faults.append(f"a torn line: {line[:60]}")
                at = None
    whole = [history for history in found if all(call.reply for call in history.all_calls())]
    if not ended:
        faults.append("the answers end early")
    for history in whole:
        history.note_overlaps()
    return whole, faults
