"""The verdict on a history: an order that fsc check certifies, with what in it is not as the kernel
replied."""
import collections
import dataclasses

from parts.linux.at_once import kinds
from parts.linux.at_once.check import AllOrders, refused_at
from parts.linux.at_once.histories import History
from parts.linux.at_once.log import Log
from parts.linux.at_once.points import Level
from parts.linux.at_once.promise import broken
from parts.linux.at_once.search import first_order, smallest_core
from parts.linux.at_once.texts import NoTexts
from parts.linux.bookkeeping import Bookkeeping
from parts.linux.scripts import NO_KEY, fields, names_of

LEVELS = {
    Level.AS_IS: "are histories of the mount as they are",
    Level.ROWS: "with rows of calls made one at a time",
    Level.TWO_POINTS: "where a removal is seen not to be one point",
    Level.UNDER_WAY: "where a call under way, or an adding, makes a removal busy",
    Level.APART: "have no order, with a kind below",
}


@dataclasses.dataclass
class Verdict:
    """What became of a history: its level, the kinds of its lines and of what its calls saw, and why it is
    unexplained."""

    history: History
    level: Level | None = None
    tried: int = 0
    script: str = ""
    lines: list = dataclasses.field(default_factory=list)
    kinds: collections.Counter = dataclasses.field(default_factory=collections.Counter)
    rows: collections.Counter = dataclasses.field(default_factory=collections.Counter)
    as_begun: bool = True
    as_ended: bool = True
    after_removal: int = 0
    reason: str = ""


def in_time(calls):
    """Whether no call comes after one that began only when it had ended: asked of the order, not of the
    search."""
    latest = 0
    for call in calls:
        if call.end < latest:
            return False
        latest = max(latest, call.begin)
    return True


def take_lines(verdict, log, by_place):
    """The kind of each line that isn't the kernel's reply."""
    books = Bookkeeping()
    for place, line in enumerate(log.lines):
        if line.theirs is not None and line.theirs != line.reply:
            step = kinds.step_of(verdict.history.name, line, line.theirs, books)
            kind = kinds.kind_of_line(step, by_place.get(place), log.caller)
            if kind is None:
                verdict.reason = (
                    f"line {place} is of no kind: {line.shown} = {line.reply}, and the kernel: {line.theirs}"
                )
            elif kind in kinds.KINDS:
                verdict.kinds[kind] += 1
            elif kind:
                verdict.rows[kind] += 1
        _, _, verb, words, reply = fields(line.text(place))
        books.feed(line.caller, line.user, verb, words, reply)


def judge(program, history):
    """The verdict on a history."""
    verdict = Verdict(history)
    level, order = first_order(history)
    verdict.tried = order.tried
    if level is None:
        verdict.reason = "there is no order" if order.verdict == "none" else "the search ended undecided"
        return verdict
    verdict.level = level
    try:
        log = Log(program, history, order, level)
    except NoTexts as why:
        verdict.reason = str(why)
        return verdict
    verdict.script, verdict.lines = log.script(), log.texts()
    for kind, _ in log.witnesses:
        verdict.kinds[kind] += 1
    calls = [point.call for point, _ in order.points if point.part in ("whole", "first")]
    own = iter(calls)
    by_place = {place: next(own) for place, line in enumerate(log.lines) if line.theirs is not None}
    take_lines(verdict, log, by_place)
    verdict.as_begun = calls == sorted(calls, key=lambda call: call.begin)
    verdict.as_ended = calls == sorted(calls, key=lambda call: call.end)
    if not in_time(calls) or len(calls) != len(history.all_calls()):
        verdict.reason = "the order does not respect the tickets"
    verdict.after_removal, wrong = broken(history, log.seen)
    if wrong:
        verdict.reason = f"after a removal with busy=0 a call saw a plain name or contents: {wrong[0].text}"
    if level > Level.ROWS and not verdict.kinds:
        verdict.reason = "a removal is not one point, and no call saw it"
    refusal = refused_at(program, verdict.script, verdict.lines)
    if refusal:
        verdict.reason = f"fsc check does not certify the order: {refusal[1]}"
    return verdict


def alone(history):
    """A history as one of a script of its own, with the calls that are left."""
    made = History(history.name, [], [])
    for user, own in zip(history.users, history.calls):
        if own:
            made.users.append(user)
            made.calls.append(
                [dataclasses.replace(call, caller=len(made.calls), index=at) for at, call in enumerate(own)]
            )
    return made


def confirmed_core(program, history):
    """The smallest core of a history without an order of the mount's own, and what fsc check says of it.

    That is `none` where it refuses each order, and `unreadable` where the core lists a locked directory,
    whose texts a log has otherwise.
    """
    core = alone(smallest_core(history, Level.AS_IS))
    if any(
        name.startswith(NO_KEY) or len(name) > kinds.pages.MIN_TEXT
        for call in core.all_calls()
        if call.verb == "list"
        for name in names_of(call.reply)
    ):
        return core, "unreadable", 0
    orders = AllOrders(program, core)
    found = orders.order()
    return core, "none" if found is None else "undecided" if found == "undecided" else "found", orders.runs


def picture(history):
    """The calls by their beginnings, for reading."""
    calls = sorted(history.all_calls(), key=lambda call: call.begin)
    return [
        f"  {call.begin:4}-{call.end:<4} {call.caller} {call.user} {call.text[:60]:60} = {call.reply[:80]}"
        for call in calls
    ]
