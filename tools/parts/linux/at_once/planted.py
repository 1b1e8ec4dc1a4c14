"""A control: histories that have an order of the mount's own, with one reply changed or two swapped."""
import collections
import random

from parts.linux.at_once.calls import TOGETHER
from parts.linux.at_once.check import refused_at
from parts.linux.at_once.log import Log
from parts.linux.at_once.points import Level
from parts.linux.at_once.search import search


def changed(history, drawn):
    """The history with a reply that is another of its verb's in the history, or with the two swapped; or
    none."""
    calls = [call for call in history.all_calls() if call.phase == TOGETHER
             and not call.reply.startswith("handle")]
    if not calls:
        return None
    one = drawn.choice(calls)
    others = [call for call in calls if call.verb == one.verb and call.reply != one.reply]
    if not others:
        return None
    other = drawn.choice(others)
    made = history.copy()
    if drawn.random() < 0.5:
        made.calls[other.caller][other.index].reply = one.reply
    made.calls[one.caller][one.index].reply = other.reply
    return made


def planted(program, histories, times):
    """How many changed histories there are, how many have no order, and how many one that fsc check
    certifies."""
    drawn, found = random.Random(1), collections.Counter()
    for history in histories:
        if search(history, Level.AS_IS).verdict != "found":
            continue
        for _ in range(times):
            made = changed(history, drawn)
            if made is None:
                continue
            order = search(made, Level.AS_IS)
            found["planted"] += 1
            found[order.verdict] += 1
            if order.verdict == "found":
                log = Log(program, made, order, Level.AS_IS)
                found["certified"] += refused_at(program, log.script(), log.texts()) is None
    return (
        f"{found['planted']} planted, {found['none']} without an order, {found['found']} with one, "
        f"of which {found['certified']} are certified, {found['undecided']} undecided"
    )
