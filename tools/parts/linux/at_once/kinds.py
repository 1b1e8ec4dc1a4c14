"""The kinds of what a kernel does at once and no mount does, each with its row in docs/LINUX.md.

A line of a certified log that isn't the kernel's reply is of a kind of calls one at a time
(tools/parts/linux/kinds.py), or of one of these: the line of a removal that is not one point, or a size or
bytes within a write.
"""
from parts.linux.at_once import pages
from parts.linux.at_once.calls import REMOVALS
from parts.linux.at_once.points import BUSY, FREE
from parts.linux.comparison import Step, same
from parts.linux.kinds import kind_of, rows

HEAD = "at once"
STATUS, NAMES, SECOND, ADDED = (
    "a status within a removal",
    "names within a removal",
    "a second removal",
    "a key added within a removal",
)
UNDER_WAY, CREATION, WALKS, SIZE, TORN = (
    "a call under way",
    "a creation after its check",
    "the walks of a path",
    "a size by pages",
    "a torn page",
)
KINDS = (STATUS, NAMES, SECOND, ADDED, UNDER_WAY, CREATION, WALKS, SIZE, TORN)
REMOVAL_LINE = "the line of a removal that is not one point"


def table():
    """The rows of the table of kinds, each with its line."""
    return rows(HEAD)


def in_removal(step, one_more):
    """A removal whose line says busy=1 for handles of the one more caller alone."""
    holders = {caller for (caller, _), node in step.books.handles.items() if node.key == step.words[0]}
    return step.verb in REMOVALS and (step.ours, step.theirs) == (BUSY, FREE) and holders == {one_more}


def size_by_pages(step, call):
    """A stat with a size within a write that overlaps it."""
    ours, theirs = step.ours.split(" "), step.theirs.split(" ")
    if step.verb != "stat" or len(ours) != len(theirs) or ours[:3] + ours[4:-1] != theirs[:3] + theirs[4:-1]:
        return False
    ends = {end for write in call.writes for end in pages.ends(*write.arguments[1:])}
    return int(theirs[3]) in ends


def torn(step, call):
    """A read with bytes within a write that overlaps it."""
    return (
        step.verb == "read"
        and bool(call.writes)
        and step.ours.startswith("data ")
        and step.theirs.startswith("data ")
    )


def kind_of_line(step, call, one_more):
    """The kind of a line that isn't the kernel's reply, `` where it is, and none where it is of no kind."""
    if same(step):
        return ""
    if in_removal(step, one_more):
        return REMOVAL_LINE
    if call is not None and size_by_pages(step, call):
        return SIZE
    if call is not None and torn(step, call):
        return TORN
    kind = kind_of(step)
    return kind.row if kind else None


def step_of(name, line, reply, books):
    """A line as the comparison of calls one at a time has it."""
    verb, *words = line.shown.split(" ")
    theirs, told = reply, {}
    return Step(
        name, False, line.shown, line.caller, line.user, verb, words, line.reply, theirs, told, books
    )
