"""Rows of the output: fields without spaces, so that a script can read them."""
from parts.speed.tables import RIVALS

HEAD = ("kernel", "ours", "unit", "MB/s", "rival", "theirs", "ratio", "goal", "is")
NANOSECONDS = {"ns": 1, "ms": 1e6}
FORM = "%-28s %14s %-7s %9s %-22s %14s %8s %9s %s"


def number(value, digits=1):
    return "-" if value is None else "%.*f" % (digits, value)


def held(goal, ours, rate, ratio):
    """The goal as it is printed, and by how much it is missed."""
    if goal is None:
        return "-", "-"
    kind, bound = goal
    found = {"ratio": ratio, "rate": rate, "ours": ours}[kind]
    wanted = ("%s%g" if kind != "rate" else "%s%gMB/s") % (">=" if kind == "rate" else "<=", bound)
    if found is None:
        return wanted, "not-measured"
    over = bound / found if kind == "rate" else found / bound
    return wanted, "met" if over <= 1 else "missed-by-%.1f%%" % (100 * (over - 1))


class Rows:
    """Prints rows, and counts the goals."""

    def __init__(self):
        self.met, self.missed = [], []

    def section(self, title):
        print("\n%s" % title)
        print(FORM % HEAD)

    def row(self, name, ours, unit="ns", size=0, rival="-", theirs=None, goal=None):
        """A row. Times are in nanoseconds, and printed in the unit; the rate is that of `size` bytes."""
        ratio = ours / theirs if theirs else None
        rate = size / ours * 1e3 if size and ours else None
        scale = NANOSECONDS.get(unit, 1)
        ours, theirs = ours / scale, theirs and theirs / scale
        bound, found = held(goal, ours, rate, ratio)
        if goal:
            (self.met if found == "met" else self.missed).append("%s %s" % (name, found))
        print(FORM % (name, number(ours), unit, number(rate), rival, number(theirs), number(ratio, 3), bound,
                      found), flush=True)

    def legend(self):
        print("\nrivals")
        for label, what in RIVALS.items():
            print("  %-16s %s" % (label, what))

    def goals(self):
        print("\ngoals: %d met, %d missed%s" % (len(self.met), len(self.missed),
                                                "".join("\n  " + name for name in self.missed)))
