"""What all histories of a kernel come to, and how it is reported."""
import collections
import os

from parts.linux.at_once import kinds
from parts.linux.at_once.judge import LEVELS, confirmed_core, judge, picture
from parts.linux.at_once.points import Level
from parts.linux.kinds import PAGE, rows

MAX_SHOWN = 10


class Tally:
    """The verdicts on the histories of a kernel, with what is known of their cores."""

    def __init__(self, program, folder=None):
        self.program, self.folder = program, folder
        self.histories = self.calls = self.pairs = self.overlapping = self.meeting = self.tried = 0
        self.not_as_begun = self.not_as_ended = self.after_removal = 0
        self.levels, self.seen, self.kinds, self.rows = (collections.Counter() for _ in range(4))
        self.cores, self.unexplained = {}, []
        self.cores_refused = self.cores_unreadable = 0

    def take(self, history):
        """A history."""
        verdict = judge(self.program, history)
        pairs, overlapping = history.overlaps()
        self.histories += 1
        self.calls += len(history.all_calls())
        self.pairs += pairs
        self.overlapping += overlapping
        self.meeting += overlapping > 0
        self.tried = max(self.tried, verdict.tried)
        if verdict.reason:
            self.unexplained.append(verdict)
            return verdict
        self.levels[verdict.level] += 1
        self.not_as_begun += not verdict.as_begun
        self.not_as_ended += not verdict.as_ended
        self.after_removal += verdict.after_removal
        self.seen.update(verdict.kinds.keys())
        self.kinds.update(verdict.kinds)
        self.rows.update(verdict.rows)
        self.keep(verdict)
        if verdict.level > Level.ROWS:
            self.take_core(verdict)
        return verdict

    def take_core(self, verdict):
        """The core of a history without an order of the mount's own: each where there is none at all, else
        one of a kind."""
        new = set(verdict.kinds) - set(self.cores)
        if verdict.level < Level.APART and not new:
            return
        core, found, runs = confirmed_core(self.program, verdict.history)
        if found == "found":
            verdict.reason = "fsc check certifies an order of the core, and the search found none"
        elif found == "undecided" and verdict.level == Level.APART:
            verdict.reason = f"the core has more orders than fsc check was asked for in {runs} runs"
        if verdict.reason:
            self.unexplained.append(verdict)
        self.cores_refused += found == "none"
        self.cores_unreadable += found == "unreadable"
        for kind in new:
            self.cores[kind] = core, found, runs, verdict.history.name

    def keep(self, verdict):
        """Writes script and log of a certified order, as fsc check reads them."""
        if self.folder is None:
            return
        name = os.path.join(self.folder, verdict.history.name + ".checked")
        with open(name, "w", encoding="utf-8") as file:
            file.write(verdict.script + "---\n" + "".join(line + "\n" for line in verdict.lines))

    def print_cores(self):
        """Prints a smallest core of each kind."""
        for kind, (core, found, runs, name) in self.cores.items():
            said = "each order is refused" if found == "none" else found
            print(f"{kind}, in {name}: {said}, {runs} runs of fsc check")
            print("\n".join(picture(core)))

    def print_unexplained(self):
        """Prints what is of no kind, with its calls."""
        for verdict in self.unexplained[:MAX_SHOWN]:
            print(f"unexplained in {verdict.history.name}: {verdict.reason}")
            print("\n".join(picture(verdict.history)))
        if len(self.unexplained) > MAX_SHOWN:
            print(f"and {len(self.unexplained) - MAX_SHOWN} more")

    def report(self, faults):
        """Prints all, and returns the exit status."""
        listed, known = kinds.table(), rows()
        print(f"{self.overlapping} of {self.pairs} pairs of calls overlap, in {self.meeting} histories")
        print(
            f"{self.not_as_begun} not in the order of beginnings, {self.not_as_ended} not in that of ends; "
            f"at most {self.tried} tries at the last level"
        )
        for level, text in LEVELS.items():
            print(f"{self.levels[level]:7}  {text}")
        for kind in kinds.KINDS:
            where = f"{PAGE}:{listed[kind]}" if kind in listed else f"NO ROW in {PAGE}"
            print(f"{self.seen[kind]:7}  histories, {self.kinds[kind]} calls: {kind} ({where})")
        for row, count in sorted(self.rows.items()):
            print(f"{count:7}  lines: {row}" + (f" ({PAGE}:{known[row]})" if row in known else ""))
        print(f"{self.after_removal:7}  calls after a removal with busy=0 and before an adding saw nothing")
        print(f"{self.cores_refused:7}  smallest cores of which fsc check refuses every order")
        print(f"{self.cores_unreadable:7}  smallest cores that list a locked directory: not asked")
        for fault in faults:
            print(f"fault: {fault}")
        self.print_unexplained()
        print(f"{self.histories} histories, {self.calls} calls, {len(self.unexplained)} unexplained")
        without = [kind for kind in kinds.KINDS if kind not in listed]
        return 1 if self.unexplained or without or faults else 0
