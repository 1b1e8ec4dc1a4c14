"""The kernels of fsc_speed beside their rivals, by subject."""
import statistics

from parts.speed import tables
from parts.speed.rivals import kernel_work
from parts.speed.tables import LENGTHS, MASKED, OPENSSL, SHARED, STATUS, STATUS_AGAIN, THREADS
from parts.speed.timing import CLOCK, Side, Work, alone, sides_in_turn

LANES, LANE_RUNS = "argon2id-lanes-3-65536-4", 25


class Kernels:
    """Measures kernels whose names begin with the word, and prints them."""

    def __init__(self, rivals, rows, runs, word):
        self.rivals, self.rows, self.runs, self.word = rivals, rows, runs, word

    def work(self, name, count, per=1):
        return kernel_work(self.rivals.program, name, count, per)

    def wants(self, name):
        return name.startswith(self.word)

    def print_sides(self, name, sides, figures, unit="ns", size=0, goals=None):
        """A row for each rival, or one alone."""
        ours, *others = figures
        if not others:
            self.rows.row(name, ours, unit, size)
        for side, theirs in zip(sides[1:], others):
            self.rows.row(name, ours, unit, size, side.label, theirs, (goals or {}).get(side.label))

    def table(self, title, kernels):
        """The kernels of a subject."""
        kernels = [kernel for kernel in kernels if self.wants(kernel.name)]
        if kernels:
            self.rows.section(title)
        for kernel in kernels:
            sides = self.rivals.sides(kernel)
            self.print_sides(kernel.name, sides, sides_in_turn(sides, self.runs), "ns", kernel.size,
                             kernel.goals)

    def chain_sides(self, part=1):
        """A block of a chain, ours and OpenSSL's."""
        count = tables.CTS_COUNT // part
        sides = [Side("", tuple((weight, self.work("cts-%d" % size, count))
                                for weight, size in tables.CHAIN))]
        for label in (OPENSSL, MASKED):
            texts = [self.rivals.openssl(label, "cts", size, count) for _, size in tables.CHAIN]
            if all(texts):
                sides.append(Side(label, tuple((weight, text.parts[0][1])
                                               for (weight, _), text in zip(tables.CHAIN, texts))))
        return sides

    def chain(self):
        """A block of AES in a chain of CTS."""
        if self.wants("aes-chain"):
            sides = self.chain_sides()
            self.print_sides("aes-chain", sides, sides_in_turn(sides, self.runs), "ns", 16,
                             {MASKED: tables.CHAIN_GOAL})

    def lanes(self):
        """A password stretched by lanes at the same time beside the command, by the clock."""
        if self.wants(LANES):
            command = self.rivals.command("argon2", "3", "4")
            sides = [alone("", Work((self.rivals.program, LANES, "1")))] + ([command] if command else [])
            figures = sides_in_turn(sides, max(self.runs, LANE_RUNS), statistics.median, CLOCK)
            self.print_sides(LANES, sides, figures, "ms")

    def turns(self):
        """Calls of a machine that threads share beside a sum under a mutex, by processor time and the clock.
        """
        for many in THREADS:
            name = "turn-%d" % many
            if not self.wants(name):
                continue
            rival = self.rivals.mutex(many, tables.TURN_CALLS)
            sides = [alone("", self.work(name, tables.TURN_CALLS))] + ([rival] if rival else [])
            goals = {tables.MUTEX: tables.TURN_GOAL} if many == THREADS[-1] else {}
            runs = max(self.runs, tables.TURN_RUNS)
            self.print_sides(name, sides, sides_in_turn(sides, runs, statistics.median), goals=goals)
            self.print_sides(name + ".clock", sides, sides_in_turn(sides, runs, statistics.median, CLOCK))

    def shared(self):
        """Calls of threads on one mount: beside the bare call, and by the clock beside one thread's."""
        for family, count, bare in SHARED:
            if not any(self.wants("%s-%d" % (family, many)) for many in THREADS):
                continue
            ours = [alone("one-thread" if many == 1 else "", self.work("%s-%d" % (family, many), count))
                    for many in THREADS]
            for many, side in zip(THREADS, ours):
                sides = [side, alone(bare[0], self.work(*bare))]
                self.print_sides("%s-%d" % (family, many), sides, sides_in_turn(sides, self.runs))
            first, *others = sides_in_turn(ours, self.runs, min, CLOCK)
            for many, nanos in zip(THREADS, (first, *others)):
                self.rows.row("%s-%d.clock" % (family, many), nanos, "ns", 0, "one-thread", first)

    def threads(self):
        """All calls in turn."""
        names = ["%s-%d" % (family, many) for family in ("turn", *(family for family, *_ in SHARED))
                 for many in THREADS]
        if not any(self.wants(name) for name in (*names, STATUS[0], STATUS_AGAIN[0])):
            return
        self.rows.section("threads: turn-N by the median of %d runs or more; .clock by the clock"
                          % tables.TURN_RUNS)
        for name, count in (STATUS, STATUS_AGAIN):
            if self.wants(name):
                self.print_sides(name, [], sides_in_turn([alone("", self.work(name, count))], self.runs))
        self.turns()
        self.shared()

    def lengths(self):
        """How the time grows with the length."""
        kernels = [tables.Kernel("%s-%d" % (family, size), total // size, 1, size)
                   for family, sizes, total in LENGTHS for size in sizes]
        self.table("lengths", kernels)


def measure(kernels):
    """All kernels by time."""
    kernels.table("names", tables.NAMES + tables.NAME_GROWTH + tables.NAMES_ALONE)
    kernels.table("files", tables.FILES)
    kernels.table("ciphers", tables.CIPHERS)
    kernels.chain()
    kernels.lanes()
    kernels.threads()
    kernels.table("scripts", tables.SCRIPT_KERNELS)
    kernels.lengths()
