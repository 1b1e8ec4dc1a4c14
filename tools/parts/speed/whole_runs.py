"""Whole runs of the program: by time, memory and instructions."""
import os
import subprocess

from parts.speed import scripts, tables
from parts.speed.scripts import SCRIPT_LINES, SEED, SERIAL
from parts.speed.timing import CLOCK, Side, Work, alone, sides_in_turn, taken

UNLOCKS = 4
CALLS = "mount_shared::answers::answer"


class WholeRuns:
    """Measures whole runs whose names begin with the word, and prints them."""

    def __init__(self, program, folder, rows, word):
        self.program, self.folder, self.rows, self.word = program, folder, rows, word

    def wants(self, name):
        return name.startswith(self.word)

    def path(self, name, text):
        return scripts.written(self.folder, name, text)

    def work(self, words, given):
        return Work((self.program, *words), 1, 1, (), given)

    def output(self, words, given):
        """What a run writes."""
        return taken([self.program, *words], None, given, subprocess.PIPE)[1]

    def generated(self, runs):
        """A generated workload, by processor time and by the clock."""
        if self.wants("fsc-gen"):
            side = alone("", Work((self.program, "gen", "1", "--summary")))
            self.rows.row("fsc-gen", *sides_in_turn([side], runs), "ms")
            self.rows.row("fsc-gen.clock", *sides_in_turn([side], runs, min, CLOCK), "ms")

    def unlock(self, rivals, runs):
        """An unlock by a passphrase beside the command that stretches it."""
        if not self.wants("fsc-unlock"):
            return
        works = [self.work(SERIAL, self.path("unlocks-%d" % count, scripts.unlocks(count)))
                 for count in (UNLOCKS, 0)]
        rival = rivals.command("argon2", "1", "1")
        sides = [Side("", ((1 / UNLOCKS, works[0]), (-1 / UNLOCKS, works[1])))] + ([rival] if rival else [])
        ours, *theirs = sides_in_turn(sides, runs)
        self.rows.row("fsc-unlock", ours, "ms", 0, *([rival.label, *theirs] if rival else []))

    def texts(self, runs):
        """A long log checked, and a full disk dumped and listed with its key, beside the replay."""
        for name, has_rate, goal in tables.TEXT_RUNS:
            if not self.wants(name):
                continue
            script = scripts.calls_on_names() if name == "fsc-check" else scripts.full_disk()
            given = self.path("script", script)
            replay = self.work(SERIAL, given)
            ours = self.work(("dump", *SEED), given)
            if name == "fsc-check":
                certificate = script + b"---\n" + self.output(SERIAL, given)
                ours = self.work(("check", *SEED), self.path("certificate", certificate))
            if name == "fsc-inspect":
                image = self.path("image", self.output(("dump", *SEED), given))
                ours = self.work(("inspect", "raw:" + scripts.RAW), image)
            nanos, theirs = sides_in_turn([alone("", ours), alone(tables.REPLAY, replay)], runs)
            self.rows.row(name, nanos, "ms", scripts.CONTENTS if has_rate else 0, tables.REPLAY, theirs, goal)

    def memory(self):
        """The memory of a run of as many lines as a script may have, beside the bytes of its log."""
        few = self.path("few", scripts.key_statuses(1))
        for name, text in (("memory-long-lines", scripts.key_statuses(SCRIPT_LINES)),
                           ("memory-short-lines", scripts.short_lines())):
            if self.wants(name):
                most, log = scripts.peak(self.program, SERIAL, self.path(name, text))
                least, _ = scripts.peak(self.program, SERIAL, few)
                self.rows.row(name, most - least, "bytes", 0, "log", log, tables.MEMORY_GOAL)

    def line_work(self, lines):
        """The replay of a script of that many lines."""
        return self.work(SERIAL, self.path("lines-%d" % lines, scripts.key_statuses(lines)))

    def line(self, counter):
        """A line of a script in instructions, without those of memset, beside those of the mount's calls
        alone."""
        if not self.wants("script-line"):
            return
        full, none = (self.line_work(lines) for lines in (SCRIPT_LINES, 1))
        calls = SCRIPT_LINES - 1
        inside, stored = counter.inside(full, CALLS), counter.stored(full)
        self.rows.row("script-line", (counter.work(full) - stored - counter.work(none)) / calls, "instr", 0,
                      "calls-alone", inside and inside / calls, tables.LINE_GOAL)


def measure(whole, rivals, runs):
    """Whole runs by time and memory, if the program is there."""
    names = ("fsc-gen", "fsc-unlock", "memory-long-lines", "memory-short-lines",
             *(name for name, *_ in tables.TEXT_RUNS))
    if os.access(whole.program, os.X_OK) and any(whole.wants(name) for name in names):
        whole.rows.section("whole runs")
        whole.generated(runs)
        whole.unlock(rivals, runs)
        whole.texts(runs)
        whole.memory()
