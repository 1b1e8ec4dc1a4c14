"""The instructions that the processor does for a work, as valgrind's callgrind counts them. They don't
depend on what else the machine does."""
import os
import re
import shutil
import subprocess

COLLECTED = re.compile(r"Collected : (\d+)")
# A function in a report: its instructions, and its name after the file's and before the program's.
FUNCTION = re.compile(r"^ *([\d,]+) \( *[\d.]+%\) +[^:\n]*:(.+?)(?: \[[^\]\n]*\])?$", re.MULTILINE)


class Counter:
    """Counts instructions. valgrind can't read the newest debug information, so it is left out of a copy."""

    def __init__(self, folder):
        self.folder, self.copies, self.counts = folder, {}, {}

    @staticmethod
    def is_there():
        return shutil.which("valgrind") is not None and shutil.which("strip") is not None

    def copy(self, program):
        """A program without debug information."""
        if program not in self.copies:
            path = os.path.join(self.folder, "counted-%d" % len(self.copies))
            subprocess.run(["strip", "-g", "-o", path, program], check=True)
            self.copies[program] = path
        return self.copies[program]

    def run(self, work, count, profile="/dev/null"):
        """The instructions of a run."""
        program, *words = work.command(count)
        command = ["valgrind", "--tool=callgrind", "--callgrind-out-file=" + profile, self.copy(program),
                   *words]
        source = open(work.given, "rb") if work.given else subprocess.DEVNULL
        try:
            ended = subprocess.run(command, stdin=source, stdout=subprocess.DEVNULL,
                                   stderr=subprocess.PIPE, env=work.environment(), text=True, check=True)
        finally:
            if work.given:
                source.close()
        return int(COLLECTED.search(ended.stderr)[1])

    def work(self, work):
        """The instructions of one of what is measured."""
        if work not in self.counts:
            none = self.run(work, 0) if work.is_counted() else 0
            self.counts[work] = (self.run(work, work.count) - none) / work.count / work.per
        return self.counts[work]

    def side(self, side):
        return sum(weight * self.work(work) for weight, work in side.parts)

    def functions(self, work, count, is_inclusive=False):
        """The instructions of a run by function; inclusive: with those of the functions that it calls."""
        profile = os.path.join(self.folder, "profile")
        self.run(work, count, profile)
        inclusive = "yes" if is_inclusive else "no"
        command = ["callgrind_annotate", "--inclusive=" + inclusive, "--threshold=100", profile]
        report = subprocess.run(command, stdout=subprocess.PIPE, stderr=subprocess.DEVNULL, text=True,
                                check=True).stdout
        counts = {}
        for number, name in FUNCTION.findall(report):
            counts[name] = counts.get(name, 0) + int(number.replace(",", ""))
        return counts

    def inside(self, work, function):
        """The instructions of the calls of a function of the program in a run, or None if it has none."""
        counts = self.functions(work, work.count, True)
        return max((count for name, count in counts.items() if name.startswith(function)), default=None)

    def stored(self, work):
        """The instructions of memset in a run. It repeats one instruction, which is counted once a byte."""
        counts = self.functions(work, work.count)
        return sum(count for name, count in counts.items() if name.startswith("__memset"))
