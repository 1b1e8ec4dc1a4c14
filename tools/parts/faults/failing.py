"""A program in which some allocations fail."""
import os
import struct
import subprocess

from parts import PARTS
from parts.common.running import run


class Failing:
    """Runs a program in which some allocations fail. It needs cc and a C library that is linked
    dynamically."""

    def __init__(self, program, room):
        self.program = program
        self.library = os.path.join(room, "faults.so")
        self.counts = os.path.join(room, "counts")
        source = os.path.join(PARTS, "faults", "faults.c")
        subprocess.run(["cc", "-O2", "-shared", "-fPIC", "-o", self.library, source, "-ldl"], check=True)

    def run(self, words, given, first, last, how=run):
        """Runs it while these allocations fail: its status, output and errors, and how many were asked for
        and failed."""
        with open(self.counts, "wb") as file:
            file.write(bytes(16))
        told = {"LD_PRELOAD": self.library, "FSC_FAIL_COUNTS": self.counts,
                "FSC_FAIL_FROM": str(first), "FSC_FAIL_TO": str(last)}
        ended = how(words, given, program=self.program, env={"PATH": os.environ["PATH"], **told})
        with open(self.counts, "rb") as file:
            return (*ended, *struct.unpack("<2Q", file.read()))
