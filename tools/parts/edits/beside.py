"""What `tools/edits` takes from an `rt ci` that runs beside it: word of each crate that is proved, its
library, and the processors that the proofs leave idle.

Used by `tools/edits` and `.ci/run`; nothing here knows of edits.
"""
import os
import re
import shutil
import threading
import time
from pathlib import Path

# How `rt ci` reports a crate that it proved, or proved earlier; and how the gate reports how `rt ci` ended.
PROVED = re.compile(r"^rt: (\w+) (?:proved$|is kept: )", re.M)
ENDED = re.compile(r"^gate: rt ci (passed|failed)$", re.M)
# How long the processors are looked at, in seconds, and the part of one that must have been idle; and how
# often the file is read.
LOOK, IDLE, OFTEN = 2.0, 0.7, 0.5
# What must be free of the memory, in bytes, for a check to begin beside the proofs.
MEMORY = 5_000_000_000


def idle_time():
    """The time that the processors have been idle or waited for the disk, in seconds of one."""
    told = Path("/proc/stat").read_text(encoding="utf-8").split("\n")[0].split()
    return (int(told[4]) + int(told[5])) / os.sysconf("SC_CLK_TCK")


def free_memory():
    """The memory that is free, in bytes."""
    told = re.search(r"^MemAvailable:\s+(\d+)", Path("/proc/meminfo").read_text(encoding="utf-8"), re.M)
    return int(told[1]) * 1024


class Beside:
    """An `rt ci` whose lines go to this file, and a folder of this run alone for the libraries that it
    proved."""

    def __init__(self, file, top, room):
        self.file, self.top, self.room, self.seen, self.end = Path(file), top, Path(
            room), 0, threading.Event()
        self.has_failed, self.parent = False, os.getppid()

    def told(self):
        """The crates that `rt ci` has reported as proved since the last call, or None where it has failed, or
        what began this run is gone."""
        if os.getppid() != self.parent or not self.file.is_file():
            return self.fail()
        with open(self.file, "rb") as file:
            file.seek(self.seen)
            whole, end, _ = file.read().rpartition(b"\n")
        self.seen += len(whole + end)
        lines = whole.decode(errors="replace")
        ended = ENDED.search(lines)
        if ended and ended[1] == "failed":
            return self.fail()
        if ended:
            self.end.set()
        return PROVED.findall(lines)

    def fail(self):
        """Notes that all is over."""
        self.has_failed = True
        self.end.set()

    def take(self, name):
        """Takes a crate's library, by links where these can be made: when `rt ci` ends it puts back what was
        there before."""
        made = self.top / "crates" / name / "out" / "rlib" / f"{name}.rlib"
        if made.is_dir():
            shutil.copytree(made, self.room / name / f"{name}.rlib", copy_function=link_or_copy,
                            dirs_exist_ok=True)

    def folder(self, name):
        """Where a crate's library is for this run."""
        return self.room / name

    def await_idle(self):
        """Waits until a processor is idle and memory is free, or the proofs have ended."""
        while not self.end.is_set():
            before, began = idle_time(), time.monotonic()
            self.end.wait(LOOK)
            if idle_time() - before >= IDLE * (time.monotonic() - began) and free_memory() >= MEMORY:
                return


def link_or_copy(one, other):
    try:
        os.link(one, other)
    except FileExistsError:
        pass
    except OSError:
        shutil.copy2(one, other)
