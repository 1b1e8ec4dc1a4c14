"""What a measure was made on: the machine, the compilers and the rivals."""
import os
import platform
import shutil
import subprocess
import time

# What prints its version.
VERSIONS = (("rt", "version"), ("gcc", "--version"), ("openssl", "version"), ("valgrind", "--version"),
            ("b2sum", "--version"))


def processor():
    """The processor's name and model, where the system reports them."""
    try:
        with open("/proc/cpuinfo", encoding="utf-8") as lines:
            pairs = dict(line.split(":", 1) for line in lines.read().partition("\n\n")[0].splitlines())
    except OSError:
        return platform.processor() or platform.machine()
    known = {name.strip(): value.strip() for name, value in pairs.items()}
    return "%s, family %s, model %s, stepping %s" % tuple(
        known.get(name, "?") for name in ("model name", "cpu family", "model", "stepping"))


def kit_compiler():
    """The compiler of the kit, which ours are compiled by."""
    home = os.path.dirname(os.path.dirname(os.path.realpath(shutil.which("rt") or "")))
    return version([os.path.join(home, "toolchain", "bin", "clang"), "--version"])


def version(words):
    """The first line of what a command prints of its version, or None."""
    try:
        ended = subprocess.run(words, stdout=subprocess.PIPE, stderr=subprocess.DEVNULL, text=True,
                               check=False)
    except OSError:
        return None
    return ended.stdout.splitlines()[0] if ended.stdout else None


def print_machine(runs):
    """The head of the output."""
    print("machine    %s, %d processors, %s" % (processor(), os.cpu_count(), platform.release()))
    for words in VERSIONS:
        print("%-10s %s" % (words[0], version(words) or "not installed"))
    print("%-10s %s" % ("rt's clang", kit_compiler() or "not found"))
    print("runs       %d, ours and rivals in turn; of each the least processor time, less that of no work"
          % runs)
    print("begun      %s, load %s" % (time.strftime("%d %B %Y %H:%M"), " ".join(
        "%.2f" % load for load in os.getloadavg())))


def print_end(begun, other):
    """How long it took, and what else the processors did meanwhile."""
    others, stolen = other.parts()
    print("\nended      after %.0f s; other programs took %.2f %% of the processors' time, the hypervisor"
          " %.2f %%" % (time.monotonic() - begun, 100 * others, 100 * stolen))
