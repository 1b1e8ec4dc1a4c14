"""What tools/speed measures: the kernels, how often a run does their work, their rivals and the goals."""
from typing import NamedTuple

# Names of rivals as they are printed, with what they are.
OPENSSL, MASKED, SHUFFLES = "openssl", "openssl-no-aes", "same-shuffles"
MOUNT, MUTEX, COMMAND, REPLAY = "plain-mount", "mutex", "command", "replay"
RIVALS = {
    OPENSSL: "OpenSSL's library as it is",
    MASKED: "OpenSSL's library with the processor's AES instructions masked",
    SHUFFLES: "the same shuffles in C, gcc -O3 -march=x86-64-v2",
    MOUNT: "the plain mount in C, gcc -O3 -march=x86-64-v2",
    MUTEX: "a sum in C under a pthread mutex, gcc -O2",
    COMMAND: "the command b2sum or argon2",
    REPLAY: "the replay of the same script",
    "calls-alone": "the mount's calls in the same run",
    "log": "the bytes of the run's log",
}


class Goal(NamedTuple):
    """The goal of a row: the most of its ratio or of ours, or the least of ours in MB/s."""
    kind: str
    bound: float


def ratio(bound):
    return Goal("ratio", bound)


class Kernel(NamedTuple):
    """A kernel of fsc_speed: how often a run does its work, how many calls that has, its bytes if a rate is
    printed, its rivals, each a label with what that rival is given, and goals by rival. A rival that is a
    tuple of parts, each a weight, a kernel and its count, is ours too."""
    name: str
    count: int
    per: int = 1
    size: int = 0
    rivals: tuple = ()
    goals: dict = {}


def by_openssl(work, size):
    return ((OPENSSL, (work, size)), (MASKED, (work, size)))


SCATTERED = "wipe-scattered-65536"
AES_BLOCK, SEALED, OPENED = ("aes-block", 400000), ("xts-4096", 1500), ("xts-back-4096", 1500)

CIPHERS = [
    Kernel(*AES_BLOCK, 1, 16, ((SHUFFLES, ()), *by_openssl("ecb", 16))),
    Kernel("aes-block-back", 400000, 1, 16, by_openssl("ecb-back", 16)),
    Kernel(*SEALED, 1, 4096, by_openssl("xts", 4096), {MASKED: ratio(1.0)}),
    Kernel(*OPENED, 1, 4096, by_openssl("xts-back", 4096), {MASKED: ratio(1.05)}),
    Kernel("cts-32", 150000, 1, 32, by_openssl("cts", 32), {MASKED: ratio(0.6)}),
    Kernel("cts-255", 40000, 1, 255, by_openssl("cts", 255), {MASKED: ratio(1.0)}),
    Kernel("seal-512", 1500, 1, 4096, (("seal-4096", ((1, "seal-4096", 1500),)),)),
    Kernel("encrypt-name-32", 100000, 1, 0, (("two-blocks", ((2, *AES_BLOCK),)),)),
    Kernel("nokey-255", 20000),
    Kernel("hkdf-64", 40000),
    Kernel("sha512-192", 200000, 1, 192, ((OPENSSL, ("sha512", 192)),)),
    Kernel("file-key", 40000, 1, 0, (("mode-key", ((1, "mode-key", 40000),)),)),
    Kernel("wipe-zeros-65536", 10000, 1, 65536, ((SCATTERED, ((1, SCATTERED, 10000),)),),
           {SCATTERED: ratio(1.1)}),
    Kernel("blake2b-64m", 1, 1, 67108864, ((COMMAND, ("b2sum", "{zeros}")),)),
    Kernel("argon2id-1-65536-1", 1, 1, 0, ((COMMAND, ("argon2", "1", "1")),)),
    Kernel("argon2id-3-65536-4", 1, 1, 0, ((COMMAND, ("argon2", "3", "4")),)),
]
# A block of a chain, by two lengths of CTS that differ by eight blocks.
CHAIN, CHAIN_GOAL = ((1 / 8, 255), (-1 / 8, 127)), ratio(1.0)
CTS_COUNT = 40000

# Calls on names; of stat-cold a look-up and the drop before it count as one.
NAMES = [
    Kernel("mkdir", 2000, 128, 0, ((MOUNT, ()),), {MOUNT: ratio(1.05)}),
    Kernel("unlink", 2000, 128, 0, ((MOUNT, ()),), {MOUNT: ratio(1.05)}),
    Kernel("stat-warm", 5000, 64, 0, ((MOUNT, ()),)),
    Kernel("stat-round", 1000, 320, 0, ((MOUNT, ()),), {MOUNT: ratio(1.05)}),
    Kernel("stat-cold", 1000, 64, 0, ((MOUNT, ()),), {MOUNT: ratio(1.15)}),
    Kernel("rename", 2000, 64, 0, ((MOUNT, ()),), {MOUNT: ratio(1.05)}),
    Kernel("list-plain", 500, 1, 0, ((MOUNT, ()),)),
    Kernel("list-encrypted", 100, 1, 0, ((MOUNT, ()),), {MOUNT: ratio(0.7)}),
]
SIZES = (16, 64, 256, 1024, 4096)
NAME_GROWTH = [Kernel("%s-%d" % (family, many), count, per, 0, ((MOUNT, ()),))
               for family, count, per in (("mkdir", 1000, 128), ("unlink", 1000, 128), ("stat", 2000, 64))
               for many in SIZES]
NAMES_ALONE = [Kernel("walk-3-plain", 300000), Kernel("walk-3-keyed", 100000), Kernel("walk-3-locked", 2000)]

FILES = [
    Kernel("read-4096", 5000, 1, 4096, (("xts-alone", ((1, *OPENED),)),)),
    Kernel("write-4096", 5000, 1, 4096, (("xts-alone", ((1, *SEALED),)),)),
    Kernel("write-1", 5000, 1, 0, (("xts-alone", ((1, *OPENED), (1, *SEALED))),)),
    Kernel("open-close", 100000),
    Kernel("entry-get-16", 2000000), Kernel("entry-get-4096", 50000),
    Kernel("entry-put-16", 1000000), Kernel("entry-put-4096", 20000),
    Kernel("claims-600", 20), Kernel("claims-38400", 1),
]
NODE_COUNTS = (("node-get-16", 2000000), ("node-get-256", 2000000), ("node-get-4096", 1000000),
               ("node-get-65536", 1000000))

# Calls in turn: threads, of which the last has a goal; that many calls in all, and how many runs at least.
THREADS = (1, 2, 4)
TURN_CALLS, TURN_RUNS, TURN_GOAL = 4000000, 15, ratio(1.0)
STATUS = ("status-4096", 2000000)
STATUS_AGAIN = ("status-again", 2000000)
SHARED = (("shared-status", 2000000, STATUS_AGAIN), ("shared-read", 20000, ("read-4096", 5000)))

# Whole runs on texts: what is reported in MB/s, and the goal.
TEXT_RUNS = (("fsc-check", False, ratio(3)), ("fsc-dump", True, Goal("rate", 150)),
             ("fsc-inspect", True, Goal("rate", 65)))
SCRIPT_KERNELS = [Kernel("read-script", 10, 1, 939965), Kernel("entry-line", 20000, 1, 4265)]
SCRIPT_LINES = 20000
LINE_GOAL, MEMORY_GOAL = Goal("ours", 5000), ratio(5)

# What is counted in instructions: kernels, of each this part of a timed run.
COUNTED_PART = 20
COUNTED = [kernel for kernel in CIPHERS if kernel.name in ("aes-block", "xts-4096", "xts-back-4096", "cts-32",
                                                           "cts-255")]
COUNTED += NAMES + NAME_GROWTH + [kernel for kernel in FILES if kernel.name.startswith(("open", "entry"))]
FLAT_GOAL = ratio(1.05)

# How the time grows with the length: family, lengths, bytes in all.
LENGTHS = (("xts", (16, 64, 256, 1024, 4096, 16384, 65536), 4000000),
           ("cts", (16, 17, 32, 33, 64, 128, 255), 3000000))


def kernel_names():
    """The names of all rows, which docs/SPEED.md may quote."""
    kernels = CIPHERS + NAMES + NAME_GROWTH + NAMES_ALONE + FILES + SCRIPT_KERNELS
    names = {kernel.name for kernel in kernels} | {name for name, _ in NODE_COUNTS}
    names |= {part[1] for kernel in kernels for _, parts in kernel.rivals for part in parts
              if isinstance(part, tuple)}
    names |= {"%s-%d" % (family, many) for family in ("turn", "shared-status", "shared-read")
              for many in THREADS}
    names |= {name for name, *_ in TEXT_RUNS} | {STATUS[0], STATUS_AGAIN[0], "aes-chain", "script-line"}
    return names | {"memory-long-lines", "memory-short-lines", "argon2id-lanes-3-65536-4", "fsc-gen",
                    "fsc-unlock"}
