"""The scripts of whole runs, and what a run of the program on one takes."""
import hashlib
import os
import subprocess

from parts.speed.tables import SCRIPT_LINES

FILES, FILE_BYTES, FILL_BYTES = 64, 1048576, 65536
CONTENTS = FILES * FILE_BYTES
PIECE = 65536
RAW = bytes(range(64)).hex()
ENCRYPTED = ["caller 1000", "mkdir /e", "add-key " + RAW,
             "set-policy /e id:8699c2c53707405da5aba5ae4d8583c0 32"]
SEED = ("--seed", "0" * 64)
SERIAL = ("replay", "--serial", *SEED)
UNLOCKED = ("caller 1", "protector p pass:1:65536:1:password", "policy-new docs p pass:password")


def lines_of(lines):
    """A script of these lines."""
    return "".join(line + "\n" for line in lines).encode()


def calls_on_names():
    """A script of as many lines as one may have: files made, looked up, opened, closed and removed."""
    lines = [*ENCRYPTED]
    for handle in range(SCRIPT_LINES // 5):
        name = "/e/name-%d" % handle
        lines += ["create " + name, "stat " + name, "open " + name, "close %d" % handle, "unlink " + name]
    return lines_of(lines[:SCRIPT_LINES])


def key_statuses(count):
    """A script of that many lines: a caller, and for each further line the status of a key of its own."""
    keys = (hashlib.md5(b"%d" % line, usedforsecurity=False).hexdigest() for line in range(1, count))
    return lines_of(["caller 1000", *("key-status id:" + key for key in keys)])


def short_lines():
    """A script of as many lines as one may have, each as short as one with a call can be."""
    return lines_of(["caller 1000", *["stat /"] * (SCRIPT_LINES - 1)])


def full_disk():
    """A script that fills a disk: 64 MiB of contents under a policy."""
    lines = [*ENCRYPTED]
    for file in range(FILES):
        lines += ["create /e/%d" % file, "open /e/%d" % file]
        lines += ["fill %d %d %d %d" % (file, at, FILL_BYTES, file)
                  for at in range(0, FILE_BYTES, FILL_BYTES)]
    return lines_of(lines)


def unlocks(count):
    """A script that opens a policy that many times by a passphrase."""
    return lines_of([*UNLOCKED, *["unlock docs p pass:password"] * count])


def written(folder, name, text):
    """The path of a file of this text."""
    path = os.path.join(folder, name)
    with open(path, "wb") as out:
        out.write(text)
    return path


def peak(program, words, given):
    """The most memory that a run has had while its log is read, in bytes, and how many bytes the log has. The
    system's count of a program that has ended would have that of the program that started it."""
    most = size = 0
    with open(given, "rb") as source:
        run = subprocess.Popen([program, *words], stdin=source, stdout=subprocess.PIPE)
    while piece := os.read(run.stdout.fileno(), PIECE):
        size += len(piece)
        with open("/proc/%d/status" % run.pid, encoding="ascii") as status:
            most = max([most] + [int(line.split()[1]) * 1024 for line in status if line.startswith("VmHWM:")])
    run.stdout.close()
    if run.wait():
        raise subprocess.CalledProcessError(run.returncode, [program, *words])
    return most, size
