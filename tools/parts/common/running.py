"""The program that is checked, and a run of it."""
import os
import pty
import subprocess
import threading

from parts import TOP

PROGRAM = os.path.join(TOP, "crates", "fscrypt_cli", "out", "fscrypt_cli")
ZEROS = "0" * 64
SERIAL = ["replay", "--serial", "--seed", ZEROS]
THREADED = ["replay", "--seed", ZEROS]
LINKED = ["replay-linked", "--serial", "--seed", ZEROS]
LINKED_THREADED = ["replay-linked", "--seed", ZEROS]
SECONDS = 120


def run(words, given=b"", program=PROGRAM, **more):
    """Runs the program and returns its status, what it wrote and what it reported."""
    source = {} if "stdin" in more else {"input": given}
    sink = {} if "stdout" in more else {"stdout": subprocess.PIPE}
    ended = subprocess.run([program, *words], stderr=subprocess.PIPE, timeout=SECONDS, check=False,
                           **source, **sink, **more)
    return ended.returncode, ended.stdout or b"", ended.stderr


def run_at_terminal(words, given=b"", program=PROGRAM, **more):
    """The same with standard error on a terminal, which makes a carriage return and a line feed of each line
    feed."""
    ours, theirs = pty.openpty()
    told = []
    reader = threading.Thread(target=lambda: told.extend(pieces(ours)))
    reader.start()
    try:
        ended = subprocess.run([program, *words], input=given, stdout=subprocess.PIPE, stderr=theirs,
                               timeout=SECONDS,
                               check=False, **more)
    finally:
        os.close(theirs)
        reader.join(timeout=SECONDS)
        os.close(ours)
    return ended.returncode, ended.stdout, b"".join(told)


def pieces(terminal):
    """The pieces that a terminal shows until its last writer has closed it."""
    while True:
        try:
            piece = os.read(terminal, 65536)
        except OSError:
            return
        if not piece:
            return
        yield piece


def scripts():
    """The paths of all scripts of examples/, and of its rows."""
    for folder in ("examples", os.path.join("examples", "rows")):
        for name in sorted(os.listdir(os.path.join(TOP, folder))):
            if name.endswith(".fsc"):
                yield os.path.join(TOP, folder, name)
