"""Exit statuses, the note at a terminal, and faults of input and output."""
import os
import pty
import subprocess

from parts import TOP
from parts.common.running import PROGRAM, SERIAL, THREADED, ZEROS, run, run_at_terminal

ONE_KEY = b"caller 1000\nadd-key " + b"07" * 32 + b"\n"
MAX_BYTES, MAX_LINES = 1_048_576, 20_000


def statuses(tally):
    """Each exit status that the command line can show, with the line on standard error."""
    cases = [
        ("--help", ["--help"], b"", 0, b""),
        ("--version", ["--version"], b"", 0, b""),
        ("an empty script", SERIAL, b"", 0, b""),
        ("a seed from the machine", ["replay", "--serial"], ONE_KEY, 0, b""),
        ("no words", [], b"", 2, b"fsc: usage"),
        ("an unknown form", ["frobnicate"], b"", 2, b"fsc: usage"),
        ("a word too many", [*SERIAL, "more"], b"", 2, b"fsc: usage"),
        ("a seed of 63 digits", ["replay", "--serial", "--seed", ZEROS[1:]], b"", 2, b"fsc: usage"),
        ("dump without a seed", ["dump"], b"", 2, b"fsc: usage"),
        ("dump with a seed of 63 digits", ["dump", "--seed", ZEROS[1:]], b"", 2, b"fsc: usage"),
        ("dump in turns", ["dump", "--serial", "--seed", ZEROS], b"", 2, b"fsc: usage"),
        ("an image by an identifier", ["inspect", "id:" + ZEROS[:32]], b"", 2, b"fsc: usage"),
        ("an image by 31 bytes", ["inspect", "raw:" + ZEROS[:62]], b"", 2, b"fsc: usage"),
        ("an image by 65 bytes", ["inspect", "raw:" + ZEROS * 2 + "00"], b"", 2, b"fsc: usage"),
        ("an image by a key and a word", ["inspect", "raw:" + ZEROS, "more"], b"", 2, b"fsc: usage"),
        ("an image by the longest key", ["inspect", "raw:" + ZEROS * 2], b"fsc-image 1\nnode 0 dir -\n", 0,
         b""),
        ("dump of a command that is none", ["dump", "--seed", ZEROS], b"caller 0\nmkdri /a\n", 3,
         b"fsc: bad line 2"),
        ("dump of a line too many", ["dump", "--seed", ZEROS], b"\n" * (MAX_LINES + 1), 7,
         b"fsc: input too long"),
        ("two mounts in threads", ["replay-linked", "--seed", ZEROS], b"", 0, b""),
        ("two mounts without a seed", ["replay-linked", "--serial"], b"", 2, b"fsc: usage"),
        ("two mounts and a command that is none", ["replay-linked", "--serial", "--seed", ZEROS],
         b"caller 0\nmkdri /a\n", 3, b"fsc: bad line 2"),
        ("two mounts and a line too many", ["replay-linked", "--serial", "--seed", ZEROS],
         b"\n" * (MAX_LINES + 1), 7, b"fsc: input too long"),
        ("a word that is no text", ["replay", b"\xff"], b"", 2, b"fsc: usage"),
        ("a command that is none", SERIAL, b"caller 0\nmkdri /a\n", 3, b"fsc: bad line 2"),
        ("no line feed at the end", SERIAL, b"caller 0", 3, b"fsc: bad line 1"),
        ("a ninth caller", SERIAL, b"caller 0\n" * 9, 3, b"fsc: bad line 9"),
        ("as many bytes as may be", SERIAL, b"#" * (MAX_BYTES - 1) + b"\n", 0, b""),
        ("as many bytes without a line feed", SERIAL, b"#" * MAX_BYTES, 3, b"fsc: bad line 1"),
        ("a byte too many", SERIAL, b"#" * MAX_BYTES + b"\n", 7, b"fsc: input too long"),
        ("as many lines as may be", SERIAL, b"\n" * MAX_LINES, 0, b""),
        ("a line too many", SERIAL, b"\n" * (MAX_LINES + 1), 7, b"fsc: input too long"),
    ]
    for what, words, given, wanted, told in cases:
        status, _, line = run(words, given)
        tally.wants(f"{what} ends with {wanted}", status == wanted, f"it ended with {status}")
        tally.wants(f"{what} prints {told.decode()!r}", line.startswith(told) and bool(line) == bool(told),
                    repr(line))


def progress(tally):
    """On a terminal standard error shows each command while it runs, and the log is as without one.

    In turns the lines of two callers are shown in the order of their turns; what is shown of threads may be
    mixed.
    """
    with open(os.path.join(TOP, "examples", "failed-unlock.fsc"), "rb") as file:
        script = file.read()
    two = (b"# two callers\ncaller 0\n\nmkdir /a\n# the second has no comment\nlist /\ncaller 5\ncaller 7\n"
           b"add-key " + b"00" * 32 + b"\n")
    names = [(number, line.split(b" ")[0]) for number,
             line in enumerate(script.splitlines(), 1) if number > 1]
    lines = [b"fsc: line %d: %s" % name for name in names]
    shown_of_two = [b"fsc: line 4: mkdir", b"fsc: line 9: add-key", b"fsc: line 6: list"]
    generated = [b"fsc: command %d of caller %d" % (number, caller) for number in range(2)
                 for caller in range(8)]
    for words, given, wanted in ((SERIAL, script, lines), (THREADED, script, lines),
                                 (SERIAL, two, shown_of_two),
                                 (["gen", "1", "--summary"], b"", generated)):
        what = " ".join(words[:2])
        _, log, plain = run(words, given)
        tally.wants(f"{what} shows nothing where standard error is no terminal", plain == b"", str(plain))
        _, got, text = run_at_terminal(words, given)
        tally.wants(f"{what} has the same log on a terminal", got == log)
        begun = b"".join(b"\r\x1b[K" + line + b"\r\x1b[K" for line in wanted)
        tally.wants(f"{what} shows the line and the verb of each command", text.startswith(begun),
                    str(text[:400]))
        tally.wants(f"{what} shows no more of a script", not given or text == begun, str(text[-400:]))
        tally.wants(f"{what} clears what it showed", text.endswith(b"\r\x1b[K"), str(text[-80:]))


def waiting(tally):
    """At a terminal a line reports that a script is waited for; from a pipe, and of words that are no form,
    none does."""
    for words, wanted in ((SERIAL, True), (["replay"], True), (["replay", "-x"], False),
                          (["gen", "0"], False)):
        ours, theirs = pty.openpty()
        try:
            ended = subprocess.Popen([PROGRAM, *words], stdin=theirs, stdout=subprocess.DEVNULL,
                                     stderr=subprocess.PIPE)
            os.close(theirs)
            os.write(ours, b"\x04")
            _, told = ended.communicate(timeout=120)
        finally:
            os.close(ours)
        what = f"{' '.join(words[:2])} at a terminal prints {'' if wanted else 'not '}that it waits"
        tally.wants(what, (b"fsc: waiting for a script" in told) == wanted, repr(told))


def faults(tally):
    """Reading from a directory, writing to a full device and to a pipe without a reader."""
    folder = os.open(TOP, os.O_RDONLY)
    status, got, told = run(SERIAL, stdin=folder)
    os.close(folder)
    tally.wants("reading a directory ends with 4",
                (status, got) == (4, b"") and told.startswith(b"fsc: read fault\nfsc: "))
    with open("/dev/full", "wb") as full:
        status, _, told = run(SERIAL, ONE_KEY, stdout=full)
    tally.wants("writing to a full device ends with 5",
                status == 5 and told.startswith(b"fsc: write fault\nfsc: what was written"))
    end, pipe = os.pipe()
    os.close(end)
    status, _, told = run(SERIAL, ONE_KEY, stdout=pipe)
    os.close(pipe)
    tally.wants("writing to a closed pipe ends with 5",
                status == 5 and told.startswith(b"fsc: write fault\nfsc: the output has no reader"))


CHECKS = (statuses, progress, waiting, faults)
