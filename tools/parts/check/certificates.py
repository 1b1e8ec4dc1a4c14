"""Logs that are checked: those of the examples, with bytes changed, of callers in threads, and those of
which an answer is known."""
import os
import random

from parts import TOP
from parts.common.running import SERIAL, THREADED, ZEROS, run, scripts

CHECK = ["check", "--seed", ZEROS]
REFUSED, USAGE, BAD_LINE, TOO_LONG = 1, 2, 3, 7
CHANGES, LONG_LOG, THREADED_LOGS = 200, 20_000, 100
MAX_BYTES, MAX_PART, MAX_LINES = 67_108_864, 1_048_576, 20_000
IDENTIFIER = "8699c2c53707405da5aba5ae4d8583c0"


def checked(script, log, words=CHECK):
    """The status of a check, what was written, and the place where the log was refused."""
    status, got, told = run(words, script + b"---\n" + log)
    head = b"fsc: refused at "
    place = int(told.split(b"\n")[0][len(head):]) if status == REFUSED and told.startswith(head) else None
    return status, got, place


def read(path):
    """The bytes of a file."""
    with open(path, "rb") as file:
        return file.read()


def row(name):
    """The script of a row, and its log."""
    path = os.path.join(TOP, "examples", "rows", name)
    return read(path + ".fsc"), read(path + ".log")


def examples_certified(tally):
    """Each example and row after its script, and with one byte changed, refused at its line or before
    it."""
    draws = random.Random(18)
    for path in scripts():
        script, log = read(path), read(path[:-4] + ".log")
        tally.wants(f"the log of {path} is one", checked(script, log) == (0, b"", None))
        for _ in range(CHANGES if len(log) < LONG_LOG else CHANGES // 10):
            place = draws.randrange(len(log) or 1)
            byte = draws.choice([byte for byte in b"0123456789abcdef =\nx"
                                 if log[place:place + 1] != bytes([byte])])
            changed = log[:place] + bytes([byte]) + log[place + 1:]
            status, got, at = checked(script, changed)
            well = (status, got) == (REFUSED, b"") and at is not None and at <= log[:place].count(b"\n")
            tally.wants(f"the log of {path} with byte {place} changed to {byte} is refused at its line or "
                        f"before", well, str((status, at)))


def one_key(tally):
    """Changes of the log of one key."""
    script, log = row("one_key_added_and_removed")
    lines = log.splitlines(keepends=True)
    wanting = [lines[0].split(b" = ")[0] + b" = refused no-memory\n",
               lines[1].replace(b"present self=1 users=1", b"absent self=0 users=0"),
               lines[2].split(b" = ")[0] + b" = refused no-key\n", lines[3]]
    for what, changed, place in (
            ("with its last status changed", lines[:3] + [lines[3].replace(b"absent", b"present")], 3),
            ("without its last line", lines[:3], 3),
            ("with its last line twice", lines + lines[3:], 4),
            ("without its last line feed", lines[:3] + [lines[3][:-1]], 3),
            ("without a line", [], 0), ("with an empty line in front", [b"\n", *lines], 0),
            ("with a removal that wants memory",
             lines[:2] + [wanting[2].replace(b"no-key", b"no-memory"), lines[3]], 2),
            ("with an addition that wants memory", wanting, None),
            ("with a carriage return", [*lines[:3], lines[3][:-1] + b"\r\n"], 3)):
        wanted = (0, b"", None) if place is None else (REFUSED, b"", place)
        tally.wants(f"the log of one key {what} ends so", checked(script, b"".join(changed)) == wanted,
                    str(checked(script, b"".join(changed))))
    status, _, place = checked(script, log, ["check", "--seed", "1" * 64])
    tally.wants("the log of one key is one of each seed", (status, place) == (0, None))


def two_callers(tally):
    """The three logs of two callers, and one that is none; a session's log without its notes, and by another
    seed."""
    raw = bytes(range(64)).hex()
    script = (f"caller 1000\nadd-key {raw}\ncaller 1001\nkey-status raw:{raw}\nkey-status raw:{raw}\n"
              f"".encode())
    added = f"0 1000 add-key 64 = added {IDENTIFIER}"
    absent, present = "absent self=0 users=0", "present self=0 users=1"
    told = [f"1 1001 key-status {IDENTIFIER} = status {state}" for state in (absent, present)]
    for what, lines, place in (("last", [told[0], told[0], added], None),
                               ("between", [told[0], added, told[1]], None),
                               ("first", [added, told[1], told[1]], None),
                               ("first, and gone then", [added, told[1], told[0]], 2)):
        log = "".join(f"{at} {line}\n" for at, line in enumerate(lines)).encode()
        wanted = (0, b"", None) if place is None else (REFUSED, b"", place)
        tally.wants(f"a log of two callers with the addition {what} ends so", checked(script, log) == wanted,
                    str(checked(script, log)))
    path = os.path.join(TOP, "examples", "whole-session")
    script, log = read(path + ".fsc"), read(path + ".log")
    entries = b"".join(line for line in log.splitlines(keepends=True) if not line.startswith(b"note "))
    tally.wants("a session's log without its notes is refused after its lines",
                checked(script, entries) == (REFUSED, b"", 27))
    status, _, place = checked(script, log, ["check", "--seed", "1" * 64])
    tally.wants("a session's log by another seed is refused",
                status == REFUSED and place is not None and place < 27, str((status, place)))


def sections(number):
    """A script of eight callers, each with a session of its own and a key that all share."""
    shared = "07" * 32
    lines = []
    for caller in range(8):
        name, secret = f"c{caller}", f"pass:word-{number}-{caller}"
        lines += [f"caller {1000 + caller % 3}", f"add-key {shared}",
                  f"protector {name} pass:1:8:1:{secret[5:]}", f"policy-new {name} {name} {secret}",
                  f"unlock {name} {name} {secret}", f"mkdir /{name}", f"encrypt /{name} {name} 16",
                  f"create /{name}/f", f"open /{name}/f",
                  f"fill 0 0 {1 + 700 * caller} {caller}", "read 0 0 64", f"lock {name}", f"list /{name}",
                  "list /", f"remove-key raw:{shared}", f"unlock {name} {name} pass:wrong"]
    return "".join(line + "\n" for line in lines).encode()


def threads_certified(tally):
    """Logs of eight callers in threads."""
    for number in range(THREADED_LOGS):
        script = run(["gen", str(number)])[1] if number % 5 == 0 else sections(number)
        status, log, _ = run(THREADED, script)
        tally.wants(f"log {number} of eight callers in threads is one",
                    status == 0 and checked(script, log) == (0, b"", None), str(checked(script, log)))
        if number < 5:
            lines = log.splitlines(keepends=True)
            at = len(lines) // 2
            swapped = lines[:at] + [lines[at + 1], lines[at]] + lines[at + 2:]
            status, _, place = checked(script, b"".join(swapped))
            tally.wants(f"log {number} with two lines exchanged is refused there",
                        (status, place) == (REFUSED, at), str((status, place)))


def faulty_certificates(tally):
    """Inputs without a line that parts, with a line at fault, and too long ones."""
    script = b"caller 1000\ncreate /a\n"
    log = b"0 0 1000 create /a = ok\n"
    for what, given, wanted, told in (
            ("no input", b"", BAD_LINE, b"fsc: bad line 1\n"),
            ("a script alone", script, BAD_LINE, b"fsc: bad line 3\n"),
            ("a parting line that isn't ended", script + b"---", BAD_LINE, b"fsc: bad line 3\n"),
            ("a parting line with a space", script + b"--- \n" + log, BAD_LINE, b"fsc: bad line 3\n"),
            ("a comment that isn't one", script + b"#---\n---\n" + log, 0, b""),
            ("two parting lines", script + b"---\n---\n" + log, REFUSED, b"fsc: refused at 0\n"),
            ("a bad line before", b"caller 1000\nmkdri /a\n---\n", BAD_LINE, b"fsc: bad line 2\n"),
            ("no script and no log", b"---\n", 0, b""),
            ("a parting line before a bad one", b"---\nmkdri /a\n", REFUSED, b"fsc: refused at 0\n"),
            ("as many bytes as the script may have", b"#" * (MAX_PART - 1) + b"\n---\n", 0, b""),
            ("a byte more", b"#" * MAX_PART + b"\n---\n", TOO_LONG, b"fsc: input too long\n"),
            ("as many lines as the script may have", b"\n" * MAX_LINES + b"---\n", 0, b""),
            ("a line more", b"\n" * (MAX_LINES + 1) + b"---\n", TOO_LONG, b"fsc: input too long\n"),
            ("a line too many and no parting line", b"\n" * (MAX_LINES + 1), TOO_LONG,
             b"fsc: input too long\n"),
            ("as many bytes as may be", script + b"---\n" + log
             + b"\n" * (MAX_BYTES - len(script + log) - 4), REFUSED, b"fsc: refused at 1\n"),
            ("a byte more in all", script + b"---\n" + log + b"\n" * (MAX_BYTES - len(script + log) - 3),
             TOO_LONG, b"fsc: input too long\n")):
        status, got, line = run(CHECK, given)
        tally.wants(f"{what} ends with {wanted}", (status, got) == (wanted, b"") and line.startswith(told)
                    and bool(line) == bool(told), repr((status, line)))
    for words in (["check"], ["check", "--seed"], ["check", "--seed", ZEROS[1:]],
                  ["check", "--serial", "--seed", ZEROS], [*CHECK, "more"]):
        status, got, _ = run(words, script)
        tally.wants(f"{' '.join(words)} is no form", (status, got) == (USAGE, b""))
    status, log, _ = run(SERIAL, b"caller 0\n" * 8)
    tally.wants("a script without commands has an empty log",
                (status, log) == (0, b"") and checked(b"caller 0\n" * 8, log) == (0, b"", None))


def told_faults(tally):
    """The number of a line at fault is followed by the reason, and before that, where no line --- parts the
    input, that it lacks one."""
    script = b"caller 1000\ncreate /a\n"
    parting = b"no line --- is between the script and its log"
    behind = parting + b"\nfsc: "
    not_ended = b"is not ended by a line feed; end the last line by a line feed"
    is_none = b'line 2: "mkdri" is no command; fsc --help lists the commands'
    bad = b"caller 1000\nmkdri /a\n"
    no_memory = (b"line 2: there was no memory to find why it is at fault; try the script alone, or with "
                 b"more memory free")
    for what, given, line, told in (
            ("no input", b"", 1, parting), ("a script alone", script, 3, parting),
            ("an empty line after a script", script + b"\n", 4, parting),
            ("a last line that isn't ended", script[:-1], 2, behind + b'line 2: "create" ' + not_ended),
            ("a parting line that isn't ended", script + b"---", 3, behind + b'line 3: "---" ' + not_ended),
            ("a caller's line that isn't ended", b"caller 1000", 1,
             behind + b'line 1: "caller" ' + not_ended),
            ("a parting line with a space", script + b"--- \n", 3,
             behind + b'line 3: "---" is no command; fsc --help lists the commands'),
            ("a script with a log right after it",
             script + b"0 0 1000 create /a = ok\n1 0 1000 stat /a = ok\n", 3,
             behind + b'line 3: "0" is no command; fsc --help lists the commands'),
            ("a bad line alone", bad, 2, behind + is_none),
            ("a bad line with a log", bad + b"---\n0 0 1000 create /a = ok\n", 2, is_none),
            ("a bad line with as long a log as is kept",
             bad + b"---\n" + b"\n" * (MAX_PART + 1 - len(bad) - 4), 2, is_none),
            ("a bad line with a log of a byte more", bad + b"---\n" + b"\n" * (MAX_PART + 2 - len(bad) - 4),
             2, no_memory),
            ("a bad line with a long log", bad + b"---\n" + b"\n" * 2 * MAX_PART, 2, no_memory)):
        status, got, said = run(CHECK, given)
        tally.wants(f"{what} is reported", (status, got, said)
                    == (BAD_LINE, b"", b"fsc: bad line %d\nfsc: " % line + told + b"\n"), repr(said))


def strictly(tally):
    """A strict check takes a log of a run, and none that reports lack of memory."""
    script, log = row("one_key_added_and_removed")
    strict = ["check", "--strict", "--seed", ZEROS]
    tally.wants("a strict check takes the log of one key", checked(script, log, strict) == (0, b"", None))
    lines = log.splitlines(keepends=True)
    wanting = lines[0].split(b" = ")[0] + b" = refused no-memory\n"
    rest = [lines[1].replace(b"present self=1 users=1", b"absent self=0 users=0"),
            lines[2].split(b" = ")[0] + b" = refused no-key\n", lines[3]]
    told = b"".join([wanting, *rest])
    tally.wants("a check takes an addition that wants memory", checked(script, told) == (0, b"", None))
    tally.wants("a strict one doesn't", checked(script, told, strict) == (REFUSED, b"", 0))


def differences(tally):
    """After a refusal comes what the log has there, and what a run has."""
    script, log = row("one_key_added_and_removed")
    lines = log.splitlines(keepends=True)
    due = lines[3][:-1] + b" (line %d of the script)" % len(script.splitlines())
    changed = lines[3].replace(b"absent", b"present")
    last = b"fsc: that is after the last entry of the log\n"
    session = os.path.join(TOP, "examples", "whole-session")
    notes = [line for line in read(session + ".log").splitlines(keepends=True) if line.startswith(b"note ")]
    entries = read(session + ".log")[:-len(b"".join(notes))]
    wrong = notes[0].rsplit(b" ", 1)[0] + b" wrong-key\n"
    for what, given, wanted in (
            ("another reply", script + b"---\n" + b"".join(lines[:3]) + changed,
             b"fsc: the log has: " + changed + b"fsc: a run has: " + due + b"\n"),
            ("the end", script + b"---\n" + b"".join(lines[:3]),
             last + b"fsc: the log has: nothing more\nfsc: a run has: " + due + b"\n"),
            ("a line more", script + b"---\n" + log + b"4 0 1000 stat / = ok\n",
             b"fsc: the log has: 4 0 1000 stat / = ok\nfsc: a run has: nothing more\n"),
            ("a carriage return", script + b"---\n" + b"".join(lines[:3]) + lines[3][:-1] + b"\r\n",
             b"fsc: the log has: " + lines[3][:-1] + b"?\nfsc: a run has: " + due
             + b"\nfsc: the log's line ends in a carriage return: save the log with line feeds alone\n"),
            ("a last line feed that is missing", script + b"---\n" + log[:-1],
             b"fsc: the log has: " + lines[3] + b"fsc: a run has: " + due
             + b"\nfsc: no line feed ends the log's line\n"),
            ("another note", read(session + ".fsc") + b"---\n" + entries + wrong + b"".join(notes[1:]),
             last + b"fsc: the log has: " + wrong + b"fsc: a run has: " + notes[0]),
            ("no notes", read(session + ".fsc") + b"---\n" + entries,
             last + b"fsc: the log has: nothing more\nfsc: a run has: " + notes[0])):
        status, got, told = run(CHECK, given)
        tally.wants(f"{what} is printed beside what a run has",
                    (status, got) == (REFUSED, b"") and told.split(b"\n", 2)[2] == wanted, repr(told))


CHECKS = (strictly, differences, examples_certified, one_key, two_callers, threads_certified,
          faulty_certificates, told_faults)
