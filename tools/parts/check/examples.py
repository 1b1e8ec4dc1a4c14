"""The scripts of examples/ beside their logs, and lines of the grammar."""
import os

from parts import TOP
from parts.common.running import SERIAL, run

TEXTS = [
    (b"", 0), (b"\n\n", 0), (b"# \t\r\x00\xff %zz\n", 0), (b"#\ncaller 5\n#\n", 0),
    (b"# nothing\n\ncaller 5\n", 0),
    (b"caller 4294967295\ncaller 0\n", 0), (b"caller \n", 1), (b"caller 1 \n", 1), (b"caller\t1\n", 1),
    (b"caller 1\r\n", 1),
    (b"\r\n", 1), (b" \n", 1), (b"\t\n", 1), (b" # a comment\n", 1),
    (b"\ncaller 1\nadd-key 5\nadd-key\n", 3),
    (b"add-key 55\ncaller 1\n", 1), (b"# none yet\nkey-status id:000102030405060708090a0b0c0d0e0f\n", 2),
    (b"caller 1\n\nadd-key -\n", 3), (b"caller 1\nadd-key \n", 2), (b"caller 1\nadd-key\t07\n", 2),
    (b"caller 1\nadd-key 07\r\n", 2), (b"caller 1\nwrite 0 0 \n", 2), (b"caller 1\ndrop-caches \n", 2),
    (b"caller 1\nstat /a\x7f\n", 2), (b"caller 1\nstat /a\x80\n", 2), (b"caller 1", 1),
    (b"caller 1\n# no line feed", 2),
    (b"caller 1\nno verb\n# no line feed", 2), (b"caller 1\n\n# said\nadd-key 07\nadd-key 07", 5),
    (b"caller 1\nlock docs\nforget docs\n", 3), (b"caller 3\n\n" * 8, 0),
    (b"caller 3\n\n" * 8 + b"caller 3\n", 17),
    (b"caller 3\n\n" * 8 + b"caller 03\n", 17), (b"caller 3\n\n" * 8 + b"caller\n", 17),
    (b"add-key 07\n", 1), (b"caller 1\ncaller 2\n\n" + b"caller 3\n" * 6 + b"caller 9\n", 10),
    (b"caller 1\ncaller 2\n\n" + b"caller 3\n" * 6 + b"caller x\nstat /\n", 10),
    (b"caller 1\nstat \n", 2), (b"caller 1\nsymlink /a \n", 2), (b"caller 1\nsymlink /a b\tc\n", 2),
    (b"caller 1\nsymlink /a b\r\n", 2),
    (b"caller 1\nsymlink /a \x7f\n", 2), (b"caller 1\nsymlink /a \x80\n", 2),
    (b"caller 1\nunlock d p pass:b\tc\n", 2),
    (b"caller 1\nunlock d p pass:b\r\n", 2), (b"caller 1\nunlock d p pass:\x7f\n", 2),
    (b"caller 1\nunlock d p pass:\x80\n", 2),
]
CUT = (b"# two callers\ncaller 1\nadd-key "
       b"" + b"40" * 32 + b"\n\ncaller 22\nremove-key id:" + b"0a" * 16 + b"\n")


def examples(tally):
    """Each script of examples/ and of examples/rows/ prints the log beside it."""
    for folder in ("examples", "examples/rows"):
        names = sorted(name[:-4] for name in os.listdir(os.path.join(TOP, folder)) if name.endswith(".fsc"))
        tally.wants(f"{folder}/ has scripts", bool(names))
        for name in names:
            script = f"{folder}/{name}.fsc"
            log = os.path.join(TOP, folder, name + ".log")
            tally.wants(f"{script} has its log", os.path.isfile(log))
            if os.path.isfile(log):
                with open(os.path.join(TOP, script), "rb") as file:
                    given = file.read()
                with open(log, "rb") as file:
                    wanted = file.read()
                status, got, _ = run(SERIAL, given)
                tally.wants(f"{script} prints its log", (status, got) == (0, wanted))


def lines_of(path):
    """The lines of a file that are no headings, each with its number."""
    with open(os.path.join(TOP, path), "rb") as file:
        return [(number, line) for number,
                line in enumerate(file.read().split(b"\n"), 1) if line and not line.startswith(b"#")]


def beginnings(tally):
    """Each beginning of the whole session is a script exactly where it is empty or ends with a line feed,
    and begins its log."""
    with open(os.path.join(TOP, "examples", "whole-session.fsc"),
              "rb") as script, open(os.path.join(TOP, "examples", "whole-session.log"), "rb") as log:
        text, wanted = script.read(), log.read().splitlines(True)
    for end in range(len(text) + 1):
        begun = text[:end]
        status, got, told = run(SERIAL, begun)
        last = begun.count(b"\n") + 1
        if begun and not begun.endswith(b"\n"):
            is_so = (status, got, told.split(b"\n")[0]) == (3, b"", b"fsc: bad line %d" % last)
        else:
            notes = [line for line in wanted if line.startswith(b"note ")
                     and int(line.split(b" ")[2]) < last]
            calls = wanted[:len(got.splitlines()) - len(notes)]
            is_so = (status, told, got) == (0, b"", b"".join([*calls, *notes]))
        tally.wants(f"{end} bytes of the whole session are {'a script' if not status else 'none'}", is_so,
                    f"{status}, {told!r}")


def lines(tally):
    """Lines of the grammar are taken, others are identified by their number, and so are whole texts and each
    cut of one."""
    taken, refused = lines_of("examples/lines/taken.txt"), lines_of("examples/lines/refused.txt")
    tally.wants("examples/lines/ has lines", taken and refused)
    is_taken = lambda some: run(SERIAL,
                                b"caller 0\n" + b"".join(line + b"\n" for line in some))[::2] == (0, b"")
    whole = is_taken([line for _, line in taken])
    for number, line in taken:
        tally.wants(f"line {number} of examples/lines/taken.txt is taken", whole or is_taken([line]))
    cuts = [(CUT[:end], CUT[:end].count(b"\n") + 1 if CUT[:end][-1:] not in (b"", b"\n") else 0)
            for end in range(len(CUT) + 1)]
    behind = [(b"caller 0\n" + b"\n" * (number - 2) + line + b"\n", number) for number, line in refused]
    for text, bad in TEXTS + cuts + behind:
        status, got, told = run(SERIAL, text)
        at_fault = (3, b"", b"fsc: bad line %d" % bad)
        is_so = (status, got, told.split(b"\n")[0]) == at_fault if bad else (status, told) == (0, b"")
        tally.wants(f"{text[-60:]!r} has {bad or 'no'} as its bad line", is_so, repr(told))


CHECKS = (examples, lines, beginnings)
