"""What the program prints below its status: what is at fault, and what to do."""
import os
import re

from parts import TOP
from parts.common.running import SERIAL, ZEROS, run

MAX_LINES = 20_000
LISTED = b"fsc --help lists the commands"
HEX_128 = b"row of 1 to 128 bytes in hexadecimal"
NUMBER = b"number from 0 to 4294967295"
SECRET_KIND = b"secret (raw: and 64 digits, or pass:PASSPHRASE)"
PATH_KIND = b"path (/, or / before each of 1 to 32 parts)"
COMMENT = b"a comment is a line of its own"


def no_word(name, number, kind, remedy):
    """What is printed of a word of a command that is none of its kind."""
    fault = b'line 2: "' + name + b'" has a word, number %d after it, that is no ' % number
    return fault + kind + b"; " + remedy


CALLER = b"caller 0\n"
# Scripts with a line at fault, and what is printed of it.
LINES_AT_FAULT = [
    (CALLER + b"mkdri /a\n", b'line 2: "mkdri" is no command; ' + LISTED),
    (CALLER + b"x" * 100 + b"\n", b'line 2: "' + b"x" * 60 + b'" is no command; ' + LISTED),
    (b"caller 0", b'line 1: "caller" is not ended by a line feed; end the last line by a line feed'),
    (b"\xef\xbb\xbfcaller 0\n", b'line 1: "" begins with a byte order mark; save the script without it'),
    (b"caller 0\r\n", b'line 1: "caller" has a carriage return; save the script with line feeds alone'),
    (b"caller\t0\n", b'line 1: "caller" has a tab, where one space separates two words; ' + LISTED),
    (b"caller  0\n", b'line 1: "caller" has a space too many; ' + LISTED),
    (b"caller 0 \n", b'line 1: "caller" has a space too many; ' + LISTED),
    (b" caller 0\n", b'line 1: "" has a space too many; ' + LISTED),
    (b"caller 007\n", b'line 1: "caller" has a word, number 1 after it, that is no ' + NUMBER
     + b"; write it without leading zeros or a sign"),
    (b"caller\n", b'line 1: "caller" has too few words; caller UID'),
    (b"caller 0 1\n", b'line 1: "caller" has too many words; caller UID'),
    (CALLER + b"read 0 0\n", b'line 2: "read" has too few words; read HANDLE OFFSET LENGTH'),
    (CALLER + b"pause 1\n", b'line 2: "pause" has too many words; pause'),
    (CALLER + b"add-key 07zz\n", no_word(b"add-key", 1, HEX_128, LISTED)),
    (CALLER + b"add-key 077\n",
     no_word(b"add-key", 1, HEX_128, b"their number is odd: a byte is two digits")),
    (CALLER + b"add-key 0x07\n", no_word(b"add-key", 1, HEX_128, b"write the digits without 0x")),
    (CALLER + b"add-key # mine\n", no_word(b"add-key", 1, HEX_128, COMMENT)),
    (CALLER + b"read 0 0 +1\n", no_word(b"read", 3, NUMBER, b"write it without leading zeros or a sign")),
    (CALLER + b"unlock d p raw:" + b"1" * 63 + b"\n",
     no_word(b"unlock", 3, SECRET_KIND, b"their number is odd: a byte is two digits")),
    (CALLER + b"unlock d p pass:50%\n",
     no_word(b"unlock", 3, SECRET_KIND, b"two hexadecimal digits follow each %, and % itself is %25")),
    (CALLER + b"mkdir /\xc3\xa9\n",
     no_word(b"mkdir", 1, PATH_KIND, b"write a byte outside of ! to ~ as %XX")),
    (CALLER + b"unlock d p pass:correct horse\n",
     b'line 2: "unlock" has too many words; write a space in a passphrase as %20'),
    (CALLER + b"mkdir /a b\n", b'line 2: "mkdir" has too many words; write a space in a path as %20'),
    (CALLER + b"mkdir /a # a directory\n", b'line 2: "mkdir" has too many words; ' + COMMENT),
    (b"# keys\n\nadd-key 00\n", b'line 3: "add-key" comes before the first caller; begin with caller UID'),
    (CALLER * 9, b'line 9: "caller" names a ninth caller; a script has at most eight callers'),
]
BY_INPUT = ": the script comes from standard input: fsc replay < FILE"
FORMS = ": a form begins with replay, replay-linked, gen, dump, inspect, check, --help or --version"
# Arguments that are no command, and what is printed of them.
BAD_ARGUMENTS = [
    ([], "give a form: fsc replay < SCRIPT runs a script; fsc --help lists the forms"),
    (["share.fsc"], 'word 1, "share.fsc"' + BY_INPUT),
    (["replay", "share.fsc"], 'word 2, "share.fsc"' + BY_INPUT),
    ([*SERIAL, "share.fsc"], 'word 5, "share.fsc"' + BY_INPUT),
    (["frobnicate"], 'word 1, "frobnicate"' + FORMS),
    (["-h"], 'word 1, "-h": --help lists the forms and commands'),
    (["-V"], 'word 1, "-V": --version prints the version'),
    (["--help", "me"], 'word 2, "me": nothing comes after --help and --version'),
    (["--serial"], 'word 1, "--serial": replay comes first: fsc replay --serial --seed HEX64'),
    (["replay", "--seed", ZEROS, "--serial"], 'word 4, "--serial": --serial comes before --seed'),
    (["replay", "--serial", "--serial"], 'word 3, "--serial": one --serial is enough'),
    (["replay", "--seed", ZEROS, "--seed"], 'word 4, "--seed": one seed is enough'),
    (["replay", "-s"], 'word 2, "-s": replay has the options --serial and --seed HEX64, in this order'),
    (["replay", "--seed"], "64 hexadecimal digits come after --seed"),
    (["replay", "--seed", ZEROS[1:]], "word 3: a seed is 64 hexadecimal digits"),
    (["replay", "--seed", "0x" + ZEROS], "word 3: a seed is 64 hexadecimal digits, without 0x"),
    (["replay", "--seed=00"], "word 2: the seed is a word of its own: --seed HEX64"),
    (["replay", ZEROS], "word 2" + BY_INPUT),
    (["replay", "--seed", ZEROS, ZEROS], "word 4" + BY_INPUT),
    (["gen", ZEROS], "word 2: gen takes a number from 0 to 4294967295, without leading zeros"),
    ([ZEROS[:32]], "word 1" + FORMS),
    ([ZEROS[:31]], f'word 1, "{ZEROS[:31]}"' + FORMS),
    (["replay", "--summary"], 'word 2, "--summary": --summary comes after gen NUMBER'),
    (["gen"], "a number from 0 to 4294967295 comes after gen"),
    (["gen", "007"], 'word 2, "007": gen takes a number from 0 to 4294967295, without leading zeros'),
    (["gen", "1", "2"], 'word 3, "2": after the number of gen comes --summary alone'),
    (["gen", "1", "--summary", "2"], 'word 4, "2": nothing comes after --summary'),
    (["dump"], "dump takes a seed alone: fsc dump --seed HEX64"),
    (["check"], "check takes a seed: fsc check --seed HEX64, or with --strict before it"),
    (["check", "a.log"],
     'word 2, "a.log": check takes a seed: fsc check --seed HEX64, or with --strict before it'),
    (["check", "--strict"], "check takes a seed: fsc check --seed HEX64, or with --strict before it"),
    (["check", "--seed", ZEROS, "--strict"], 'word 4, "--strict": nothing comes after the seed'),
    (["replay-linked"],
     "replay-linked takes a seed: fsc replay-linked --seed HEX64, or with --serial before it"),
    (["replay-linked", "a.fsc"], 'word 2, "a.fsc": replay-linked takes a seed: fsc replay-linked --seed '
                                 'HEX64, or with --serial before it'),
    (["replay-linked", "--seed", ZEROS[1:]], "word 3: a seed is 64 hexadecimal digits"),
    (["replay-linked", "--serial"],
     "replay-linked takes a seed: fsc replay-linked --seed HEX64, or with --serial before it"),
    (["replay-linked", "--serial", "--seed", ZEROS[1:]], "word 4: a seed is 64 hexadecimal digits"),
    (["replay-linked", "--seed", ZEROS, "a.fsc"],
     'word 4, "a.fsc": the script comes from standard input: fsc replay-linked --seed HEX64 < FILE'),
    (["replay-linked", "--seed", ZEROS, "--serial"], 'word 4, "--serial": --serial comes before --seed'),
    (["replay-linked", "--serial", "--seed", ZEROS, "a.fsc"],
     'word 5, "a.fsc": the script comes from standard input: '
     'fsc replay-linked --serial --seed HEX64 < FILE'),
    (["replay-linked", "--serial", "--seed", ZEROS, "--serial"],
     'word 5, "--serial": one --serial is enough'),
    (["dump", "--serial"], 'word 2, "--serial": dump takes a seed alone: fsc dump --seed HEX64'),
    (["dump", "--seed"], "64 hexadecimal digits come after --seed"),
    (["dump", "--seed", "0x" + ZEROS], "word 3: a seed is 64 hexadecimal digits, without 0x"),
    (["dump", "--seed", ZEROS, "share.fsc"],
     'word 4, "share.fsc": the script comes from standard input: fsc dump --seed HEX64 < FILE'),
    (["dump", "--seed", ZEROS, "--serial"],
     'word 4, "--serial": dump takes a seed alone: fsc dump --seed HEX64'),
    (["dump", "--seed", ZEROS, "--seed"], 'word 4, "--seed": one seed is enough'),
    (["check", "--seed", ZEROS, "a.log"],
     'word 4, "a.log": the script and its log come from standard input: fsc check --seed HEX64 < FILE'),
    (["check", "--seed", ZEROS, "--serial"],
     'word 4, "--serial": check takes a seed: fsc check --seed HEX64, or with --strict before it'),
    (["check", "--seed", ZEROS, "-x"], 'word 4, "-x": nothing comes after the seed'),
    (["inspect", "raw:00"],
     'word 2, "raw:00": a raw key is raw: and 64 to 128 hexadecimal digits, an even number'),
    (["inspect", "raw:" + ZEROS + "0"],
     "word 2: a raw key is raw: and 64 to 128 hexadecimal digits, an even number"),
    (["inspect", "id:" + ZEROS[:32]], "word 2: an identifier opens nothing: give the key itself by raw:HEX"),
    (["inspect", "an.image"], 'word 2, "an.image": the image comes from standard input: fsc inspect < FILE'),
    (["inspect", "--seed"], 'word 2, "--seed": inspect takes a raw key, raw:HEX, or nothing'),
    (["inspect", "raw:" + ZEROS, "more"], 'word 3, "more": nothing comes after the key'),
    ([b"\xff"], "a word of the command line is no text"),
]


def faulty_lines(tally):
    """All lines at fault are reported in one run, up to twenty; a command isn't reported only
    because there is no caller before it."""
    script = b"add-key 00\nstat /\ncaller x\nmkdri /a\nstat /\nread 0 0\n"
    wanted = b"".join(b"fsc: line " + line + b"\n" for line in (
        b'1: "add-key" comes before the first caller; begin with caller UID',
        b'3: "caller" has a word, number 1 after it, that is no ' + NUMBER
        + b"; write it without leading zeros or a sign",
        b'4: "mkdri" is no command; ' + LISTED, b'6: "read" has too few words; read HANDLE OFFSET LENGTH'))
    status, got, told = run(SERIAL, script)
    tally.wants("all lines at fault are reported",
                (status, got, told) == (3, b"", b"fsc: bad line 1\n" + wanted), repr(told))
    status, got, told = run(SERIAL, b"caller 0\n" + b"mkdri\n" * 21)
    tally.wants("twenty lines at fault are reported",
                (status, got) == (3, b"") and told.count(b"is no command") == 20
                and told.endswith(b"fsc: further lines are not looked at\n"), repr(told))


def advice_on_lines(tally):
    """Of a line at fault its first word alone is printed, why it is at fault, and what to write."""
    for script, told in LINES_AT_FAULT:
        status, got, line = run(SERIAL, script)
        wanted = b"fsc: bad line " + told[5:].split(b":")[0] + b"\nfsc: " + told + b"\n"
        tally.wants(f"{script[:40]!r} is refused with the reason", (status, got, line) == (3, b"", wanted),
                    repr(line))
    _, _, line = run(SERIAL, b"\n" * (MAX_LINES + 1))
    tally.wants("a line too many is refused with what to do",
                line == b"fsc: input too long\nfsc: a script has at most 1048576 bytes and 20000 lines\n",
                repr(line))


def advice(tally):
    """Of arguments that are no command the one at fault is printed, and what to give."""
    for words, told in BAD_ARGUMENTS:
        status, got, line = run(words)
        tally.wants(f"{words} names its word",
                    (status, got, line.decode()) == (2, b"", f"fsc: usage\nfsc: {told}\n"), repr(line))


def help_and_version(tally):
    """The lists of --help have every command, and --version the kit of the README."""
    _, help_text, _ = run(["--help"])
    listed = re.findall(rb"^    ([a-z-]+)(?: [A-Z\[ ]|  |$)", help_text, re.MULTILINE)
    tally.wants("--help lists commands", b"add-key" in listed and b"key-status" in listed)
    for name in listed:
        _, _, line = run(SERIAL, b"caller 0\n" + name + b" 1 2 3 4 5 6 7\n")
        tally.wants(f"--help lists {name.decode()}, which is one", b"has " in line, repr(line))
    tally.wants("--help has at most 80 columns", all(len(line) <= 80 for line in help_text.split(b"\n")))
    _, version, _ = run(["--version"])
    with open(os.path.join(TOP, "README.md"), "rb") as file:
        readme = file.read()
    logic = re.fullmatch(rb"fsc (\S+)\nproved with rattle-kit-\w+, logic (\w+)\n", version)
    tally.wants("--version has a version and the kit", logic is not None and logic[2] in readme,
                repr(version))


CHECKS = (advice_on_lines, faulty_lines, advice, help_and_version)
