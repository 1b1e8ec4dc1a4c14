"""tools/transcript: lines at fault, files that are none, and output that nobody reads."""
import os
import signal
import subprocess

from parts.check.pictures import unread_output
from parts.check.transcripts import BAD_LINES, FOLDER, TOOL, USAGE, transcript
from parts.common.running import PROGRAM, SECONDS

# lines at fault after `user a 1000`, each with a piece of what is reported; the last ones are found by fsc
BY_PROGRAM = 9
FAULTS = [
    ("user a 1001", "names a again"), ("user b 01000", "no number from 0 to 4294967295"),
    ("user b 4294967296", "no number from 0 to 4294967295"), ("user c", "the form: user NAME UID"),
    ("who: stat /", "begins with 'who'"), ("a stat /", "NAME: COMMAND [= EXPECTED]"),
    ("a:", "has no command"), ("a: = ok", "has no command"), ("a: stat / =", "has nothing after ="),
    ("a:\tstat /", "has a tab"),
    ("a: stat /\r", "has a carriage return"), ("a: pause", '"pause" is no command of a transcript'),
    ("a: caller 5", '"caller" is no command of a transcript'),
    ("a: # none", "a comment is a line of its own"), ("a: stat / = ok = ok", "has a second ="),
    ("a: write 0 0 text:50%", "%XX is a byte"), ("a: add-key text:x = added text:%", "%XX is a byte"),
    ("a: mkdri /a", '"mkdri" is no command'), ("a: read 0 0", "read HANDLE OFFSET LENGTH"),
    ("a: unlock d p pass:x y", "unlock POLICY PROTECTOR SECRET"),
    ("a: add-key text:" + "x" * 129, "add-key HEX"),
    ("a: close x", "close HANDLE"), ("a: write 0 0 hello", "; in a transcript also text:WORD"),
    ("a: remove-key docs", "; in a transcript also id:POLICY or raw:text:WORD"),
    ("a: stat / =stat", "; spaces part = from"), ("a: mkdir /a= ok", "; spaces part = from"),
]
# commands that aren't there, with what is written in their place
OTHER_COMMANDS = {"mkdri": "mkdir PATH", "ls": "list PATH [START]", "mv": "rename PATH PATH"}


def bad_lines_of_transcripts(tally):
    """All lines at fault are reported in one run, each with its number and a remedy, in their order."""
    given = "user a 1000\n" + "".join(line + "\n" for line, _ in FAULTS)
    status, printed, told = transcript(given)
    tally.wants("a transcript with bad lines is not run", (status, printed) == (BAD_LINES, []))
    tally.wants("each bad line is reported once", len(told) == len(FAULTS), str(told))
    for number, ((line, wanted), said) in enumerate(zip(FAULTS, told), 2):
        tally.wants(f"{line[:40]!r} is reported at its line",
                    said.startswith(f"transcript: line {number}: ") and wanted in said, said)
    for word, form in OTHER_COMMANDS.items():
        _, _, told = transcript(f"user a 1\na: {word} /a\n")
        is_so = f"the nearest: {form}" in told[0]
        tally.wants(f"after {word} the nearest command is printed", is_so, str(told))
    _, _, told = transcript("\ufeffuser a 1\n")
    tally.wants("a byte order mark is reported", "begins with a byte order mark" in told[0], str(told))
    _, _, told = transcript("user a 1\na: link /a /b\n")
    tally.wants("a hard link is refused with the reason", "a file has one name" in told[0], str(told))
    for line, wanted in FAULTS[:-BY_PROGRAM]:
        status, printed, told = transcript(f"user a 1000\n{line}\n", "--script")
        is_so = (status, printed) == (BAD_LINES, []) and wanted in told[0]
        tally.wants(f"no script is made of {line[:40]!r}", is_so)
    ninth = "".join(f"user u{at} {at}\n" for at in range(9))
    tally.wants("a ninth user is reported", "ninth" in "".join(transcript(ninth)[2]))
    status, _, told = transcript("user a 1\n", "--seed", "00")
    is_so = status == USAGE and "64 hexadecimal digits" in told[0]
    tally.wants("a seed that is none is reported", is_so, str(told))
    ended = subprocess.run([TOOL, "/nowhere"], capture_output=True, timeout=SECONDS, check=False)
    tally.wants("a missing file is reported", ended.returncode == USAGE and b"can't be read" in ended.stderr
                and b"Traceback" not in ended.stderr)


def transcripts_that_nobody_reads(tally):
    """A transcript whose reader is gone ends by the signal, without a message."""
    name = os.path.join(FOLDER, "a_changed_passphrase.txt")
    for words in ((), ("--tap",), ("--script",)):
        ended = unread_output([TOOL, "--program", PROGRAM, *words, name])
        tally.wants(f"a transcript {words} that nobody reads has no message",
                    ended == (-signal.SIGPIPE, b""), str(ended))


CHECKS = (bad_lines_of_transcripts, transcripts_that_nobody_reads)
