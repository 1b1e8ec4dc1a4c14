"""Threads of a real kernel: stored histories have orders that fsc check certifies, and bad scripts are
refused at once."""
import contextlib
import io
import os
import re
import subprocess
import tempfile

from parts import PARTS, TOP
from parts.common.running import PROGRAM
from parts.linux.at_once.run import run_at_once

DATA = os.path.join(PARTS, "linux", "data", "at_once")
TIMES = 4
KEY = "11" * 32
BAD = (
    ("nine callers", "caller 1000\n# together\nstat /\n" * 9, "is of caller 9"),
    ("eight callers with keys", f"caller 1000\n# together\nadd-key {KEY}\n" * 8, "at most 7"),
    (
        "# after before # together",
        "caller 1000\n# after\nstat /\n# together\nstat /\n",
        "line 2 is out of order",
    ),
    ("# together twice", "caller 1000\n# together\nstat /\n# together\nstat /\n", "line 4 is out of order"),
    ("nothing together", "caller 1000\nstat /\n", "nothing that is made at once"),
    ("a session's command", "caller 1000\n# together\nunlock a b raw:00\n", "line 3 is of a session"),
    ("a record", "caller 1000\n# together\nmeta-get policy/a\n", "line 3 is of a session or a record"),
    ("a star", "caller 1000\n# together\nstat /*0\n", "line 3 has a star"),
    ("a key of 16 bytes", f"caller 1000\n# together\nadd-key {'11' * 16}\n", "a key of 16 to 31 bytes"),
    ("a long target", f"caller 1000\n# together\nsymlink /l {'t' * 300}\n", "a target of more than 255"),
    ("a long read", "caller 1000\n# together\nread 0 0 4097\n", "reads more than 4096"),
    (
        "other modes",
        f"caller 1000\n# together\nset-policy-bytes /e 02090903000000{'00' * 17}\n",
        "set-policy-bytes",
    ),
    (
        "a policy by user 0",
        f"caller 0\nmkdir /e\n# together\nset-policy /e raw:{KEY} 32\n",
        "policy by user 0",
    ),
    ("a link on the way", "caller 0\nsymlink /l a\n# together\nstat /l/a\n", "a symlink"),
    (
        "a listing of what moves",
        "caller 0\nmkdir /a\n# together\nrename /a /b\ncaller 1\n# together\nlist /a\n",
        "may be renamed",
    ),
    ("the root removed", "caller 0\n# together\nrmdir /\n", "changes the root"),
    ("an unknown word", "caller 0\n# together\nfrobnicate /\n", "no call of the mount"),
    ("a carriage return", "caller 0\r\n# together\r\nstat /\r\n", "has a carriage return"),
    ("a user beyond the last", "caller 99999999999\n# together\nstat /\n", "no number from 0 to 4294967295"),
    ("a handle beyond the last", "caller 0\n# together\nclose 4294967296\n", "no number from 0 to"),
    ("a last line without its end", "caller 0\n# together\nstat /", "not ended by a line feed"),
)


NOT_STORED = "a creation after its check"
# what a kernel would reply of that kind, which was not seen in the runs that are stored
BY_HAND = f"""caller 1000
add-key {KEY}
mkdir /e
set-policy /e raw:{KEY} 32
create /e/f
open /e
stat /e/f
# together
remove-key raw:{KEY}
caller 1001
# together
create /e/n
caller 1002
# together
key-status raw:{KEY}
stat /e/n
stat /e/n
"""
REPLIES = (
    (0, 0, 0, 1, "added 0d06286d396fbd19900cf11a0fcec3ef"),
    (0, 1, 2, 3, "ok"),
    (0, 2, 4, 5, "ok"),
    (0, 3, 6, 7, "ok"),
    (0, 4, 8, 9, "handle 0"),
    (0, 5, 10, 11, "stat file i13 0 enc=1 key=?"),
    (0, 6, 13, 14, "removed others=0 busy=1"),
    (1, 0, 12, 19, "ok"),
    (2, 0, 15, 16, "status incomplete self=0 users=0"),
    (2, 1, 17, 18, "refused not-found\terrno:ENOENT"),
    (2, 2, 20, 21, "stat file i14 0 enc=1 key=?"),
)


def judged(answers, *words, scripts=None):
    """The exit status and the lines of the judge of these answers to some scripts, or to the stored ones."""
    scripts = scripts or sorted(os.path.join(DATA, name) for name in os.listdir(DATA)
                                if name.endswith(".fsc"))
    ended = subprocess.run(
        [os.path.join(PARTS, "linux", "judge"), *words, "--program", PROGRAM, answers, *scripts],
        check=False,
        capture_output=True,
    )
    return ended.returncode, ended.stdout.decode().splitlines() or [ended.stderr.decode()]


def stored_histories(tally):
    """Each stored history has a certified order, each kind is seen, and what ends early is reported."""
    answers = os.path.join(DATA, "answers.txt")
    status, lines = judged(answers)
    tally.wants(
        "the stored histories at once have 0 unexplained",
        status == 0 and lines[-1].endswith(" 0 unexplained"),
        lines[-1],
    )
    seen = {
        found.group(2): int(found.group(1))
        for found in (re.match(r" *(\d+)  histories, \d+ calls: (.*) \(docs", line) for line in lines)
        if found
    }
    for kind, count in seen.items():
        tally.wants(f"a stored history shows {kind}", count > 0 or kind == NOT_STORED)
    tally.wants("there are nine kinds", len(seen) == 9, str(seen))
    without, refused = (
        sum(int(line.split()[0]) for line in lines if text in line)
        for text in ("  have no order, with a kind", "  smallest cores of which fsc check refuses every")
    )
    tally.wants("each history without an order has a core that fsc check refuses", refused >= without > 0,
                str((without, refused)))
    with open(answers, encoding="utf-8") as file:
        text = file.read()
    with tempfile.NamedTemporaryFile("w", encoding="utf-8") as file:
        file.write(text[: len(text) // 2])
        file.flush()
        status, lines = judged(file.name)
    tally.wants(
        "answers that end early are reported",
        status == 1 and "fault: the answers end early" in lines,
        lines[-1],
    )


def by_hand(tally):
    """A creation whose name comes after a removal is distinguished from all other kinds."""
    with tempfile.TemporaryDirectory() as folder:
        script, answers = os.path.join(folder, "creation.fsc"), os.path.join(folder, "answers.txt")
        with open(script, "w", encoding="utf-8") as file:
            file.write(BY_HAND)
        with open(answers, "w", encoding="utf-8") as file:
            file.write("R\tcreation-free\t0\n")
            file.writelines(
                f"{one}\t{two}\t{begin}\t{end}\t0\t0\t{told}\n" for one, two, begin, end, told in REPLIES
            )
            file.write("END\n")
        status, lines = judged(answers, scripts=[script])
    shown = any(line.startswith(f"      1  histories, 1 calls: {NOT_STORED}") for line in lines)
    tally.wants(
        "a creation after its check is certified with one more claim", status == 0 and shown, lines[-1]
    )


def planted_replies(tally):
    """A changed reply leaves no order, or one that is certified."""
    _, lines = judged(os.path.join(DATA, "answers.txt"), "--plant", str(TIMES))
    numbers = [int(found) for found in re.findall(r"\d+", lines[-1])]
    made, none, found, certified, undecided = (numbers + [-1] * 5)[:5]
    tally.wants(
        "of each changed reply there is no order, or one that is certified",
        made > 0 and none > made // 2 and made == none + found and found == certified and undecided == 0,
        lines[-1],
    )


def bad_scripts(tally):
    """A script that can't be made or judged is refused before a machine boots."""
    with tempfile.TemporaryDirectory() as folder:
        names = [os.path.join(folder, f"bad-{at}.fsc") for at in range(len(BAD))]
        for name, (_, text, _) in zip(names, BAD):
            with open(name, "w", encoding="utf-8", newline="") as file:
                file.write(text)
        kernel = os.path.join(folder, "none")
        command = [os.path.join(TOP, "tools", "linux"), "--kernel", kernel, "--threads", "0", "--program",
                   PROGRAM]
        ended = subprocess.run([*command, *names], check=False, capture_output=True)
    told = ended.stderr.decode().splitlines()
    tally.wants("bad scripts are refused with 2", ended.returncode == 2 and not ended.stdout, str(told))
    for at, (what, _, wanted) in enumerate(BAD):
        well = any(line.startswith(f"linux: bad-{at}: line ") and wanted in line for line in told)
        tally.wants(f"{what} is refused", well, str(told))


def run_of_six(status, printed):
    """The exit status and the output of six histories, of a machine that prints this and ends so."""
    def machine(_, calls, answers):
        with open(calls, encoding="utf-8") as file:
            asked.append(file.read())
        with open(answers, "w", encoding="utf-8") as file:
            file.write(printed)
        return status

    asked, told = [], io.StringIO()
    with tempfile.TemporaryDirectory() as folder, contextlib.redirect_stdout(told):
        text = "caller 0\n# together\nstat /\n"
        ended = run_at_once([("one", text)], 3, PROGRAM, folder, machine)
    return ended, told.getvalue(), asked


def histories_that_lack(tally):
    """Fewer histories than were asked for are a fault, whether the machine ended well or early."""
    one = "R\tone-free\t0\n0\t0\t0\t1\t0\t0\tstat dir i2 0 enc=0 key=?\n"
    for status, printed, wanted in (
            (0, "END\n", "fault: 0 histories of 6 were answered\n"),
            (0, one + "END\n", "fault: 1 histories of 6 were answered\n"),
            (3, one + "R\tone-free\t1\n", "fault: the machine ended early: 1 histories of 6 were ")):
        ended, told, asked = run_of_six(status, printed)
        tally.wants(f"a machine that ends with {status} after {printed[-6:]!r} is reported",
                    (ended, len(asked)) == (1, 1) and wanted in told, told)


CHECKS = (stored_histories, by_hand, planted_replies, bad_scripts, histories_that_lack)
