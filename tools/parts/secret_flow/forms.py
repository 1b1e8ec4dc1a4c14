"""The runs that are measured: each form of the command line, with raw secrets and with passphrases."""
import collections
import re
import subprocess

from parts.common.sessions import SEED
from parts.secret_flow.marks import Marks, MissingFunction, ReadingMarks
from parts.secret_flow.memcheck import Run
from parts.secret_flow.reports import places
from parts.secret_flow.scripts import DIGIT_KINDS, PASSPHRASES, RAW_KEYS
from parts.secret_flow.scripts import dependent_blocks, edited_script, session_script

SEEDED = ["--seed", SEED.hex()]
IN_TURNS, IN_THREADS = ["replay", "--serial", *SEEDED], ["replay", *SEEDED]
ON_TWO_IN_TURNS, ON_TWO_IN_THREADS = ["replay-linked", "--serial", *SEEDED], ["replay-linked", *SEEDED]
DUMPED = ["dump", *SEEDED]
SCRIPT_END = b"---\n"

# The names of the forms, with what they measure of a script.
TURNS, THREADS = "in turns", "in threads"
TWO_TURNS, TWO_THREADS = "on two mounts in turns", "on two mounts in threads"
EDITED, DUMP, CHECK, INSPECT, READING = "edited records", "dump", "check", "inspect", "reading"
FORMS = (TURNS, THREADS, TWO_TURNS, TWO_THREADS, EDITED, DUMP, CHECK, INSPECT, READING)
THREADED = (THREADS, TWO_THREADS)
ARGUMENTS = {THREADS: IN_THREADS, TWO_TURNS: ON_TWO_IN_TURNS, TWO_THREADS: ON_TWO_IN_THREADS, DUMP: DUMPED}

# The runs of the short measure: they reach every place that the others reach.
RAW, PASS = True, False
SHORT = ((TURNS, RAW), (TURNS, PASS), (THREADS, PASS), (CHECK, PASS), (INSPECT, RAW), (READING, RAW),
         (READING, PASS))
LONG = tuple((form, is_raw) for form in FORMS for is_raw in (RAW, PASS))

# What a run measured: its places, the public bytes by their kinds, how many blocks of Argon2id have to
# depend on a passphrase, how many tags were compared, and how often a division was met.
Measure = collections.namedtuple("Measure", "name places public blocks unwrappings divisions")


class Program:
    """A program with its symbols and instructions."""

    def __init__(self, path, symbols, code):
        self.path, self.symbols, self.code = path, symbols, code

    def output(self, arguments, given):
        """What it prints without valgrind."""
        command = [self.path, *arguments]
        return subprocess.run(command, input=given, stdout=subprocess.PIPE, timeout=60, check=True).stdout

    def run(self, arguments, given):
        """A run under memcheck that has not begun."""
        return Run(self.path, arguments, given, self.symbols, self.code)


def measure(program, form, is_raw, secrets=None, with_public=True, with_callers=False):
    """One run, with the script's secrets or with these."""
    script = script_of(program, form, is_raw)
    arguments, given = call_of(program, form, script)
    output = program.output(arguments, given)
    if form == READING:
        marks = ReadingMarks(script, DIGIT_KINDS if is_raw else (PASSPHRASES,))
    else:
        digits = re.findall(rb"^block ([0-9a-f]+)$", output, re.MULTILINE)
        blocks = [bytes.fromhex(digit.decode()) for digit in digits]
        secrets = script.secrets if secrets is None else secrets
        marks = Marks(secrets, script.public_values(), blocks, with_public)
    run = program.run(arguments, given)
    try:
        if not with_callers:
            run.ignore_callers()
        marks.prepare(run)
        run.watch_divisions()
        run.finish()
    finally:
        run.close()
    lost = set(marks.secrets) - set(run.secret_bytes) if form == READING else ()
    if lost:
        raise MissingFunction("that reads " + ", ".join(sorted(lost)))
    # in threads the order of the lines is one of many, but each line is the same
    order = sorted if form in THREADED else bytes
    if order(run.output) != order(output):
        raise RuntimeError(f"{form}: the run under valgrind printed something else")
    name = f"{form}, {'raw secrets' if is_raw else 'passphrases'}"
    return Measure(name, list(places(run)), run.public_bytes, blocks_of(form, script), marks.unwrappings,
                   sum(count for count, _ in run.divisions.values()))


def script_of(program, form, is_raw):
    """The script of a form."""
    if form == EDITED:
        return edited_script(is_raw, lambda text: program.output(IN_TURNS, text))
    return session_script(is_raw)


def call_of(program, form, script):
    """The arguments and the input of a form."""
    if form == CHECK:
        return ["check", *SEEDED], script.text + SCRIPT_END + program.output(IN_TURNS, script.text)
    if form == INSPECT:
        key = script.secrets[RAW_KEYS][0].hex()
        return ["inspect", "raw:" + key], program.output(DUMPED, script.text)
    return ARGUMENTS.get(form, IN_TURNS), script.text


def blocks_of(form, script):
    """How many blocks of Argon2id depend on a passphrase in a run. A check makes a command again for each of
    its replies, and keeps the last two tags of its caller."""
    if form in (INSPECT, READING):
        return 0
    made, kept = [], []
    for command in script.stretchings():
        for word in command * 2 if form == CHECK else command:
            if form != CHECK or word not in kept:
                made.append(word)
                kept = [*kept, word][-2:]
    return sum(dependent_blocks(costs) for _, _, costs in made)
