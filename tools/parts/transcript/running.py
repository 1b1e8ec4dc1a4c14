"""Runs the script of a transcript, and returns what each of its steps was answered."""
import dataclasses
import difflib
import os
import re
import shutil
import subprocess
from typing import Optional

from parts import TOP
from parts.common.log_reader import LogFault, Made, place_commands, read_log
from parts.transcript.reading import BYTES_AT, KEY_AT, BadLine, Step

PROVED = os.path.join(TOP, "crates", "fscrypt_cli", "out", "fscrypt_cli")
UNPROVED = os.path.join(TOP, "crates", "fscrypt_cli", "out", "unproved", "fscrypt_cli")
RELEASED = os.path.join(TOP, "fsc")
BAD_LINE = 3
FORM_LINE = re.compile(r"^    ([a-z-]+(?: [\[A-Z\]]+)*)(?: |$)", re.MULTILINE)
FAULT_LINE = re.compile(r"^fsc: line (\d+): (.*)$", re.MULTILINE)
BAD_WORD = re.compile(r"has a word, number (\d+) after it")
# what a shell calls a command
SHELL_NAMES = {"ls": "list", "mv": "rename", "rm": "unlink", "touch": "create", "cat": "read"}


class Failure(Exception):
    """The program printed no log; the exit status of the run, or 1."""

    def __init__(self, told, status=1):
        super().__init__(told)
        self.status = status


class BadCommands(Exception):
    """The program refused lines of the script."""


@dataclasses.dataclass
class Answer:
    """What a step was answered: its entries in the log and, of a session command, its outcome."""
    step: Step
    made: Made

    @property
    def last_reply(self):
        """The reply of its only or last call."""
        return self.made.entries[-1].reply if self.made.entries else ""

    def texts(self):
        """What may be expected: the reply, or the outcome and the last reply of a session command."""
        outcome = [self.made.outcome] if self.made.command.is_session() else []
        return outcome + [self.last_reply]

    def matching(self) -> Optional[str]:
        """The first of the texts that begins with what is expected, word by word."""
        wanted = (self.step.expected or "").split(" ")
        return next((text for text in self.texts() if text.split(" ")[:len(wanted)] == wanted), None)

    def differs(self):
        """Whether something is expected, and neither reply nor outcome begins so."""
        return self.step.expected is not None and self.matching() is None

    def refused(self):
        """Whether the call was refused, or the session command has another outcome than ok."""
        if self.made.command.is_session():
            return self.made.outcome != "ok"
        return self.last_reply.startswith("refused ")


def found_program(given):
    """The program that runs: the one given, FSC_PROGRAM, one that is here, else that on the PATH."""
    places = [given, os.environ.get("FSC_PROGRAM")]
    if not any(places):
        # at the top of a checkout is the command that proves, and elsewhere the program
        is_checkout = os.path.isdir(os.path.join(TOP, "crates"))
        places = [PROVED, UNPROVED] if is_checkout else [RELEASED]
        places.append(shutil.which("fsc"))
    found = next((place for place in places if place and os.access(place, os.X_OK)), None)
    if found is None:
        named = f" {' or '.join(filter(None, places))}" if given or os.environ.get("FSC_PROGRAM") else ""
        raise Failure(f"there is no program{named}; ./fsc --unproved --version builds one in 1 to 3 minutes")
    return found


class Program:
    """fsc, run in turns with a seed."""

    def __init__(self, path, seed):
        self.path, self.seed, self.logs = path, seed, {}

    def run(self, *words, given=b""):
        """The exit status, standard output and standard error of a run."""
        try:
            ended = subprocess.run([self.path, *words], input=given, capture_output=True, check=False)
        except OSError as fault:
            raise Failure(f"{self.path} doesn't run: {fault.strerror}") from fault
        return ended.returncode, ended.stdout.decode("latin-1"), ended.stderr.decode("utf-8", "replace")

    def replay(self, script):
        """The same of a replay of a script, which is bytes."""
        return self.run("replay", "--serial", "--seed", self.seed, given=script)

    def forms(self):
        """The form of each command, as --help has it, by its name."""
        _, text, _ = self.run("--help")
        return {found.split(" ")[0]: found for found in FORM_LINE.findall(text)}

    def log(self, script):
        """The commands of each caller with their entries, or BadCommands, a Failure."""
        text = script.text()
        if text in self.logs:
            return self.logs[text]
        status, log, told = self.replay(text)
        if status == BAD_LINE and FAULT_LINE.search(told):
            raise BadCommands(told)
        if status:
            lines = [line.removeprefix("fsc: ") for line in told.splitlines()]
            raise Failure(f"fsc ended with {status}: {'; '.join(lines)}", status)
        try:
            self.logs[text] = place_commands(text, read_log(log))
            return self.logs[text]
        except LogFault as fault:
            raise Failure(f"{self.path} printed another log: {fault}") from fault


def nearest(verb, forms):
    """The command that is spelled most alike, or nothing."""
    return SHELL_NAMES.get(verb) or next(iter(difflib.get_close_matches(verb, forms, 1)), "")


def also_taken(step, why):
    """What a transcript takes besides, if the word at fault is to be a key or bytes in hexadecimal, or if
    there are too many words, one of them with a = that was to part them."""
    words = step.shown.split(" ")[1:]
    if "has too many words" in why and any(word.startswith("=") or word.endswith("=") for word in words):
        return "; spaces part = from what is before and after it"
    found = BAD_WORD.search(why)
    at = int(found[1]) if found else 0
    if at and at == KEY_AT.get(step.verb):
        return "; in a transcript also id:POLICY or raw:text:WORD"
    if at and at == BYTES_AT.get(step.verb) and not step.shown.split(" ")[at].startswith("text:"):
        return "; in a transcript also text:WORD"
    return ""


def bad_commands(program, script):
    """The steps that fsc refuses, each as a bad line. A pause replaces it, and the rest is tried again."""
    found, forms = [], None
    while True:
        status, _, told = program.replay(script.text())
        faults = FAULT_LINE.findall(told) if status == BAD_LINE else []
        if not faults:
            return found
        forms = forms or program.forms()
        by_line, bad = script.steps_by_line(), []
        for number, why in faults:
            step = by_line.get(int(number))
            if step is None:
                raise Failure(f"{program.path} doesn't take a line of the script: {why}", status)
            form, near = forms.get(step.verb), forms.get(nearest(step.verb, forms))
            told_form = f"; the form: {form}" if form and not why.endswith(form) else ""
            told_near = f"; the nearest: {near}" if near and not form else ""
            found.append(BadLine(step.line, why + told_form + told_near + also_taken(step, why)))
            bad.append(step)
        script = script.without(bad)


def answers(program, script):
    """The answer to each step of the script, in the order of the steps."""
    by_line = script.steps_by_line()
    made = (made for section in program.log(script) for made in section if made.command.line in by_line)
    found = [Answer(by_line[command.command.line], command) for command in made]
    return sorted(found, key=lambda answer: answer.step.line)
