"""Reads a transcript: who acts, and each command in the order of time with what is expected of it."""
import dataclasses
import re
import urllib.parse
from typing import Optional

MAX_USERS = 8
MAX_UID = 4_294_967_295
NAME = re.compile(r"[A-Za-z0-9_-]{1,32}")
UID = re.compile(r"0|[1-9][0-9]*")
WORD = re.compile(r"(?:[!-$&-~]|%[0-9A-Fa-f]{2})+")
LINE_FORM = "NAME: COMMAND [= EXPECTED]"
USER_FORM = "user NAME UID"
MARK = "\ufeff"
# the word of a command that is bytes in hexadecimal, counted from 1 after the name
BYTES_AT = {"add-key": 1, "write": 3, "meta-put": 3, "set-policy-bytes": 2}
# the word that names a key, counted so too; `id:POLICY` is the identifier of the policy's key
KEY_AT = {"remove-key": 1, "remove-key-all": 1, "key-status": 1, "set-policy": 2}
POLICY = re.compile(r"id:(?![0-9A-Fa-f]{32}$)([a-z0-9_-]{1,32})")
# what a script has in place of `id:POLICY` until the mount has been asked
UNKNOWN = "0" * 32
# commands of a script that a transcript doesn't have, with what to do in their place
NOT_HERE = {
    "caller": f"is no command of a transcript; {USER_FORM} names a caller",
    "pause": "is no command of a transcript; pauses are put in where they are needed",
    "link": "is no command: a file has one name; rename shows what a directory's policy refuses",
    "ln": "is no command: a file has one name; for a symlink: symlink PATH TARGET",
}


@dataclasses.dataclass(frozen=True)
class User:
    """A caller of the script: its name in the transcript, and the user that it is."""
    name: str
    uid: int


@dataclasses.dataclass(frozen=True)
class Step:
    """A command of a transcript: its line, its caller, its text as it is written and as a script has it."""
    line: int
    caller: int
    shown: str
    command: str
    expected: Optional[str]

    @property
    def verb(self):
        """The name of the command."""
        return self.command.split(" ")[0]

    @property
    def policy(self):
        """The policy that the command names by `id:POLICY`, or nothing."""
        words = self.shown.split(" ")
        at = KEY_AT.get(self.verb, len(words))
        named = POLICY.fullmatch(words[at]) if at < len(words) else None
        return named[1] if named else ""

    def with_identifier(self, identifier):
        """The step with this identifier in place of `id:POLICY`."""
        words = self.command.split(" ")
        words[KEY_AT[self.verb]] = f"id:{identifier}"
        return dataclasses.replace(self, command=" ".join(words))


@dataclasses.dataclass(frozen=True, order=True)
class BadLine:
    """A line that is at fault, and why."""
    line: int
    why: str


@dataclasses.dataclass
class Transcript:
    """The lines of a transcript, its users as they are named, its steps, and its bad lines."""
    lines: list
    users: list = dataclasses.field(default_factory=list)
    steps: list = dataclasses.field(default_factory=list)
    bad: list = dataclasses.field(default_factory=list)

    def names(self):
        """The names of the users."""
        return [user.name for user in self.users]

    def refuse(self, step, why):
        """Takes a step as a line at fault."""
        self.bad.append(BadLine(step.line, why))


class Fault(Exception):
    """Why a line is at fault."""


def hex_of_text(text):
    """The bytes of a text in hexadecimal; %XX is the byte of these digits."""
    if not WORD.fullmatch(text):
        raise Fault("has a text that is no word: its characters are ! to ~, and %XX is a byte, %20 a space")
    return urllib.parse.unquote_to_bytes(text).hex()


def bytes_word(word):
    """The word with its text in hexadecimal, if it is `text:` or `raw:text:` and a text."""
    for prefix in ("raw:text:", "text:"):
        if word.startswith(prefix):
            return prefix.removesuffix("text:") + hex_of_text(word.removeprefix(prefix))
    return word


def script_command(words):
    """The command as a script has it: texts in hexadecimal where bytes are expected, or a raw key."""
    at = BYTES_AT.get(words[0])
    is_bytes = [place == at or (word.startswith("raw:") and words[0] != "symlink")
                for place, word in enumerate(words)]
    return " ".join(bytes_word(word) if here else word for word, here in zip(words, is_bytes))


def expected_reply(words):
    """What is expected, texts in hexadecimal."""
    return " ".join(bytes_word(word) for word in words)


def read_user(transcript, words):
    """Takes the line of a user."""
    if len(words) != 3 or not NAME.fullmatch(words[1]):
        raise Fault(f"is no line of a user; the form: {USER_FORM}, NAME of letters, digits, _ and -")
    if not UID.fullmatch(words[2]) or int(words[2]) > MAX_UID:
        raise Fault(f"has a user that is no number from 0 to {MAX_UID}; the form: {USER_FORM}")
    if words[1] in transcript.names():
        raise Fault(f"names {words[1]} again")
    if len(transcript.users) == MAX_USERS:
        raise Fault(f"names a ninth user; a script has at most {MAX_USERS} callers")
    transcript.users.append(User(words[1], int(words[2])))


def read_step(transcript, number, words):
    """Takes the line of a command."""
    if not words[0].endswith(":"):
        raise Fault(f"is neither a user nor a command; the forms: {USER_FORM}, {LINE_FORM}")
    name, words = words[0][:-1], words[1:]
    if name not in transcript.names():
        raise Fault(f"begins with {name!r}, which no line before it names; the form: {USER_FORM}")
    expected = None
    if "=" in words:
        at = words.index("=")
        words, expected = words[:at], words[at + 1:]
        if not expected:
            raise Fault(f"has nothing after =; the form: {LINE_FORM}")
        if "=" in expected:
            raise Fault(f"has a second =; the form: {LINE_FORM}; the word = itself is %3D")
    if not words:
        raise Fault(f"has no command; the form: {LINE_FORM}")
    if words[0].startswith("#"):
        raise Fault("has a comment in place of a command; a comment is a line of its own")
    if words[0] in NOT_HERE:
        raise Fault(f'"{words[0]}" {NOT_HERE[words[0]]}')
    caller = transcript.names().index(name)
    step = Step(number, caller, " ".join(words), script_command(words),
                None if expected is None else expected_reply(expected))
    transcript.steps.append(step.with_identifier(UNKNOWN) if step.policy else step)


def read_transcript(text):
    """The transcript that a text is, with all lines of it that are at fault."""
    transcript = Transcript(text.split("\n"))
    if transcript.lines[-1] == "":
        transcript.lines.pop()
    for number, line in enumerate(transcript.lines, 1):
        words = line.split(" ")
        words = [word for word in words if word]
        if not words or words[0].startswith("#"):
            continue
        try:
            if number == 1 and line.startswith(MARK):
                raise Fault("begins with a byte order mark; save the transcript without it")
            if "\r" in line:
                raise Fault("has a carriage return; save the transcript with line feeds alone")
            if "\t" in line:
                raise Fault("has a tab, where a space parts two words")
            if words[0] == "user":
                read_user(transcript, words)
            else:
                read_step(transcript, number, words)
        except Fault as fault:
            transcript.bad.append(BadLine(number, str(fault)))
    return transcript
