"""What Linux answers to the steps of a transcript: where it is known to differ, or as a kernel is asked."""
import dataclasses
import os
import re
import subprocess
import tempfile

from parts import PARTS, TOP
from parts.linux.bookkeeping import Bookkeeping, parts_of
from parts.linux.comparison import Step, same, scripts_of, steps
from parts.linux.kinds import kind_of, rows
from parts.linux.known import known_answer
from parts.linux.scripts import NO_KEY, NOT_IN_LINUX, names_of
from parts.transcript.running import Failure
from parts.transcript.script import script_of

VERSION = re.compile(r"\d+\.\d+(-rt)?")
LINUX = os.path.join(TOP, "tools", "linux")


def kernel_step(entry, books):
    """The entry of a log as the comparison with a kernel takes it, without the kernel's answer."""
    user, verb, words, reply = int(entry.user), entry.verb, entry.words, entry.reply
    return Step("transcript", True, "", entry.caller, user, verb, words, reply, "", {}, books)


def unknown_texts(step):
    """The paths of a call up to each no-key text of which the books don't know the node."""
    for path in step.paths():
        parts = parts_of(path)
        for at, part in enumerate(parts, 1):
            if part.startswith(NO_KEY) and step.books.walk(parts[:at])[1] is None:
                yield "/" + "/".join(parts[:at])


def learn_texts(program, transcript, before, step):
    """Asks the mount, before the step, which nodes the no-key texts of its paths name."""
    paths = list(unknown_texts(step))
    if not paths:
        return
    script = script_of(transcript.users, before)
    script.level()
    places = [script.ask(step.caller, f"stat {path}") for path in paths]
    log = program.log(script)[step.caller]
    for path, entry in zip(paths, (log[at].entries[0] for at in places)):
        if not entry.refusal():
            step.books.feed_text(path, int(entry.answer[2]))


def known_differences(program, transcript, found):
    """Linux's answers to the steps, if the mount's state decides that they differ, with their rows."""
    books, listed = Bookkeeping(), rows()
    for at, answer in enumerate(found):
        for entry in answer.made.entries:
            step = kernel_step(entry, books)
            learn_texts(program, transcript, [answer.step for answer in found[:at]], step)
            reply, row = known_answer(step) or ("", "")
            if reply:
                yield answer.step.line, [f"Linux: {reply} (docs/LINUX.md, line {listed[row]}: {row})"]
            books.feed(entry.caller, int(entry.user), entry.verb, entry.words, entry.reply)


@dataclasses.dataclass(frozen=True)
class Asked:
    """A call that a kernel made: its caller and verb, and its answer with the row, if it differs."""
    caller: int
    verb: str
    differing: str


def asked_of(step, listed):
    """A step of the comparison, of which the books are before the call."""
    if same(step):
        return Asked(step.caller, step.verb, "")
    kind = kind_of(step)
    row = f", line {listed[kind.row]}: {kind.row}" if kind else " has no row"
    return Asked(step.caller, step.verb, f"{step.theirs} (docs/LINUX.md{row})")


def lines_of(name):
    """The lines of a file."""
    with open(name, encoding="utf-8") as file:
        return file.read().splitlines()


def asked_of_kernel(program, script, version):
    """The calls that a kernel made of a script, by tools/linux."""
    if not os.path.exists(LINUX):
        raise Failure("a kernel is asked by tools/linux, which is in the repository of fsc alone")
    with tempfile.TemporaryDirectory() as folder:
        name = os.path.join(folder, "transcript.fsc")
        with open(name, "wb") as file:
            file.write(script)
        words = [LINUX, version, "--raw", "--program", program.path, name]
        ended = subprocess.run(words, check=False, capture_output=True, text=True)
    if not ended.stdout.strip().endswith("unexplained"):
        told = (ended.stderr or ended.stdout).strip().splitlines()[-1:]
        raise Failure(f"tools/linux {version} ended with {ended.returncode}: {told}")
    out = os.path.join(PARTS, "linux", "out", version)
    logs, answers = (scripts_of(lines_of(os.path.join(out, name))) for name in ("logs.txt", "answers.txt"))
    listed = rows()
    return [asked_of(step, listed) for step in steps(logs[0], answers[0])]


def kernel_differences(program, transcript, found, version):
    """The kernel's answers to the steps, if they differ, with their rows; a listing's texts are its own.

    After a listing of no-key texts tools/linux puts a `stat` for each, which is no step of the transcript.
    """
    script = script_of(transcript.users, [answer.step for answer in found])
    asked = iter(asked_of_kernel(program, script.text(), version))
    for answer in found:
        for entry in answer.made.entries:
            if entry.verb in NOT_IN_LINUX:
                continue
            step = next(asked, None)
            if step is None:
                yield answer.step.line, [f"Linux {version}: not asked, since it can't go on like the mount"]
                return
            if (step.caller, step.verb) != (entry.caller, entry.verb):
                raise Failure(f"tools/linux {version} made another call in place of {entry.call}")
            if step.differing:
                yield answer.step.line, [f"Linux {version}: {step.differing}"]
            names = names_of(entry.reply) if entry.verb == "list" else []
            for _ in (name for name in names if name.startswith(NO_KEY)):
                next(asked, None)


def told_differences(program, transcript, found, version):
    """What Linux answers otherwise, by the line of the step."""
    if VERSION.fullmatch(version):
        return kernel_differences(program, transcript, found, version)
    return known_differences(program, transcript, found)
