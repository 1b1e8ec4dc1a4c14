"""The no-key texts of names in a locked directory, by a run of fsc in turns.

A directory's texts come from the nonce that its command draws, by the numbers of caller and command. So a
script in which a command of the same numbers makes such a directory has the same texts.
"""
import subprocess

from parts.linux.scripts import FILLER, SEED

CALLERS = 8
_known = {}


class NoTexts(Exception):
    """No script has that command where it is needed."""


def script_of(call, raw, pad, names):
    """The script in which the call's command makes a directory with these names, which is locked and
    listed."""
    inside = call.verb == "mkdir"
    home = "/t/s" if inside else "/t"
    policy = f"set-policy /t raw:{raw} {pad}"
    ready = [f"add-key {raw}", "mkdir /t"] + [policy] * inside
    others = [line for line in range(CALLERS) if line != call.caller and (call.index or line < call.caller)]
    if len(others) < len(ready):
        raise NoTexts(
            f"line {call.line} draws the nonce of a locked directory too early for its texts to be known"
        )
    sections = [[FILLER] * (call.index + 1) for _ in range(CALLERS)]
    for caller, command in zip(others, ready):
        sections[caller][0] = command
    sections[call.caller][call.index] = "mkdir /t/s" if inside else policy
    last = (
        [f"create {home}/{name}" for name in names]
        + ["open /t"] * inside
        + [f"remove-key raw:{raw}", f"list {home}"]
    )
    sections[0] += last + [f"stat {home}/*{k}" for k in range(len(names))]
    return "".join("".join(line + "\n" for line in ["caller 1000", *own]) for own in sections), 2 + inside


def texts_of(program, call, raw, pad, names):
    """The text of each of these names in the directory that a call makes or encrypts."""
    script, first = script_of(call, raw, pad, names)
    if script not in _known:
        run = subprocess.run(
            [program, "replay", "--serial", "--seed", SEED],
            input=script.encode(),
            capture_output=True,
            check=True,
        )
        found = {}
        for line in run.stdout.decode().splitlines()[-len(names) :]:
            asked, _, told = line.partition(" = ")
            found[names[int(told.split(" ")[2]) - first]] = asked.split(" ")[4].rsplit("/", 1)[1]
        _known[script] = found
    return _known[script]
