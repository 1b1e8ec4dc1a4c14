"""tools/picture: the states that it reads off logs beside the mount's, and inputs that are no logs."""
import os
import random
import signal
import subprocess

from parts import TOP
from parts.check.linked import FOLDER as LINKED_EXAMPLES
from parts.common.log_reader import place_commands, read_log
from parts.common.running import SECONDS, SERIAL, run, scripts
from parts.picture.causes import causes, refusal_rows
from parts.picture.drawing import COLOURS, drawn
from parts.picture.history import EITHER, history_of

TOOL = os.path.join(TOP, "tools", "picture")
SCRIPTS, COMMANDS = 300, 46
RAW = ["raw:" + "1" * 64, "raw:" + "2" * 64]
ENTRIES = ["/a", "/a/f", "/a/g", "/b", "/b/f", "/p"]
MADE = ["add-key " + "1" * 64, "add-key " + "2" * 64, "mkdir /a", "mkdir /b", f"set-policy /a {RAW[0]} 32",
        f"set-policy /b {RAW[1]} 32", "create /a/f", "create /a/g", "create /b/f", "create /p"]
# one key, a file opened twice, locked, closed, read and closed; the file is readable at place 6
TWICE = ["open /a/f", "open /a/f", f"remove-key {RAW[0]}", "close 0", "read 1 0 1", "close 1"]


def drawn_commands(draws, count):
    """Commands that open, close, add and remove at random."""
    found = []
    for _ in range(count):
        raw, path = draws.choice(RAW), draws.choice(ENTRIES)
        found.append(draws.choice([
            f"open {path}", f"open {path}", f"open {path}", f"close {draws.randrange(6)}",
            f"close {draws.randrange(6)}", f"close {draws.randrange(20)}", f"read {draws.randrange(6)} 0 1",
            f"remove-key {raw}", f"remove-key-all {raw}", f"key-status {raw}", f"add-key {raw[4:]}",
            f"unlink {path}", f"create {path}"]))
    return found


def watched(first, second):
    """A script in which two callers act in turns, and after each command two others ask for both keys."""
    asking = [f"key-status {key}" for key in RAW]
    sections = [("0", first)] + [("5", [question] * len(first)) for question in asking]
    sections += [("1000", second)] + [("5", [question] * len(second)) for question in asking]
    return "".join(f"caller {user}\n" + "".join(command + "\n" for command in commands) for user,
                   commands in sections)


def parted(log):
    """The log of callers 0 and 3, who act, as callers 0 and 1; the states of both keys after each entry."""
    lines, states = [], []
    for line in log.decode().splitlines():
        _, caller, rest = line.split(" ", 2)
        if caller in ("0", "3"):
            lines.append(f"{len(lines)} {int(caller) // 3} {rest}")
            states.append({})
        else:
            states[-1][rest.split(" ")[2]] = rest.split(" ")[5]
    return "\n".join(lines) + "\n", states


def differing_states(first, second):
    """How many states were compared, and those in which the picture has another than the mount."""
    _, log, _ = run(SERIAL, watched(first, second).encode())
    text, states = parted(log)
    script = "".join(line + "\n" for line in ("caller 0", *first, "caller 1000", *second))
    found = read_log(text)
    place_commands(script.encode(), found)
    lives, compared, wrong = history_of(found.entries).lives, 0, []
    for place, told in enumerate(states):
        for key, state in told.items():
            shown = lives[key].state_at(place) if key in lives else None
            compared += shown is not None
            if shown not in (None, state) and not (shown == EITHER and state in EITHER.split(" or ")):
                wrong.append((place, key[:8], shown, state))
    return compared, wrong


def shadowed_states(tally):
    """At each place of generated scripts each key is in the state that the mount reports then."""
    compared, wrong = differing_states(MADE + TWICE, ["stat /"] * 16)
    tally.wants("a file opened twice keeps its key until the 2nd close", compared and not wrong, str(wrong))
    total = 0
    for number in range(SCRIPTS):
        draws = random.Random(number)
        first = MADE + drawn_commands(draws, COMMANDS - len(MADE))
        compared, wrong = differing_states(first, drawn_commands(draws, COMMANDS))
        total += compared
        tally.wants(f"the picture has the states of drawn script {number}", not wrong, str(wrong[:3]))
    tally.wants("most states are compared", total > SCRIPTS * COMMANDS * 2, str(total))


def shown(*words, given=b""):
    """The exit status, the output and what was reported of a picture."""
    ended = subprocess.run([TOOL, *words], input=given, capture_output=True, timeout=SECONDS, check=False)
    return ended.returncode, ended.stdout.decode(), ended.stderr.decode()


def pictures_of_two_mounts(tally):
    """Logs of two mounts are shown mount by mount, each call with its line."""
    for name in sorted(name for name in os.listdir(LINKED_EXAMPLES) if name.endswith(".fsc")):
        script = os.path.join(LINKED_EXAMPLES, name)
        log = script[:-4] + ".log"
        with open(log, encoding="utf-8") as file:
            entries = sum(line[0].isdigit() for line in file)
        status, text, _ = shown(script, log)
        rows = [line for line in text.splitlines() if line[:5].strip().isdigit()]
        tally.wants(f"{name} is shown on both mounts", (status, len(rows)) == (0, entries)
                    and all(row[7:11].strip().isdigit() for row in rows) and "\nmount 1\n" in text)
        status, svg, _ = shown("--svg", script, log)
        tally.wants(f"{name} is drawn on both mounts", (status, svg.count("<circle")) == (0, entries))


def pictures_of_no_log(tally):
    """What is no log of the script, and a file that can't be read, is reported in a line, with status 1."""
    script = os.path.join(TOP, "examples", "one-key.fsc")
    log = script[:-4] + ".log"
    for what, words, given in (
            ("garbage", (script, "-"), b"garbage\n"), ("bytes", (script, "-"), bytes(range(256))),
            ("a script in place of a log", (script, script), b""),
            ("a missing log", (script, "/nowhere"), b""),
            ("a missing script", ("/nowhere", log), b""), ("a folder", (TOP, log), b""),
            ("a log of another script", (os.path.join(TOP, "examples", "open-file.fsc"), log), b""),
            ("a log in place of a script", (log, log), b""),
            ("a reply that is cut", (script, "-"), b"0 0 1000 add-key 32 = added\n"),
            ("a handle without its number", (script, "-"), b"0 0 1000 open /a = handle\n")):
        for way in ("--text", "--svg"):
            status, text, told = shown(way, *words, given=given)
            is_line = told.startswith("picture: ") and told.count("\n") == 1
            tally.wants(f"{way} of {what} is reported", (status, text) == (1, "") and is_line, told)


def unread_output(words):
    """The exit status and what was reported of a command whose output nobody reads."""
    reading, writing = os.pipe()
    os.close(reading)
    try:
        ended = subprocess.run(words, stdout=writing, stderr=subprocess.PIPE, timeout=SECONDS, check=False)
    finally:
        os.close(writing)
    return ended.returncode, ended.stderr


def pictures_that_nobody_reads(tally):
    """A picture whose reader is gone ends by the signal, without a message."""
    script = os.path.join(TOP, "examples", "one-key.fsc")
    for way in ("--text", "--svg"):
        ended = unread_output([TOOL, way, script, script[:-4] + ".log"])
        tally.wants(f"{way} that nobody reads has no message", ended == (-signal.SIGPIPE, b""), str(ended))


def causes_of_refusals(tally):
    """Each refusal of each call in the examples has one row of docs/ANSWERS.md, by the call."""
    rows, seen = list(refusal_rows()), {}
    for path in scripts():
        with open(path[:-4] + ".log", encoding="utf-8") as file:
            for entry in read_log(file.read()).entries:
                if entry.refusal():
                    seen[entry.verb, entry.refusal()] = list(causes(rows, entry))
    for (verb, name), found in seen.items():
        tally.wants(f"{name} of {verb} has one cause", len(found) == 1, str(found))
    is_so = seen["open", "inval"] != seen["readlink", "inval"]
    tally.wants("open and readlink are refused for other causes", is_so)


def legend(tally):
    """The legend draws each state as life lines are drawn."""
    lines = drawn([[]]).splitlines()
    for state, colour in COLOURS.items():
        at = next(number for number, line in enumerate(lines) if f">{state}</text>" in line)
        drawn_line = lines[at - 1]
        is_so = colour in drawn_line and ("dasharray" in drawn_line) == ("absent" in state)
        tally.wants(f"the legend has {state}", is_so, drawn_line)


CHECKS = (shadowed_states, pictures_of_two_mounts, pictures_of_no_log, pictures_that_nobody_reads,
          causes_of_refusals, legend)
