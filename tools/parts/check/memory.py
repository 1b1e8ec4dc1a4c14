"""Allocations that fail, keys in a core of the program, wipes in its machine code, and what depends on a
secret there."""
import shutil
import subprocess
import tempfile

from parts import TOP
from parts.common.running import PROGRAM, SERIAL, run, run_at_terminal
from parts.faults.failing import Failing
from parts.faults.out_of_memory import Judge, Wrong

# A script with its session commands, one of names and contents, and one of eight callers.
SCRIPTS = ("examples/failed-unlock.fsc", "examples/locked-directory.fsc",
           "examples/rows/eight_users_share_one_key.fsc")
NO_TOOL = 77
NO_MEMORY, CLEARED = 8, b"\r\x1b[K"
TWO_CALLS = b"caller 0\nmkdir /a\nlist /\n"
BAD = b"caller 0\nmkdri /a\n"


def failing_allocations(tally):
    """Three scripts in turns and in threads, with each allocation failing; tools/faults tries all of
    them."""
    tool = subprocess.run([f"{TOP}/tools/faults", "--program", PROGRAM,
                           *(f"{TOP}/{script}" for script in SCRIPTS)],
                          stdout=subprocess.PIPE, stderr=subprocess.STDOUT, check=False)
    if tool.returncode == NO_TOOL:
        print("check: there is no cc, so no allocation was made to fail")
        return
    told = tool.stdout.decode()
    tally.wants("each run whose allocation fails ends as it should", tool.returncode == 0, told)


def shown_commands(tally):
    """On a terminal nothing is before the status of a run that found no memory, also in a
    command."""
    if shutil.which("cc") is None:
        return
    with tempfile.TemporaryDirectory() as room:
        failing = Failing(PROGRAM, room)
        asked, in_commands = failing.run(SERIAL, TWO_CALLS, 0, 0)[3], 0
        for number in range(1, asked + 1):
            status, _, shown, *_ = failing.run(SERIAL, TWO_CALLS, number, number, run_at_terminal)
            if status == NO_MEMORY:
                parts = shown.split(CLEARED)
                in_commands += parts[-2:-1] in ([b"fsc: line 2: mkdir"], [b"fsc: line 3: list"])
                tally.wants(f"the status is alone if allocation {number} fails",
                            parts[-1].startswith(b"fsc: no memory\r\n"), repr(shown))
        tally.wants("commands find no memory", in_commands > 0)


def bad_lines_without_memory(tally):
    """Where there is no memory to keep a text or to look at its line, the line's number is reported, and
    what to do."""
    if shutil.which("cc") is None:
        return
    known = b'"mkdri" is no command; fsc --help lists the commands'
    no_memory = (b"there was no memory to find why it is at fault; try the script alone, or with more "
                 b"memory free")
    with tempfile.TemporaryDirectory() as room:
        failing = Failing(PROGRAM, room)
        for words in (SERIAL, ["dump", *SERIAL[2:]], ["check", *SERIAL[2:]]):
            reasons = set()
            # number 0 is of none
            for number in range(failing.run(words, BAD, 0, 0)[3] + 1):
                status, _, told, *_ = failing.run(words, BAD, number, number)
                if status != NO_MEMORY:
                    reasons.add(told)
            head = b"fsc: bad line 2\nfsc: "
            parting = b"no line --- is between the script and its log\nfsc: "
            wanted = {head + b"line 2: " + message + b"\n" for message in (known, no_memory)}
            if words[0] == "check":
                # of a text that isn't stored it is not known whether such a line is there
                wanted = {head + parting + b"line 2: " + message + b"\n"
                          for message in (known, no_memory)} | {head + b"line 2: " + no_memory + b"\n"}
            tally.wants(f"{words[0]} reports a line as far as there is memory", reasons == wanted,
                        repr(reasons))


def judged_logs(tally):
    """What judges these runs refuses each log that was changed."""
    with open(f"{TOP}/{SCRIPTS[0]}", encoding="ascii") as file:
        script = file.read()
    log = run(SERIAL, script.encode())[1].decode()
    judge = Judge(script, lambda text: run(SERIAL, text.encode())[1].decode())
    lines = log.splitlines(True)
    for at, line in enumerate(lines):
        asked = line.split(" = ")[0]
        others = [line.replace("ok\n", "full\n"), "", line + line]
        if " = " in line:
            others = [f"{asked} = refused no-space\n", f"{asked} = refused no-memory\n", "",
                      line.replace(" 1000 ", " 1001 ")]
        for other in others:
            if other != line:
                tally.wants(f"a log is refused with {other!r} in place of line {at}",
                            refuses(judge, "".join([*lines[:at], other, *lines[at + 1:]])))
    tally.wants("the log itself is not", not refuses(judge, log))


def refuses(judge, log):
    """Whether the judge finds a fault."""
    try:
        judge.check(log)
    except (Wrong, ValueError, IndexError):
        return True
    return False


def keys_in_core(tally):
    """No key is more often in a core of the program than in docs/SECURITY.md."""
    tool = subprocess.run([f"{TOP}/tools/keys_in_core", PROGRAM], stdout=subprocess.PIPE,
                          stderr=subprocess.STDOUT, check=False)
    if tool.returncode == NO_TOOL:
        print("check: gdb is not there or may not trace, so no core was taken")
        return
    tally.wants("no key is more often in a core than docs/SECURITY.md has it", tool.returncode == 0,
                tool.stdout.decode())


def wipes_in_code(tally):
    """What the sources promise to wipe is wiped in the machine code."""
    tool = subprocess.run([f"{TOP}/tools/wipes_in_code", PROGRAM], stdout=subprocess.PIPE,
                          stderr=subprocess.STDOUT, check=False)
    if tool.returncode == NO_TOOL:
        print("check: there is no objdump, so no machine code was read")
        return
    tally.wants("the machine code wipes what the sources promise", tool.returncode == 0,
                tool.stdout.decode())


def secret_flow(tally):
    """No branch, address or division depends on a secret but those in the table of docs/SECURITY.md."""
    tool = subprocess.run([f"{TOP}/tools/secret_flow", "--short", PROGRAM], stdout=subprocess.PIPE,
                          stderr=subprocess.STDOUT,
                          check=False)
    output = tool.stdout.decode()
    if tool.returncode == NO_TOOL:
        print("check: " + output.strip())
        return
    tally.wants("no other place depends on a secret than docs/SECURITY.md has", tool.returncode == 0, output)


CHECKS = (failing_allocations, shown_commands, bad_lines_without_memory, judged_logs, keys_in_core,
          wipes_in_code, secret_flow)
