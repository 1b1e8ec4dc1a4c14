"""The scripts that are given in files: read, and refused before a kernel boots if fsc doesn't take them."""
import os
import subprocess

from parts.linux.scripts import SEED

# of `fsc check`: the script was read; its log, which is empty here, is one or is none
READ = (0, 1)


class Unreadable(Exception):
    """A file that is no text, or can't be read."""


def given(names):
    """The names and texts of the scripts in files, or Unreadable."""
    found = []
    for name in names:
        try:
            # line ends are left as they are, for fsc reports a carriage return
            with open(name, encoding="utf-8", newline="") as file:
                found.append((os.path.basename(name).removesuffix(".fsc"), file.read()))
        except OSError as fault:
            raise Unreadable(f"{name} can't be read: {fault.strerror}") from fault
        except UnicodeDecodeError as fault:
            raise Unreadable(f"{name} is no text in UTF-8") from fault
    return found


def faults_of_grammar(program, name, text):
    """What fsc reports of the lines of a script that it doesn't take, a line of text each."""
    if text and not text.endswith("\n"):
        return [f"{name}: line {text.count(chr(10)) + 1}: the last line is not ended by a line feed"]
    ended = subprocess.run([program, "check", "--seed", SEED], input=text.encode() + b"---\n",
                           capture_output=True, check=False)
    if ended.returncode in READ:
        return []
    told = [line.removeprefix("fsc: ") for line in ended.stderr.decode("utf-8", "replace").splitlines()]
    lines = [line for line in told if line.startswith("line ")]
    return [f"{name}: {line}" for line in lines or told[:1] or [f"fsc ended with {ended.returncode}"]]
