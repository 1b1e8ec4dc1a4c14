"""What Linux 6.1 answered, beside stored logs: no difference but those of docs/LINUX.md, and a changed
refusal is found."""
import collections
import os
import re
import subprocess
import tempfile

from parts import PARTS, TOP
from parts.common.running import PROGRAM
from parts.linux.comparison import same, scripts_of, steps
from parts.linux.kinds import kind_of
from parts.linux.known import KNOWN, known_answer
from parts.linux.report import read

DATA = os.path.join(PARTS, "linux", "data")
MANY = 10


def unexplained(logs):
    """The exit status and the last line of the comparison of these logs."""
    with tempfile.NamedTemporaryFile("w", encoding="utf-8") as file:
        file.write(logs)
        file.flush()
        ended = subprocess.run([os.path.join(PARTS, "linux", "compare"), file.name,
                                os.path.join(DATA, "answers.txt")],
                               check=False, capture_output=True)
    return ended.returncode, ended.stdout.decode().splitlines()[-1:]


def stored_answers(tally):
    """Each kind of refusal is reported as another one once, and each time the comparison finds just that."""
    with open(os.path.join(DATA, "logs.txt"), encoding="utf-8") as file:
        logs = file.read()
    names = sorted(set(re.findall(r" = refused (\S+)\n", logs)))
    tally.wants("the stored logs have many kinds of refusals", len(names) > MANY)
    cases = [("the stored logs", logs, 0)]
    for name in names:
        other = "quota" if name != "quota" else "too-big"
        cases.append((f"{name} reported as {other}",
                      logs.replace(f" = refused {name}\n", f" = refused {other}\n", 1), 1))
    for what, text, wanted in cases:
        status, last = unexplained(text)
        tally.wants(f"{what}, beside the kernel's answers, has {wanted} unexplained",
                    status == wanted and last and last[0].endswith(f" lines, {wanted} unexplained"),
                    str(last))


def known_answers(tally):
    """What Linux is known to answer otherwise it answered, by the row that is reported, in each of the
    stored calls.

    With its last close a key stays in Linux only where user 0 does not remove it again, as in scripts of
    mode raw.
    """
    logs, answers = (read(os.path.join(DATA, name)) for name in ("logs.txt", "answers.txt"))
    told = collections.Counter()
    for log, answer in zip(scripts_of(logs), scripts_of(answers), strict=True):
        for step in steps(log, answer):
            known = known_answer(step)
            if known is None or (known[1].startswith("the status after") and not step.raw):
                continue
            words, kind = known[0].split(" "), kind_of(step)
            is_so = step.theirs.split(" ")[:len(words)] == words and not same(
                step) and kind and kind.row == known[1]
            tally.wants(f"Linux answered {step.line} by {known[1]}", is_so, step.theirs)
            told[known[1]] += 1
    for row in KNOWN:
        tally.wants(f"the stored calls have one of {row.row}", told[row.row] > 0)


def lacking(folder, config, modules):
    """The exit status of a boot of a kernel with this config and these modules, and what it reports as
    missing."""
    for name, text in (("vmlinuz-1", ""), ("calls", ""), ("config-1", config)):
        with open(os.path.join(folder, name), "w", encoding="utf-8") as file:
            file.write(text)
    words = [os.path.join(folder, part) for part in ("calls", "answers", "vmlinuz-1")]
    ended = subprocess.run([os.path.join(os.path.dirname(DATA), "boot"), "drive", *words, *modules],
                           check=False, capture_output=True)
    return ended.returncode, re.findall(r"^boot:   (.*)$", ended.stderr.decode(), re.MULTILINE)


def kernels_that_lack(tally):
    """Options and modules that a kernel lacks are reported before it is booted."""
    with open(os.path.join(os.path.dirname(DATA), "boot"), encoding="utf-8") as file:
        needed = re.search(r"^NEEDED=\((.*?)\)$", file.read(), re.MULTILINE | re.DOTALL)[1].split()
    options = [f"CONFIG_{option.split(':')[0]}" for option in needed]
    modules = {f"CONFIG_{option.split(':')[0]}": option.split(":")[1] for option in needed if ":" in option}
    built_in = "".join(f"{option}=y\n" for option in options)
    tally.wants("some options are needed, and some may be modules", len(options) > len(modules) > 1)
    with tempfile.TemporaryDirectory() as folder:
        for option in options:
            found = lacking(folder, built_in.replace(f"{option}=y\n", f"# {option} is not set\n"), [])
            wanted = f"{option} is not set"
            tally.wants(f"a kernel without {option} is refused", found == (2, [wanted]), str(found))
        for option, module in modules.items():
            config = built_in.replace(f"{option}=y\n", f"{option}=m\n")
            found = lacking(folder, config, [])
            wanted = f"{option} is a module, and there is no --modules"
            tally.wants(f"a kernel with {option} as a module needs modules",
                        found == (2, [wanted]), str(found))
            found = lacking(folder, config, [folder])
            wanted = f"{option} is a module, and {folder} has no {module}.ko"
            tally.wants(f"a kernel with {option} as a module needs that module",
                        found == (2, [wanted]), str(found))


def scripts_that_no_kernel_gets(tally):
    """A script that fsc doesn't take, and a file that is no text, are refused before a kernel is booted."""
    with tempfile.TemporaryDirectory() as folder:
        for what, given, wanted in (
                ("a bad line", b"caller 0\n# together\nread 0 0 1000000000000\n", "line 3"),
                ("a carriage return", b"caller 0\r\n# together\r\nstat /\r\n",
                 'line 1: "caller" has a carriage return'),
                ("no end", b"caller 0\n# together\nstat /",
                 "line 3: the last line is not ended by a line feed"),
                ("bytes that are no text", b"caller 0\n# \xff\n", "is no text in UTF-8"),
                ("no file", None, "can't be read: No such file or directory")):
            name = os.path.join(folder, f"{what.replace(' ', '-')}.fsc")
            if given is not None:
                with open(name, "wb") as file:
                    file.write(given)
            for words in ((), ("--threads", "0")):
                command = [os.path.join(TOP, "tools", "linux"), "--kernel", os.path.join(folder, "none"),
                           *words, "--program", PROGRAM, name]
                ended = subprocess.run(command, check=False, capture_output=True)
                told = ended.stderr.decode()
                tally.wants(f"tools/linux {words} with {what} is refused", ended.returncode == 2
                            and not ended.stdout and told.startswith("linux: ") and wanted in told, told)


CHECKS = (stored_answers, known_answers, kernels_that_lack, scripts_that_no_kernel_gets)
