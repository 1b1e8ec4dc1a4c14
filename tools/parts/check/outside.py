"""Inputs that fail, pipes, full devices and files, closed descriptors, signals, seeds, and secrets in what
is reported."""
import ctypes
import mmap
import os
import resource
import signal
import subprocess
import tempfile
import time

from parts import TOP
from parts.common.running import PROGRAM, SECONDS, SERIAL, THREADED, ZEROS, run

WRITE_FAULT = b"fsc: write fault\nfsc: "
ALL_FORMS = [["--help"], ["--version"], ["gen", "1"], ["gen", "1", "--summary"]]
READ_FAULT = b"fsc: read fault\nfsc: "
ONE_CALL = b"caller 0\nmkdir /a\n"
FIRST = "examples/one-key"


def whole(path):
    """The bytes of a file."""
    with open(os.path.join(TOP, path), "rb") as file:
        return file.read()


def broken_inputs(tally):
    """A script of which just a beginning can be read: from memory of this process, after which its file has
    ended."""
    script, page = whole(FIRST + ".fsc"), mmap.PAGESIZE
    with tempfile.TemporaryFile() as file, open("/proc/self/mem", "rb", buffering=0) as given:
        file.truncate(2 * page)
        memory = mmap.mmap(file.fileno(), 2 * page)
        file.truncate(page)
        end = ctypes.addressof(ctypes.c_char.from_buffer(memory)) + page
        for words in (SERIAL, THREADED):
            for count in (*range(0, len(script), 7), len(script)):
                memory[page - count:page] = script[:count]
                os.lseek(given.fileno(), end - count, os.SEEK_SET)
                status, got, told = run(words, stdin=given)
                tally.wants(f"an input that fails after {count} bytes ends with 4",
                            (status, got) == (4, b"") and told.startswith(READ_FAULT), str(status))
                tally.wants(f"an input is read for {count} bytes",
                            os.lseek(given.fileno(), 0, os.SEEK_CUR) == end)


def full_files(tally):
    """A file that takes only that many bytes has the beginning of the log of that length, and a fault is
    reported."""
    script, log = whole(FIRST + ".fsc"), whole(FIRST + ".log")

    for words in (SERIAL, THREADED):
        for count in (*range(0, len(log), 16), len(log)):
            with tempfile.TemporaryFile() as file:
                limit = lambda most=count: resource.setrlimit(resource.RLIMIT_FSIZE, (most, most))
                # with the signal ignored that else ends a process which writes more
                status, _, told = run(words, script, stdout=file, restore_signals=False, preexec_fn=limit)
                file.seek(0)
                got = file.read()
            is_so = (status,
                     told) == (0, b"") if count == len(log) else status == 5 and told.startswith(WRITE_FAULT)
            tally.wants(f"a file that takes {count} bytes has that many of the log",
                        is_so and got == log[:count], f"{status}, {len(got)} bytes")


def slow_pipes(tally):
    """A script that comes by seven bytes, to a program that is stopped and goes on meanwhile, has its
    log."""
    script, log = whole(FIRST + ".fsc"), whole(FIRST + ".log")
    for words in (SERIAL, THREADED):
        with subprocess.Popen([PROGRAM, *words], stdin=subprocess.PIPE, stdout=subprocess.PIPE,
                              bufsize=0) as process:
            for at in range(0, len(script), 7):
                process.stdin.write(script[at:at + 7])
                process.send_signal(signal.SIGSTOP if at % 14 else signal.SIGCONT)
                time.sleep(0.001)
            process.send_signal(signal.SIGCONT)
            process.stdin.close()
            got = process.stdout.read()
            status = process.wait(timeout=SECONDS)
        tally.wants("a script that comes by seven bytes has its log", (status, got) == (0, log), str(status))


def closed_pipes(tally):
    """A pipe without a reader is a fault of writing, whichever caller closed it and when; no
    signal ends the program."""
    for words in [*ALL_FORMS, SERIAL, THREADED]:
        end, pipe = os.pipe()
        os.close(end)
        status, _, told = run(words, ONE_CALL, stdout=pipe)
        os.close(pipe)
        tally.wants(f"{' '.join(words[:2])} into a closed pipe ends with 5",
                    status == 5 and told.startswith(WRITE_FAULT), str(status))
    pages = b"".join(b"mkdir /%0250d\n" % number for number in range(128)) + b"list / 0\n" * 8
    ended = subprocess.Popen([PROGRAM, *SERIAL], stdin=subprocess.PIPE, stdout=subprocess.PIPE,
                             stderr=subprocess.PIPE)
    ended.stdin.write(b"caller 0\n" + pages)
    ended.stdin.close()
    begun = ended.stdout.read(10)
    ended.stdout.close()
    told = ended.stderr.read()
    ended.stderr.close()
    status = ended.wait(timeout=SECONDS)
    tally.wants("a pipe that is closed within the log ends the run with 5",
                (status, begun) == (5, b"0 0 0 mkdi") and told.startswith(WRITE_FAULT), str(status))


def full_devices(tally):
    """Where the output is full no form ends with 0; where standard error is, or is closed, the status
    stays."""
    for words in [*ALL_FORMS, SERIAL, THREADED]:
        with open("/dev/full", "wb") as full:
            status, _, told = run(words, ONE_CALL, stdout=full)
        tally.wants(f"{' '.join(words[:2])} into a full device ends with 5",
                    status == 5 and told.startswith(WRITE_FAULT), str(status))
    for words, given, wanted in ((["frobnicate"], b"", 2), (SERIAL, b"caller 0\nmkdri /a\n", 3),
                                 (SERIAL, b"\n" * 20_001, 7),
                                 (SERIAL, ONE_CALL, 0)):
        with open("/dev/full", "wb") as full:
            ended = subprocess.run([PROGRAM, *words], input=given, stdout=subprocess.PIPE, stderr=full,
                                   timeout=SECONDS, check=False)
        tally.wants(f"a full standard error leaves status {wanted}", ended.returncode == wanted,
                    str(ended.returncode))
    for closed, given, wanted in (("<&-", b"", 4), (">&-", ONE_CALL, 5),
                                  ("2>&-", b"caller 0\nmkdri /a\n", 3), ("2>&-", ONE_CALL, 0)):
        ended = subprocess.run(["bash", "-c", f'"$@" {closed}', "fsc", PROGRAM, *SERIAL], input=given,
                               stdout=subprocess.PIPE,
                               stderr=subprocess.PIPE, timeout=SECONDS, check=False)
        tally.wants(f"{closed} ends with {wanted}", ended.returncode == wanted, str(ended.returncode))
    folder = os.open(TOP, os.O_RDONLY)
    status, got, told = run(THREADED, stdin=folder)
    os.close(folder)
    tally.wants("reading a directory ends with 4 in threads too",
                (status, got) == (4, b"") and told.startswith(b"fsc: read fault\nfsc: "))


def drawn_seeds(tally):
    """Two runs without a seed draw other ones, and neither draws zeros. What is drawn shows in a record."""
    script = b"caller 0\nprotector p raw:" + b"11" * 32 + b"\nmeta-get protector/p\n"
    for words in (["replay", "--serial"], ["replay"]):
        logs = [run([*words, *seed], script)[1] for seed in ([], [], ["--seed", ZEROS])]
        tally.wants(f"{' '.join(words)} draws another seed each time", all(logs) and len(set(logs)) == 3)


def other_forms(tally):
    """A word more is another form, and no form is taken as help."""
    for words in (["--help", "more"], ["--help", "--help"], ["--version", "more"], ["more", "--help"],
                  ["replay", "--help"],
                  ["--Help"], ["--help "], [""]):
        status, got, told = run(words)
        tally.wants(f"{words} is no form", (status, got) == (2, b"") and told.startswith(b"fsc: usage\n"),
                    repr(told))


def hidden_secrets(tally):
    """Of a line at fault nothing is reported after its first word, so no secret that is there."""
    for line, secret in (
        (b"unlock d p raw:11zz", b"11zz"), (b"unlock d p raw:" + b"ab" * 31, b"abab"),
        (b"unlock d p pass:hun%ter2", b"hun%"),
        (b"unlock d p raw:" + b"ab" * 32 + b" more", b"abab"),
        (b"protector p pass:1:7:1:hunter2", b"hunter2"),
        (b"protector p raw:" + b"AB" * 32 + b" ", b"ABAB"),
        (b"policy-new d p raw:" + b"ab" * 32 + b" 5", b"abab"),
        (b"protector-change p raw:" + b"ab" * 32 + b" raw:cd", b"abab"), (b"add-key 07zz", b"07zz"),
        (b"add-key 0708 07", b"0708"),
        (b"key-status raw:" + b"ab" * 40 + b"g", b"abab"), (b"write 0 0 6162zz", b"6162"),
        (b"policy-add d p raw:" + b"ab" * 32 + b" q pass:hun%ter2", b"hun%"),
        (b"unlock\td p raw:" + b"ab" * 32, b"abab"),
    ):
        status, got, told = run(SERIAL, b"caller 0\n" + line + b"\n")
        tally.wants(f"{line[:20]!r} is reported without its secret",
                    (status, got) == (3, b"") and told.startswith(b"fsc: bad line 2\n")
                    and secret not in told, repr(told))


CHECKS = (broken_inputs, full_files, slow_pipes, closed_pipes, full_devices, drawn_seeds, other_forms,
          hidden_secrets)
