"""Runs on two mounts: each script of examples/linked/ beside both logs, and each script of one caller as on
one mount."""
import os

from parts import TOP
from parts.common.running import LINKED, LINKED_THREADED, run, scripts

FOLDER = os.path.join(TOP, "examples", "linked")
THREADED_RUNS = 20
APART = b"caller 0\nmkdir /a\nlist /\ncaller 1000\nmkdir /b\nmkdir /b\nlist /\n"


def examples_linked(tally):
    """Each script of examples/linked/ prints the logs of both mounts that are beside it."""
    names = sorted(name[:-4] for name in os.listdir(FOLDER) if name.endswith(".fsc"))
    tally.wants("examples/linked/ has scripts", bool(names))
    for name in names:
        with open(os.path.join(FOLDER, name + ".fsc"),
                  "rb") as script, open(os.path.join(FOLDER, name + ".log"), "rb") as log:
            given, wanted = script.read(), log.read()
        for _ in range(2):
            status, got, _ = run(LINKED, given)
            tally.wants(f"examples/linked/{name}.fsc prints both logs", (status, got) == (0, wanted),
                        repr(got[:200]))


def one_caller_linked(tally):
    """A script of one caller, whose number is even, has its log on mount 0, and mount 1 has none."""
    for path in scripts():
        with open(path, "rb") as script, open(path[:-4] + ".log", "rb") as log:
            given, lines = script.read(), log.read().splitlines(True)
        if given.startswith(b"caller ") + given.count(b"\ncaller ") == 1:
            entries = [line for line in lines if not line.startswith(b"note ")]
            wanted = b"".join([b"mount 0\n", *entries, b"mount 1\n", *lines[len(entries):]])
            status, got, _ = run(LINKED, given)
            tally.wants(f"{path} has its log on mount 0", (status, got) == (0, wanted), repr(got[:200]))
    status, got, _ = run(LINKED, b"")
    tally.wants("no caller has a call on either mount", (status, got) == (0, b"mount 0\nmount 1\n"),
                repr(got))


def of_caller_0(log):
    """The lines of caller 0 without their places."""
    words = [line.split(b" ", 1) for line in log.splitlines(True)]
    return [word[1] for word in words if word[0].isdigit() and word[1].startswith(b"0 ")]


def linked_in_threads(tally):
    """In threads, callers of whom each works alone on a mount print what they print in turns; one that
    others reach by links has the same lines, at other places."""
    with open(os.path.join(FOLDER, "linked_protector_on_two_mounts.fsc"), "rb") as script:
        given = script.read()
    apart, linked = run(LINKED, APART)[1], of_caller_0(run(LINKED, given)[1])
    tally.wants("caller 0 has lines", bool(linked), repr(linked))
    for _ in range(THREADED_RUNS):
        status, got, _ = run(LINKED_THREADED, APART)
        tally.wants("callers apart print the same in threads", (status, got) == (0, apart), repr(got[:200]))
        status, got, _ = run(LINKED_THREADED, given)
        tally.wants("caller 0 has its lines in threads", (status, of_caller_0(got)) == (0, linked),
                    repr(got[:200]))


CHECKS = (examples_linked, one_caller_linked, linked_in_threads)
