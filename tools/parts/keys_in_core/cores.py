"""Runs the program under gdb, takes a core of it at each moment, and reports what its heap and its stacks
hold.

A core has the registers too; they count as stack, where a call would spill them. How many copies a stack
keeps depends on how its frames are aligned, so the program has no environment, and its path and its words
have always one length.
"""
import os
import pty
import re
import shutil
import struct
import subprocess
import threading

from parts.common.sessions import HEADS

STACK, HEAP = "stack", "heap"
LOAD, NOTE, WRITABLE = 1, 4, 2
REGISTERS = (1, 2, 0x202)
ARENA = 64 * 2**20
SECONDS = 120

# What the program shows of a command on a terminal begins so, and goes on with its line.
SHOWN = "\r\x1b[Kfsc: line "


def gdb_lines(program, words, files, numbers, room):
    """The commands for gdb: a stop where each of these commands of the session begins, and one where the log
    is written.

    Standard error is a terminal, so the program reports each command that it begins, by one write with the
    command's line in the script. The stop is at that write, and then at the first write to standard output.
    """
    script, terminal = files
    yield from (*settings(program), "catch syscall write")
    begun = False
    for name, number in sorted(numbers.items(), key=lambda part: part[1]):
        line = enumerate(f"{len(HEADS) + 1 + number}:", len(SHOWN))
        yield "condition 1 $rdi == 2" + "".join(f" && *(char *)($rsi + {at}) == '{digit}'" for at,
                                                digit in line)
        yield "continue" if begun else f"run {' '.join(words)} < {script} > /dev/null 2> {terminal}"
        yield from taken(name, room)
        begun = True
    yield "condition 1 $rdi == 1"
    yield "continue"
    yield from taken("over", room)
    yield "kill"


def settings(program):
    """The commands for gdb that every run begins with."""
    return ("set pagination off", "set confirm off", "set debuginfod enabled off", "set auto-solib-add off",
            "set dump-excluded-mappings on", "set exec-wrapper env -i", f"exec-file {program}")


def lines_at_end(program, words, files, room, writes):
    """The same with one stop: at the first write to standard output, or at the program's end where it writes
    none."""
    given, terminal = files
    yield from settings(program)
    yield from ("catch syscall write", "condition 1 $rdi == 1") if writes else ("catch syscall exit_group",)
    yield f"run {' '.join(words)} < {given} > /dev/null 2> {terminal}"
    yield from taken("over", room)
    yield "kill"


def taken(name, room):
    """The commands that take a core at this moment and report where each part of the memory is."""
    return f"echo \\nMOMENT {name}\\n", "info proc mappings", f"gcore {os.path.join(room, name)}"


def cores(program, words, script, numbers, room):
    """For each moment the memory of the run: what it has of heap, and of stacks with registers."""
    return stopped(program, script.encode(), {*numbers, "over"}, room,
                   lambda place, files: gdb_lines(place, words, files, numbers, room))


def core_at_end(program, words, given, room, writes):
    """The memory of a run whose text is about to be written, or which is about to end where it writes
    none."""
    found = stopped(program, given, {"over"}, room, lambda place,
                    files: lines_at_end(place, words, files, room, writes))
    return found["over"]


def stopped(program, given, moments, room, lines):
    """The memory at each of these moments of a run under gdb, whose commands `lines` makes of program and
    files."""
    path, place = os.path.join(room, "script"), os.path.join(room, "fsc")
    shutil.copy(program, place)
    with open(path, "wb") as file:
        file.write(given)
    ours, theirs = pty.openpty()
    commands = os.path.join(room, "commands")
    with open(commands, "w", encoding="utf-8") as file:
        file.writelines(line + "\n" for line in lines(place, (path, os.ttyname(theirs))))
    reader = threading.Thread(target=drained, args=(ours,), daemon=True)
    reader.start()
    try:
        told = subprocess.run(["gdb", "-nx", "-batch", "-x", commands], stdin=subprocess.DEVNULL,
                              timeout=SECONDS,
                              stdout=subprocess.PIPE, stderr=subprocess.STDOUT, check=False).stdout.decode()
    finally:
        os.close(theirs)
        reader.join(timeout=SECONDS)
        os.close(ours)
    if "Operation not permitted" in told and "\nMOMENT " not in told:
        raise PermissionError("gdb may not trace a program here")
    found = {}
    for part in told.split("\nMOMENT ")[1:]:
        name = part.split("\n")[0]
        core = os.path.join(room, name)
        if os.path.isfile(core):
            found[name] = memory_of(core, part)
            os.remove(core)
    if set(found) != moments:
        raise RuntimeError("gdb took no core at some moment; it said:\n" + told)
    return found


def drained(terminal):
    """Reads what a terminal shows until its last writer has closed it."""
    try:
        while os.read(terminal, 65536):
            pass
    except OSError:
        pass


def memory_of(core, told):
    """The pieces of memory in a core, heap and stacks apart."""
    with open(core, "rb") as file:
        text = file.read()
    stacks = stacks_of(told)
    pieces = {STACK: [], HEAP: []}
    start, size, count = struct.unpack_from("<Q", text, 32)[0], *struct.unpack_from("<HH", text, 54)
    for at in range(start, start + size * count, size):
        kind, flags, offset, address, _, length = struct.unpack_from("<IIQQQQ", text, at)
        part = text[offset:offset + length]
        if kind == NOTE:
            pieces[STACK].extend(registers(part))
        elif kind == LOAD and flags & WRITABLE:
            is_stack = any(low <= address < high for low, high in stacks)
            pieces[STACK if is_stack else HEAP].append(part)
    return pieces


def stacks_of(told):
    """Where the stacks lie, from gdb's list of mappings: the main one, and each piece after a guard page.

    The C library takes an arena of the heap at a multiple of 64 MiB; that is how one is distinguished from a
    thread's stack.
    """
    rows = re.findall(r"^\s*0x([0-9a-f]+)\s+0x([0-9a-f]+)\s+0x[0-9a-f]+\s+0x[0-9a-f]+\s+([-rwxps]{4})?[ "
                      r"\t]*(\S*)", told, re.M)
    stacks, guarded = [], None
    for low, high, rights, name in rows:
        low, high = int(low, 16), int(high, 16)
        if name == "[stack]" or (not name and low == guarded and low % ARENA and "w" in rights):
            stacks.append((low, high))
        guarded = high if rights.startswith("---") else None
    return stacks


def registers(notes):
    """The registers that the notes of a core have of each thread."""
    at = 0
    while at + 12 <= len(notes):
        names, length, kind = struct.unpack_from("<III", notes, at)
        at += 12 + -(-names // 4) * 4
        if kind in REGISTERS:
            yield notes[at:at + length]
        at += -(-length // 4) * 4
