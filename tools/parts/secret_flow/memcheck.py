"""A program under valgrind's memcheck, stopped at functions, with its secrets marked as undefined.

The program contains nothing of valgrind's. memcheck tracks for each bit of memory and registers whether it
is defined, and reports each branch, address and argument of a system call that depends on an undefined bit.
"""
import os
import re
import shutil
import subprocess
import tempfile

from parts.secret_flow.binary import load_address
from parts.secret_flow.remote import SECONDS, Remote

REGISTERS = ("rax", "rbx", "rcx", "rdx", "rsi", "rdi", "rbp", "rsp", "r8", "r9", "r10", "r11", "r12", "r13",
             "r14", "r15", "rip")
OPTIONS = ("--tool=memcheck", "--vgdb=yes", "--vgdb-error=0", "--xml=yes", "--error-limit=no",
           "--num-callers=2", "--leak-check=no", "--track-origins=yes",
           "--expensive-definedness-checks=yes", "--vgdb-shadow-registers=yes",
           "--vex-iropt-register-updates=allregs-at-each-insn")
MAX_REPORTS = 999999999

# Larger mappings are valgrind's own.
MAX_MAPPING = 2**24
RIP_IN_REPLY, TRAP = re.compile(r";10:([0-9a-f]{16});"), "05"
STACK_BYTES, MAX_CALLERS, OPERAND_BYTES = 65536, 8, 4
OPERAND = re.compile(r"(-?0x[0-9a-f]+)?\((%\w+)?(?:,(%\w+)(?:,(\d))?)?\)")


class Run:
    """One run. It is prepared by `stop_at`, and `finish` then runs it to its end.

    Afterwards `output` is what the program printed, `xml` what memcheck reported, `callers` has the callers
    of each reported address, `divisions` how often each division was reached and how often with a secret
    operand, `kinds` the kind of secret for each of memcheck's origins, `secret_bytes` and `public_bytes` how
    much was marked.
    """

    def __init__(self, program, arguments, given, symbols, code):
        self.program, self.symbols, self.code = os.path.abspath(program), symbols, code
        self.folder = tempfile.mkdtemp(prefix="secret_flow.", dir="/tmp")
        self.stops, self.callers, self.divisions, self.kinds = {}, {}, {}, {}
        self.secret_bytes, self.public_bytes = {}, {}
        self.output = self.xml = self.at = None
        try:
            self.process = self.started(arguments, given)
            self.remote = Remote(self.process, self.path("vgdb"))
            # once this was read, registers come with their shadows
            self.remote.ask("qXfer:features:read:target.xml:0,1000")
            self.base = self.mapped_at() - load_address(self.program)
        except BaseException:
            self.close()
            raise

    def path(self, name):
        """A file of the run."""
        return os.path.join(self.folder, name)

    def started(self, arguments, given):
        """The process, which waits for a debugger before its first instruction."""
        with open(self.path("stdin"), "wb") as file:
            file.write(given)
        command = ["valgrind", *OPTIONS, "--vgdb-prefix=" + self.path("vgdb"),
                   "--xml-file=" + self.path("xml"), self.program, *arguments]
        with open(self.path("stdin"), "rb") as given_file, open(self.path("stdout"), "wb") as output, \
                open(self.path("stderr"), "wb") as errors:
            return subprocess.Popen(command, stdin=given_file, stdout=output, stderr=errors,
                                    env={"PATH": os.environ["PATH"]})

    def mapped_at(self):
        """The lowest address at which the program's file is mapped."""
        with open(f"/proc/{self.process.pid}/maps", encoding="utf-8") as file:
            lines = [line for line in file if line.rstrip().endswith(" " + self.program)]
        return min(int(line.split("-")[0], 16) for line in lines)

    # Registers and memory.
    def registers(self):
        """The registers, and under `shadows` their undefined bits."""
        text = bytes.fromhex(self.remote.ask("g").replace("x", "0"))
        if len(text) % 3 or len(text) < 3 * 8 * len(REGISTERS):
            raise RuntimeError(f"{len(text)} bytes of registers have no shadows")
        values, shadows = ({name: int.from_bytes(part[8 * at:8 * at + 8], "little")
                            for at, name in enumerate(REGISTERS)} for part in (text, text[len(text) // 3:]))
        return values | {"shadows": shadows}

    def memory(self, at, length):
        """Bytes of the program's memory."""
        with open(f"/proc/{self.process.pid}/mem", "rb", 0) as file:
            file.seek(at)
            return file.read(length)

    def word(self, at):
        """Eight bytes of memory as a number."""
        return int.from_bytes(self.memory(at, 8), "little")

    def undefined_bits(self, at, length):
        """For each byte its undefined bits in hexadecimal digits, or `__` if the program doesn't own it."""
        lines = self.remote.monitor(f"get_vbits {at:#x} {length}").splitlines()
        return re.findall(r"[0-9a-f]{2}|__",
                          "".join(line for line in lines if not re.search("[^0-9a-f_ ]", line)))

    def addresses_of(self, values):
        """Where each of these values is in the program's memory: pairs of an address and a length."""
        found = []
        with open(f"/proc/{self.process.pid}/maps", encoding="utf-8") as file:
            mappings = [line.split()[:2] for line in file]
        for span, rights in mappings:
            low, high = (int(part, 16) for part in span.split("-"))
            if rights.startswith("rw") and high - low <= MAX_MAPPING:
                text = self.memory_or_none(low, high - low)
                found += [(low + at, len(value)) for at, value in matches(text, values)]
        return [(at, length) for at, length in found if "__" not in self.undefined_bits(at, 1)]

    def memory_or_none(self, at, length):
        """The bytes of memory, none if they can't be read."""
        try:
            return self.memory(at, length)
        except PermissionError:
            raise
        except (OSError, OverflowError):
            return b""

    # Marks.
    def begin_kind(self, kind):
        """Marks that follow are of this kind. memcheck reports the address of the instruction at which it
        was marked, so one instruction is run between two kinds."""
        self.step()
        self.kinds[self.at] = kind

    def mark_secret(self, kind, at, length):
        """Marks bytes as undefined."""
        self.remote.monitor(f"make_memory undefined {at:#x} {length}")
        self.secret_bytes[kind] = self.secret_bytes.get(kind, 0) + length

    def mark_defined(self, at, length):
        """Marks bytes as defined."""
        self.remote.monitor(f"make_memory defined {at:#x} {length}")

    def mark_public(self, kind, at, length):
        """Marks bytes as defined, and counts those that were not."""
        if length:
            undefined = sum(bit not in ("00", "__") for bit in self.undefined_bits(at, length))
            self.mark_defined(at, length)
            self.public_bytes[kind] = self.public_bytes.get(kind, 0) + undefined

    # Stops.
    def ignore_callers(self):
        """Doesn't stop at new reports, so that nothing is known of their callers."""
        self.remote.monitor(f"v.set vgdb-error {MAX_REPORTS}")

    def stop_at(self, address, action):
        """Calls the action with the run and its registers each time this address of the program is
        reached."""
        self.add_stop(address + self.base, action)

    def add_stop(self, at, action):
        """The same for an address of the process."""
        if at not in self.stops:
            self.insert(at)
        self.stops.setdefault(at, []).append(action)

    def insert(self, at):
        """Inserts a breakpoint."""
        if self.remote.ask(f"Z0,{at:x},1") != "OK":
            raise RuntimeError(f"no breakpoint at {at:#x}")

    def at_return(self, registers, action):
        """Calls the action when the function that begins here has returned."""
        at, level = self.word(registers["rsp"]), registers["rsp"]

        def returned(run, now):
            if now["rsp"] == level + 8:
                run.stops[at].remove(returned)
                if not run.stops[at]:
                    del run.stops[at]
                    run.remote.ask(f"z0,{at:x},1")
                action(run, now)

        self.add_stop(at, returned)

    def watch_divisions(self):
        """Stops at each division, whose time depends on its operands, and counts those with an undefined
        operand."""
        for address, operand in self.code.divisions.items():
            self.stop_at(address, self.division_watch(address, operand))

    def division_watch(self, address, operand):
        """The action of one division."""
        def watch(run, registers):
            shadows = registers["shadows"]
            undefined = shadows["rax"] | shadows["rdx"]
            if "(" in operand:
                at = effective_address(operand, registers)
                undefined |= any(bit != "00" for bit in run.undefined_bits(at, OPERAND_BYTES))
            else:
                undefined |= shadows[whole_register(operand)]
            count = run.divisions.setdefault(address, [0, 0])
            count[0] += 1
            count[1] += bool(undefined)
        return watch

    def callers_at(self, registers):
        """The functions on the stack, the callers of the innermost. The program has no tables to unwind its
        stack, so each caller is the nearest word that is the return address of a call of the function below
        it."""
        text = self.memory(registers["rsp"], STACK_BYTES)
        words = [int.from_bytes(text[at:at + 8], "little") for at in range(0, len(text) - 7, 8)]
        start, names = self.symbols.function_at(registers["rip"] - self.base)[1], []
        for word in words:
            if self.code.callees.get(word - self.base) == start and len(names) < MAX_CALLERS:
                name, start = self.symbols.function_at(word - self.base)
                names.append(name)
        return names

    # The run.
    def finish(self):
        """Runs the program to its end."""
        try:
            self.run_to_end()
            self.process.wait(timeout=SECONDS)
            with open(self.path("stdout"), "rb") as file:
                self.output = file.read()
            with open(self.path("xml"), encoding="utf-8") as file:
                self.xml = file.read()
        finally:
            self.close()

    def run_to_end(self):
        """Goes on from stop to stop. A stop at no breakpoint is a new report of memcheck's."""
        reply = self.remote.ask("c")
        while not self.remote.has_ended and reply[:1] == "T":
            self.at = stopped_at(reply)
            if self.at in self.stops:
                registers = self.registers()
                for action in list(self.stops[self.at]):
                    action(self, registers)
            elif reply[1:3] != TRAP:
                raise RuntimeError(f"the program has signal {reply[1:3]} at {self.at:#x}")
            else:
                callers = self.callers.setdefault(self.at - self.base, set())
                callers.add(tuple(self.callers_at(self.registers())))
            reply = self.resumed()

    def resumed(self):
        """Goes on after a stop, whose breakpoint is removed for one instruction. Returns the next reply."""
        if self.at not in self.stops:
            return self.remote.ask("c")
        reply = self.step()
        if reply[:3] == "T" + TRAP and self.at not in self.stops:
            return self.remote.ask("c")
        return reply

    def step(self):
        """Runs one instruction, without the breakpoint that it may have."""
        stop = self.at if self.at in self.stops else None
        if stop is not None:
            self.remote.ask(f"z0,{stop:x},1")
        reply = self.remote.ask("s")
        if stop is not None and not self.remote.has_ended:
            self.insert(stop)
        if reply[:1] == "T":
            self.at = stopped_at(reply)
        return reply

    def close(self):
        """Ends what still runs, and removes the run's files."""
        if hasattr(self, "remote"):
            self.remote.close()
        if hasattr(self, "process"):
            if self.process.poll() is None:
                self.process.kill()
            self.process.wait()
        shutil.rmtree(self.folder, ignore_errors=True)


def stopped_at(reply):
    """The address of the next instruction, which a reply to a stop has."""
    return int.from_bytes(bytes.fromhex(RIP_IN_REPLY.search(reply)[1]), "little")


def matches(text, values):
    """Where each of these values is in a text."""
    for value in values:
        at = text.find(value)
        while at >= 0:
            yield at, value
            at = text.find(value, at + 1)


def effective_address(operand, registers):
    """The address of an operand such as 8(%rsp,%rax,4)."""
    offset, base, index, scale = OPERAND.match(operand).groups()
    at = int(offset or "0", 16) + (registers[base[1:]] if base else 0)
    return at + (registers[index[1:]] * int(scale or "1") if index else 0)


def whole_register(register):
    """The register of 8 bytes of which this one is a part."""
    name = register.lstrip("%")
    if re.match(r"r\d+[dwb]?$", name):
        return name.rstrip("dwb")
    if re.match(r"[abcd][lh]$", name):
        return f"r{name[0]}x"
    return "r" + name.lstrip("re").removesuffix("l")
