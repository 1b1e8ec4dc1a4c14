"""The functions and instructions of a program, as nm and objdump list them."""
import bisect
import collections
import re
import subprocess

INSTRUCTION = re.compile(r"^ +([0-9a-f]+):\t(.*)$", re.MULTILINE)
SYMBOL = re.compile(r"([0-9a-f]+) (?:([0-9a-f]+) )?([tTwW]) (.*)$")

# Symbols that share one address with this many others are inlined functions without code of their own.
MAX_SHARED = 9


class Symbols:
    """The functions by name and by address. A function that is built for several types has several
    symbols."""

    def __init__(self, program):
        rows = []
        for line in output_of("nm", "-C", "-S", "--defined-only", program).splitlines():
            found = SYMBOL.match(line)
            if found:
                rows.append((int(found[1], 16), plain_name(found[4])))
        shared = collections.Counter(row[0] for row in rows)
        self.rows = sorted(row for row in rows if shared[row[0]] < MAX_SHARED)
        self.starts = [row[0] for row in self.rows]

    def addresses(self, name):
        """Where the functions of this name begin. The name may lack the path before one of its `::`."""
        return sorted({at for at,
                       function in self.rows if function == name or function.endswith("::" + name)})

    def function_at(self, address):
        """The function at an address, and the address at which it begins."""
        number = bisect.bisect_right(self.starts, address) - 1
        return (self.rows[number][1], self.rows[number][0]) if number >= 0 else ("?", 0)


class Code:
    """The instructions: their texts, the calls by the address to which each returns, and the divisions."""

    def __init__(self, program):
        self.lines, self.callees, self.divisions, callee = {}, {}, {}, None
        listing = output_of("objdump", "-d", "--no-show-raw-insn", program)
        for address, text in INSTRUCTION.findall(listing):
            address = int(address, 16)
            self.lines[address] = text
            if callee is not None:
                self.callees[address] = callee
            call = re.match(r"call +([0-9a-f]+) ", text)
            callee = int(call[1], 16) if call else None
            division = re.match(r"i?div[bwlq]? +(.*)", text)
            if division:
                self.divisions[address] = division[1].split(" #")[0].strip()
        self.starts = sorted(self.lines)

    def instruction(self, address):
        """The text of the instruction that begins at an address or contains it."""
        number = bisect.bisect_right(self.starts, address) - 1
        text = self.lines[self.starts[number]] if number >= 0 else "?"
        return re.sub(r"\s+", " ", text).split(" #")[0].strip()


def plain_name(name):
    """A symbol's name without its types and its hash."""
    return re.sub(r"::h[0-9a-f]{16}$", "", re.sub(r"::<#[0-9a-f]+>", "", name))


def output_of(*command):
    """What a command prints."""
    return subprocess.run(command, stdout=subprocess.PIPE, check=True).stdout.decode(errors="replace")


def load_address(program):
    """The address of the program's first segment in its file, a multiple of a page."""
    segments = output_of("readelf", "-lW", program)
    lows = re.findall(r"^\s+LOAD\s+0x[0-9a-f]+\s+0x([0-9a-f]+)", segments, re.MULTILINE)
    return min(int(low, 16) for low in lows) // 4096 * 4096
