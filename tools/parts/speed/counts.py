"""Kernels and lines of scripts in instructions."""
import os

from parts.speed import tables
from parts.speed.timing import alone

SUFFIX = ".instr"


def count_kernels(counter, kernels):
    """Kernels beside the rivals that are programs in C."""
    for kernel in tables.COUNTED:
        if kernels.wants(kernel.name):
            sides = [side for side in kernels.rivals.sides(kernel, tables.COUNTED_PART)
                     if side.label != tables.OPENSSL]
            kernels.print_sides(kernel.name + SUFFIX, sides, [counter.side(side) for side in sides], "instr")
    if kernels.wants("aes-chain"):
        sides = [side for side in kernels.chain_sides(tables.COUNTED_PART) if side.label != tables.OPENSSL]
        kernels.print_sides("aes-chain" + SUFFIX, sides, [counter.side(side) for side in sides], "instr")
    first = None
    for name, count in tables.NODE_COUNTS:
        if kernels.wants(name):
            work = kernels.work(name, count // tables.COUNTED_PART)
            ours = counter.side(alone("", work))
            first = first or ours
            goal = tables.FLAT_GOAL if name == tables.NODE_COUNTS[-1][0] else None
            kernels.rows.row(name + SUFFIX, ours, "instr", 0, tables.NODE_COUNTS[0][0], first, goal)


def measure(counter, kernels, whole):
    """All that is counted, if valgrind is there."""
    names = {"aes-chain", "script-line", *(kernel.name for kernel in tables.COUNTED),
             *(name for name, _ in tables.NODE_COUNTS)}
    if not counter.is_there() or not any(kernels.wants(name) for name in names):
        return
    kernels.rows.section("instructions, by valgrind's callgrind")
    count_kernels(counter, kernels)
    if os.access(whole.program, os.X_OK):
        whole.line(counter)
