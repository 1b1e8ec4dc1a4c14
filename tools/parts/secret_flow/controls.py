"""Controls: what the measure finds in programs of which it is known."""
import os
import subprocess
import tempfile

from parts.secret_flow.binary import Code, Symbols
from parts.secret_flow.forms import PASS, RAW, TURNS, Program, measure
from parts.secret_flow.reports import ADDRESS, BRANCH, DIVISION, KERNEL, places
from parts.secret_flow.table import allowed_for

SOURCE = os.path.join(os.path.dirname(os.path.abspath(__file__)), "controls.c")
SECRET_BYTES = 32

# The functions of the program in C, with the kind of place that is found in each, if any.
FUNCTIONS = {"table_cipher": ADDRESS, "early_exit": BRANCH, "secret_division": DIVISION,
             "bytes_to_kernel": KERNEL, "all_bytes": None, "secret_shuffle": None}

# With nothing public the search of the key ring depends on an identifier, which is derived from the key.
SEARCH_OF_RING = "key_ring::"


def faults_in_c():
    """Each function of the program in C in which not just its kind of place is found."""
    with tempfile.TemporaryDirectory(prefix="secret_flow.", dir="/tmp") as folder:
        path = os.path.join(folder, "controls")
        subprocess.run(["cc", "-O2", "-mssse3", "-fno-tree-vectorize", "-o", path, SOURCE], check=True)
        found = places_in(Program(path, Symbols(path), Code(path)))
    for name, kind in FUNCTIONS.items():
        kinds = {place.kind for place in found if place.function == name}
        if kinds != ({kind} if kind else set()):
            yield f"in {name} of the program in C {', '.join(sorted(kinds)) or 'nothing'} is found"


def places_in(program):
    """The places of a run in which each function has a secret while it runs, its first argument."""
    run = program.run([], b"")
    try:
        for name in FUNCTIONS:
            run.stop_at(run.symbols.addresses(name)[0], begin)
        run.watch_divisions()
        run.finish()
    finally:
        run.close()
    return list(places(run))


def begin(run, registers):
    """Marks the first argument, and at the return all that the arguments point to as public."""
    run.mark_secret("secret", registers["rdi"], SECRET_BYTES)
    pointers = [registers[register] for register in ("rdi", "rsi", "rdx")]
    run.at_return(registers, lambda run,
                  _: [run.mark_public("all", pointer, SECRET_BYTES) for pointer in pointers
                                             if "__" not in run.undefined_bits(pointer, SECRET_BYTES)])


def faults_in_program(program):
    """With nothing marked as secret nothing is found, and with nothing marked as public more than what
    may be."""
    found = measure(program, TURNS, PASS, secrets={}).places
    if found:
        yield f"with nothing marked {len(found)} places are found, the first in {found[0].function}"
    found = [place for place in measure(program, TURNS, RAW, with_public=False).places
             if not allowed_for(place)]
    if not any(SEARCH_OF_RING in place.function for place in found):
        yield "with nothing public the search of the key ring is not found"
