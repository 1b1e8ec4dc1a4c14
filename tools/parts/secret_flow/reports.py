"""What depends on a secret in a run: memcheck's reports, and the divisions with a secret operand."""
import collections
import xml.etree.ElementTree

BRANCH, ADDRESS, DIVISION, KERNEL = "branch", "address", "division", "kernel"
KINDS = {"UninitCondition": BRANCH, "UninitValue": ADDRESS, "SyscallParam": KERNEL}

# One instruction: its kind, its function, where it is and its text, how often it depended on a secret, on
# which, and the callers of its function. An instruction of the C library counts for the function that called
# the library.
Place = collections.namedtuple("Place", "kind function address text times secrets callers")


def places(run):
    """Each place of a run that is finished."""
    found = {}
    for error, times in errors(run.xml):
        function, address, library = first_of_program(error, run)
        kind = KINDS.get(error.findtext("kind"), error.findtext("kind"))
        times_before, secrets = found.get((kind, function, address, library), (0, set()))
        found[kind, function, address, library] = times_before + times, secrets | {secret_of(error, run)}
    for (kind, function, address, library), (times, secrets) in found.items():
        text = run.code.instruction(address) if address else "?"
        yield Place(kind, function, address, text + (f" in {library}" if library else ""), times, secrets,
                    run.callers.get(address, set()))
    for address, (_, times) in run.divisions.items():
        if times:
            function = run.symbols.function_at(address)[0]
            yield Place(DIVISION, function, address, run.code.instruction(address), times, set(), set())


def errors(text):
    """Each error of memcheck's XML, with how often it was met."""
    top = xml.etree.ElementTree.fromstring(text)
    times = {found.findtext("unique"): int(found.findtext("count"))
             for counts in top.findall("errorcounts") for found in counts.findall("pair")}
    for error in top.findall("error"):
        yield error, times.get(error.findtext("unique"), 1)


def first_of_program(error, run):
    """The innermost function of the program on an error's stack, the address there, and the function of the
    C library that it called, if any."""
    library = None
    for frame in error.find("stack").findall("frame"):
        if frame.findtext("obj") == run.program:
            address = int(frame.findtext("ip"), 16) - run.base
            return run.symbols.function_at(address)[0], address, library
        library = frame.findtext("fn") or "?"
    return "?", 0, library


def secret_of(error, run):
    """The kind of secret on which an error depends, by the instruction at which it was marked."""
    stacks = error.findall("stack")
    if len(stacks) < 2:
        return "?"
    at = int(stacks[1].find("frame").findtext("ip"), 16)
    return run.kinds.get(at, f"bytes of {run.symbols.function_at(at - run.base)[0]}")
