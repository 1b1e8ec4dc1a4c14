"""Which functions a kernel's instructions are of."""
from parts.speed import tables
from parts.speed.timing import alone

TOP, SCRIPT_LINE = 20, "script-line"


def differences(counter, full, none):
    """The instructions that each function has more in one run than in another, each a work and its count."""
    fewer = counter.functions(*none)
    return {name: count - fewer.get(name, 0) for name, count in counter.functions(*full).items()}


def works(kernels, whole, name):
    """The work of a row, the one that is left out of it, and how many calls it has; None for no such row."""
    if name == SCRIPT_LINE:
        full, none = (whole.line_work(lines) for lines in (tables.SCRIPT_LINES, 1))
        return (full, 1), (none, 1), tables.SCRIPT_LINES - 1
    known = {kernel.name: kernel for kernel in tables.CIPHERS + tables.NAMES + tables.NAME_GROWTH
             + tables.NAMES_ALONE + tables.FILES + tables.SCRIPT_KERNELS}
    known |= {counted[0]: tables.Kernel(*counted) for counted in (*tables.NODE_COUNTS, tables.STATUS_AGAIN)}
    if name not in known:
        return None
    kernel = known[name]
    count = max(kernel.count // tables.COUNTED_PART, 1)
    work = alone("", kernels.work(name, count, kernel.per)).parts[0][1]
    return (work, count), (work, 0), count * kernel.per


def print_profile(counter, kernels, whole, name):
    """The functions that have most of a call's instructions, less those of a run of no work."""
    found = works(kernels, whole, name)
    if found is None:
        raise SystemExit("tools/speed: no row %s is counted" % name)
    full, none, calls = found
    counts = {function: count / calls for function, count in differences(counter, full, none).items()}
    total = sum(counts.values())
    print("%s: %.0f instructions" % (name, total))
    for function, count in sorted(counts.items(), key=lambda item: -item[1])[:TOP]:
        print("%10.1f %5.1f %%  %s" % (count, 100 * count / total, function))
