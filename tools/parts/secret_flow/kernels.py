"""The kernels of fsc_speed, whose texts have more lengths than those of a script."""
import re

from parts.secret_flow.forms import Measure
from parts.secret_flow.marks import MissingFunction
from parts.secret_flow.reports import places

KERNELS = ("aes-block", "aes-block-back", "xts-4096", "xts-back-4096", "xts-16", "xts-back-16", "xts-144",
           "xts-back-144", "cts-16", "cts-32", "cts-33", "cts-255", "hkdf-64", "file-key", "mode-key",
           "encrypt-name-32", "seal-512", "seal-4096")
RUNS = "2"

# Where a kernel has its keys and texts: the function that is given them, the register with their address,
# and their length or the register with it.
GIVEN = {
    "aes_core::key_schedule::write_round_keys": (("rsi", 32),),
    "hmac_kdf::derivation::extract": (("rsi", "rdx"),),
    "hmac_kdf::keyed::Keyed::new": (("rsi", "rdx"),),
    "cts_mode::cts_encrypt": (("rdx", "rcx"),),
    "cts_mode::chain::unchain": (("rdx", "rcx"),),
    "xts_mode::XtsKey::encrypt_unit": (("rdx", "rcx"),),
    "xts_mode::XtsKey::decrypt_unit": (("rdx", "rcx"),),
}
KEY_OR_TEXT = "a kernel's key or text"
KERNEL_ENDS = "fsc_speed::kernel::Kernel::run"


def kernel_measures(program, faults):
    """A measure of each kernel. One whose digest depends on nothing that was marked is added to `faults`."""
    for name in KERNELS:
        measure, depends = kernel_measure(program, name)
        if not depends:
            faults.append(f"the digest of the kernel {name} depends on nothing that was marked")
        yield measure


def kernel_measure(program, name):
    """A run of one kernel, which prints a digest of what its key and text became, and whether the digest
    depends on what was marked."""
    output = program.output([name, RUNS], b"")
    digest = bytes.fromhex(re.search(rb"[0-9a-f]{64}", output)[0].decode())
    run = program.run([name, RUNS], b"")
    try:
        for function, given in GIVEN.items():
            for address in run.symbols.addresses(function):
                run.stop_at(address, marking(given))
        for address in ends_of(run):
            run.stop_at(address, lambda run, registers: run.at_return(registers, publishing(digest)))
        run.watch_divisions()
        run.finish()
    finally:
        run.close()
    divisions = sum(count for count, _ in run.divisions.values())
    depends = bool(run.public_bytes.get("digests"))
    return Measure(f"kernel {name}", list(places(run)), {}, 0, 0, divisions), depends


def ends_of(run):
    """Where the function begins whose return is a kernel's end."""
    addresses = run.symbols.addresses(KERNEL_ENDS)
    if not addresses:
        raise MissingFunction(KERNEL_ENDS)
    return addresses


def marking(given):
    """Marks what a function is given."""
    def begin(run, registers):
        for pointer, length in given:
            count = registers[length] if isinstance(length, str) else length
            run.mark_secret(KEY_OR_TEXT, registers[pointer], count)
    return begin


def publishing(digest):
    """Marks the digest as public, which is printed."""
    def finished(run, _):
        for at, length in run.addresses_of([digest]):
            run.mark_public("digests", at, length)
    return finished
