"""The scripts that `gen` writes, and their summaries."""
import hashlib

from parts.common.running import SERIAL, run



def generated(tally):
    """The scripts that numbers give, and the summaries of their runs, against the values of another
    program."""
    for number, digest in [("0", "6b14813e38f0b031e8e2ce26817830f8fb660f1291dfa90d2f4093298f149ce9"),
                           ("1", "1fabb85d506a3ed9faab4ed68b34649537021d9b262886b5f61926ac97967492"),
                           ("4294967295",
                            "38cd003b689625daed73f3403f2521d0c85e1d7c5b3932ae5f27c30c3e7b46cc")]:
        status, got, _ = run(["gen", number])
        tally.wants(f"gen {number} writes its script",
                    (status, hashlib.sha256(got).hexdigest()) == (0, digest))
    for number, refused, busy, digest in [
        ("0", 498, 72, "f290f67aaf9ba59295c72f12eaacec59d99f1cd348bc6a8dd4ea91903e8a9917"),
        ("1", 505, 90, "91cb117cd150d46bc3c8f73a325828b05685e398be90ba63f3054378c5dbab41"),
    ]:
        wanted = f"entries 1656\nrefused {refused}\nbusy {busy}\nsha256 {digest}\n".encode()
        for _ in range(2):
            status, got, _ = run(["gen", number, "--summary"])
            tally.wants(f"gen {number} --summary writes four lines", (status, got) == (0, wanted), repr(got))
        _, script, _ = run(["gen", number])
        status, log, _ = run(SERIAL, script)
        tally.wants(f"the summary of {number} is that of its replay",
                    (status, hashlib.sha256(log).hexdigest(), log.count(b" = refused "))
                    == (0, digest, refused))
    for words in (["gen"], ["gen", "00"], ["gen", "4294967296"], ["gen", "+1"], ["gen", "--summary", "1"],
                  ["gen", "1", "--summary", "1"], ["gen", "1", "--seed"]):
        status, got, line = run(words)
        tally.wants(f"{' '.join(words)} is no form",
                    (status, got) == (2, b"") and line.startswith(b"fsc: usage"))


CHECKS = (generated,)
