"""No secret is compared by `==` or `!=`, which end at the first difference: the sources are searched."""
import os
import re

from parts import TOP


# Crates whose sources hold no secret of a user: tests and measurements.
TEST_CRATES = ("callers", "cipher_tests", "fsc_speed", "mount_tests", "record_tests", "script_tests",
               "word_tests")

# Variables and fields that hold secrets, or bytes from which one can be found.
NAMES = ("key", "keystream", "passphrase", "password", "plain_key", "policy_key", "raw", "schedule",
         "secret",
         "seed", "stream", "tag", "tag_key", "wrapping")
NAME = rf"(?:{'|'.join(NAMES)})(?:\.(?:bytes|as_slice|as_bytes)\(\))?"
COMPARED = re.compile(rf"\b{NAME}\s*[=!]=|[=!]=\s*[&*]*(?:\w+\.)*{NAME}\s*(?:[;,)&|{{]|$)")

# Types that hold secrets: none has an equality of its own, derived or written.
TYPES = ("Aes256", "CachedKey", "ContentsKey", "FileCipher", "FileKey", "FixedSeed", "KeyRef", "Keyed",
         "ModeKey", "NameCipher", "NewSecret", "NodeKey", "OpenedPolicy", "OpenedProtector", "PreparedKey",
         "Prk512", "RawKey", "Secret", "Stretched", "StretchedKey", "XtsKey")
DEFINED = re.compile(r"^\s*(?:pub(?:\(\w+\))? )?(?:struct|enum) (\w+)", re.M)
DERIVED = re.compile(r"#\[derive\([^)]*\bPartialEq\b[^)]*\)\]\s*(?:#\[[^\]]*\]\s*)*"
                     r"(?:pub(?:\(\w+\))? )?(?:struct|enum) (\w+)")
WRITTEN = re.compile(r"\bPartialEq(?:<[^>]*>)? for (\w+)")

# Lines that have to be found, and lines that may be there.
FOUND = ("if stretched.password.as_slice() == password {", "tag != other", "if raw.bytes() == other",
         "a == key.as_slice()")
ALLOWED = ("key.len() == 32", "if kept.dir == dir {", "use_count == 0",
           "stretched.password.len() == password.len()")


def sources():
    """Each source file of the program, with its code and without comments and clauses."""
    crates = os.path.join(TOP, "crates")
    for crate in sorted(os.listdir(crates)):
        src = os.path.join(crates, crate, "src")
        if crate in TEST_CRATES or not os.path.isdir(src):
            continue
        for name in sorted(os.listdir(src)):
            if name.endswith(".rt"):
                with open(os.path.join(src, name), encoding="utf-8") as file:
                    lines = [re.sub(r"//.*", "", line).rstrip() for line in file]
                yield f"crates/{crate}/src/{name}", [line for line in lines if "≡" not in line]


def no_secret_is_compared(tally):
    """No source compares a secret by `==` or `!=`, and no type of secrets has an equality."""
    tally.wants("a comparison of secrets is found", all(COMPARED.search(line) for line in FOUND))
    tally.wants("other comparisons are allowed", not any(COMPARED.search(line) for line in ALLOWED))
    files = list(sources())
    tally.wants("there are sources to search", len(files) > 100)
    broken, defined = [], set()
    for path, lines in files:
        broken += [f"{path}: {line.strip()}" for line in lines if COMPARED.search(line)]
        text = "\n".join(lines)
        defined.update(DEFINED.findall(text))
        equal = DERIVED.findall(text) + WRITTEN.findall(text)
        broken += [f"{path}: an equality of {name}" for name in equal if name in TYPES]
    tally.wants("no secret is compared by == in the sources", not broken, "; ".join(broken))
    undefined = [name for name in TYPES if name not in defined]
    tally.wants("each type of secrets is defined in a crate", not undefined, " ".join(undefined))


CHECKS = [no_secret_is_compared]
