"""A script of every session command, and each key that its run has, computed from outside of the program.

What is drawn, derived and wrapped is said in docs/FORMATS.md.
"""
import hashlib

from parts.common.argon import argon2id
from parts.common.ciphers import (expanded, extracted, forward_keys, inverse_keys, key_planes, keystream,
                                  mac,
                                padded, round_keys, states, xored)

PASSES, KIB = 1, 8
PIECE = 16
SEED = hashlib.sha256(b"the seed of the run").digest()
NONCE_OR_KEY, IV, SALT = 0, 1, 2

# The session is the second caller's, since a run in threads keeps the first one in the thread that began.
CALLER = 1
HEADS = ["caller 1001", "drop-caches", "caller 1000"]


# Each byte of a plane is 0 or 255, as in much other memory: so the eight planes of a round key are one
# piece.
PLANES_OF_A_KEY = 128


class Key:
    """Bytes to look for, by pieces of a length. The row is the line of the table that they count for."""

    def __init__(self, row, value, has_words=True, piece=PIECE):
        self.row, self.value, self.has_words, self.piece = row, value, has_words, piece

    def forms(self):
        """The bytes as they are, and as words of four and eight bytes with the last byte first, as a hash
        reads them."""
        yield self.value
        if self.has_words:
            for size in (4, 8):
                if len(self.value) % size == 0:
                    words = (self.value[at:at + size] for at in range(0, len(self.value), size))
                    yield b"".join(word[::-1] for word in words)


def named(what, length):
    """Bytes that nothing else has: a digest of what they are for."""
    return hashlib.shake_256(what.encode()).digest(length)


def drawn(command, purpose, length):
    """What the session's command derives from the seed."""
    number = (16 * command + purpose).to_bytes(8, "little")
    return expanded("sha512", extracted("sha512", SEED), b"fsc draw" + bytes([CALLER]) + number, 64)[:length]


class Secret:
    """A secret of the script: a raw one, or a passphrase with what the protector's command makes of it."""

    def __init__(self, name, is_raw, command):
        self.is_raw = is_raw
        self.value = named(name, 32) if is_raw else named(name, 24).hex().encode()
        self.made = None if is_raw else argon2id(self.value, drawn(command, SALT, 16), PASSES, KIB)

    def word(self):
        """The secret as a command names it."""
        return "raw:" + self.value.hex() if self.is_raw else "pass:" + self.value.decode()

    def new_word(self):
        """The same for a command that makes a protector with it."""
        return self.word() if self.is_raw else f"pass:{PASSES}:{KIB}:1:" + self.value.decode()

    def wrapping_key(self):
        """The key of 32 bytes under which it wraps."""
        return self.value if self.is_raw else self.made[0]

    def keys(self):
        """What a run has of it."""
        yield Key("secrets of the script", self.value, has_words=self.is_raw)
        if self.is_raw:
            yield Key("their digits", self.value.hex().encode(), has_words=False)
        else:
            tag, digest, blocks = self.made
            yield Key("what a passphrase is stretched to", tag)
            yield Key("Argon2id's first digest", digest)
            for block in blocks:
                yield Key("Argon2id's blocks", block)


# The lines of the script, by the names that the moments and the draws have for them.
PLAN = [
    ("make login", "protector login {login_new}"),
    ("make spare", "protector spare {spare_new}"),
    ("make docs", "policy-new docs login {login}"),
    ("add spare", "policy-add docs login {login} spare {spare}"),
    ("change login", "protector-change login {login} {changed_new}"),
    ("drop spare", "policy-drop docs spare"),
    ("link far", "protector-link far"),
    ("put old", "meta-put policy/old 0 {old}"),
    ("migrate old", "migrate old"),
    ("make e", "mkdir /e"),
    ("unlock docs", "unlock docs login {changed}"),
    ("ask docs", "status docs"),
    ("encrypt e", "encrypt /e docs"),
    ("make held", "create /e/held-open"),
    ("make closed", "create /e/closed-early"),
    ("make link", "symlink /e/link elsewhere"),
    ("read link", "readlink /e/link"),
    ("open closed", "open /e/closed-early"),
    ("write closed", "write 0 0 {closed_text}"),
    ("close closed", "close 0"),
    ("open held", "open /e/held-open"),
    ("write held", "write 1 0 {held_text}"),
    ("fill held", "fill 1 8192 100 7"),
    ("read held", "read 1 8192 50"),
    ("list e", "list /e"),
    ("make m", "mkdir /m"),
    ("add shared", "add-key {shared}"),
    ("encrypt m", "set-policy-bytes /m 0201040b00000000{shared_id}"),
    ("make f", "create /m/f"),
    ("open f", "open /m/f"),
    ("write f", "write 2 0 {mode_text}"),
    ("close f", "close 2"),
    ("remove shared", "remove-key id:{shared_id}"),
    ("lock docs", "lock docs"),
    ("list busy", "list /e"),
    ("close held", "close 1"),
    ("list absent", "list /e"),
    ("unlock again", "unlock docs login {changed}"),
    ("list again", "list /e"),
    ("lock again", "lock docs"),
    ("stat e", "stat /e"),
]
NUMBERS = {name: number for number, (name, _) in enumerate(PLAN)}

# The commands before which the run is stopped: the file is open and the key there; it is open and the key
# locked; it is closed, and the key absent.
MOMENTS = {"open": "close f", "busy": "list busy", "absent": "list absent"}


class Session:
    """The script in one kind of secrets, with its keys."""

    def __init__(self, is_raw):
        self.secrets = {
            "login": Secret("the first secret of login", is_raw, NUMBERS["make login"]),
            "spare": Secret("the secret of spare", is_raw, NUMBERS["make spare"]),
            "changed": Secret("the second secret of login", is_raw, NUMBERS["change login"]),
        }
        self.shared = named("the key that modes share", 64)
        self.texts = {name: named(name, 64) for name in ("closed_text", "held_text", "mode_text")}

    def words(self):
        """What the braces of the plan represent, but for the older record."""
        told = {name: secret.word() for name, secret in self.secrets.items()}
        told |= {name + "_new": secret.new_word() for name, secret in self.secrets.items()}
        told |= {name: text.hex() for name, text in self.texts.items()}
        return told | {"shared": self.shared.hex(), "shared_id": derived(self.shared, b"\x01", 16).hex()}

    def record(self):
        """The record of the policy when it is made: its key is wrapped under the protector's, that under the
        secret."""
        login, policy = drawn(NUMBERS["make login"], NONCE_OR_KEY, 32), drawn(NUMBERS["make docs"],
                                                                              NONCE_OR_KEY, 64)
        iv = drawn(NUMBERS["make docs"], IV, 16)
        wrapped, tag = wrap(login, iv, policy)
        return ["fsc-policy 2", "name docs", "id " + derived(policy, b"\x01", 16).hex(), "options 32 0",
                f"wrap login {iv.hex()} {wrapped.hex()} {tag.hex()}"]

    def script(self):
        """The whole script. The older record is the policy's, in the first version."""
        lines = self.record()
        old = "".join(line + "\n" for line in ["fsc-policy 1", "name old", lines[2], lines[4]])
        words = self.words() | {"old": old.encode().hex()}
        return "\n".join([*HEADS, *(line.format(**words) for _, line in PLAN)]) + "\n"

    def told(self):
        """What the log has to contain, so that the keys are known to be the run's: the records of protector
        and policy."""
        iv = drawn(NUMBERS["make login"], IV, 16)
        wrapped, tag = wrap(self.secrets["login"].wrapping_key(), iv,
                            drawn(NUMBERS["make login"], NONCE_OR_KEY, 32))
        yield f"iv {iv.hex()}\nkey {wrapped.hex()}\ntag {tag.hex()}\n".encode().hex()
        yield "\n".join(self.record()).encode().hex()
        yield "added " + derived(self.shared, b"\x01", 16).hex()

    def keys(self):
        """Each key of the run."""
        for secret in self.secrets.values():
            yield from secret.keys()
        login, spare = (drawn(NUMBERS[command], NONCE_OR_KEY, 32)
                        for command in ("make login", "make spare"))
        policy = drawn(NUMBERS["make docs"], NONCE_OR_KEY, 64)
        for key in (login, spare):
            yield Key("protectors' keys", key)
        secrets = {name: secret.wrapping_key() for name, secret in self.secrets.items()}
        for key, command in ((secrets["login"], "make login"), (secrets["spare"], "make spare"),
                             (login, "make docs"),
                             (spare, "add spare"), (secrets["changed"], "change login")):
            yield from wrap_keys(key, drawn(NUMBERS[command], IV, 16))
        yield from raw_keys("the policy's raw key", policy)
        yield from raw_keys("the raw key of the script", self.shared)
        yield Key("its digits", self.shared.hex().encode(), has_words=False)
        yield from node_keys(policy, self.shared)
        yield from seed_keys()
        for text in self.texts.values():
            yield Key("written bytes", text)
            yield Key("their digits in the script", text.hex().encode(), has_words=False)


def derived(raw, use, length):
    """What is derived from a raw key for this use."""
    return expanded("sha512", extracted("sha512", raw), b"fscrypt\0" + use, length)


def mac_keys(row, name, key):
    """What HMAC makes of its key."""
    for value in padded(name, key):
        yield Key(row, value)
    for state in states(name, key):
        yield Key(row, state, has_words=False)


def wrap(key, iv, secret):
    """A secret wrapped under a key, and the tag."""
    stretched = expanded("sha256", extracted("sha256", key), b"", 64)
    wrapped = xored(secret, keystream(stretched[:32], iv, len(secret)))
    return wrapped, mac("sha256", stretched[32:], iv + wrapped)


def wrap_keys(key, iv):
    """What wrapping under a key has, beside the key."""
    middle = extracted("sha256", key)
    stretched = expanded("sha256", middle, b"", 64)
    for value in (middle, stretched[:32], stretched[32:]):
        yield Key("keys of a wrap", value)
    yield Key("keystreams of a wrap", keystream(stretched[:32], iv, 64))
    yield from cipher_keys("round keys of a wrap", stretched[:32])
    for value in (middle, stretched[32:]):
        yield from mac_keys("HMAC's padded keys and states of a wrap", "sha256", value)


def raw_keys(row, raw):
    """A raw key and what HKDF makes of it."""
    yield Key(row, raw)
    middle = extracted("sha512", raw)
    yield Key("HKDF's key of a raw key", middle)
    yield from mac_keys("HMAC's padded keys and states of it", "sha512", middle)


def node_keys(policy, shared):
    """The keys of nodes and of modes, and the nonces."""
    for command, row, length in (("make held", "contents key of the open file", 64),
                                 ("make closed", "contents key of the closed file", 64),
                                 ("encrypt e", "names key of the directory", 32),
                                 ("make link", "key of the symlink", 32)):
        nonce = drawn(NUMBERS[command], NONCE_OR_KEY, 16)
        yield Key("nonces", nonce)
        yield from with_round_keys(row, derived(policy, b"\x02" + nonce, length))
    for mode, row, length in ((b"\x01", "mode key for contents", 64), (b"\x04", "mode key for names", 32)):
        yield from with_round_keys(row, derived(shared, b"\x04" + mode + b"fsc-memory-mount", length))


def with_round_keys(row, key):
    """A key of one or two ciphers, and the round keys of each of its halves."""
    yield Key(row, key)
    for at in range(0, len(key), 32):
        yield from cipher_keys("round keys: " + row, key[at:at + 32])


def cipher_keys(row, key):
    """The round keys after the key, in each form in which a cipher has them."""
    yield Key(row, round_keys(key)[32:])
    yield Key(row, forward_keys(key), has_words=False)
    yield Key(row, inverse_keys(key), has_words=False)
    yield Key(row, key_planes(key), has_words=False, piece=PLANES_OF_A_KEY)


def seed_keys():
    """The seed, from which every drawn key follows, and what represents it."""
    yield Key("the seed", SEED)
    yield Key("the seed's digits", SEED.hex().encode(), has_words=False)
    middle = extracted("sha512", SEED)
    yield Key("HKDF's key of the seed", middle)
    yield from mac_keys("HMAC's padded keys and states of that", "sha512", middle)
