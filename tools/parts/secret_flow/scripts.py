"""The scripts that are run, the secrets in them, and the values of their runs that are public.

A secret is found in memory by its bytes, so it differs from all other bytes there: none is short, and none
consists of equal bytes.
"""
import re

from parts.common.sessions import HEADS, IV, NONCE_OR_KEY, NUMBERS, PLAN, SALT, SEED
from parts.common.sessions import Session, derived, drawn, named

THE_SEED, RAW_KEYS, RAW_SECRETS, PASSPHRASES = "the seed", "raw keys", "raw secrets", "passphrases"
DIGIT_KINDS = (THE_SEED, RAW_KEYS, RAW_SECRETS)
SECRET_KINDS = (*DIGIT_KINDS, PASSPHRASES)
KEY_OF_PROTECTOR, KEY_OF_POLICY = 32, 64
SLICES, DEPENDENT_SLICES = 4, 2

# The costs of a protector whose passphrase is stretched in lanes: passes, KiB and lanes.
WIDE_COSTS = (2, 64, 4)
COSTS = re.compile(r"pass:(\d+):(\d+):(\d+):(.*)")


class Script:
    """Lines of the second caller. `secrets` has the values of each kind, `written` the texts that spell
    them, `keys` the length of the key that a command generates, by the command's number."""

    def __init__(self, lines, secrets, written, keys):
        self.lines, self.secrets, self.written, self.keys = lines, secrets, written, keys
        self.text = "".join(line + "\n" for line in [*HEADS, *lines]).encode()

    def public_values(self):
        """The kinds of what a run generates and derives for all to see, by the first 16 bytes."""
        values = {derived(secret, b"\x01", 16): "identifiers" for secret in self.secrets[RAW_KEYS]}
        for number in range(len(self.lines)):
            values |= {drawn(number, IV, 16): "ivs", drawn(number, SALT, 16): "salts"}
            if number not in self.keys:
                values[drawn(number, NONCE_OR_KEY, 16)] = "nonces"
            elif self.keys[number] == KEY_OF_POLICY:
                values[derived(drawn(number, NONCE_OR_KEY, KEY_OF_POLICY), b"\x01", 16)] = "identifiers"
        return values

    def stretchings(self):
        """For each command the stretchings of its passphrases, each with the passphrase, the number of the
        command that chose the salt, and the costs."""
        protectors = {}
        for number, line in enumerate(self.lines):
            verb, *words = line.split(" ")
            made = []
            if verb in ("unlock", "policy-new"):
                made = [(words[2], words[1])]
            elif verb == "policy-add":
                made = [(words[2], words[1]), (words[4], words[3])]
            elif verb == "protector-change":
                made = [(words[1], words[0])]
            done = [(word, *protectors[label]) for word, label in made
                    if word.startswith("pass:") and label in protectors]
            if verb in ("protector", "protector-change"):
                new = COSTS.match(words[-1])
                protectors.pop(words[0], None)
                if new:
                    protectors[words[0]] = number, tuple(int(group) for group in new.groups()[:3])
                    done.append(("pass:" + new[4], *protectors[words[0]]))
            yield done


def dependent_blocks(costs):
    """How many blocks of Argon2id refer to one that depends on the password (RFC 9106, 3.4): those of the
    last two slices of the first pass, and all of the others."""
    passes, kib, lanes = costs
    blocks = kib // (SLICES * lanes) * SLICES * lanes
    return blocks * DEPENDENT_SLICES // SLICES + (passes - 1) * blocks


def session_script(is_raw):
    """Every session command, and commands that fail: a wrong secret, a secret of the wrong kind. A protector
    is stretched in lanes and passes, and a passphrase is written with an escape."""
    session = Session(is_raw)
    changed = session.secrets["changed"]
    wrong_raw, wrong_text = named("a wrong raw secret", 32), named("a wrong passphrase", 24).hex()
    raw_word, text_word = "raw:" + wrong_raw.hex(), "pass:" + escaped(wrong_text)
    word, other = (raw_word, text_word) if is_raw else (text_word, raw_word)
    wide = changed.word() if is_raw else f"pass:{':'.join(map(str, WIDE_COSTS))}:{changed.value.decode()}"
    lines = session.script().splitlines()[len(HEADS):] + [
        f"protector wide {wide}", f"unlock docs login {word}", f"unlock docs login {other}",
        f"policy-add docs login {changed.word()} wide {changed.word()}",
        f"unlock docs wide {changed.word()}", "open /e/held-open", "read 3 0 64", "lock docs", "close 3"]
    secrets = {THE_SEED: [SEED], RAW_KEYS: [session.shared], RAW_SECRETS: [wrong_raw],
               PASSPHRASES: [wrong_text.encode()]}
    secrets[RAW_SECRETS if is_raw else PASSPHRASES] += [secret.value for secret in session.secrets.values()]
    written = written_of(secrets)
    written[PASSPHRASES][0] = escaped(wrong_text).encode()
    keys = {NUMBERS["make login"]: KEY_OF_PROTECTOR, NUMBERS["make spare"]: KEY_OF_PROTECTOR,
            NUMBERS["make docs"]: KEY_OF_POLICY, len(PLAN): KEY_OF_PROTECTOR}
    return Script(lines, secrets, written, keys)


def written_of(secrets):
    """The texts that spell secrets without an escape."""
    return {kind: [value if kind == PASSPHRASES else value.hex().encode() for value in values]
            for kind, values in secrets.items()}


def escaped(text):
    """A text of a script with its first character as an escape."""
    return f"%{ord(text[0]):02X}{text[1:]}"


def edited_script(is_raw, log_of):
    """A protector and a policy whose records are edited in each of their parts, and opened then. `log_of`
    runs a script and returns its log, which has the records."""
    session = Session(is_raw)
    login = session.secrets["login"]
    lines = [f"protector login {login.new_word()}", f"policy-new docs login {login.word()}"]
    secrets = {THE_SEED: [SEED], RAW_KEYS: [], RAW_SECRETS: [], PASSPHRASES: []}
    secrets[RAW_SECRETS if is_raw else PASSPHRASES].append(login.value)
    asked = "".join(line + "\n"
                    for line in [*HEADS, *lines, "meta-get protector/login", "meta-get policy/docs"])
    records = re.findall(r" meta-get (\S+) = record (\d+) ([0-9a-f]+)", log_of(asked.encode()).decode())
    for name, version, digits in records[-2:]:
        version, record = int(version), bytes.fromhex(digits).decode()
        texts = [record[:at] + ("1" if record[at] == "0" else "0") + record[at + 1:]
                 for at in (found.start() for found in re.finditer(r"\b[0-9a-f]{16,}", record))]
        for text in [*texts, record]:
            lines += [f"meta-put {name} {version} {text.encode().hex()}",
                      f"unlock docs login {login.word()}"]
            version += 1
        lines.append("lock docs")
    return Script(lines, secrets, written_of(secrets), {0: KEY_OF_PROTECTOR, 1: KEY_OF_POLICY})
