"""Records that were changed behind their users' backs: each digit, line and word, with how unlocking by them
ends."""
from parts.common.running import SERIAL, run

RAW, PASS = "raw:" + "11" * 32, "pass:correct%20horse"
MADE = ["caller 1000", f"protector login {PASS.replace('pass:', 'pass:1:8:1:')}", f"protector backup {RAW}",
        f"policy-new docs login {PASS}", f"policy-add docs login {PASS} backup {RAW}"]
# What a digit of these words is part of: where it is another, the tag no longer fits, or the name of the
# key.
FITS = {"iv": "wrong-key", "key": "wrong-key", "tag": "wrong-key", "descriptor": "bad-record",
        "id": "bad-record"}
OF_WRAPS = ("wrap", "label", "iv", "key", "tag")
MIN_DIGITS = 16


def last_record(lines):
    """The text of the record that is reported last in a run of these lines."""
    log = run(SERIAL, "".join(line + "\n" for line in lines).encode())[1].decode()
    told = [line for line in log.splitlines() if " = record " in line]
    return bytes.fromhex(told[-1].split(" ")[-1]).decode()


def put_in(lines, at, *others):
    """The lines as a text, with others in place of the one of this number."""
    return "".join(line + "\n" for line in (*lines[:at], *others, *lines[at + 1:]))


def other_digits(word):
    """The word with another digit at each place in turn."""
    for at, digit in enumerate(word):
        yield word[:at] + format(int(digit, 16) ^ 1, "x") + word[at + 1:]


def digits_changed(lines, label):
    """Each record with one digit changed of those by which the protector of this label opens it."""
    for at, line in enumerate(lines):
        words = line.split(" ")
        if words[0] in ("kind", "name", "options") or words[:1] == ["wrap"] and words[1] != label:
            continue
        names = OF_WRAPS if words[0] == "wrap" else ("", words[0])
        for number, (name, word) in enumerate(zip(names, words)):
            if name in FITS and len(word) >= MIN_DIGITS:
                for other in other_digits(word):
                    yield f"of another {words[0]}, {name}", put_in(
                        lines, at, " ".join([*words[:number], other, *words[number + 1:]])), FITS[name]


def lines_changed(lines):
    """Each record without one of its lines, with one twice or cut, and with others in the places of the
    first two."""
    for at, line in enumerate(lines):
        if not line.startswith("wrap "):
            yield f"without line {at + 1}", put_in(lines, at), "bad-record"
        yield f"with line {at + 1} twice", put_in(lines, at, line, line), "bad-record"
        yield f"with a space after line {at + 1}", put_in(lines, at, line + " "), "bad-record"
        yield f"cut within line {at + 1}", put_in(lines[:at + 1], at) + line, "bad-record"
    yield "of another version", put_in(lines, 0, lines[0][:-1] + "3"), "bad-record"
    yield "of another name", put_in(lines, 1, "name other"), "bad-record"
    yield "with an empty line at the end", put_in(lines, len(lines), ""), "bad-record"
    yield "with a line feed less", put_in(lines, len(lines))[:-1], "bad-record"
    yield "as it was", put_in(lines, len(lines)), "ok"


def kinds_changed(lines):
    """Each protector of another kind, or stretched by another salt or at other costs."""
    words = lines[2].split(" ")
    if words[1] == "raw":
        yield "of passphrases", put_in(lines, 2, "kind pass 1 8 1 " + "0" * 32), "wrong-kind"
        return
    yield "of raw secrets", put_in(lines, 2, "kind raw"), "wrong-kind"
    for costs in ("2 8 1", "1 9 1", "1 16 2"):
        yield f"stretched at {costs}", put_in(lines, 2, f"kind pass {costs} {words[-1]}"), "wrong-key"
    for costs in ("0 8 1", "17 8 1", "1 7 1", "1 65537 1", "1 8 2", "1 72 9"):
        yield f"stretched at {costs}", put_in(lines, 2, f"kind pass {costs} {words[-1]}"), "bad-record"
    for salt in other_digits(words[-1]):
        yield "with another salt", put_in(lines, 2, " ".join([*words[:-1], salt])), "wrong-key"


def wraps_changed(lines):
    """Policies with other wraps: a wrap under another label, fewer of them, and in another order, which
    still opens."""
    wraps = [line for line in lines if line.startswith("wrap ")]
    head = put_in(lines[:-len(wraps)], len(lines))
    login, backup = (wrap + "\n" for wrap in wraps)
    yield "whose wrap has another label", head + login.replace(" login ", " other ") + backup, "not-listed"
    yield "whose wraps have changed their labels", head + login.replace(
        " login ", " backup ") + backup.replace(" backup ", " login "), "wrong-key"
    yield "whose wraps have changed places", head + backup + login, "ok"
    yield "without another's wrap", head + login, "ok"
    yield "without the wrap", head + backup, "not-listed"
    yield "without wraps", head, "bad-record"
    yield "with a wrap twice", head + login + backup + login, "bad-record"


def changed_records(tally):
    """Each changed record is stored, and its policy is unlocked: the note reports why it opens or
    doesn't."""
    policy = last_record([*MADE, "meta-get policy/docs"])
    older = "".join(line + "\n" for line in policy.replace("fsc-policy 2", "fsc-policy 1").splitlines()
                    if not line.startswith("options "))
    tried = [("protector/login", "login", PASS, ""), ("protector/backup", "backup", RAW, ""),
             ("policy/docs", "login", PASS, policy), ("policy/docs", "login", PASS, older)]
    for name, label, secret, text in tried:
        lines = (text or last_record([*MADE, f"meta-get {name}"])).splitlines()
        cases = [*lines_changed(lines), *digits_changed(lines, label),
                 *(wraps_changed(lines) if text else kinds_changed(lines))]
        first = 2 if text else 1
        script = list(MADE)
        for version, (_, record, _) in enumerate(cases, first):
            script += [f"meta-put {name} {version} {record.encode().hex() or '-'}",
                       f"unlock docs {label} {secret}"]
        log = run(SERIAL, "".join(line + "\n" for line in script).encode())[1].decode()
        notes = [line.split(" ")[3] for line in log.splitlines() if line.startswith("note ")][len(MADE) - 1:]
        tally.wants(f"each changed {name} is tried", len(notes) == len(cases),
                    f"{len(notes)} of {len(cases)}")
        for (what, _, wanted), ended in zip(cases, notes):
            tally.wants(f"unlocking by {name} {what} ends with {wanted}", ended == wanted, ended)


CHECKS = (changed_records,)
