"""The outcomes of session commands, and the quota of keys."""
import os

from parts import TOP
from parts.common.running import SERIAL, run

SECRET = "raw:" + "11" * 32
MADE = ["caller 1000", f"protector p {SECRET}", f"policy-new docs p {SECRET}"]


def quota(tally):
    """User 0 has as many keys as any other: the example of 65 keys has the log of its user, for user 0."""
    name = os.path.join(TOP, "examples", "rows", "sixty_five_keys_of_one_user")
    with open(name + ".fsc", "rb") as script, open(name + ".log", "rb") as log:
        given, wanted = script.read().replace(b"caller 7\n", b"caller 0\n"), log.read().replace(b" 0 7 ",
                                                                                                b" 0 0 ")
    status, got, _ = run(SERIAL, given)
    tally.wants("sixty-five keys of user 0 have their log",
                b"caller 0\n" in given and (status, got) == (0, wanted))


def replayed(lines):
    """The entries and the notes of a run in rotation of these lines, each without its line feed."""
    _, log, _ = run(SERIAL, ("\n".join(lines) + "\n").encode())
    told = log.decode().splitlines()
    return [line for line in told if not line.startswith("note ")], [line for line in told
                                                                     if line.startswith("note ")]


def outcomes(tally):
    """Each outcome of a session's work that a script can bring about."""
    others = [f"protector q{n} {SECRET}" for n in range(16)]
    added = [f"policy-add docs p {SECRET} q{n} {SECRET}" for n in range(16)]
    for what, lines, wanted in (
        ("a protector that is there", [f"protector p {SECRET}"], "conflict"),
        ("a link where a protector is", ["protector-link p"], "conflict"),
        ("a link", ["protector-link q"], "ok"),
        ("opening a link", ["protector-link q", f"unlock docs q {SECRET}"], "bad-record"),
        ("a policy that is there", [f"policy-new docs p {SECRET}"], "conflict"),
        ("a protector that is not there", [f"unlock docs q {SECRET}"], "refused"),
        ("a policy that is not there", ["lock none"], "refused"),
        ("a lock without a claim", ["lock docs"], "refused"),
        ("a secret of another kind", ["unlock docs p pass:word"], "wrong-kind"),
        ("another secret", ["unlock docs p raw:" + "22" * 32], "wrong-key"),
        ("a protector without a wrap", [f"protector q {SECRET}", f"unlock docs q {SECRET}"], "not-listed"),
        ("dropping one without a wrap", ["policy-drop docs q"], "not-listed"),
        ("dropping the last wrap", ["policy-drop docs p"], "last-one"),
        ("a wrap for a second time", [f"policy-add docs p {SECRET} p {SECRET}"], "listed"),
        ("a seventeenth wrap", [*others, *added], "full"),
        ("options that are there", ["migrate docs"], "current"),
        ("another passphrase",
         ["protector-change p " + SECRET + " pass:1:8:1:new", "unlock docs p pass:old"], "wrong-key"),
        ("the new passphrase",
         ["protector-change p " + SECRET + " pass:1:8:1:new", "unlock docs p pass:new"], "ok"),
        ("encrypting under it", ["mkdir /e", "unlock docs p " + SECRET, "encrypt /e docs"], "ok"),
        ("encrypting what is not there", ["encrypt /e docs"], "refused"),
        ("its status", ["status docs"], "ok"),
    ):
        _, notes = replayed([*MADE, *lines])
        tally.wants(f"{what} ends with {wanted}", [note.split(" ")[-1] for note in notes[-1:]] == [wanted],
                    str(notes[-1:]))


CHECKS = (quota, outcomes)
