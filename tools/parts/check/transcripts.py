"""tools/transcript: the examples, and what it prints of expectations, policies, states and Linux."""
import os
import re
import subprocess

from parts import TOP
from parts.common.running import PROGRAM, SECONDS, SERIAL, run

FOLDER = os.path.join(TOP, "examples", "transcripts")
TOOL = os.path.join(TOP, "tools", "transcript")
DIFFERS, USAGE, BAD_LINES = 9, 2, 3
EXPECTED = re.compile(r" = (.*)$", re.MULTILINE)
SHARED = """\
user anna 1000
user bert 1001
anna: add-key text:a-key-of-thirty-two-bytes-and-up
anna: mkdir /e
anna: set-policy /e raw:text:a-key-of-thirty-two-bytes-and-up 32
anna: create /e/f
anna: create /e/g
bert: open /e/f
bert: add-key text:a-key-of-thirty-two-bytes-and-up
anna: remove-key raw:text:a-key-of-thirty-two-bytes-and-up
bert: remove-key raw:text:a-key-of-thirty-two-bytes-and-up
bert: list /e
bert: open /e/f
bert: open /e/g
bert: close 0
anna: key-status raw:text:a-key-of-thirty-two-bytes-and-up
"""
OPEN, OPEN_LOCKED = "; open: bert 0 on /e/f", "incomplete; open: bert 0 on /e/f"
ANNA, BERT = "anna (1000)", "bert (1001)"
# the states after the lines of SHARED, by docs/MODEL.md: the key's, and whether the directory is readable
STATES = {
    3: (f"present; claims of {ANNA}", None), 5: (f"present; claims of {ANNA}", "readable"),
    8: (f"present; claims of {ANNA}{OPEN}", "readable"),
    9: (f"present; claims of {ANNA}, {BERT}{OPEN}", "readable"),
    10: (f"present; claims of {BERT}{OPEN}", "readable"), 11: (OPEN_LOCKED, "locked"),
    15: ("absent", "locked"),
}
# Linux's answers to the lines of SHARED that it answers otherwise, with their rows of docs/LINUX.md
IN_LINUX = {
    12: ("names 2 more=0 f g", "what an open file keeps unlocked"),
    13: ("handle", "what an open file keeps unlocked"),
    14: ("refused no-key", "what an open file keeps unlocked"),
    16: ("status incomplete self=0 users=0", "the status after the last close on a key without claims"),
}
# a key by the policy that names it: its status, a directory under it, and its removal for all
NAMED = """\
user anna 1000
user root 0
anna: protector login pass:1:64:1:secret
anna: policy-new docs login pass:secret
anna: policy-new more login pass:secret
anna: key-status id:docs                  = status absent self=0 users=0
anna: unlock docs login pass:secret       = ok
root: key-status id:docs                  = status present self=0 users=1
root: key-status id:more                  = status absent self=0 users=0
anna: mkdir /e
anna: set-policy /e id:more 32            = refused no-key
anna: set-policy /e id:docs 32            = ok
anna: encrypt /e docs                     = ok
anna: remove-key id:more                  = refused no-key
root: remove-key-all id:docs              = removed others=0 busy=0
anna: status docs                         = status absent self=0 users=0
"""


def transcript(given, *words):
    """The exit status, the lines and what was reported of a transcript."""
    ended = subprocess.run([TOOL, "--program", PROGRAM, *words, "-"], input=given.encode(),
                           capture_output=True, timeout=SECONDS, check=False)
    return ended.returncode, ended.stdout.decode().splitlines(), ended.stderr.decode().splitlines()


def examples_of_transcripts(tally):
    """Each of examples/transcripts/ is answered as expected, and its output is such a transcript."""
    names = sorted(os.listdir(FOLDER))
    tally.wants("examples/transcripts/ has six transcripts", len(names) >= 6)
    for name in names:
        with open(os.path.join(FOLDER, name), encoding="utf-8") as file:
            given = file.read()
        count = len(EXPECTED.findall(given))
        status, printed, told = transcript(given, "--strict")
        tally.wants(f"{name} is answered as expected", (status, told) == (0, []), str(printed[-1:]))
        tally.wants(f"{name} ends with its number of expectations",
                    printed[-1:] == [f"# 0 of {count} expected answers differ, 0 unexpected refusals"])
        again = transcript("\n".join(printed[:-1]) + "\n", "--strict")
        tally.wants(f"what is printed of {name} is a transcript that is answered so", again[0] == 0)
        _, tested, _ = transcript(given, "--tap")
        tally.wants(f"{name} has a test for each expectation", tested[0] == f"1..{count}"
                    and [text[:2] for text in tested[1:]] == ["ok"] * count)


def example_of_help(tally):
    """The transcript that --help shows is answered as it says."""
    _, printed, _ = transcript("", "--help")
    given = "".join(line.strip() + "\n" for line in printed if re.match(r"    (user |\w+: )", line))
    status, answered, told = transcript(given, "--strict")
    tally.wants("the transcript of --help is answered so", (status, told) == (0, []) and len(answered) > 10,
                str((answered, told)))


def scripts_of_transcripts(tally):
    """The script of a transcript makes its calls in their order, whichever caller acts, with bytes for each
    text."""
    given = "user a 1\nuser b 2\nuser c 3\n" + "".join(
        f"{name}: mkdir /{name}{at}\n" for at, name in enumerate("abcacbbaccab"))
    status, script, _ = transcript(given, "--script")
    _, log, _ = run(SERIAL, "".join(text + "\n" for text in script).encode())
    wanted = [f"{at} {'abc'.index(name)} {'abc'.index(name) + 1} mkdir /{name}{at} = ok"
              for at, name in enumerate("abcacbbaccab")]
    is_so = (status, log.decode().splitlines()) == (0, wanted)
    tally.wants("a script of three users has the calls in their order", is_so)
    _, script, _ = transcript("user a 1\na: write 0 0 text:a%20b\na: symlink /l text:x = ok\n", "--script")
    tally.wants("a text is bytes where bytes are expected, and no other word is",
                script == ["caller 1", "write 0 0 612062", "symlink /l text:x"], str(script))


def differing_answers(tally):
    """Where an answer differs the transcript goes on, and its end says how many of how many do."""
    given = ("user a 1\na: mkdir /a = ok\na: mkdir /a = ok\na: stat /a = stat dir\na: stat /a = stat di\n"
             "a: open /none\na: lock none = refused\na: lock none = refused not-found\na: lock none = ok\n")
    status, printed, _ = transcript(given)
    differing = [at for at, line in enumerate(printed) if line.startswith("#     differs: ")]
    tally.wants("answers that differ are printed below their lines",
                [" ".join(printed[at - 1 - (at > 8)].split()) for at in differing] ==
                ["a: mkdir /a = refused exists", "a: stat /a = stat dir 1 0 enc=0 key=1",
                 "a: lock none = refused"], str(printed))
    counted = "# 3 of 7 expected answers differ"
    tally.wants("the end counts them", (status, printed[-1]) == (DIFFERS, counted))
    status, printed, _ = transcript(given, "--strict")
    tally.wants("a strict run counts a refusal without an expectation",
                (status, printed[-1]) == (DIFFERS, counted + ", 1 unexpected refusals"))
    status, printed, _ = transcript(given, "--strict", "--tap")
    results = [text.split(" - ")[0] for text in printed if " - " in text]
    tally.wants("the lines of a test runner have the same",
                (status, results) == (DIFFERS, ["ok 1", "not ok 2", "ok 3", "not ok 4", "not ok 5", "ok 6",
                                                "ok 7", "not ok 8"]))
    status, _, _ = transcript("user a 1\na: open /x\n")
    tally.wants("a refusal without = is no failure of an ordinary run", status == 0)


def keys_by_policies(tally):
    """`id:POLICY` is the identifier of the policy's key; a policy that isn't there is reported."""
    status, printed, told = transcript(NAMED)
    tally.wants("keys are named by their policies", (status, told) == (0, []), str((printed[-8:], told)))
    status, script, _ = transcript(NAMED, "--script")
    digits = re.findall(r"id:([0-9a-f]{32}) 32$", "\n".join(script), re.MULTILINE)
    tally.wants("the script has two identifiers for two policies", len(set(digits)) == 2, str(script))
    again = NAMED.replace("id:docs 32", f"id:{digits[-1]} 32")
    tally.wants("an identifier in digits is left as it is", again != NAMED and transcript(again)[0] == 0)
    without = NAMED.replace("anna: policy-new more login pass:secret\n", "")
    misspelled = NAMED.replace("id:docs 32", "id:dosc 32")
    for text, policy, lines in ((misspelled, "dosc", [12]), (without, "more", [8, 10, 13])):
        status, printed, told = transcript(text)
        wanted = [f"transcript: line {at}: names the policy {policy}, which no line before it has made"
                  for at in lines]
        tally.wants(f"a policy {policy} that isn't there is reported",
                    (status, printed, told) == (BAD_LINES, [], wanted), str(told))
    other = transcript(NAMED, "--script", "--seed", "1" * 64)[1]
    changed = NAMED.replace("policy-new more login pass:secret", "meta-put policy/more 0 text:id%20x%0A")
    status, _, told = transcript(changed)
    tally.wants("a record without an identifier names no key",
                (status, len(told)) == (BAD_LINES, 3), str(told))
    tally.wants("another seed gives other identifiers", other != script and len(other) == len(script))


def states_told(printed):
    """What is printed of keys and directories, by the line of the transcript."""
    found, line = {}, 0
    for text in printed:
        line += not text.startswith("#")
        what = re.fullmatch(r"#     (key [0-9a-f]{8}: (.*)|directory /e under [0-9a-f]{8}: (.*))", text)
        if what:
            key, directory = found.get(line, (None, None))
            found[line] = (what[2] or key, what[3] or directory)
    return found


def states_of_transcripts(tally):
    """The state is reported after each line that changed it, with --at after one line; of eight users
    too."""
    found = states_told(transcript(SHARED, "--state")[1])
    tally.wants("states are those of the model", found == STATES, str(found))
    found = states_told(transcript(SHARED, "--state", "--at", "12")[1])
    tally.wants("with --at one state is printed", found == {12: STATES[11]}, str(found))
    eight = SHARED.replace("bert 1001\n", "bert 1001\n" + "".join(f"user u{at} {at}\n" for at in range(6)))
    found = states_told(transcript(eight, "--state", "--at", "17")[1])
    tally.wants("states of eight users are printed", found == {17: STATES[11]}, str(found))


def linux_beside_transcripts(tally):
    """With --linux each line that Linux answers otherwise has its answer and the row of docs/LINUX.md."""
    with open(os.path.join(TOP, "docs", "LINUX.md"), encoding="utf-8") as file:
        page = file.read().splitlines()
    found, line = {}, 0
    for text in transcript(SHARED, "--linux")[1]:
        line += not text.startswith("#")
        what = re.fullmatch(r"#     Linux: (.*) \(docs/LINUX\.md, line (\d+): (.*)\)", text)
        if what:
            found[line] = what[1], what[3]
            row = page[int(what[2]) - 1]
            tally.wants(f"docs/LINUX.md has the row of {what[3]} there", row.startswith(f"| {what[3]} |"))
    tally.wants("Linux's answers are printed where they differ", found == IN_LINUX, str(found))


def reports_without_expectations(tally):
    """Without = `lock` and `status` are printed with their last reply, other sessions with the outcome."""
    plain = EXPECTED.sub("", NAMED).replace("remove-key-all id:docs", "stat /")
    plain += "anna: lock docs\nanna: lock docs\nanna: status more\nanna: lock none\n"
    _, printed, _ = transcript(plain)
    answers = {" ".join(command.split()): answer for command, answer in
               (re.split(r" += ", line) for line in printed if not line.startswith(("#", "user")))}
    wanted = {"anna: unlock docs login pass:secret": "ok",
              "anna: status docs": "status present self=1 users=1", "anna: lock docs": "refused",
              "anna: status more": "status absent self=0 users=0", "anna: lock none": "refused"}
    tally.wants("lock and status are printed with their replies",
                {command: answers.get(command) for command in wanted} == wanted, str(answers))
    lines = [" ".join(line.split()) for line in printed]
    tally.wants("a lock is printed with what it removed",
                "anna: lock docs = removed others=0 busy=0" in lines, str(lines))


CHECKS = (examples_of_transcripts, example_of_help, scripts_of_transcripts, differing_answers,
          keys_by_policies, reports_without_expectations, states_of_transcripts, linux_beside_transcripts)
