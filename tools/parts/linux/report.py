"""What all steps of logs and answers come to, and how it is reported."""
import collections
import dataclasses

from parts.linux.comparison import same, scripts_of, steps
from parts.linux.kinds import KINDS, PAGE, kind_of, rows

MAX_PRINTED = 300
REFUSALS = {"no-key", "access", "quota", "inval", "exists", "not-found", "not-dir", "is-dir", "not-empty",
            "x-dev", "no-data",
            "bad-handle", "name-too-long", "too-big", "no-space"}


class Result:
    """What the steps of all scripts came to."""

    def __init__(self):
        self.scripts = self.lines = self.cut = self.behind = self.unknown = 0
        self.kinds = collections.Counter()
        self.unexplained = []

    def take(self, log, answers):
        """A script's log and answers."""
        self.scripts += 1
        made = 0
        for step in steps(log, answers):
            made += 1
            self.lines += 1
            if same(step):
                self.unknown += step.theirs.endswith("key=?")
                continue
            kind = kind_of(step)
            if kind:
                self.kinds[kind.row] += 1
            else:
                self.unexplained.append(step)
        faults = [answer for answer in answers if answer.startswith("F")]
        if faults or ("cut:" not in answers[-1] and made < len(log) - 1):
            self.unexplained.append((log[0], faults[:1] or "the answers end"))
        self.cut += "cut:" in answers[-1]
        self.behind += len(log) - 1 - made


def compared(logs, answers):
    """The result of all scripts."""
    result = Result()
    logs, answers = scripts_of(logs), scripts_of(answers)
    for log, answer in zip(logs, answers):
        result.take(log, answer)
    if len(logs) != len(answers):
        result.unexplained.append((f"{len(logs)} scripts", f"{len(answers)} answered"))
    return result


def planted(logs, answers):
    """How many changes of one refusal to another there are where both agree, and how many of them are
    found."""
    made = found = 0
    for log, answer in zip(scripts_of(logs), scripts_of(answers), strict=True):
        for step in steps(log, answer):
            if not step.refused or not same(step):
                continue
            for name in REFUSALS - {step.refused}:
                changed = dataclasses.replace(step, ours=f"refused {name}")
                made += 1
                found += not same(changed) and kind_of(changed) is None
    return made, found


def show(step):
    """Tells a difference of no kind."""
    if isinstance(step, tuple):
        print(f"unexplained: {step[0]}: {step[1]}")
        return
    print(f"unexplained in {step.script}: {step.line.partition(' = ')[0][:MAX_PRINTED]}")
    print(f"    fsc:   {step.ours[:MAX_PRINTED]}")
    print(f"    Linux: {step.theirs[:MAX_PRINTED]} {step.told}")


def report(result):
    """Prints a result, and returns the exit status."""
    listed = rows()
    without = [kind.row for kind in KINDS if kind.row not in listed]
    for kind in KINDS:
        where = f"{PAGE}:{listed[kind.row]}" if kind.row in listed else f"NO ROW in {PAGE}"
        print(f"{result.kinds[kind.row]:7}  {kind.row} ({where})")
    for row in set(listed) - {kind.row for kind in KINDS}:
        print(f"      -  {row} ({PAGE}:{listed[row]}; no kind: no script tries it)")
    print(f"{result.unknown:7}  of which Linux can't be asked whether a key is at hand")
    print(f"{result.cut:7}  scripts cut, {result.behind} lines after the cuts")
    for step in result.unexplained:
        show(step)
    print(f"{result.scripts} scripts, {result.lines} lines, {len(result.unexplained)} unexplained")
    return 1 if result.unexplained or without else 0


def read(name):
    """The lines of a file."""
    with open(name, encoding="utf-8", errors="replace") as file:
        return file.read().splitlines()


def answered(logs, answers):
    """The logs and answers of the scripts that were answered whole, where the machine ended early."""
    logs, answers = scripts_of(logs), scripts_of(answers)[:-1]
    return sum(logs[:len(answers)], []), sum(answers, [])
