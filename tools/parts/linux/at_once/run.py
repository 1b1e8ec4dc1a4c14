"""Has a kernel make the calls of scripts at once, and judges what it replied."""
import os
import sys

from parts.linux.at_once.calls import AtOnce
from parts.linux.at_once.draws import Draws
from parts.linux.at_once.faults import faults
from parts.linux.at_once.histories import read_answers
from parts.linux.at_once.report import Tally
from parts.linux.given import faults_of_grammar

MODES = ("free", "rounds")


def drawn(count):
    """The scripts of the numbers below a count."""
    draws = [Draws(number) for number in range(count)]
    return [(draw.name, draw.script()) for draw in draws]


def checked(texts, program):
    """The scripts of names and texts; none where one has a fault, each of which is printed."""
    wrong = [
        fault
        for name, text in texts
        for fault in faults(name, text, AtOnce) or faults_of_grammar(program, name, text)
    ]
    names = [name for name, _ in texts]
    wrong += [
        f"{name}: two scripts have this name"
        for name in sorted({twice for twice in names if names.count(twice) > 1})
    ]
    for fault in wrong:
        print(f"linux: {fault}", file=sys.stderr)
    return None if wrong else [AtOnce(name, text) for name, text in texts]


def run_at_once(texts, repeats, program, folder, machine):
    """Has `machine` make the calls of scripts, by the files of calls and answers, and reports; returns the
    exit status."""
    scripts = checked(texts, program)
    if scripts is None:
        return 2
    calls, answers, orders = (os.path.join(folder, name) for name in ("calls.txt", "answers.txt", "orders"))
    lines = [
        line
        for seed, script in enumerate(scripts)
        for mode in MODES
        for line in script.for_race(mode, repeats, seed)
    ]
    with open(calls, "w", encoding="utf-8") as file:
        file.writelines(line + "\n" for line in [*lines, "END"])
    status = machine("race", calls, answers)
    if status not in (0, 3):
        return status
    histories, wrong = read_answers(answers, scripts)
    wanted = len(scripts) * len(MODES) * repeats
    if status or len(histories) != wanted:
        early = "the machine ended early: " if status else ""
        wrong.append(f"{early}{len(histories)} histories of {wanted} were answered")
    os.makedirs(orders, exist_ok=True)
    tally = Tally(program, orders)
    for history in histories:
        tally.take(history)
    tally.print_cores()
    print(f"each order with its script is in {orders}, as fsc check reads it")
    return tally.report(wrong)
