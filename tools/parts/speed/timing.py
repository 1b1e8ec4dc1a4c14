"""Works that programs do, and what they take: processor time, or time by the clock."""
import os
import resource
import subprocess
import time
from typing import NamedTuple

PROCESSOR, CLOCK = 0, 1
PASSWORD = b"password"


class Work(NamedTuple):
    """What a program does in a run: its arguments, in which `{count}` is how often it does it, and how many
    of what is measured each of these times has. Of work that can't be left undone a run is measured whole.
    `given` is the path of its standard input; else it reads a password."""
    words: tuple
    count: int = 1
    per: float = 1
    env: tuple = ()
    given: str = ""

    def is_counted(self):
        return any("{count}" in word for word in self.words)

    def command(self, count):
        return [word.replace("{count}", str(count)) for word in self.words]

    def environment(self):
        return {**os.environ, **dict(self.env)}


class Side(NamedTuple):
    """Ours or a rival: works, each with how much of it counts. The label of ours is empty."""
    label: str
    parts: tuple


def alone(label, work):
    """The side of one work."""
    return Side(label, ((1, work),))


def spent():
    """The processor time of all programs that have ended, in seconds."""
    ended = resource.getrusage(resource.RUSAGE_CHILDREN)
    return ended.ru_utime + ended.ru_stime


def taken(command, env=None, given="", sink=subprocess.DEVNULL):
    """The processor time of a run and its time by the clock, in seconds, and what it wrote."""
    before, begun = spent(), time.perf_counter()
    if given:
        with open(given, "rb") as source:
            ended = subprocess.run(command, check=True, stdin=source, stdout=sink, env=env)
    else:
        ended = subprocess.run(command, check=True, input=PASSWORD, stdout=sink, env=env)
    return (spent() - before, time.perf_counter() - begun), ended.stdout


def sides_in_turn(sides, runs, choose=min, clock=PROCESSOR):
    """Nanoseconds of each side: its works are run in turn with those of the others, `runs` times, and of each
    the chosen time counts, less that of no work."""
    works = list({work: None for side in sides for _, work in side.parts})
    times = {work: ([], []) for work in works}
    for _ in range(runs):
        for work in works:
            full, none = times[work]
            full.append(taken(work.command(work.count), work.environment(), work.given)[0][clock])
            if work.is_counted():
                none.append(taken(work.command(0), work.environment(), work.given)[0][clock])
    return [sum(weight * nanoseconds(work, *times[work], choose) for weight, work in side.parts)
            for side in sides]


def nanoseconds(work, full, none, choose):
    """What one of what is measured takes, by the times of the whole work and those of none."""
    whole = choose(full) - (choose(none) if none else 0)
    return max(whole, 0) / work.count / work.per * 1e9


class OtherWork:
    """How busy the processors are with other programs from now on."""

    def __init__(self):
        self.before = self.now()

    @staticmethod
    def now():
        """Seconds of all processors, busy ones, those that the hypervisor took, and our own."""
        tick = os.sysconf("SC_CLK_TCK")
        with open("/proc/stat", encoding="ascii") as file:
            user, nice, system, idle, waiting, *interrupts, stolen = map(int, file.readline().split()[1:9])
        busy = user + nice + system + sum(interrupts) + stolen
        own = spent() + time.process_time()
        return (busy + idle + waiting) / tick, busy / tick, stolen / tick, own

    def parts(self):
        """The parts of all processors' time that other programs, and the hypervisor, have taken."""
        whole, busy, stolen, own = (after - before for after, before in zip(self.now(), self.before))
        return (max(busy - stolen - own, 0) / whole, stolen / whole) if whole else (0, 0)
