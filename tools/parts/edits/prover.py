"""What a check of a crate takes and what it came to: the crates, the toolchain's words, the libraries below,
and a check's output.

Used by `tools/edits`; nothing here knows of edits.
"""
import contextlib
import hashlib
import os
import re
import resource
import shutil
import signal
import subprocess
import tempfile
import time
from dataclasses import dataclass
from pathlib import Path

PARTS = ("src", "specs", "proofs")


@dataclass(frozen=True)
class Crate:
    """A crate of crates.txt: its name, its line, and the libraries that it uses, the repository's own and
    the kit's."""
    name: str
    line: str
    own: tuple
    of_kit: tuple


def crates_of(top):
    """Each crate of crates.txt by its name, lowest first."""
    lines = {}
    for line in (top / "crates.txt").read_text(encoding="utf-8").splitlines():
        words, _, below = line.partition("#")[0].partition(":")
        if words.strip():
            lines[words.split()[0]] = (" ".join(line.partition("#")[0].split()), below.split())
    found = {}
    while len(found) < len(lines):
        ready = [crate for crate, (_, below) in lines.items() if crate not in found
                 and all(low in found for low in below if low in lines)]
        if not ready:
            raise SystemExit("crates of crates.txt use one another in a ring")
        for crate in ready:
            line, below = lines[crate]
            found[crate] = Crate(crate, line, tuple(low for low in below if low in lines),
                                 tuple(low for low in below if low not in lines))
    return found


def below(crates, name):
    """The repository's crates that this one depends on, each once, lower ones first."""
    found = []
    for crate in crates[name].own:
        found += [more for more in [*below(crates, crate), crate] if more not in found]
    return found


def texts_of(folder):
    """A crate's files that a check reads, by their paths in it."""
    files = sorted(path for part in PARTS for path in (folder / part).rglob("*") if path.is_file())
    return {file.relative_to(folder).as_posix(): file.read_text(encoding="utf-8") for file in files}


class Kit:
    """The toolchain: its line, and the words that a check of a crate takes."""

    def __init__(self):
        told = lambda verb: subprocess.run(["rt", verb], capture_output=True, text=True,
                                           check=True).stdout.strip()
        self.version, self.top = told("version"), Path(told("doc")).parent

    def words(self, crates, name, root, folder_of):
        """The words for a crate whose root file is this, over libraries that lie in these folders."""
        words = ["--crate-name", name, root]
        for crate in ("std", *crates[name].of_kit):
            words += ["--extern", f"{crate}={self.top}/rlibs/{crate}.rlib"]
        words += ["-L", f"dependency={self.top}/rlibs"]
        for crate in crates[name].own:
            words += ["--extern", f"{crate}={folder_of(crate)}/{crate}.rlib"]
        for crate in below(crates, name):
            words += ["-L", f"dependency={folder_of(crate)}"]
        words += ["--antt-project", f"{self.top}/rattle/logic/antt-project.json", "--logic-built",
                  f"{self.top}/logic_built"]
        return [*words, "--links", f"{name}=", "--jobs", "1"]


class Run:
    """What a run of the prover in a crate's folder said, and what it took. It may give way to all others on
    this machine."""

    running, are_ended = set(), False

    def __init__(self, kit, verb, words, folder, gives_way=False):
        began = time.monotonic()
        with tempfile.TemporaryDirectory(prefix="fsc-prover-") as room, tempfile.TemporaryFile(
            "w+", errors="replace") as out:
            words = [f"{kit.top}/bin/rattle", verb, *words,
                     *(["--stage-times", f"{room}/stages"] if verb == "check" else [])]
            words = ["nice", "-n", "19", *words] if gives_way else words
            ran = subprocess.Popen(words, cwd=folder, stdin=subprocess.DEVNULL, stdout=out, stderr=out)
            Run.running.add(ran)
            if Run.are_ended:
                Run.end_all()
            used = self.waited(ran, Path(room) / "stages" if verb == "check" else None)
            Run.running.discard(ran)
            out.seek(0)
            self.said = out.read().split("\n")
        self.wall, self.work = time.monotonic() - began, used.ru_utime + used.ru_stime
        self.last = next((line for line in reversed(self.said) if line.strip()), "")

    def waited(self, ran, stages):
        """Waits for the prover, and gives what it used. Once a check has its verdict, as the file of its
        stages reports, it may open no further file: it would go over all once more, a fourth of its work, to
        print files in which the open goals are to be answered. It reports in a note that it can't."""
        pid = 0
        while not pid:
            time.sleep(0.05)
            if stages and stages.is_file() and "\nstage lines " in stages.read_text(encoding="utf-8"):
                with contextlib.suppress(ProcessLookupError):
                    resource.prlimit(ran.pid, resource.RLIMIT_NOFILE, (0, 0))
                stages = None
            pid, status, used = os.wait4(ran.pid, os.WNOHANG)
        ran.returncode = self.status = os.waitstatus_to_exitcode(status)
        return used

    @staticmethod
    def end_all():
        """Kills the provers that run, and those that begin later, so that nothing is known of what they
        check."""
        Run.are_ended = True
        for ran in [*Run.running]:
            with contextlib.suppress(ProcessLookupError):
                os.kill(ran.pid, signal.SIGKILL)

    def is_proved(self):
        return self.status == 0

    def is_refused(self):
        """Whether it came to an end that is a verdict: something is refused, or has a hole."""
        return self.status == 1 and bool(re.match(r"logic=not-proved|only=\d+ |holes=\d+$", self.last))

    def is_cut_off(self):
        """Whether it was killed, or wanted memory, so that nothing is known."""
        return self.status < 0 or self.status > 128 or not (self.is_proved() or self.is_refused()) and any(
            "memory" in line for line in self.said)

    def cost(self):
        return f"{self.wall:.0f} s, {self.work:.0f} s of a processor"

    def last_words(self):
        told = [line for line in self.said if re.search(r"\berror\b|no verdict", line)] or [self.last]
        return " / ".join(line.strip()[:200] for line in told[:2])


class Libraries:
    """The libraries that checks depend on: those that the gate, or a check, left in the checkout, where they
    are newer than all that they were built from, and else statements, which are built into a folder of this
    machine by the sums of their texts."""

    def __init__(self, kit, top, crates, sums, room):
        self.kit, self.top, self.crates, self.sums, self.room = kit, top, crates, sums, room
        self.times, self.lies_there, self.folder_of = {}, False, None

    def choose(self, needed):
        """Takes all of these from the checkout, or none, since a library's statements fit those that it was
        built over."""
        self.lies_there = all(self.time(crate) for crate in needed)

    def time(self, name):
        """When the checkout's library was built, or 0 where it isn't there or something that it was built
        from is newer."""
        if name not in self.times:
            folder = self.top / "crates" / name
            made = folder / "out" / "rlib" / f"{name}.rlib"
            built = made.stat().st_mtime if made.is_dir() else 0
            texts = [self.top / "crates.txt", self.kit.top / "KIT-ID", *(more for part in PARTS for more in [
                folder / part, *(folder / part).rglob("*")] if more.exists())]
            lower = [self.time(crate) for crate in self.crates[name].own]
            is_new = built and all(lower) and max([*lower,
                                                   *(text.stat().st_mtime for text in texts)]) <= built
            self.times[name] = built if is_new else 0
        return self.times[name]

    def folder(self, name):
        if self.folder_of:
            return self.folder_of(name)
        return self.top / "crates" / name / "out" / "rlib" if self.lies_there else self.room / self.sums[
            name]

    def stands(self, name):
        return (self.folder(name) / f"{name}.rlib").is_dir()

    def build(self, name):
        """Proves a library and keeps its statements."""
        with tempfile.TemporaryDirectory(dir=self.room) as made:
            root = "src/lib.rt"
            words = [*self.kit.words(self.crates, name, root, self.folder), "--statements", "-o",
                     f"{made}/new/{name}.rlib"]
            os.mkdir(f"{made}/new")
            shutil.copytree(self.top / "crates" / name, f"{made}/crate",
                            ignore=shutil.ignore_patterns("out"))
            run = Run(self.kit, "build", words, f"{made}/crate")
            if run.is_proved() and not self.stands(name):
                shutil.rmtree(self.folder(name), ignore_errors=True)
                os.rename(f"{made}/new", self.folder(name))
        return run


def sums_of(kit, top, crates, reading, read):
    """For each crate the sum of all that a verdict on it rests on, with its texts as they are read."""
    handles, found = (top / "HANDLES").read_text(encoding="utf-8"), {}
    for name, crate in crates.items():
        made = hashlib.sha256(repr((reading, kit.version, handles, crate.line,
                                    [found[other] for other in crate.own])).encode())
        made.update(repr(sorted(read(texts_of(top / "crates" / name)).items())).encode())
        found[name] = made.hexdigest()
    return found
