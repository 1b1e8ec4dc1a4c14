"""A log of fsc beside what a kernel answered to the same calls."""
import dataclasses

from parts.linux.bookkeeping import Bookkeeping, parts_of
from parts.linux.scripts import MAX_PRINTED, NO_KEY, PATHS, fields, learn_texts, names_of


@dataclasses.dataclass
class Step:
    """A call with both answers, and the state of the mount before it."""
    script: str
    raw: bool
    line: str
    caller: int
    user: int
    verb: str
    words: list
    ours: str
    theirs: str
    told: dict
    books: Bookkeeping

    @property
    def refused(self):
        """The mount's refusal, or nothing."""
        return self.ours.removeprefix("refused ") if self.ours.startswith("refused ") else ""

    @property
    def denied(self):
        """The kernel's refusal, or nothing."""
        return self.theirs.removeprefix("refused ") if self.theirs.startswith("refused ") else ""

    def paths(self):
        """The paths among its words."""
        return self.words[:PATHS.get(self.verb, 0)]

    def node(self):
        """The node at its first path, or none."""
        return self.books.node(self.words[0]) if self.paths() else None

    def listed(self):
        """The nodes that the kernel listed, by the mount's numbers."""
        return [int(part) for part in self.told.get("nodes", "").split(",") if part]

    def directories(self):
        """The directories that its paths lead through, and the nodes at their ends."""
        found = []
        for path in self.paths():
            passed, node, _ = self.books.walk(parts_of(path))
            found += passed + ([node] if node else [])
        return found


def same_listing(step):
    """Texts are compared as the nodes that they name, with their lengths; of a page only how many there
    are."""
    node, ours, theirs = step.node(), names_of(step.ours), names_of(step.theirs)
    counted = step.ours.split(" ")[:3] == step.theirs.split(" ")[:3]
    if node is None or not counted or not any(our.startswith(NO_KEY) for our in ours):
        return False
    numbers = step.listed()
    names = {entry.number: entry.name for entry in node.entries.values()}
    if not set(numbers) <= set(names) or any(names[number] == shown for number,
                                             shown in zip(numbers, theirs)):
        return False
    known = [step.books.text_of(our, node) for our in ours]
    if step.words[1] != "0" or "more=1" in step.ours or None in known:
        return True
    return sorted(zip([node.number for node in known], map(len, ours))) == sorted(zip(numbers,
                                                                                      map(len, theirs)))


def same_target(step):
    """A locked link's target is a text, of which the kernel has another of the same length."""
    ours, theirs = step.ours.removeprefix("target "), step.theirs.removeprefix("target ")
    node = step.node()
    return (node is not None and step.books.locked(node) and ours.startswith(NO_KEY)
            and len(ours) == len(theirs)
            and theirs != node.target)


def same(step):
    """Whether the kernel answered what the mount did."""
    if step.ours == step.theirs:
        return True
    if step.verb == "list" and not step.refused and not step.denied:
        return same_listing(step)
    if step.verb == "readlink" and not step.refused and not step.denied:
        return same_target(step)
    if step.verb == "stat" and step.theirs.endswith("key=?"):
        return step.ours[:-1] == step.theirs[:-1]
    return False


def steps(log, answers):
    """Each call of a script that both have, up to a cut; then nothing more is known of the kernel."""
    books = Bookkeeping()
    _, name, mode = log[0].split(" ")
    for at, (line, answer) in enumerate(zip(log[1:], answers[1:]), 1):
        asked, _, ours = line.partition(" = ")
        told, *behind = answer.split("\t")
        caller, user, verb, words, _ = fields(line)
        step = Step(name, mode == "raw", line, caller, user, verb, words, ours, told.partition(" = ")[2],
                    dict(text.split(":", 1) for text in behind), books)
        if told.partition(" = ")[0] != asked:
            step.theirs = f"no answer, but to: {told[:100]}"
        if verb == "list":
            learn_texts(books, log[at + 1:at + 1 + MAX_PRINTED], caller, words[0])
        yield step
        if "cut" in step.told:
            return
        books.feed(caller, user, verb, words, ours)


def scripts_of(lines):
    """The lines of each script, of which the first begins with `S`."""
    found = []
    for line in lines:
        if line.startswith("S"):
            found.append([])
        if found and line != "END":
            found[-1].append(line)
    return found
