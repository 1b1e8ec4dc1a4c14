"""Wrong edits of the code: how they are read and applied, the functions that they are in, and what a check
reports each.

Nothing here runs a prover. `tools/edits` tries the edits, `tools/parts/edits/test_edits` tries this.
"""
import re
from dataclasses import dataclass

PARTS = ("src", "specs", "proofs")
FUNCTION = re.compile(r"( *)(?:pub(?:\([a-z]+\))? )?(?:const |unsafe )*fn (\w+)")
BLOCK = re.compile(r"(?:pub(?:\([a-z]+\))? )?(?:unsafe )?(impl|trait|macro_rules|mod)\b(.*)")

# What a function needs to ensure that is refused at what a call, a slice, a type or a loop of its body asks
# for.
NOTHING = "nothing"
# A clause of a contract, by its kind and its name.
CLAUSE = re.compile(r"(requires|ensures|ghost)\b(\*?)(?: (\w+))? ?[{:]")

# A module that only a check of the tests reads.
TESTS = re.compile(r"^#\[cfg\(test\)\]\n(?:pub(?:\(\w+\))? )?mod (\w+);\n", re.M)

# What a check says of a goal of the code, and of a file of a proof.
GOAL = re.compile(
    r"note: (src/\S+?):(\d+):\d+: .*(?:\bnot proved\b|`search` found no proof \(`invariant_of-)")
PROOF = re.compile(r"(?:\./)?proofs/(\S+?):\d+:\d+: error\b(.*)")
# What it says of a text of the code or of the definitions, which it refuses, or can't read: then no contract
# was tried.
STATED = re.compile(r"(?:\./)?(?:src|specs)/\S+?:\d+:\d+: error: (`[^`]*`: )?(.*)")
UNREAD = re.compile(
    r"is not in scope|has no field|is no name|operand is missing|expected the end|cannot continue")
# A proof that only cites what the edit removed says little of the contract, and what depends on such a
# proof nothing at all.
BY_A_NAME = re.compile(r"has no field|record `[^`]*`(?: \(nearest|$)|is not in scope|has no `|was not "
                       r"admitted|which was rejected, w\w+ not checked")

# A goal of what a call of the body asks for, or a loop or a type keeps. What overflows, or is out of a
# range, may be the edit's own.
ASKED = re.compile(r"^(?!overflow_).*(?:-requires\b|-(?:init|preserved|decreases)$|^invariant_of-)")


class BadEdit(Exception):
    """An edit that can't be applied."""


@dataclass(frozen=True)
class Function:
    """A function of a file: the type whose method it is, if any, and its lines with the attributes above it,
    the first of the body among them, from 0. It is plain where its own name and its type's report where its
    proof is: no method of a trait, of some of a type's instances or of a ring. A trait's method has the
    name of its impl besides, as folders of proofs have it, where that is sure."""
    file: str
    of_type: str
    name: str
    first: int
    body: int
    last: int
    is_plain: bool = True
    of_impl: str = ""

    def has_line(self, file, number):
        return file == self.file and self.first <= number <= self.last

    def has_proof(self, path):
        """Whether this file, below proofs/, is of its proof: a method's is in the folder of its type,
        which may be in another module than the method; another function's in that of its module; and
        after it its own name, or that of a ring of functions."""
        folders = path.split("/")[:-1]
        if self.of_type:
            at = next((number for number, folder in enumerate(folders) if folder.startswith(self.of_type)),
                      len(folders))
            below = folders[at + 1:]
        else:
            module = [] if self.file in ("src/lib.rt", "src/main.rt") else self.file[4:-3].split("/")
            below = folders[len(module):] if folders[:len(module)] == module else []
        return self.name in [word for group in below for word in re.split(r"[+-]", group)]


@dataclass(frozen=True)
class Edit:
    """A wrong edit: its name, its replacements (file, old text, new text), the one function whose body it
    changes, if that is all, and else the functions that are reported to be refused by it, if any, by their
    paths below the crate; and the one clause that its function, or the one that is reported, needs to ensure
    for a refusal, if that is reported, or NOTHING; and the goals at which its function is refused besides,
    where they are reported, so that only others are tried."""
    name: str
    pairs: tuple
    function: Function = None
    refused: tuple = ()
    ensures: str = ""
    leaves: tuple = ()


def type_of(header):
    """The type that an impl's header is for."""
    bare, before = header, None
    while bare != before:
        before, bare = bare, re.sub(r"<[^<>]*>", "", bare)
    words = re.findall(r"\w+", bare.split(" for ")[-1])
    return next((word for word in words if word not in ("mut", "dyn")), "")


def own_of(params):
    """What an impl's own parameters, matched in its header, are called, and a lifetime that has no name."""
    return ["'_", *(re.findall(r"(?:^|,)\s*(?:const )?('?\w+)", re.sub(r"<[^<>]*>", "", params[1])) if params
                    else [])]


def is_whole(header):
    """Whether an impl's header is for all of a type, and for no trait."""
    params = re.match(r"<((?:[^<>]|<[^<>]*>)*)>", header)
    own = own_of(params)
    told = re.search(r"\w<((?:[^<>]|<[^<>]*>)*)>\s*(where\b.*|\{.*)?$",
                     header[params.end() if params else 0:])
    return " for " not in header and all(part.strip() in own
                                         for part in told[1].split(",")) if told else " for " not in header


def impl_name(header):
    """The name that an impl for a trait, or for one instance of a type, has in the folders of proofs: the
    words of its type, of its trait and of the trait's arguments, without its own parameters, or the type and
    its argument. It is empty where it has another, or where that isn't sure."""
    params = re.match(r"<((?:[^<>]|<[^<>]*>)*)>", header)
    bare = header[params.end() if params else 0:]
    one = re.fullmatch(r" (\w+)<(\w+)> \{", bare)
    if one:
        return "" if params or one[2].isdigit() else f"{one[1]}+{one[2]}"
    told = re.fullmatch(r" ([\w:<>, ']+) for ([\w:<>, ']+) \{", bare)
    both = f"{told[2]} {told[1]}" if told else ""
    words = [found for found in re.findall(r"'?\w+", re.sub(r"\w+::", "", both))
             if found not in own_of(params) and found[0] != "'"]
    is_sure = not any(word[0].isdigit() for word in words) and not any(f"{name}::" in both
                                                                       for name in own_of(params))
    return "".join(words) if is_sure else ""


def extent(lines, first, indent):
    """The first line of a function's body, and its last line, or None where it has no body."""
    for at in range(first, len(lines)):
        line = lines[at].rstrip()
        if at == first and line.endswith("}"):
            return first, first
        if not line.startswith(indent) or line[len(indent):len(indent) + 1] == " ":
            continue
        if line == indent + "{}":
            return at, at
        if line.endswith(";"):
            return None
        if line.endswith("{"):
            last = next((number for number in range(at, len(lines))
                         if lines[number].rstrip() == indent + "}"), None)
            return last and (at + 1, last)
    return None


def functions(file, text):
    """The functions of a file as `rt fmt` lays it out, those of traits and macros aside, which reach further
    than their own proof."""
    lines, found, kind, of_type, behind, plain, of_impl = text.split("\n"), [], "", "", -1, True, ""
    impls = [impl_name(block[2]) for block in map(BLOCK.match, lines) if block and block[1] == "impl"]
    for at, line in enumerate(lines):
        block = BLOCK.match(line)
        if block:
            kind, of_type = block[1], type_of(block[2]) if block[1] == "impl" else ""
            plain, of_impl = kind == "impl" and is_whole(block[2]), impl_name(block[2]) if block[
                1] == "impl" else ""
            of_impl = "" if impls.count(of_impl) > 1 else of_impl
            if of_impl.endswith("Drop"):
                # (a type's own way to be dropped has the type's name)
                of_impl = of_impl.removesuffix("Drop")
            elif of_impl and re.search(rf"^[^/\n]*\b{of_impl}\b", text, re.M):
                # one that has the name of what the code names, as of a trait, has a word more
                of_impl += "Impl"
        head = FUNCTION.match(line)
        if not head or at <= behind or kind in ("trait", "macro_rules") and head[1]:
            continue
        lies = extent(lines, at, head[1])
        if lies:
            first = at
            while lines[first - 1].startswith(f"{head[1]}#["):
                first -= 1
            sure = plain if head[1] else head[2] != "main"
            is_in_ring = any("#[cycle" in line for line in lines[first:at])
            own_impl = of_impl if head[1] and not is_in_ring else ""
            found.append(Function(file, of_type if head[1] else "", head[2], first, *lies,
                                  sure and not is_in_ring, own_impl))
            behind = lies[1]
    return found


def pairs_of(text):
    """The replacements of an edit's text."""
    found, file, old = [], "", None
    for line in text.split("\n"):
        if line.startswith("file: "):
            file = line[6:].strip()
            if not re.match(r"(src|specs|proofs)/(?!.*\.\.)", file):
                raise BadEdit(f"{file} is no file of src/, specs/ or proofs/")
        elif line.startswith("old: "):
            if old is not None:
                raise BadEdit(f"a line 'new:' is missing after: {old}")
            old = line[5:]
        elif line.startswith("new:"):
            if not file or not old:
                raise BadEdit("a line 'new:' comes before its 'file:' or 'old:'")
            found.append((file, old, re.sub(r"\A ", "", line[4:])))
            old = None
        elif line.strip() and not line.startswith(("refused: ", "ensures: ", "leaves: ")):
            raise BadEdit(f"a line is of no kind: {line}")
    if old is not None:
        raise BadEdit(f"a line 'new:' is missing after: {old}")
    if not found:
        raise BadEdit("it has no pair of lines 'old:' and 'new:'")
    return tuple(found)


def once(text, old, new):
    """The text with the new part in place of the old one, which is in it once."""
    if text.count(old) != 1:
        raise BadEdit(f"its text is there {text.count(old)} times, and not once: {old}")
    return text.replace(old, new)


def whole(edit, texts):
    """The texts of the files that the edit changes."""
    made = {}
    for file, old, new in edit.pairs:
        if file not in texts:
            raise BadEdit(f"there is no file {file}")
        made[file] = once(made.get(file, texts[file]), old, new)
    return made


def read_edit(name, text, texts):
    """The edit of this text over the files of its crate."""
    pairs, homes, now = pairs_of(text), set(), dict(texts)
    for file, old, new in pairs:
        now.update(whole(Edit(name, ((file, old, new),)), now))
        number = texts[file].count("\n", 0, max(texts[file].find(old), 0))
        inside = [function for function in functions(file, texts[file])
                  if function.body <= number <= function.last]
        homes.add(inside[0] if inside and old in texts[file] else None)
    if now == texts:
        raise BadEdit("it changes nothing")
    told = tuple(line[9:].strip() for line in text.split("\n") if line.startswith("refused: "))
    lacking = [place for place in told
               if place not in [place_of(function, texts) for function in every_function(texts)]]
    if lacking:
        raise BadEdit(f"there is no plain function {lacking[0]} to be refused")
    home, clause = homes.pop() if len(homes) == 1 else None, "".join(
        line[9:].strip() for line in text.split("\n") if line.startswith("ensures: "))
    law = home or next((function for function in every_function(texts)
                        if [place_of(function, texts)] == [*told]), None)
    if clause and not (law and clause in (NOTHING, *[clause for _,
                                                     clause in ensured(law, texts[law.file].split("\n"))])):
        raise BadEdit(f"its function ensures no clause {clause}")
    leaves = tuple(word for line in text.split("\n") if line.startswith("leaves: ")
                   for word in line[8:].split())
    if leaves and not (home and place_of(home, texts)):
        raise BadEdit("it leaves goals out, and is of no one function whose place is sure")
    return Edit(name, pairs, home, told, clause, leaves)


def ensured(function, lines):
    """The clauses that a function ensures, each by its lines, from 0, and its name, or an empty one."""
    head = next(number for number in range(function.first, function.body) if FUNCTION.match(lines[number]))
    indent = FUNCTION.match(lines[head])[1] + "    "
    starts = [(at, CLAUSE.match(lines[at][len(indent):])) for at in range(head + 1, function.body)
              if lines[at].startswith(indent)]
    starts = [(at, start) for at, start in starts if start]
    is_empty = function.body == function.last and lines[function.body].strip() == "{}"
    ends = [*[at for at, _ in starts][1:], function.body - (not is_empty)]
    return [(range(at, end), start[3] or "") for (at, start),
            end in zip(starts, ends) if start[1] == "ensures" and not start[2]]


def reduced(function, lines, clause):
    """The function's lines where it ensures this clause alone, which has no name then, so that the fact
    itself is the goal; none of them, where it is NOTHING; and all, where it is empty."""
    every = ensured(function, lines) if clause else []
    others = [line for at, called in every if called != clause for line in at]
    first = [at[0] for at, called in every if called == clause]
    return [re.sub(r"\bensures \w+", "ensures", lines[number], count=1) if number in first else lines[number]
            for number in range(function.first, function.last + 1) if number not in others]


def applied(edits, texts):
    """The texts of the files that these edits change, each of them alone in its function, or one edit
    alone."""
    if len(edits) == 1 and not edits[0].function:
        return whole(edits[0], texts)
    made = {}
    for edit in edits:
        home = edit.function
        lines = made.get(home.file, texts[home.file]).split("\n")
        part = "\n".join(lines[home.first:home.last + 1])
        for _, old, new in edit.pairs:
            part = once(part, old, new)
        lines[home.first:home.last + 1] = part.split("\n")
        made[home.file] = "\n".join(lines)
    return made


def every_function(texts):
    return [function for file, text in texts.items() if file.startswith("src/")
            and file.endswith(".rt") for function in functions(file, text)]


def module_of(file):
    return [] if file in ("src/lib.rt", "src/main.rt") else file[4:-3].split("/")


def place_of(function, texts):
    """The path of a function below its crate, as a check names it and as its proof is stored, or None if that
    isn't sure: a method is in the module of its type, and a trait's in that of its impl."""
    if not function.is_plain and not function.of_impl:
        return None
    if not function.of_type or function.of_impl and "+" not in function.of_impl:
        return "::".join([*module_of(function.file), *filter(None, [function.of_impl]), function.name])
    stands = re.compile(rf"^(?:pub(?:\(\w+\))? )?(?:struct|enum|union) {function.of_type}\b", re.M)
    homes = [file for file, text in texts.items() if file.startswith("src/") and stands.search(text)]
    return "::".join([*module_of(homes[0]), function.of_impl or function.of_type,
                      function.name]) if len(homes) == 1 else None


def reserved(said):
    """The folders of proofs that a check names as none for a file, since the functions there are proved with
    others."""
    return {found[1] for found in map(
        re.compile(r"\./(proofs/\S+)/Proof\.antt: error\[reserved-name\]").match, said) if found}


def is_checked(said, crate, place):
    """Whether a check came to the end of this function's proof and refused nothing in it, but perhaps in
    what it calls."""
    return any(re.match(rf"fn {crate}::{re.escape(place)}: (proved|no holes|depends on a hole|no proof: it "
                        rf"calls)\b", line) for line in said)


def without_tests(texts):
    """A crate's files as a check without its tests reads them, with no empty line, by their paths: a verdict
    on an edit rests on no more."""
    inside = []
    for file, text in texts.items():
        folder = "src" if file in ("src/lib.rt", "src/main.rt") else file[:-3]
        inside += [f"{folder}/{found}" for found in TESTS.findall(text) if file.endswith(".rt")]
    left_out = tuple(f"{at}{end}" for at in inside for end in (".rt", "/"))
    own = {path: text for path, text in texts.items() if not path.startswith(left_out)}
    return {path: re.sub(r"\n\s*\n", "\n", TESTS.sub("", text)).strip() for path, text in own.items()}


def is_unread(line):
    """Whether a line says that a text of the code or of the definitions could not be read."""
    stated = STATED.match(line)
    if stated:
        return not stated[1] or bool(UNREAD.search(re.sub(r"`[^`]*`", "", stated[2])))
    return bool(re.match(r"(\S+ )?error\[[\w-]+\]", line))


def told_inside(said, homes):
    """For each of these functions, the lines that refuse it: at a goal, or in a file of its proof."""
    found = {home: [] for home in homes}
    for line in said:
        goal, proof = GOAL.match(line), PROOF.match(line)
        if goal:
            of = [home for home in homes if home.has_line(goal[1], int(goal[2]) - 1)]
        else:
            of = [home for home in homes if proof and home.has_proof(proof[1])]
        if len(of) == 1:
            found[of[0]].append(line)
    return found


def told(said):
    """Each line that refuses something."""
    return [line for line in said if GOAL.match(line) or PROOF.match(line) or STATED.match(line)
            and not is_unread(line)]


def goal_of(line):
    """The goal that a line refuses, or an empty text if it names none."""
    goal = re.search(r"\(`([\w-]+)`\)" if GOAL.match(line) else r": error: `([\w-]+)`: ", line)
    return goal[1] if goal else ""


def is_tried(edit, line):
    """Whether a line that refuses an edit is of a goal that is tried for it: of any, where it leaves none
    out."""
    return not edit.leaves or goal_of(line) not in ("", *edit.leaves)


def tells_most(lines):
    """Of the lines that refuse an edit the one that says most of the contract, or an empty text: a fact
    that the function ensures, of which a searched one says more than a written proof that doesn't fit; else
    what a call of the body asks for, a loop or a type keeps."""
    strong = [line for line in lines if is_strong(line) and goal_of(line)]
    is_clause = lambda line: bool(re.match(r"(returns|ends)\b", goal_of(line)))
    rank = lambda line: (not is_clause(line), not GOAL.match(line), "at one of its limits" in line)
    return min((line for line in strong if is_clause(line) or ASKED.search(goal_of(line))), key=rank,
               default="")


def others_refused(lines):
    """The goals at which an edit is refused besides the one that says most, of those that were searched
    for. None, where that is in a file of a written proof, of which it isn't sure that the fact is false."""
    first = tells_most(lines)
    searched = [goal_of(line) for line in lines if GOAL.match(line)
                and goal_of(line) not in ("", goal_of(first))]
    return list(dict.fromkeys(searched)) if GOAL.match(first) else []


def clause_of(line):
    """The clause that a line refuses, an empty one where the function ensures but one, or where the line
    reports no contract, as of an edit's own sum that overflows, and NOTHING where it is at what a call of
    the body asks for, a loop or a type keeps."""
    goal = goal_of(line)
    if not re.match(r"(returns|ends)\b", goal):
        return NOTHING if ASKED.search(goal) else ""
    return re.search(r"(?:-clause-(\w+))?$", goal)[1] or ""


def is_strong(line):
    """Whether a line that refuses says more than that a proof cites a name that is gone."""
    return bool(GOAL.match(line)) or not BY_A_NAME.search(line)
