"""docs/ANSWERS.md: the clause and the tests of each answer, read off the code."""
import os
import re

from parts import PARTS, TOP
from parts.check.page_files import crates, read, rows, sources

WORD = r"[^\W\d][\w-]*"
DEFINED = re.compile(rf"(?:abbrev |unfoldable |instance )*(?:pub )?(?:record |data )?({WORD})\b(?=.* : )")
BROUGHT = re.compile(r"^ *(?:ghost |pub )*use Rattle\.(\w+)\.specs\.[\w.]+?(?:\.\{([^}]*)\}| as (\w+));?$",
                     re.MULTILINE)
SAID_HEADING = "## Which clause says it, and which test shows it"


def brought(text):
    """Which crate has each word that a file brings in, and each name of a file by which it speaks of its
    words."""
    words, files = {}, {}
    for name, listed, other in BROUGHT.findall(text):
        if other:
            files[other] = name
        for item in filter(None, (part.strip() for part in listed.split(","))):
            words[item.split(" as ")[-1]] = (name, item.split(" as ")[0])
    return words, files


def meant(text, words, files, name, own=()):
    """The words of a text that are defined in a crate, each with its crate."""
    spoken = {(files[name], word) for name,
              word in re.findall(rf"({WORD})\.({WORD})", text) if name in files}
    return spoken | {words.get(found, (name, found)) for found in re.findall(WORD, text) if found in words
                     or found in own}


def clauses(name):
    """The clauses of a crate's functions: (function, clause) with the words that it says; a lone clause has
    no name."""
    found = {}
    for _, text in sources(name):
        words, files = brought(text)
        for head in re.finditer(r"^ *(?:pub(?:\(crate\))? )?fn (\w+)\b", text, re.MULTILINE):
            ends = re.search(r"^ *\{$|\};$|^ *(?:pub(?:\(crate\))? )?fn |\Z", text[head.end():],
                             re.MULTILINE)
            contract_text = text[head.end():head.end() + ends.end()]
            for part in re.split(r"^ *(?=ensures\b|requires\b)", contract_text, flags=re.MULTILINE)[1:]:
                clause = re.match(r"ensures (\w*) ?\{(.*)", part, re.DOTALL)
                if clause:
                    found.setdefault((head[1], clause[1]),
                                     set()).update(meant(clause[2], words, files, name))
    return found


def definitions():
    """Each definition, as its crate and word, with those that it says."""
    said = {}
    for name in crates():
        for _, text in sources(name, ".antt"):
            words, files = brought(text)
            blocks = re.split(r"^(?=(?:abbrev|unfoldable|instance|pub|data|record)\b)",
                              re.sub(r"--.*", "", text), flags=re.MULTILINE)
            found = [(at[1], block) for block in blocks for at in [DEFINED.match(block)] if at
                     and not re.match("pub (?:use|mod) ", block)]
            own = {word for word, _ in found}
            for word, block in found:
                said.setdefault((name, word), set()).update(meant(block, words, files, name, own))
    return said


def reached(words, said):
    """The definitions to which these words come down."""
    found, ahead = set(), set(words)
    while ahead:
        found |= ahead
        ahead = set().union(*(said.get(name, set()) for name in ahead)) - found
    return found


def tests_named():
    """Each test that a page may name: of the crates of tests, of tools/check, and the scripts of
    examples/rows."""
    found = {f"rows::{name[:-4]}" for name in os.listdir(os.path.join(TOP, "examples", "rows"))
             if name.endswith(".fsc")}
    for name in crates():
        for _, text in sources(name):
            found |= {f"{name}::{found}" for found in re.findall(r"#\[test\]\s*fn (\w+)", text)}
    checks = [os.path.join("tools", "parts", "check", name)
              for name in os.listdir(os.path.join(PARTS, "check")) if name.endswith(".py")]
    for path in ("tools/check", *checks):
        found |= {f"check::{found}"
                  for found in re.findall(r"^def (\w+)\(tally\):", read(path), re.MULTILINE)}
    return found


def said_by(tally):
    """docs/ANSWERS.md: each answer's clause comes down to its definition, and its tests are there."""
    _, _, told = read("docs", "ANSWERS.md").partition(SAID_HEADING)
    tally.wants("docs/ANSWERS.md has the clause of each answer", bool(told))
    said, tests, every = definitions(), tests_named(), {name: clauses(name) for name in crates()}

    def clause_of(item):
        name, function, *clause = item.split("::")
        return every.get(name, {}).get((function, clause[0] if clause else ""))

    for section in told.split("\n### ")[1:]:
        title, _, body = section.partition("\n")
        given = re.findall(r"`(\w+(?:::\w+)+)`", body.partition("\n|")[0])
        for item in given:
            tally.wants(f"docs/ANSWERS.md, {title}: {item} is a clause", clause_of(item) is not None)
        for cells in rows(body):
            if cells[-1] == "test":
                continue
            what = f"docs/ANSWERS.md, {title}, {cells[0]}"
            items = re.findall(r"`(\w+(?:::\w+)+)`", " ".join(cells[:-1]))
            own = [item for item in items if clause_of(item) is not None]
            goals = [item for item in items if item not in own]
            tally.wants(f"{what} has a clause", bool(own or given and goals))
            leads_to = reached(set().union(*(clause_of(clause) or set() for clause in own + given)), said)
            for goal in goals:
                is_there = tuple(goal.split("::")) in leads_to & said.keys()
                tally.wants(f"{what}: {goal} is a definition to which the clause comes down", is_there)
            named = re.findall(r"`(\w+(?:::\w+)+)`", cells[-1])
            tally.wants(f"{what} has a test", bool(named) or cells[-1].startswith("none: "))
            for test in named:
                tally.wants(f"{what}: {test} is a test", test in tests)
