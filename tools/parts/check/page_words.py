"""The words of the pages: none of a list, no name that nothing has, and no page longer than its size."""
import os
import re

from parts import TOP
from parts.check.page_files import crates, pages, read, sources

# Names that pages have as code and the repository doesn't: of other programs, and forms of names.
OTHER_NAMES = {"NAME_steps", "libgcc_s", "getentropy", "start_io", "push_"}
# Pages that name what is no longer there, or what another kernel has.
OTHER_PAGES = {"NEWS.md", "docs/LINUX.md"}
# Words that a page doesn't use outside of code and quoted output, with what to write instead.
WORDS = (
    (r"\bwant of memory\b|\bwanting\b", "out of memory"),
    (r"\btold\b|\btells?\b", "return, report, print, contain"),
    (r"\bbehind\b", "after"),
    (r"\bin front of\b", "before"),
    (r"\banew\b", "again"),
    (r"\bencipher\w*|\bdecipher\w*", "encrypt, decrypt"),
    (r"\bdrawn\b", "derived, generated"),
    (r"\boverwrit\w+", "wipe, replace"),
    (r"\blet(?:s|ting)? go\b|\bgiv(?:es?|en|ing) up\b", "drop, release, remove"),
    (r"\bhand(?:s|ed|ing)? (?:in|on|over)\b(?!,)|\bwas handed\b", "pass, forward"),
    (r"\bstands? (?:in|on)\b|\blies? in\b|\blay in\b", "is in, is defined in, uses"),
    (r"\bstands? for\b|\bstood for\b", "represents"),
    (r"\bby itself\b", "on its own"),
    (r"\brooms?\b", "buffer, space, capacity, free slot"),
    (r"\bparted\b|\breplied of\b", "separated, reported"),
    (r"\blends?\b|\blent\b", "pending, borrowed"),
    (r"\bwhoever\b(?! made it)", "a caller, a user, anyone who"),
    (r"\bso many\b", "that many, n"),
    (r"\bof which\b|\bby which\b", "a sentence of its own"),
)
# The most words of a page, and of the crates' READMEs together.
SIZES = {"README.md": 2000, "CONTRIBUTING.md": 2200, "docs/PROVED.md": 5500, "docs/DECISIONS.md": 6600}
README_WORDS = 19_800


def identifiers(text):
    """The names with an underscore or a capital inside that a page has as code."""
    text = re.sub(r"^```.*?^```", "", text, flags=re.MULTILINE | re.DOTALL)
    for span in re.findall(r"`([^`\n]+)`", text):
        yield from re.findall(r"[A-Za-z]\w*_\w+|\b[A-Z][a-z]+[A-Z]\w+", span)


def names(tally):
    """Each name that a page has as code is one of the code, the tools or the examples."""
    known, paths = set(), set()
    for folder in ("crates", "tools", "examples", ".ci"):
        for at, _, files in os.walk(os.path.join(TOP, folder)):
            if "/out" not in at:
                for file in files:
                    known.add(file.partition(".")[0])
                    paths.add("/".join(os.path.relpath(os.path.join(at, file), TOP).split("/")[2:]))
                    if not file.endswith((".md", ".svg", ".pyc")):
                        with open(os.path.join(at, file), encoding="utf-8", errors="replace") as text:
                            known |= set(re.findall(r"\w+", text.read()))
    for page in pages():
        if page not in OTHER_PAGES and os.path.isfile(os.path.join(TOP, page)):
            named = set(re.findall(r"`((?:src|specs|proofs)/[\w/]+\.(?:rt|antt))`", read(page)))
            lacking = sorted(set(identifiers(read(page))) - known - OTHER_NAMES | named - paths)
            tally.wants(f"{page} names {', '.join(lacking)}, which nothing has", not lacking)


# What defines a word: in specs/ a definition, type or variant, in src/ a function, type, member or variant.
DEFINED = [re.compile(pattern, re.MULTILINE) for pattern in (
    r"^ *(?:abbrev|unfoldable|instance) pub ([\w-]+)", r"^pub (?:record |data )?([\w-]+)", r"^  (\w+) :",
    r"\b(?:fn|struct|enum|trait|type|const|ghost)\s+(\w+)", r"^    ([A-Z]\w*)(?:\(|,| \{)")]


def defined(name):
    """The definitions, functions, types and variants of a crate, and what it passes on of other libraries."""
    for suffix in (".antt", ".rt"):
        for _, text in sources(name, suffix):
            for pattern in DEFINED:
                yield from pattern.findall(text)
            for listed in re.findall(r"^pub use [\w.]+\.\{([^}]*)\}", text, re.MULTILINE):
                yield from (part.split(" as ")[-1].strip() for part in listed.split(","))


def tables(tally):
    """Each word in the first column of a README's table of words is defined in its crate."""
    for name in crates():
        known, is_of_words = set(defined(name)), False
        for line in read("crates", name, "README.md").splitlines():
            cells = line.split("|")
            if len(cells) < 3 or cells[1].strip() in ("word in `specs/`", "definition", "function"):
                is_of_words = len(cells) >= 3
                continue
            for word in re.findall(r"`([A-Za-z_]\w*)", cells[1]) if is_of_words else ():
                tally.wants(f"crates/{name}/README.md names {word}, which the crate defines", word in known)


def prose(text):
    """The lines of a page without code, quoted output and where links lead."""
    text = re.sub(r"^```.*?^```|^    .*?$", "", text, flags=re.MULTILINE | re.DOTALL)
    return re.sub(r"`[^`\n]*`|\]\([^)\n]*\)", "", text).splitlines()


def language(tally):
    """No page has a word of the list, and none is longer than its size."""
    for page in pages():
        if os.path.isfile(os.path.join(TOP, page)):
            for pattern, instead in WORDS:
                found = [match[0] for line in prose(read(page)) for match in re.finditer(pattern, line)]
                tally.wants(f"{page} says {', '.join(sorted(set(found)))}: write {instead}", not found)
    for page, most in SIZES.items():
        count = len(read(page).split())
        tally.wants(f"{page} has at most {most} words", count <= most, str(count))
    count = sum(len(read("crates", name, "README.md").split()) for name in crates())
    tally.wants(f"the crates' READMEs have at most {README_WORDS} words", count <= README_WORDS, str(count))
