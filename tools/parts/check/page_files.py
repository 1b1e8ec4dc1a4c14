"""The pages of the repository, the files of its crates, and what a page's text has."""
import os
import re

from parts import TOP


def read(*path):
    with open(os.path.join(TOP, *path), encoding="utf-8") as file:
        return file.read()


def crates():
    """The crates that crates.txt lists."""
    return [line.split(":")[0].split()[0] for line in read("crates.txt").splitlines()
            if ":" in line.split("#")[0]]


def sources(name, suffix=".rt"):
    """The files of a crate's code, or definitions, with what they say."""
    for folder in ("src", "specs"):
        for at, _, files in os.walk(os.path.join(TOP, "crates", name, folder)):
            for file in files:
                if file.endswith(suffix):
                    yield os.path.join(at, file), read(at, file)


def pages():
    """Every document that a reader is sent to."""
    told = [name for name in sorted(os.listdir(TOP)) if name.endswith(".md")]
    for folder in ("docs", "tools"):
        names = sorted(os.listdir(os.path.join(TOP, folder)))
        told += [os.path.join(folder, name) for name in names if name.endswith(".md")]
    for name in crates():
        told += [os.path.join("crates", name, file) for file in ("README.md", "CALLING.md")]
    return told


def anchor(heading):
    """The name by which a page's heading is linked."""
    return re.sub(r"[^\w -]", "", heading.strip().lower()).replace(" ", "-")


def anchors(text):
    return {anchor(found) for found in re.findall(r"^#+ (.*)$", text, re.MULTILINE)}


def rows(text):
    """The rows of a page's tables, each as its cells."""
    for line in text.splitlines():
        if line.startswith("|") and not re.fullmatch(r"[|-]+", line):
            yield [part.strip() for part in line.strip("|").split("|")]


def shown(text):
    """A text as a page shows it, without where its links lead."""
    return re.sub(r"\[([^\]]*)\]\([^)]*\)", r"\1", text)


def is_defined(name, path):
    """Whether the file has an item, clause, member or definition of this name."""
    before = r"(?:fn|struct|enum|trait|type|const|ensures|ghost|record|data|abbrev|pub)\s+(?:pub\s+)?"
    return re.search(rf"{before}{re.escape(name)}\b", read(path)) is not None
