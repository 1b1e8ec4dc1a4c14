"""Copies of definitions, up to a law that depends on them, in which wrong edits of definitions are tried
beside each other.

Nothing here runs a prover. `tools/edits` tries the copies, `tools/parts/edits/test_edits` tries this.
"""
import re
from dataclasses import dataclass

from parts.edits.edit_rounds import answers
from parts.edits.wrong_edits import Edit, Function, every_function, place_of, reduced, whole

# A module of definitions or of lemmas that is right in its folder.
MODULE = re.compile(r"(specs|proofs)/(?!Lib\.)[\w-]+\.antt")
# What a file imports.
IMPORT = re.compile(r"^(?:ghost )?use ([\w.+-]+?)(?:\.\{([^}]*)\}| as (\w+));?\n", re.M)
ITEM = re.compile(r"^(?:ghost )?use [^;]*;\n", re.M)
# What represents the copies in which nothing is changed.
AS_IT_IS = Edit("(as it is)", ())


@dataclass(frozen=True)
class Copy:
    """An edit, or None where nothing is changed; the copy of the law that is to refuse it; and the files
    that were copied for it."""
    edit: Edit
    home: Function
    files: tuple


def modules_of(crate, texts):
    """What others call the modules of definitions and of lemmas, by their files."""
    return {file: f"Rattle.{crate}.{file[:-5].replace('/', '.')}" for file in texts
            if MODULE.fullmatch(file)}


def cited(text, modules):
    """The files of the modules that a text names."""
    return {file for file, name in modules.items() if re.search(rf"{re.escape(name)}(?![\w-])", text)}


def reached(begin, cites):
    """These files, and all that they depend on."""
    found, left = set(), [*begin]
    while left:
        file = left.pop()
        if file not in found:
            found.add(file)
            left += cites[file]
    return found


def without_idle(crate, text):
    """The text without the imports of this crate's modules of which it uses nothing."""
    rest = IMPORT.sub("", text)

    def is_used(name):
        # (an operator counts as used)
        return not re.fullmatch(r"[\w-]+", name) or re.search(rf"(?<![\w-]){re.escape(name)}(?![\w-])", rest)

    def kept(found):
        names = [part.strip() for part in (found[2] or found[3]).split(",") if part.strip()]
        return found[0] if not found[1].startswith(f"Rattle.{crate}.") or any(map(is_used, names)) else ""

    return IMPORT.sub(kept, text)


def law_of(edit, texts):
    """The law that is reported to refuse the edit: the one function that it names, if that is no method and
    is in a module right below the root."""
    found = [function for function in every_function(texts) if place_of(function, texts) in edit.refused]
    return found[0] if len(edit.refused) == len(found) == 1 and not found[0].of_type and found[
        0].is_plain and found[0].file.count("/") == 1 else None


def is_copied(crate, edit, texts):
    """Whether an edit is tried in copies: it changes definitions alone, and names the one law that is to
    refuse it, which depends on them."""
    law = None if edit.function else law_of(edit, texts)
    modules = modules_of(crate, texts)
    if not law or law.file in ("src/lib.rt", "src/main.rt") or not all(
        file in modules and file.startswith("specs/") for file, _, _ in edit.pairs):
        return False
    return {file for file, _, _ in edit.pairs} <= set(copied_for(crate, law, edit, texts)[1])


def copied_for(crate, law, edit, texts):
    """The texts of the law and of its proof as a copy has them, but for the names, by their files; and the
    files of the definitions and lemmas to copy with it: those that depend on what is edited and on which the
    law depends."""
    modules, lines = modules_of(crate, texts), texts[law.file].split("\n")
    items = "".join(ITEM.findall("\n".join(lines[:law.first]) + "\n"))
    made = {law.file: without_idle(crate, items + "\n".join([*reduced(law, lines, edit.ensures), ""]))}
    folder = f"proofs/{place_of(law, texts).replace('::', '/')}/"
    for file in (text for text in texts if text.startswith(folder)):
        text = answers(texts[file],
                       edit.ensures) if edit.ensures and file.endswith("/Answers.antt") else texts[file]
        made[file] = without_idle(crate, text)
    cites = {module: cited(texts[module], modules) - {module} for module in modules}
    edited = {file for file, _, _ in edit.pairs}
    needed = reached(set().union(*(cited(text, modules) for text in made.values())), cites)
    return made, sorted(name for name in needed if edited & reached([name], cites))


def with_copy(crate, edit, number, texts, is_edited=True):
    """The texts with a copy of the law that is to refuse the edit and of all that is between them, under
    names with this number, in which the edit is made, or nothing; and the copy."""
    law, modules = law_of(edit, texts), modules_of(crate, texts)
    own, files = copied_for(crate, law, edit, texts)
    module = law.file[4:-3]
    names = {modules[file]: f"{modules[file]}_as_{number}" for file in files}
    proofs = f"Rattle.{crate}.proofs."
    names[f"{proofs}{module}.{law.name}"] = f"{proofs}{module}_as_{number}.{law.name}"
    pattern = re.compile(rf"({'|'.join(sorted(map(re.escape, names), key=len, reverse=True))})(?![\w-])")
    renamed = lambda text: pattern.sub(lambda found: names[found[1]], text)
    made, now = dict(texts), {**texts, **(whole(edit, texts) if is_edited else {})}
    for file in files:
        made[f"{file[:-5]}_as_{number}.antt"] = renamed(now[file])
        lib = f"{file.split('/')[0]}/Lib.antt"
        made[lib] = f"{made[lib].rstrip()}\npub mod {file.split('/')[1][:-5]}_as_{number}\n"
    moved = lambda file: re.sub(rf"^(src|proofs)/{module}(?=[/.])", rf"\1/{module}_as_{number}", file)
    made.update({moved(file): renamed(text) for file, text in own.items()})
    root = "src/lib.rt" if "src/lib.rt" in texts else "src/main.rt"
    made[root] = f"{made[root].rstrip()}\n\nmod {module}_as_{number};\n"
    home = next(function for function in every_function({moved(law.file): made[moved(law.file)]})
                if function.name == law.name)
    return made, Copy(edit if is_edited else None, home, tuple(sorted({*made} - {*texts})))


def with_copies(crate, edits, texts):
    """The texts with a copy for each of these edits, after one for each law, or each clause of a law, that
    is to refuse some of them, in which nothing is changed; and the copies."""
    made, copies, once = texts, [], {}
    for edit in edits:
        once.setdefault((edit.refused, edit.ensures), []).append(edit)
    for like in once.values():
        # with all that is copied for any of them
        every = Edit(AS_IT_IS.name, tuple(pair for edit in like for pair in edit.pairs), None,
                     like[0].refused, like[0].ensures)
        part, copy = with_copy(crate, every, len(copies) + 2, texts, False)
        made, copies = merged(made, part, texts), [*copies, copy]
    for edit in edits:
        part, copy = with_copy(crate, edit, len(copies) + 2, texts)
        made, copies = merged(made, part, texts), [*copies, copy]
    return made, copies


def merged(made, part, texts):
    """The texts with what a part adds to those of the crate."""
    behind = lambda file: part[file][len(texts[file].rstrip()):]
    changed = {text: f"{made[text].rstrip()}{behind(text)}" for text in texts if part[text] != texts[text]}
    return {**made, **{path: text for path, text in part.items() if path not in texts}, **changed}


def told_of(said, copies, inside):
    """For each copy the lines that refuse it: in the law, or in a file that was copied for it."""
    place = lambda line: re.match(r"(?:\./)?(proofs/\S+?\.antt):\d+:\d+: error\b", line)
    return [[*inside[copy.home], *(line for line in said if (at := place(line)) and at[1] in copy.files
                                   and line not in inside[copy.home])] for copy in copies]
