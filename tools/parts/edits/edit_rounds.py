"""The rounds in which wrong edits are tried: the texts that one check has, with copies of functions and
holes for proofs.

Nothing here runs a prover. `tools/edits` tries the rounds, `tools/parts/edits/test_edits` tries this.
"""
import os
import re
from dataclasses import replace

from parts.edits.wrong_edits import BLOCK, FUNCTION, NOTHING, Edit, Function
from parts.edits.wrong_edits import ensured, every_function, place_of, reduced

# What names another function's proof.
NAMED = r"\bRattle\.{crate}\.proofs\.([\w.]+)\.(?:Answers|Invariants|Proof)\b"
# An answer for a goal of the function's end.
ANSWER = re.compile(r"pub ((?:returns|ends)\b[\w-]*)\s*:")
HOLE = ("use Rattle.{crate}.proofs.{path}.Statement.{{statement}}\n\npub {name}_spec : {{M : Type 1}} → "
        "statement M\n{name}_spec = ?\n")


def holed(crate, texts, untouched, taken, kept=()):
    """The texts with a hole for the proof of each function of the untouched crate that isn't taken, where
    its place is sure, and with no body, where another will do. Whatever depends on such a function has its
    contract, as ever, and its own proof costs nothing, nor does what its body calls. One whose proof another
    proof names keeps it, and so does one that is proved together with others, and those whose folders are
    passed."""
    made, kept = dict(texts), set(kept)
    for file, text in untouched.items():
        if file.startswith("proofs/"):
            kept.update("proofs/" + found.replace(".", "/")
                        for found in re.findall(NAMED.format(crate=crate), text))
            ring = re.match(r"(proofs/(?:\w+/)*)\+(\S+?)/", file)
            kept.update(ring[1] + part for part in re.split(r"[+-]", ring[2])) if ring else None
    for function in every_function(untouched):
        place = None if function in taken else place_of(function, untouched)
        folder = place and "proofs/" + place.replace("::", "/")
        if place and folder not in kept:
            for part in ("Answers", "Invariants", "Proof"):
                made.pop(f"{folder}/{part}.antt", None)
            made[f"{folder}/Proof.antt"] = HOLE.format(crate=crate, path=place.replace("::", "."),
                                                       name=function.name)
            lines = made[function.file].split("\n")
            if needs_no_body(function, lines):
                inside = f"{os.path.dirname(folder)}/fn/{function.name}/"
                made = {file: text for file, text in made.items() if not file.startswith(inside)}
                lines[function.body:function.last] = ["loop {}", *[""] * (function.last - function.body - 1)]
                made[function.file] = "\n".join(lines)
    return made


def needs_no_body(function, lines):
    """Whether a function's body may be left out where its proof is: no type is identified by it, and nothing
    is computed with it when it is compiled."""
    head = " ".join(lines[function.first:function.body])
    return function.body < function.last and not re.search(r"-> .*\bimpl\b|\bconst (?:unsafe )?fn\b", head)


def has_free_proof(crate, function, texts):
    """Whether a copy of the function under another name has the same proof, but for the name: its place is
    sure and that of no module, it is no trait's, it has lines of its own and doesn't call itself, it is
    proved with no other and has no closure with a proof of its own, and no file outside of its proof's
    folder cites what is in it."""
    place = place_of(function, texts)
    if not place or function.of_impl or function.first == function.last:
        return False
    lines = texts[function.file].split("\n")[function.body:function.last]
    # (what calls itself has a folder that begins with a plus, too)
    calls = re.compile(rf"\b(?:self\.|Self::|{function.of_type}::){function.name} *(?:\(|::<)"
                       if function.of_type else rf"(?<![.:\w]){function.name}\b *(?:\(|::<)")
    path = place.replace("::", "/")
    cited = re.compile(rf"\bproofs(?:\.|::){re.escape(place).replace('::', '(?:[.]|::)')}\b")
    others = [text for file, text in texts.items() if not file.startswith(f"proofs/{path}/")]
    shared = [file for file in texts
              if re.search(rf"/fn/{function.name}/|/\+[^/]*\b{function.name}\b", file)]
    return not any(map(calls.search, lines)) and not any(
        map(cited.search, others)) and not shared and f"src/{path}.rt" not in texts


def header_of(function, lines):
    """The lines that open the block in which a method is, and what is imported in it above the
    method."""
    first = next(number for number in range(function.first, -1, -1) if BLOCK.match(lines[number]))
    last = next(number for number in range(first, function.first) if lines[number].endswith("{"))
    found, inside = lines[first:last + 1], False
    for line in lines[last + 1:function.first]:
        inside = inside or bool(re.match(r"    (ghost )?use ", line))
        found += [line] if inside else []
        inside = inside and not line.endswith(";")
    return found


def is_reduced(crate, edit, texts):
    """Whether an edit is tried in a copy of its function that ensures less: it reports what is needed, the
    function ensures more than that, and the copy has a proof of its own, which is no whole text."""
    if not edit.ensures or not has_free_proof(crate, edit.function, texts):
        return False
    lines = texts[edit.function.file].split("\n")
    folder = f"proofs/{place_of(edit.function, texts).replace('::', '/')}/"
    # one answer for all clauses, which are one assertion
    is_starred = any(re.match(r" *ensures\*", line)
                     for line in lines[edit.function.first:edit.function.body])
    answered = [ANSWER.match(line) for line in texts.get(f"{folder}Answers.antt", "").split("\n")]
    is_whole = edit.ensures != NOTHING and any(found and not re.search(r"-clause-\w+$", found[1])
                                               for found in answered)
    return len(ensured(edit.function, lines)) > (
        edit.ensures != NOTHING) and not is_starred and not is_whole and f"{folder}Proof.antt" not in texts


def answers(text, clause):
    """A file of answers for a function that ensures this clause alone, or nothing: without the answers for
    others, and with the clause's goals by the names that the goals of a function with one clause have."""
    mine = re.compile(rf"\b((?:returns|ends)[\w-]*)-clause-{clause}\b(?!-)")
    parts = re.split(r"\n{2,}", text.strip("\n"))
    is_other = lambda part: any(ANSWER.match(line)
                                and not mine.search(line.split(":")[0]) for line in part.split("\n"))
    return "\n\n".join(mine.sub(r"\1", part) for part in parts if not is_other(part)) + "\n"


def left_out(crate, place, text, goals):
    """A function's file of answers, or an empty text where it has none, with a hole for each of these
    goals."""
    module = f"Rattle.{crate}.proofs.{place.replace('::', '.')}.Goals"
    parts = [part for part in re.split(r"\n{2,}", text.strip("\n") or f"use {module} as goal")
             if not any(re.search(rf"^(?:abbrev )?pub {re.escape(goal)}\s*:", part, re.M) for goal in goals)]
    called = re.search(rf"^use {re.escape(module)} as (\w+)$", "\n".join(parts), re.M)
    head = [] if called else [f"use {module} as goal"]
    name = called[1] if called else "goal"
    return "\n\n".join([*head, *parts,
                        *(f"pub {goal} : {name}.{goal}\n{goal} = ?" for goal in goals)]) + "\n"


def with_copies(crate, edits, texts):
    """The texts with copies, at the ends of their files, of the functions that several of these edits are
    of, and the edits each in a function of its own: a copy has another name and the proof of the first,
    which it doesn't hide and that doesn't hide it. An edit that names the clause at which it is refused is
    made in a copy that ensures this one alone, or nothing, so that nothing is tried for the others: no
    clause is a fact that is in the goals of another. One that names goals at which it is refused besides
    has holes for them, since it is refused where one goal is."""
    texts, made, taken, untouched = dict(texts), [], [], texts
    for edit in edits:
        home = edit.function
        is_less = is_reduced(crate, edit, untouched)
        if home not in taken and not is_less:
            taken.append(home)
            made.append(edit)
            continue
        place, lines = place_of(home, texts), texts[home.file].rstrip("\n").split("\n")
        name = f"{home.name}_as_{len(made) + 1}"
        opens, closes = (header_of(home, lines), ["}"]) if home.of_type else ([], [])
        part = reduced(home, lines, edit.ensures if is_less else "")
        head = next(at for at, line in enumerate(part) if FUNCTION.match(line))
        part[head] = re.sub(rf"\bfn {home.name}\b", f"fn {name}", part[head], count=1)
        first = len(lines) + 1 + len(opens)
        moved = lambda line: line + first - home.last - 1 + len(part)
        taken.append(Function(home.file, home.of_type, name, first, moved(home.body), moved(home.last),
                              home.is_plain))
        made.append(replace(edit, function=taken[-1]))
        own = f"Rattle.{crate}.proofs.{place.replace('::', '.')}."
        folder = f"proofs/{place.replace('::', '/')}/"
        for file in [text for text in texts if text.startswith(folder)]:
            text = texts[file].replace(own, f"{own[:-len(home.name) - 1]}{name}.")
            texts[f"{folder[:-len(home.name) - 1]}{name}/{file[len(folder):]}"] = text
        file = f"{folder[:-len(home.name) - 1]}{name}/Answers.antt"
        if is_less and file in texts:
            texts[file] = answers(texts[file], edit.ensures)
        texts[home.file] = "\n".join([*lines, "", *opens, *part, *closes, ""])
    for edit in (edit for edit in made if edit.leaves):
        place = place_of(edit.function, texts)
        file = f"proofs/{place.replace('::', '/')}/Answers.antt"
        texts[file] = left_out(crate, place, texts.get(file, ""), edit.leaves)
    return texts, made


def in_rounds(crate, edits, texts, most):
    """The edits in as few rounds as there can be of at most this many, each of a function of its own or of a
    copy of it; and those that go alone. Functions whose place isn't sure come first, so that few rounds have
    one: such a round goes over the whole crate."""
    of_function, alone = {}, [edit for edit in edits if not edit.function]
    for edit in edits:
        if edit.function:
            of_function.setdefault(edit.function, []).append(edit)
    single = {function: made for function,
              made in of_function.items() if not has_free_proof(crate, function, texts)}
    number = max([-(-sum(map(len, of_function.values())) // most), *map(len, single.values())], default=0)
    rounds = [[] for _ in range(number)]
    for function in sorted(single, key=lambda function: (place_of(function, texts) is not None,
                                                         -len(single[function]))):
        for edit, made in zip(single[function], sorted(rounds, key=len)):
            made.append(edit)
    for edit in (edit for function, made in of_function.items() if function not in single for edit in made):
        min(rounds, key=len).append(edit)
    return rounds, alone


def changes_nothing(crate, edits, texts):
    """An edit that adds a comment to a function of the crate. Where one of these edits is tried in a copy
    that ensures less the comment is, too, in one that calls no function which is refused, of these in the
    shortest that has an answer for its clause; else it is in a function that has no edit and names none that
    has, where there is one: what calls a function that is refused is reported as not proved."""
    own = lambda edit: texts.get(f"proofs/{place_of(edit.function, texts).replace('::', '/')}/Answers.antt",
                                 "")
    is_answered = lambda edit: bool(re.search(rf"^pub (?:returns|ends)[\w-]*-clause-{edit.ensures}\b",
                                              own(edit), re.M))
    length = lambda edit: edit.function.last - edit.function.body
    words = lambda edit: re.findall(r"\w+", "\n".join(texts[edit.file].split("\n")[edit.body:edit.last]))
    refused = {edit.function.name for edit in edits if edit.function and not is_reduced(crate, edit, texts)}
    for edit in sorted((edit for edit in edits if is_reduced(crate, edit, texts)), key=lambda found: (
        not refused.isdisjoint(words(found.function)), not is_answered(found), length(found))):
        part = texts[edit.function.file].split("\n")[edit.function.first:edit.function.last + 1]
        body = part[edit.function.body - edit.function.first:-1]
        line = next((line for line in body if line.endswith((";", "{"))
                     and "\n".join(part).count(line) == 1), None)
        if line:
            return Edit("(a comment)", ((edit.function.file, line, f"{line} // as it was"),), edit.function,
                        (), edit.ensures)
    every = [function for function in every_function(dict(sorted(texts.items())))
             if "test" not in function.file and function.is_plain and place_of(function, texts)]
    taken = [edit.function for edit in edits]
    names, others = {edit.name for edit in taken if edit}, [function for function in every
                                                            if function not in taken]
    home = next((other for other in others if names.isdisjoint(words(other))), (others or every)[0])
    line = texts[home.file].split("\n")[home.last]
    if home.first == home.last:
        return Edit("(a comment)", ((home.file, line, f"{line} // as it was"),), home)
    head = next(line for line in texts[home.file].split("\n")[home.first:] if FUNCTION.match(line))
    return Edit("(a comment)", ((home.file, head, f"{head} // as it was"),), home)
