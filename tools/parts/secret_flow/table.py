"""What may depend on a secret and why, and the two tables of docs/SECURITY.md with the counts."""
import collections
import re

from parts.secret_flow.forms import FORMS, READING
from parts.secret_flow.marks import UNWRAP
from parts.secret_flow.reports import ADDRESS, BRANCH, DIVISION
from parts.secret_flow.scripts import DIGIT_KINDS, PASSPHRASES, SECRET_KINDS

ANY = frozenset(SECRET_KINDS)
DIGITS = frozenset(DIGIT_KINDS)
COLUMNS = (BRANCH, ADDRESS, DIVISION)
HEAD = ("what depends", "function", "branches", "addresses", "divisions", "on", "why it may")
PUBLIC_FORMS = tuple(form for form in FORMS if form != READING)
PUBLIC_HEAD = ("bytes that are public", *PUBLIC_FORMS)

# What may depend on which secrets, in the functions of a pattern, in at most this many places of each. A
# place that is in none of these is a finding.
Allowed = collections.namedtuple("Allowed", "what kinds functions secrets max_places reason")
ARGON_BLOCKS, READ_BLOCKS = "Argon2id's later blocks", "argon_kdf::block::join"
ALLOWED = (
    Allowed("the verdict on a tag", (BRANCH,), UNWRAP, ANY, 1,
            "a command reports whether the secret is right; all bytes of the tag are compared before"),
    Allowed("whether a passphrase was stretched before", (BRANCH,), r"next_calls::remembering::recalls",
            frozenset((PASSPHRASES,)), 1,
            "a check keeps the last two; all bytes are compared before, and a stretching takes long"),
    Allowed(ARGON_BLOCKS, (BRANCH, ADDRESS, DIVISION),
            r"argon_kdf::block::join|argon_kdf::stretch::.*|std::thread::fork::chunks_from",
            frozenset((PASSPHRASES,)), 20,
            "RFC 9106: from the third slice on, a block refers to one that the password's blocks choose"),
    Allowed("the digits of a descriptor", (ADDRESS,), r"protector_meta::descriptor::Descriptor::of_key", ANY,
            16, "the protector's record contains it"),
    Allowed("whether a word is digits", (BRANCH,),
            r"script_words::.*|fsc_tool::form::.*|text_words::digits::.*", DIGITS, 2,
            "all of its characters are tested before; another word is refused"),
    Allowed("how a passphrase is written", (BRANCH,), r"script_words::word::read_word",
            frozenset((PASSPHRASES,)), 12,
            "its characters are compared with the % of an escape, and copied one by one"),
)

Cell = collections.namedtuple("Cell", "places times")
NONE = Cell(0, 0)


class Row:
    """One row: the addresses of its places and the most reports in one run, by kind, and the secrets."""

    def __init__(self):
        self.addresses, self.times = collections.defaultdict(set), collections.Counter()
        self.secrets = set()

    def cells(self):
        """The counts by kind."""
        return {kind: Cell(len(found), self.times[kind]) for kind, found in self.addresses.items()}


def allowed_for(place):
    """The entry of ALLOWED that a place is in. A division has no secret of its own: memcheck doesn't
    report it. Where any secret may be, so may one whose origin memcheck reports by the frame that it went
    through."""
    for allowed in ALLOWED:
        is_here = re.fullmatch(allowed.functions, place.function)
        if place.kind in allowed.kinds and is_here and (allowed.secrets is ANY
                                                        or place.secrets <= allowed.secrets):
            return allowed
    return None


def rows_of(measures):
    """The rows of all runs by what depends and the function, and the places that may not depend on a
    secret."""
    rows, places = collections.defaultdict(Row), collections.defaultdict(list)
    for measure in measures:
        times = collections.Counter()
        for place in measure.places:
            allowed = allowed_for(place)
            key = (allowed, place.function) if allowed else (None, None)
            places[key].append(place)
            times[(*key, place.kind)] += place.times
        for (allowed, function, kind), count in times.items():
            row = rows[allowed, function]
            row.times[kind] = max(row.times[kind], count)
    findings = places.pop((None, None), [])
    rows.pop((None, None), None)
    for (allowed, function), those in places.items():
        row = rows[allowed, function]
        for place in those:
            row.addresses[place.kind].add(place.address)
            row.secrets |= place.secrets & allowed.secrets
        if sum(map(len, row.addresses.values())) > allowed.max_places:
            del rows[allowed, function]
            findings += those
    return {(allowed.what, function): row for (allowed, function), row in rows.items()}, findings


def argon_faults(measures):
    """Each run in which another number of Argon2id's blocks depends on a passphrase than RFC 9106 has: each
    of them is read through the same number of addresses."""
    factors = set()
    for measure in measures:
        addresses = [place for place in measure.places if place.function == READ_BLOCKS
                     and place.kind == ADDRESS]
        count = sum(address.times for address in addresses)
        if measure.blocks:
            factors.add(count / measure.blocks)
        if bool(count) != bool(measure.blocks) or any(factor != int(factor)
                                                      for factor in factors) or len(factors) > 1:
            yield f"{measure.name}: {count} addresses of {measure.blocks} dependent blocks of Argon2id"


def verdict_faults(measures):
    """Each run in which the comparison of a tag takes more than one branch that depends on the tag."""
    for measure in measures:
        count = sum(place.times for place in measure.places if place.function == UNWRAP
                    and place.kind == BRANCH)
        if count > measure.unwrappings:
            yield f"{measure.name}: {count} branches on tags in {measure.unwrappings} comparisons"


def public_of(measures):
    """For each kind of public bytes the count of each form, the least of its runs."""
    table = collections.defaultdict(dict)
    for measure in measures:
        form = measure.name.split(", ")[0]
        for kind, count in measure.public.items():
            table[kind][form] = min(count, table[kind].get(form, count))
    return table


def text_of(rows):
    """The lines of the first table."""
    yield from heading(HEAD)
    order = [allowed.what for allowed in ALLOWED]
    for (what, function), row in sorted(rows.items(), key=lambda row: (order.index(row[0][0]), row[0][1])):
        cells = [row.cells().get(kind, NONE) for kind in COLUMNS]
        counts = (f"{cell.places}/{cell.times}" if cell.places else "0" for cell in cells)
        reason = next(allowed.reason for allowed in ALLOWED if allowed.what == what)
        secrets = ", ".join(kind for kind in SECRET_KINDS if kind in row.secrets)
        yield line_of((what, f"`{function}`", *counts, secrets, reason))


def public_text(table):
    """The lines of the second table."""
    yield from heading(PUBLIC_HEAD)
    for kind, counts in table.items():
        yield line_of((kind, *(str(counts.get(form, 0)) for form in PUBLIC_FORMS)))


def heading(names):
    """The first two lines of a table."""
    yield line_of(names)
    yield "|" + "---|" * len(names)


def line_of(cells):
    """A line of a table."""
    return "| " + " | ".join(cells) + " |"


def cells_below(path, head):
    """The rows of the table with this heading, in a page."""
    with open(path, encoding="utf-8") as file:
        lines = [tuple(cell.strip() for cell in line.strip().strip("|").split("|")) for line in file]
    begun = lines.index(head) + 2 if head in lines else len(lines)
    for cells in lines[begun:]:
        if len(cells) != len(head):
            return
        yield cells


def pinned(path):
    """The cells of the first table by what depends, function and kind, the secrets by what and function, and
    the public bytes by kind and form."""
    counts, secrets, public = {}, {}, {}
    for what, function, *cells, on, _ in cells_below(path, HEAD):
        key = what, function.strip("`")
        secrets[key] = set(on.split(", "))
        for kind, cell in zip(COLUMNS, cells):
            counts[(*key, kind)] = Cell(*map(int, cell.split("/"))) if "/" in cell else NONE
    for kind, *numbers in cells_below(path, PUBLIC_HEAD):
        public |= {(kind, form): int(number) for form, number in zip(PUBLIC_FORMS, numbers)}
    return counts, secrets, public


def differences(rows, public, forms, path):
    """Each count that is greater than the page's, each secret that the page doesn't name, and each count of
    public bytes of these forms that is less."""
    counts, secrets, most_public = pinned(path)
    for (what, function), row in rows.items():
        for kind, cell in row.cells().items():
            known = counts.get((what, function, kind), NONE)
            if cell.places > known.places or cell.times > known.times:
                yield (f"{what}, {function}: {plural(kind)} {cell.places}/{cell.times}, "
                       f"but the page has {known.places}/{known.times}")
        more = row.secrets - secrets.get((what, function), set())
        if more:
            yield f"{what}, {function}: depends on {', '.join(sorted(more))}, which the page doesn't name"
    for (kind, form), least in most_public.items():
        count = public.get(kind, {}).get(form, 0)
        if form in forms and count < least:
            yield f"{kind}, {form}: {count} bytes depended on a secret, but the page has {least}"


def plural(kind):
    """The heading of a kind."""
    return HEAD[2 + COLUMNS.index(kind)]


def pin(path, rows, public):
    """Puts the tables into the page, in place of those that are there."""
    with open(path, encoding="utf-8") as file:
        text = file.read()
    for lines in (list(text_of(rows)), list(public_text(public))):
        begun = text.index(lines[0])
        ended = re.compile(r"^(?!\|)", re.MULTILINE).search(text, begun).start()
        text = text[:begun] + "".join(line + "\n" for line in lines) + text[ended:]
    with open(path, "w", encoding="utf-8") as file:
        file.write(text)
