"""A log as text: a line for each call, and below it what changed."""
import re

from parts.picture.causes import causes, refusal_rows
from parts.picture.history import History

SHORT = 8
MAX_PART = 20
HEAD = "place  line  caller user  call -> reply; below: keys by their claims, and handles as caller:number"
INDENT = " " * 27


def short_part(part):
    """A part of a path; a long one is cut."""
    return part if len(part) <= MAX_PART else part[:MAX_PART - 8] + ".." + part[-4:]


def short_word(word):
    """A word with its identifiers, bytes and long names cut."""
    if re.fullmatch(r"[0-9a-f]{32}", word):
        return word[:SHORT]
    if re.fullmatch(r"[0-9a-f]{48}", word):
        return f"{word[:6]}..{word[16:16 + SHORT]}.."
    if re.fullmatch(r"[0-9a-f]{33,}", word):
        return f"{word[:SHORT]}.. ({len(word) // 2} bytes)"
    return "/".join(short_part(part) for part in word.split("/"))


def short(text):
    """A call or reply with its words cut."""
    return " ".join(short_word(word) for word in text.split(" "))


def record_lines(entry):
    """The text of a record that was replied, a line each, long digits cut; None of another reply."""
    if entry.answer[0] != "record":
        return None
    try:
        text = bytes.fromhex(entry.answer[2]).decode()
    except ValueError:
        return None
    if not all(" " <= character <= "~" or character == "\n" for character in text) or "\n" not in text:
        return None
    return [short(line) for line in text.splitlines()]


def claims_text(history):
    """Claims and states of all keys, and the handles that are open, in a line."""
    keys = []
    for life in history.lives.values():
        users = f" by {','.join(sorted(life.claims, key=int))}" if life.claims else ""
        keys.append(f"{life.key[:SHORT]} {life.state}{users}")
    handles = [f"{handle.caller}:{handle.number} {short(handle.path)}" for handle in history.open.values()]
    return f"keys: {'; '.join(keys) or 'none'} | open: {', '.join(handles) or 'none'}"


def entry_lines(entry, rows):
    """The lines of an entry: call and reply, a record's text, the cause of a refusal, an outcome."""
    record = record_lines(entry)
    reply = f"record {entry.answer[1]}:" if record else short(entry.reply)
    place = f"{entry.place:5}  {entry.line:4}  {entry.caller:6} {entry.user:>4}"
    yield f"{place}  {short(entry.call)} -> {reply}"
    yield from (INDENT + line for line in record or [])
    if entry.refusal():
        yield from (f"{INDENT}refused: {cause}" for cause in causes(rows, entry))
    if entry.outcome:
        yield f"{INDENT}line {entry.line} ends: {entry.outcome}"


def mount_lines(entries):
    """The lines of the entries of one mount."""
    rows, history, last = list(refusal_rows()), History(), None
    for entry in entries:
        yield from entry_lines(entry, rows)
        if history.take(entry):
            told = claims_text(history)
            if told != last:
                yield INDENT + told
            last = told
    yield f"at the end: {claims_text(history)}"


def text_lines(mounts):
    """The lines of a log, mount by mount."""
    yield HEAD
    for number, entries in enumerate(mounts):
        if len(mounts) > 1:
            yield f"mount {number}"
        yield from mount_lines(entries)
