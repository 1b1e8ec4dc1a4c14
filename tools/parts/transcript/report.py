"""Prints a transcript with the answer to each step, as a transcript again or for a test runner."""
import re
import urllib.parse

from parts.transcript.reading import hex_of_text

MAX_COLUMN = 64
INDENT = "#     "
REPORTING = ("lock", "status")
PRINTABLE = re.compile(rb"[ -~]+")
UNESCAPED = "!\"#$&'()*+,/:;<=>?@[\\]^`{|}"


def text_of(digits):
    """Bytes as `text:` and a word, if all of them are printable."""
    data = bytes.fromhex(digits) if digits != "-" else b""
    if not PRINTABLE.fullmatch(data):
        return digits
    word = urllib.parse.quote(data.decode(), safe=UNESCAPED)
    return f"text:{word}" if hex_of_text(word) == digits else digits


def readable(reply):
    """A reply with contents as text, where they are one."""
    words = reply.split(" ")
    return f"data {text_of(words[1])}" if words[0] == "data" else reply


def short(reply):
    """A reply of a session's call; of a record only its version and length."""
    words = reply.split(" ")
    return f"record {words[1]} ({len(words[2]) // 2} bytes)" if words[0] == "record" else reply


def shown_answer(answer):
    """What is printed beside the step: the text that is as expected, else the reply or the outcome.

    The outcome `ok` of `lock` and `status` says less than their last reply, which is printed in its place.
    """
    outcome, *replies = answer.texts()
    is_reported = answer.step.verb in REPORTING and outcome == "ok"
    return readable(answer.matching() or (replies[0] if is_reported else outcome))


def details(answer):
    """The lines below a step: the replies of a session's calls, and what was expected if it differs."""
    if answer.made.command.is_session():
        yield INDENT + "; ".join(short(entry.reply) for entry in answer.made.entries)
    if answer.differs():
        yield f"{INDENT}differs: expected is {readable(answer.step.expected)}"


def is_failure(answer, strict):
    """Whether the answer differs from what is expected or, of a strict run, is an unexpected refusal."""
    return answer.differs() or (strict and answer.step.expected is None and answer.refused())


def column_of(steps, names):
    """The column of the answers, after the longest command that isn't too long."""
    lengths = [len(f"{names[step.caller]}: {step.shown}") for step in steps]
    return max([length for length in lengths if length < MAX_COLUMN], default=0) + 1


def transcript_lines(transcript, found, notes):
    """The lines of a transcript: its own, with the answer of each step, and below a step its notes."""
    column = column_of(transcript.steps, transcript.names())
    by_line = {answer.step.line: answer for answer in found}
    for number, line in enumerate(transcript.lines, 1):
        answer = by_line.get(number)
        if answer is None:
            yield line.rstrip()
        else:
            command = f"{transcript.names()[answer.step.caller]}: {answer.step.shown}"
            yield f"{command:{column}} = {shown_answer(answer)}"
            yield from details(answer)
        yield from (INDENT + note for note in notes.get(number, []))


def summary(found, strict):
    """How many answers differ from what is expected; of a strict run also the unexpected refusals."""
    expected = [answer for answer in found if answer.step.expected is not None]
    differing = sum(answer.differs() for answer in expected)
    text = f"# {differing} of {len(expected)} expected answers differ{'s' if differing == 1 else ''}"
    if strict:
        text += f", {sum(is_failure(answer, True) for answer in found) - differing} unexpected refusals"
    return text


def tap_lines(transcript, found, strict):
    """The lines of a test runner: a test for each expectation, of a strict run for each refusal too."""
    tests = [answer for answer in found if answer.step.expected is not None or is_failure(answer, strict)]
    yield f"1..{len(tests)}"
    for number, answer in enumerate(tests, 1):
        failed = is_failure(answer, strict)
        name = f"line {answer.step.line}: {transcript.names()[answer.step.caller]}: {answer.step.shown}"
        name = name.replace("\\", "\\\\").replace("#", "\\#")
        yield f"{'not ok' if failed else 'ok'} {number} - {name}"
        if failed:
            expected = "no refusal" if answer.step.expected is None else readable(answer.step.expected)
            yield f"# expected: {expected}"
            yield f"# answered: {' '.join([*dict.fromkeys(readable(text) for text in answer.texts())])}"
