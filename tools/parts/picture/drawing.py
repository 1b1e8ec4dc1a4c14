"""A log as a picture: callers as lanes, open handles as bars, and keys as life lines."""
import html

from parts.picture.history import ABSENT, EITHER, INCOMPLETE, PRESENT, history_of
from parts.picture.text import SHORT, record_lines, short

COLOURS = {PRESENT: "#2e8b57", INCOMPLETE: "#e08a00", EITHER: "#e08a00", ABSENT: "#9a9a9a"}
WIDTHS = {PRESENT: 10, INCOMPLETE: 10, EITHER: 10, ABSENT: 2}
DASHED = (EITHER, ABSENT)
HANDLE, REFUSED, TEXT = "#3b6fb6", "#c0392b", "#222"
ROW, LANE, LEFT, HEAD, FOOT = 20, 26, 48, 124, 56


class Drawing:
    """An SVG of lines, bars and texts, with a row for each place of a mount, whose first row is at `top`."""

    def __init__(self):
        self.parts, self.wide, self.top = [], 0, 0

    def y(self, place):
        """Where the row of a place is."""
        return self.top + HEAD + ROW * place

    def line(self, ends, colour, width, dashed=False):
        """A line between two points."""
        (x1, y1), (x2, y2) = ends
        dashes = ' stroke-dasharray="3 3"' if dashed else ""
        self.parts.append(f'<line x1="{x1}" y1="{y1}" x2="{x2}" y2="{y2}" stroke="{colour}"'
                          f' stroke-width="{width}"{dashes}/>')

    def state(self, ends, state):
        """A line for a key that is in this state."""
        self.line(ends, COLOURS[state], WIDTHS[state], state in DASHED)

    def dot(self, x, y, colour):
        """A call."""
        self.parts.append(f'<circle cx="{x}" cy="{y}" r="4" fill="{colour}"/>')

    def text(self, x, y, text, colour=TEXT, more=""):
        """A text, by which the picture is widened unless it is set in another way."""
        self.parts.append(f'<text x="{x}" y="{y}" fill="{colour}"{more}>{html.escape(text)}</text>')
        if not more:
            self.wide = max(self.wide, x + int(7.3 * len(text)) + 12)

    def head(self, x, text):
        """What is above a lane."""
        x, y = x + 4, self.y(0) - 22
        self.text(x, y, text, more=f' transform="rotate(-55 {x} {y})"')
        self.wide = max(self.wide, x + 56)

    def whole(self):
        """The picture as a text."""
        size = f'width="{self.wide}" height="{self.top}" viewBox="0 0 {self.wide} {self.top}"'
        head = f'<svg xmlns="http://www.w3.org/2000/svg" {size} font-family="monospace" font-size="12">'
        return "\n".join([head, '<rect width="100%" height="100%" fill="#fff"/>', *self.parts, "</svg>", ""])


def columns_of(bars, last):
    """A column for each handle, so that no two that are open at once share one; and how many there are."""
    free, given = [], []
    for bar in bars:
        end = bar.end if bar.end is not None else last + 1
        column = next((at for at, until in enumerate(free) if until <= bar.start), len(free))
        free[column:column + 1] = [end]
        given.append(column)
    return given, len(free)


def draw_callers(drawing, entries):
    """A lane for each caller, with a dot at each of its calls; where the next lanes begin."""
    users = {entry.caller: entry.user for entry in entries}
    for caller, user in users.items():
        x = LEFT + LANE * caller
        places = [entry.place for entry in entries if entry.caller == caller]
        drawing.head(x, f"caller {caller} ({user})")
        drawing.line(((x, drawing.y(places[0])), (x, drawing.y(places[-1]))), "#bbb", 1)
    for entry in entries:
        colour = REFUSED if entry.refusal() else "#444"
        drawing.dot(LEFT + LANE * entry.caller, drawing.y(entry.place), colour)
    return LEFT + LANE * (max(users, default=-1) + 1)


def draw_handles(drawing, left, bars, last):
    """A bar for each handle from its opening to its close; where the next lanes begin."""
    given, count = columns_of(bars, last)
    for bar, column in zip(bars, given):
        x, start = left + LANE * column, drawing.y(bar.start)
        end = drawing.y(bar.end) if bar.end is not None else drawing.y(last) + 8
        drawing.line(((x, start), (x, end)), HANDLE, 8)
        drawing.text(x + 6, start - 4, f"{bar.caller}:{bar.number}", HANDLE, ' font-size="9"')
    if count:
        drawing.head(left, "open handles")
    return left + LANE * max(count, 1)


def draw_keys(drawing, left, lives, last):
    """A life line for each key, drawn by its state; where the texts begin."""
    for column, life in enumerate(lives):
        x = left + LANE * column
        drawing.head(x, f"key {life.key[:SHORT]}")
        ends = [drawing.y(turn.place) for turn in life.turns[1:]] + [drawing.y(last) + 8]
        for turn, end in zip(life.turns, ends):
            drawing.state(((x, drawing.y(turn.place)), (x, end)), turn.state)
    return left + LANE * max(len(lives), 1)


def draw_texts(drawing, left, entries):
    """The place of each entry, its call and its reply."""
    for entry in entries:
        y = drawing.y(entry.place) + 4
        drawing.text(8, y, str(entry.place), "#888")
        reply = f"record {entry.answer[1]}" if record_lines(entry) else short(entry.reply)
        told = f"{short(entry.call)} → {reply}" + (f"   ({entry.outcome})" if entry.outcome else "")
        drawing.text(left, y, told, REFUSED if entry.refusal() else TEXT)


def draw_legend(drawing, y):
    """Each state, and an open handle, as they are drawn."""
    x = LEFT
    for state in (PRESENT, INCOMPLETE, EITHER, ABSENT):
        drawing.state(((x, y - 4), (x + 24, y - 4)), state)
        drawing.text(x + 30, y, state)
        x += 60 + 8 * len(state)
    drawing.line(((x, y - 4), (x + 24, y - 4)), HANDLE, 8)
    drawing.text(x + 30, y, "open handle")


def draw_mount(drawing, entries):
    """The entries of one mount, below what is drawn already."""
    history, last = history_of(entries), max(len(entries) - 1, 0)
    left = draw_callers(drawing, entries) + 6
    left = draw_handles(drawing, left, history.bars, last) + 6
    left = draw_keys(drawing, left, list(history.lives.values()), last)
    draw_texts(drawing, left, entries)
    drawing.top = drawing.y(last) + FOOT - 36


def drawn(mounts):
    """The picture of a log, mount below mount."""
    drawing = Drawing()
    for number, entries in enumerate(mounts):
        if len(mounts) > 1:
            drawing.text(8, drawing.top + 16, f"mount {number}")
        draw_mount(drawing, entries)
    draw_legend(drawing, drawing.top + 20)
    drawing.top += 36
    return drawing.whole()
