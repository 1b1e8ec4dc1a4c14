"""What the entries of a log say of claims, keys and open handles, place by place."""
import dataclasses
from typing import Optional

PRESENT, INCOMPLETE, ABSENT = "present", "incomplete", "absent"
# after a close, until a reply says which of the two it is
EITHER = "incomplete or absent"
CHANGING = ("add-key", "remove-key", "remove-key-all", "key-status", "open", "close")


@dataclasses.dataclass
class Turn:
    """From this place on a key is in this state."""
    place: int
    state: str


class Life:
    """What the log says of a key: which users claim it, and from which place on it is in which state."""

    def __init__(self, key):
        self.key, self.claims = key, set()
        self.turns, self.closes = [], 0

    @property
    def state(self):
        """The state since its last turn, or None."""
        return self.turns[-1].state if self.turns else None

    def state_at(self, place):
        """The state at a place, or None where nothing is known of the key yet."""
        return next((turn.state for turn in reversed(self.turns) if turn.place <= place), None)

    def is_now(self, state, place):
        """The key is in this state at this place.

        If it was incomplete or absent since closes, a reply that says incomplete says so of the time since,
        and one that says absent does if there was just one close.
        """
        if self.state == EITHER and state == INCOMPLETE:
            self.turns.pop()
        elif self.state == EITHER and state == ABSENT and self.closes == 1:
            self.turns[-1].state = ABSENT
        elif state != self.state:
            self.turns.append(Turn(place, state))
        self.closes = 0

    def handle_closed(self, place, is_last):
        """A handle was closed, which may have removed the key. With the last handle of all it is removed."""
        if self.state == INCOMPLETE:
            self.is_now(EITHER, place)
        if self.state == EITHER:
            self.closes += 1
            if is_last:
                self.is_now(ABSENT, place)


@dataclasses.dataclass
class Bar:
    """A handle: its caller and number, what it was opened on, and where it was opened and closed."""
    caller: int
    number: str
    path: str
    start: int
    end: Optional[int] = None


class History:
    """What the entries of one mount, up to some place, say of claims, keys and handles."""

    def __init__(self):
        self.lives, self.open, self.bars = {}, {}, []

    def life(self, key):
        """The life of a key, which begins where the key is first named."""
        return self.lives.setdefault(key, Life(key))

    def take(self, entry):
        """Takes the next entry; returns whether it may have changed claims, states or handles."""
        if entry.refusal() or entry.verb not in CHANGING:
            return False
        if entry.verb == "add-key":
            self.take_addition(entry)
        elif entry.verb in ("remove-key", "remove-key-all"):
            self.take_removal(entry)
        elif entry.verb == "key-status":
            self.life(entry.words[0]).is_now(entry.answer[1], entry.place)
        elif entry.verb == "open":
            bar = Bar(entry.caller, entry.answer[1], entry.words[0], entry.place)
            self.open[entry.caller, entry.answer[1]] = bar
            self.bars.append(bar)
        else:
            self.take_close(entry)
        return True

    def take_addition(self, entry):
        """A user has a claim on the key."""
        life = self.life(entry.answer[1])
        life.claims.add(entry.user)
        life.is_now(PRESENT, entry.place)

    def take_removal(self, entry):
        """A user's claim is removed, or all are."""
        life = self.life(entry.words[0])
        life.claims = life.claims - {entry.user} if entry.verb == "remove-key" else set()
        if not life.claims:
            life.is_now(INCOMPLETE if entry.answer[2] == "busy=1" else ABSENT, entry.place)

    def take_close(self, entry):
        """A handle is closed; a key without claims may be removed by it."""
        bar = self.open.pop((entry.caller, entry.words[0]), None)
        if bar:
            bar.end = entry.place
        for life in self.lives.values():
            life.handle_closed(entry.place, not self.open)


def history_of(entries):
    """The history of the entries of one mount."""
    history = History()
    for entry in entries:
        history.take(entry)
    return history
