"""The search for an order of all calls of a history that respects their tickets and that a mount replies
so."""
import dataclasses

from parts.linux.at_once.calls import AFTER
from parts.linux.at_once.points import Level, Point, points_of
from parts.linux.at_once.state import State
from parts.linux.at_once.steps import after

MAX_TRIES = 300_000


@dataclasses.dataclass
class Order:
    """A verdict, `found`, `none` or `undecided`; the points in order, each with the state after it; and how
    many were tried."""

    verdict: str
    points: list
    tried: int


def points(history, level):
    """The points of each caller in order, and from UNDER_WAY on those of race's own removal."""
    made = [[point for call in own for point in points_of(call, level)] for own in history.calls]
    if level >= Level.UNDER_WAY:
        last = max((call.end for call in history.all_calls() if call.phase < AFTER), default=0)
        made.append([Point(None, "clean", last + 0.2, last + 0.3)])
    return made


class Search:
    """A depth-first search over how many points each caller has had, and the state. The earliest end goes
    first."""

    def __init__(self, history, level, max_tries=MAX_TRIES):
        self.level, self.max_tries = level, max_tries
        self.points = points(history, level)
        self.lengths = [len(point) for point in self.points]
        self.tried = 0

    def enabled(self, positions):
        """The callers whose next point may be the next of all: it begins before each other's next one
        ends."""
        left = [at for at, length in enumerate(self.lengths) if positions[at] < length]
        limit = min((self.points[caller][positions[caller]].end for caller in left), default=0)
        found = [caller for caller in left if self.points[caller][positions[caller]].begin < limit]
        return sorted(found, key=lambda caller: (self.points[caller][positions[caller]].end, caller))

    def next_ones(self, positions, state):
        """Each point that may be next, with the positions and the state after it."""
        for caller in self.enabled(positions):
            point = self.points[caller][positions[caller]]
            moved = (*positions[:caller], positions[caller] + 1, *positions[caller + 1 :])
            for new in after(state, self.level, point):
                yield point, moved, new

    def order(self):
        """An order, or none."""
        start, state = (0,) * len(self.points), State()
        seen, path, stack = {(start, state.value())}, [], [self.next_ones(start, state)]
        total = sum(self.lengths)
        while stack:
            for point, positions, new in stack[-1]:
                self.tried += 1
                mark = positions, new.value()
                if mark in seen:
                    continue
                seen.add(mark)
                path.append((point, new))
                if len(path) == total:
                    return Order("found", path, self.tried)
                stack.append(self.next_ones(positions, new))
                break
            else:
                stack.pop()
                if path:
                    path.pop()
            if self.tried > self.max_tries:
                return Order("undecided", [], self.tried)
        return Order("none", [], self.tried)


def search(history, level, max_tries=MAX_TRIES):
    """An order of a history at a level."""
    return Search(history, level, max_tries).order()


def first_order(history):
    """The lowest level at which there is an order, and the order; or none."""
    for level in Level:
        found = search(history, level)
        if found.verdict == "found":
            return level, found
    return None, found


def smallest_core(history, level):
    """The history without calls on which nothing rests, of one that has no order at a level.

    A call that changed nothing is left out if there is still no order without it, the latest first.
    """
    calls = [call for call in history.all_calls() if call.changed_nothing()]
    for call in sorted(calls, key=lambda point: -point.begin):
        fewer = history.without([call])
        if search(fewer, level).verdict == "none":
            history = fewer
    return history
