"""The four strategies: what each chooses on the tables of a sound sheet, with some numbers hidden."""

import struct
from dataclasses import dataclass, field

from .sheet import Refused, meet, on_level, range_of, runs, span, total

MOST_RATIOS = 5


@dataclass
class Choice:
    """A choice: nothing, move, merge or drop."""

    kind: str
    tables: list = field(default_factory=list)
    destination: int = 0
    canonical: int = 0
    target: int = 0


NOTHING = Choice("nothing")


def single(number):
    """A number rounded to binary32."""
    return struct.unpack("<f", struct.pack("<f", number))[0]


def meets_any(range_, tables):
    return any(meet(range_, range_of(t)) for t in tables)


def do_spans_meet(above, below):
    """No tables have no span, which meets nothing."""
    return bool(below) and meet(span(above), span(below))


def are_hidden(tables, hidden):
    return any(t.number in hidden for t in tables)


@dataclass
class Leveled:
    target: int
    threshold: int
    ratios: list

    def is_within_limits(self):
        return (
            1 <= self.target <= 2**40
            and 1 <= self.threshold <= 255
            and len(self.ratios) <= MOST_RATIOS
            and all(1.0 <= ratio <= 1000.0 for ratio in self.ratios)
        )

    def target_of(self, level):
        """The target size of a canonical level."""
        first = self.target * self.threshold
        if level == 1:
            return first
        size = single(float(first))
        ratios = self.ratios or [10.0]
        for step in range(level - 1):
            size = single(size * ratios[min(step, len(ratios) - 1)])
        return min(int(size), 2**64 - 1)

    def choose(self, tables, hidden, _blobs, _clock):
        if not self.is_within_limits():
            raise Refused(6)
        return LeveledChoice(self, tables, hidden).choose()

    def __str__(self):
        bits = (struct.unpack("<I", struct.pack("<f", ratio))[0] for ratio in self.ratios)
        return f"leveled {self.target} {self.threshold}" + "".join(f" 0x{bit:x}" for bit in bits)


class LeveledChoice:
    """One question to leveled."""

    def __init__(self, settings, tables, hidden):
        self.settings, self.hidden = settings, hidden
        self.levels = [on_level(tables, level) for level in range(7)]
        self.is_one_run = len(runs(tables)) == 1

    def free(self, level):
        return total(t for t in self.levels[level] if t.number not in self.hidden)

    def is_busy(self, level):
        return are_hidden(self.levels[level], self.hidden)

    def is_full(self, level, shift):
        return self.free(level) > self.settings.target_of(level - shift)

    def move(self, tables, destination, canonical):
        return Choice("move", tables, destination, canonical, self.settings.target)

    def merge(self, tables, destination, canonical):
        return Choice("merge", tables, destination, canonical, self.settings.target)

    def first_level(self):
        """The first level in use, and how far it lies below level 1."""
        used = [level for level in range(1, 7) if self.levels[level]]
        first = used[0] if used else 6
        shift = first - 1
        if first > 1 and used and all(self.is_full(level, shift) for level in used):
            return first - 1, shift - 1
        return first, shift

    def score(self, level, first, shift):
        if level == 0:
            score = len(self.levels[0]) / self.settings.threshold
            return score if score >= 1 else 0.0
        if not first <= level <= 5 or not self.is_full(level, shift):
            return 0.0
        if not self.levels[level + 1]:
            return 99.99
        return self.free(level) / self.settings.target_of(level - shift)

    def choose(self):
        levels = self.levels
        if self.is_one_run and not any(levels[1:6]) and not do_spans_meet(levels[0], levels[6]):
            return self.move(levels[0], 6, 1)
        first, shift = self.first_level()
        is_free = not self.is_busy(0) and not self.is_busy(first)
        if self.is_one_run and is_free and levels[first] and not meets_any(span(levels[0]), levels[first]):
            return self.move(levels[0], first, 1)
        scores = [self.score(level, first, shift) for level in range(7)]
        winner = max(range(7), key=lambda level: (scores[level], level))
        if scores[winner] < 1:
            return NOTHING
        if winner > 0:
            return self.pick(winner, winner + 1 - shift)
        return self.from_level_0(first) if is_free else NOTHING

    def from_level_0(self, first):
        above = self.levels[0]
        met = [t for t in self.levels[first] if meet(range_of(t), span(above))]
        if self.is_one_run and not met:
            return self.move(above, first, 1)
        return self.merge(above + met, first, 1)

    def pick(self, level, canonical):
        return self.longest_move(level, canonical) or self.cheapest_merge(level, canonical) or NOTHING

    def longest_move(self, level, canonical):
        above, below = self.levels[level], self.levels[level + 1]
        for window in sorted(windows(above), key=len, reverse=True):
            if not are_hidden(window, self.hidden) and not meets_any(span(window), below):
                return self.move(window, level + 1, canonical)
        return None

    def cheapest_merge(self, level, canonical):
        above, below = self.levels[level], self.levels[level + 1]
        best = None
        for window in windows(below):
            low, high = span(window)
            inside = [t for t in above if low <= t.min and t.max <= high]
            if total(window) > 50 * self.settings.target or total(inside) == 0:
                continue
            if are_hidden(window + inside, self.hidden):
                continue
            if best is None or total(window + inside) < total(best):
                best = inside + window
        return best and self.merge(best, level + 1, canonical)


def windows(tables):
    """All windows, length 1 from the left, then 2 and on."""
    lengths = range(1, len(tables) + 1)
    return [tables[at : at + length] for length in lengths for at in range(len(tables) - length + 1)]


@dataclass
class Fifo:
    limit: int
    seconds: int

    def choose(self, tables, hidden, blobs, clock):
        level = on_level(tables, 0)
        if len(runs(tables)) > 1:
            raise Refused(7)
        for place, table in enumerate(level):
            if table.number in hidden:
                raise Refused(8, place)
        expired = [t for t in level if self.is_expired(t, clock)]
        live = [t for t in level if not self.is_expired(t, clock)]
        left = max(0, total(level) + blobs - weight(expired))
        # The sort keeps the sheet's order among tables of one time.
        live.sort(key=lambda t: t.created)
        gone = [t for at, t in enumerate(live) if left > self.limit + weight(live[:at])]
        return Choice("drop", expired + gone) if expired + gone else NOTHING

    def is_expired(self, table, clock):
        return self.seconds > 0 and table.created + self.seconds * 10**9 <= clock

    def __str__(self):
        return f"fifo {self.limit} {self.seconds}"


def weight(tables):
    return sum(t.size + t.linked for t in tables)


@dataclass
class Major:
    target: int

    def choose(self, tables, hidden, _blobs, _clock):
        if are_hidden(tables, hidden):
            return NOTHING
        return Choice("merge", list(tables), 6, 6, self.target)

    def __str__(self):
        return f"major {self.target}"


@dataclass
class DropRange:
    """Each bound is None, or ("[", key) with the key and ("(", key) without."""

    low: tuple
    high: tuple

    def choose(self, tables, hidden, _blobs, _clock):
        named = [t for t in tables if self.holds(t)]
        return NOTHING if are_hidden(named, hidden) else Choice("drop", named)

    def holds(self, table):
        return (self.low is None or table.min > self.low[1] or (self.low[0] == "[" and table.min == self.low[1])) and (
            self.high is None or table.max < self.high[1] or (self.high[0] == "[" and table.max == self.high[1])
        )

    def __str__(self):
        return "drop-range " + " ".join("*" if b is None else f"{b[0]}{b[1][0]}:{b[1][1]}" for b in (self.low, self.high))
