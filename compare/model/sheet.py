"""Tables, and what makes a list of them a sound sheet."""

from dataclasses import dataclass, replace

MOST_BYTES = 2**53
MOST_TABLES = 1024
LEVELS = range(7)


class Refused(Exception):
    """A refusal, by its number and place."""

    def __init__(self, number, place=0):
        super().__init__(number, place)
        self.number, self.place = number, place

    LAYERS = "-JJTJTSSSJJJJJK"

    @property
    def layer(self):
        return self.LAYERS[self.number]


@dataclass
class Table:
    """A table. Its keys are (tour, stop). A fresh one stands nowhere yet."""

    number: int
    min: tuple
    max: tuple
    size: int
    created: int
    linked: int
    level: int = 0
    run: int = 0

    def at(self, level, run):
        return replace(self, level=level, run=run)


def meet(a, b):
    """Whether two ranges meet."""
    return a[0] <= b[1] and b[0] <= a[1]


def range_of(table):
    return table.min, table.max


def span(tables):
    return min(t.min for t in tables), max(t.max for t in tables)


def total(tables):
    return sum(t.size for t in tables)


def on_level(tables, level):
    return [t for t in tables if t.level == level]


def runs(tables):
    """Level 0's runs, in order."""
    return sorted({t.run for t in on_level(tables, 0)})


def order(table):
    return table.level, table.run, table.min


def is_fit(table):
    """Whether a table may stand at all."""
    return table.min <= table.max and table.size <= MOST_BYTES and table.linked <= MOST_BYTES


def is_apart(tables):
    """Whether no two tables of a run meet."""
    homes = {}
    for table in tables:
        homes.setdefault((table.level, table.run), []).append(table)
    for home in homes.values():
        home.sort(key=range_of)
        if any(a.max >= b.min for a, b in zip(home, home[1:])):
            return False
    return True


def is_sound(tables, places, blobs):
    """Whether these tables on so many places are a sound sheet."""
    return (
        places <= MOST_TABLES
        and len(tables) <= places
        and blobs <= MOST_BYTES
        and len({t.number for t in tables}) == len(tables)
        and all(is_fit(t) and t.level in LEVELS for t in tables)
        and total(tables) <= MOST_BYTES
        and runs(tables) == list(range(len(runs(tables))))
        and all(t.run == 0 for t in tables if t.level > 0)
        and is_apart(tables)
        and tables == sorted(tables, key=order)
    )
