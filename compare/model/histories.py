"""Random histories: the lines of a script, and the answers that the model gives."""

import random
from collections import Counter

from .book import MOST_HIDDEN, Book
from .choosers import DropRange, Fifo, Leveled, Major, single
from .sheet import MOST_BYTES, MOST_TABLES, Refused, Table, on_level, span, total

SECOND = 10**9
CLOCKS = [0, 1, 3 * SECOND, 5 * SECOND + 1, 2**64 - 1]
AGES = [0, 1, 2, 3, SECOND, 2 * SECOND, 5 * SECOND, 2**64 - 1]
EDGES = [MOST_BYTES, MOST_BYTES - 1, MOST_BYTES + 1, MOST_BYTES // 2]

# How many calls a history has at most, and how often each is made, in a common one and in one that books as much as it can.
COMMON = {"land": 20, "propose": 15, "look-ahead": 10, "book": 25, "close": 22, "give-up": 5, "show": 3}
MOST_CALLS = 40
BUSY = {"land": 2, "propose": 2, "look-ahead": 6, "book": 78, "close": 8, "give-up": 2, "show": 2}


def key(k):
    return f"{k[0]}:{k[1]}"


def fresh_words(t):
    return f"{t.number} {key(t.min)} {key(t.max)} {t.size} {t.created} {t.linked}"


def standing_words(t):
    return f"table {t.number} {t.level} {t.run} {key(t.min)} {key(t.max)} {t.size} {t.created} {t.linked}"


def numbers(tables):
    return "".join(f" {number}" for number in tables)


def choice_words(choice):
    """The line of a choice."""
    if choice.kind == "nothing":
        return "nothing"
    levels = f" to {choice.destination} canonical {choice.canonical} target {choice.target}"
    return f"{choice.kind}{'' if choice.kind == 'drop' else levels} bytes {total(choice.tables)}:" + numbers(
        t.number for t in choice.tables
    )


def job_words(job):
    destination = "" if job.kind == "drop" else f" to {job.destination}"
    return f"job {job.ticket} {job.kind}{destination}:" + numbers(sorted(job.numbers))


def show_words(book):
    """The lines of what is shown of a book."""
    jobs = sorted(book.jobs, key=lambda job: job.ticket)
    yield from map(standing_words, book.tables)
    yield "hidden:" + numbers(sorted(book.hidden()))
    yield from map(job_words, jobs)
    yield "end"


def refused_words(refusal):
    """How the line of a refusal begins: its words are the planner's own."""
    return f"refused {refusal.number} {refusal.layer} {refusal.place} "


class History:
    """One random history. `lines` is its script and `answers` what each line of the planner's has to be, or to begin with."""

    def __init__(self, random, shows):
        self.random, self.shows = random, shows
        self.lines, self.answers, self.met = ["keys stop"], [], Counter()
        self.is_busy = random.random() < 0.3
        self.is_crowded = self.is_busy and random.random() < 0.2
        self.is_heavy = not self.is_busy and random.random() < 0.15
        self.stops = random.choice([1000, 3000] if self.is_busy else [20, 60, 200, 1000])
        self.settings = self.leveled()
        self.last = 0
        self.open()

    # Parts.

    def chance(self, part):
        return self.random.random() < part

    def number(self):
        self.last += self.random.randint(1, 3)
        return self.last

    def key(self):
        return self.random.randint(0, 2) if self.chance(0.2) else 0, self.random.randint(0, self.stops)

    def size(self):
        if self.is_heavy and self.chance(0.3):
            return self.random.choice(EDGES)
        return self.random.choice([0, 1, 50, 100, self.random.randint(0, 2000), self.random.randint(0, 50000)])

    def linked(self):
        if self.chance(0.03):
            return self.random.choice(EDGES)
        return self.random.choice([0, 0, 1, self.random.randint(0, 1000)])

    def fresh(self, standing):
        """A fresh table, at times with a number that stands or with its ends turned round."""
        low, high = sorted([self.key(), self.key()])
        if self.chance(0.03):
            low, high = high, low
        number = self.random.choice(standing).number if standing and self.chance(0.05) else self.number()
        return Table(number, low, high, self.size(), self.random.choice(AGES), self.linked())

    def run(self, level, run, most):
        """The tables of a run, from points that are drawn: some tables have one stop alone."""
        points = sorted({(0, self.random.randint(0, self.stops)) for _ in range(2 * most)})
        while len(points) > 1:
            low, high = points[0], points[0 if self.chance(0.3) else 1]
            points = [point for point in points if point > high]
            size = self.random.choice([0, 1, 2**40]) if self.is_heavy else self.size()
            yield Table(0, low, high, size, self.random.choice(AGES), self.linked() % MOST_BYTES, level, run)

    def most_in_run(self):
        return [100, 200] if self.is_crowded else [5, 12, 60] if self.is_busy else [1, 2, 3, 5, 12]

    def sheet(self):
        """Tables for a sheet, which is not sound at times."""
        tables = []
        for run in range(self.random.choice([0, 0, 1, 1, 2, 3])):
            tables += self.run(0, run, self.random.randint(1, 6))
        for level in range(1, 7):
            if self.chance(0.5):
                tables += self.run(level, 0, self.random.choice(self.most_in_run()))
        tables = tables[:MOST_TABLES]
        drawn = self.random.sample(range(1, 3 * len(tables) + 1), len(tables))
        tables = [Table(number, *vars_of(t)) for number, t in zip(drawn, tables)]
        self.last = max(drawn, default=0)
        if tables and self.chance(0.3):
            self.fill(tables)
        if tables and self.chance(0.1):
            self.spoil(tables)
        return tables

    def fill(self, tables):
        """Gives one level, or the sheet, as many bytes as a bound allows, or one more."""
        table = self.random.choice(tables)
        if self.chance(0.2):
            bound, others = MOST_BYTES, tables
        else:
            bound, others = self.settings.target_of(max(1, table.level - self.random.randint(0, 3))), on_level(tables, table.level)
        size = bound + self.random.randint(0, 1) - total(others) + table.size
        if 0 <= size <= MOST_BYTES - total(tables) + table.size + 1:
            table.size = size

    def spoil(self, tables):
        """Changes one thing, by which a sheet is mostly not sound any more."""
        table = self.random.choice(tables)
        what = self.random.randrange(9)
        if what == 0:
            table.number = self.random.choice(tables).number
        elif what == 1:
            table.min, table.max = table.max, table.min
        elif what == 2:
            table.run += 1
        elif what == 3:
            table.size = MOST_BYTES + 1
        elif what == 4:
            table.linked = MOST_BYTES + 1
        elif what == 5:
            self.random.shuffle(tables)
        elif what == 6:
            table.max = self.key()
        elif what == 7:
            for other in on_level(tables, table.level):
                other.run += 1
        else:
            table.level = self.random.randint(0, 6)

    def kinds(self):
        if self.is_busy:
            return ["drop"] if self.is_crowded else ["drop", "leveled"]
        return ["leveled"] * 5 + ["fifo", "fifo", "major", "drop", "drop"]

    def strategy(self):
        kind = self.random.choice(self.kinds())
        if kind == "leveled":
            return self.settings if self.chance(0.6) else self.leveled()
        if kind == "fifo":
            return Fifo(self.random.choice([0, 1, 50, 99, 100, 500, 10**4, MOST_BYTES]), self.random.choice([0, 0, 1, 2, 3, 2**60]))
        if kind == "major":
            return Major(self.random.choice([0, 1, 100]))
        return self.drop_range()

    def leveled(self):
        count = self.random.choice([0, 0, 1, 2, 5])
        ratios = [self.random.choice([1.0, 1.5, 10.0, 1000.0, single(self.random.uniform(1, 1000))]) for _ in range(count)]
        target = self.random.choice([1, 10, 100, 100, 1000, 10**6, 2**40, 2**40 + 1 if self.chance(0.1) else 100])
        return Leveled(target, self.random.choice([1, 2, 4, 4, 255]), ratios)

    def drop_range(self):
        if self.is_crowded and self.chance(0.5):
            return self.drop_to_the_bound()
        low = self.random.randint(0, self.stops)
        high = low + self.random.choice([10, 100, 300]) if self.is_busy else self.random.randint(0, self.stops)
        bounds = [None if self.chance(0.05) else (self.random.choice("[("), (0, stop)) for stop in sorted([low, high])]
        return DropRange(*bounds)

    def drop_to_the_bound(self):
        """Drops as many tables behind the hidden ones as may be hidden yet, or one more, if there are as many."""
        hidden = self.book.hidden()
        low = max((t.max for t in self.book.tables if t.number in hidden), default=(-1, 0))
        ends = sorted(t.max for t in self.book.tables if t.min > low)
        count = MOST_HIDDEN - len(hidden) + self.random.randint(0, 1)
        high = ends[min(count, len(ends)) - 1] if ends else (0, 0)
        return DropRange(None if low < (0, 0) else ("(", low), ("[", high))

    def outputs(self, book, job):
        """Outputs for a job, which may not fit it."""
        if job and job.kind == "merge" or self.chance(0.05):
            low, high = span(book.tables_of(job)) if job else ((0, 0), (0, self.stops))
            count = self.random.choice([0, 1, 1, 2, 3])
            stops = sorted(self.random.randint(low[1], max(low[1], high[1])) for _ in range(2 * count))
            outputs = []
            for place in range(count):
                output = self.fresh(book.tables + outputs)
                if self.chance(0.95):
                    output.min, output.max = (low[0], stops[2 * place]), (low[0], stops[2 * place + 1])
                outputs.append(output)
            return outputs
        return []

    # Lines.

    def say(self, line):
        self.lines.append(line)

    def answer(self, *answers):
        self.answers += answers
        self.met.update(" ".join(answer.split()[: 2 if answer.startswith("refused") else 1]) for answer in answers)

    def open(self):
        tables = self.sheet()
        places = self.random.choice([MOST_TABLES, MOST_TABLES, len(tables), len(tables) + 2, MOST_TABLES + 1 if self.chance(0.1) else MOST_TABLES])
        self.ids = self.random.choice([MOST_TABLES, 2000, 10, 3, 0] if not self.is_busy else [MOST_TABLES])
        blobs = self.random.choice([0, 0, 10, 500, MOST_BYTES, MOST_BYTES + 1 if self.chance(0.05) else 0])
        self.lines += [f"sheet {places}", f"ids {self.ids}", *map(standing_words, tables), f"open {blobs}"]
        try:
            self.book = Book(tables, places, blobs)
        except Refused as refusal:
            self.book = None
            self.answer(refused_words(refusal))
            return
        self.answer(f"opened {len(tables)}")

    def make_calls(self, count):
        weights = BUSY if self.is_busy else COMMON
        for word in self.random.choices(list(weights), weights.values(), k=count if self.book else 0):
            try:
                self.answer(*self.call(word))
            except Refused as refusal:
                self.answer(refused_words(refusal))
            if self.chance(self.shows):
                self.answer(*self.call("show"))

    def call(self, word):
        """Makes one call, mostly one for which there is a job. The lines of its answer."""
        if word in ("close", "give-up") and not self.book.jobs and self.chance(0.9):
            word = "book"
        if word in ("propose", "look-ahead", "book"):
            strategy, clock = self.strategy(), self.random.choice(CLOCKS)
            self.say(f"{word} {clock} {strategy}")
            return self.ask(word, strategy, clock)
        if word == "land":
            table = self.fresh(self.book.tables)
            self.say(f"land {fresh_words(table)}")
            self.book.land(table)
            return ["landed"]
        if word in ("close", "give-up"):
            return self.end(word)
        self.say("show")
        return show_words(self.book)

    def ask(self, word, strategy, clock):
        if word == "propose":
            return [choice_words(self.book.propose(strategy, clock, self.ids))]
        if word == "look-ahead":
            return [choice_words(self.book.look_ahead(strategy, clock, self.ids))]
        job, choice = self.book.book(strategy, clock, self.ids)
        return [f"booked {job.ticket} {choice_words(choice)}"]

    def end(self, word):
        job = self.random.choice(self.book.jobs) if self.book.jobs and self.chance(0.95) else None
        ticket = job.ticket if job else self.random.randint(0, 50)
        if word == "give-up":
            self.say(f"give-up {ticket}")
            self.book.give_up(ticket)
            return ["given up"]
        outputs = self.outputs(self.book, job)
        self.lines += [f"output {fresh_words(output)}" for output in outputs]
        self.say(f"close {ticket}")
        self.book.close(ticket, outputs)
        return ["closed"]


def vars_of(table):
    """What a table is made of, but for its number."""
    return table.min, table.max, table.size, table.created, table.linked, table.level, table.run


def history(seed, place, shows=0.4):
    """The history at a place: the same seed and place give the same one. `shows` says behind how many of its calls the book is shown."""
    drawn = random.Random(f"{seed} {place}")
    made = History(drawn, shows)
    made.make_calls(drawn.randint(1, MOST_CALLS))
    return made
