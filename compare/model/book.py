"""The job book: a sheet of tables, what is hidden, and the running jobs."""

from dataclasses import dataclass

from .sheet import MOST_BYTES, Refused, is_fit, is_sound, meet, on_level, order, range_of, runs, span, total

MOST_JOBS = 8
MOST_HIDDEN = 256


@dataclass
class Job:
    kind: str
    destination: int
    numbers: set

    @property
    def ticket(self):
        return min(self.numbers)


class Book:
    def __init__(self, tables, places, blobs):
        if not is_sound(tables, places, blobs):
            raise Refused(1)
        self.tables, self.places, self.blobs = list(tables), places, blobs
        self.jobs = []

    def hidden(self):
        return {number for job in self.jobs for number in job.numbers}

    def ask(self, strategy, clock, hidden):
        """What a strategy chooses, its tables in sheet order."""
        choice = strategy.choose(self.tables, hidden, self.blobs, clock)
        choice.tables.sort(key=self.tables.index)
        return choice

    def propose(self, strategy, clock, ids, hidden=None):
        choice = self.ask(strategy, clock, self.hidden() if hidden is None else hidden)
        if len(choice.tables) > ids:
            raise Refused(9)
        return choice

    def look_ahead(self, strategy, clock, ids):
        first = self.ask(strategy, clock, self.hidden())
        return self.propose(strategy, clock, ids, self.hidden() | {t.number for t in first.tables})

    def book(self, strategy, clock, ids):
        """Books what a strategy chooses: the job and the choice."""
        choice = self.propose(strategy, clock, ids)
        hidden = self.hidden()
        if not choice.tables:
            raise Refused(10)
        for table in choice.tables:
            if table.number in hidden:
                raise Refused(11, self.tables.index(table))
        if any(self.takes_span(job, choice) for job in self.jobs):
            raise Refused(12)
        if len(self.jobs) == MOST_JOBS or len(hidden) + len(choice.tables) > MOST_HIDDEN:
            raise Refused(13)
        job = Job(choice.kind, choice.destination, {t.number for t in choice.tables})
        self.jobs.append(job)
        return job, choice

    def takes_span(self, job, choice):
        """Whether a running job is in the way of a choice."""
        return (
            "drop" not in (job.kind, choice.kind)
            and job.destination == choice.destination
            and meet(span(self.tables_of(job)), span(choice.tables))
        )

    def tables_of(self, job):
        return [t for t in self.tables if t.number in job.numbers]

    def others(self, job):
        return [t for t in self.tables if t.number not in job.numbers]

    def job(self, ticket):
        for job in self.jobs:
            if job.ticket == ticket:
                return job
        raise Refused(2)

    def refuse_bad_tables(self, fresh):
        """Refuses the first fresh table that may not stand with the rest."""
        standing = {t.number for t in self.tables}
        for place, table in enumerate(fresh):
            if not is_fit(table) or table.number in standing:
                raise Refused(3, place)
            standing.add(table.number)

    def settle(self, tables):
        """The tables that stand from now on, level 0's runs counted anew."""
        if len(tables) > self.places or total(tables) > MOST_BYTES:
            raise Refused(5)
        counted = {run: place for place, run in enumerate(runs(tables))}
        tables = [t.at(0, counted[t.run]) if t.level == 0 else t for t in tables]
        self.tables = sorted(tables, key=order)

    def land(self, table):
        self.refuse_bad_tables([table])
        self.settle(self.tables + [table.at(0, self.run_to_land_in(table))])

    def run_to_land_in(self, table):
        if not runs(self.tables):
            return 0
        last = runs(self.tables)[-1]
        met = any(t.run == last and meet(range_of(t), range_of(table)) for t in on_level(self.tables, 0))
        return last + 1 if met else last

    def close(self, ticket, outputs):
        job = self.job(ticket)
        self.refuse_bad_tables(outputs)
        if (job.kind == "merge") != bool(outputs):
            raise Refused(4)
        self.refuse_stray_outputs(job, outputs)
        arrived = {"move": self.tables_of(job), "merge": outputs, "drop": []}[job.kind]
        self.settle(self.others(job) + [t.at(job.destination, 0) for t in arrived])
        self.jobs.remove(job)

    def refuse_stray_outputs(self, job, outputs):
        low, high = span(self.tables_of(job))
        for place, table in enumerate(outputs):
            follows = place == 0 or outputs[place - 1].max < table.min
            if not follows or table.min < low or table.max > high:
                raise Refused(4, place)

    def give_up(self, ticket):
        self.jobs.remove(self.job(ticket))
