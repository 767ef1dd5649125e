"""Errors to plant in the model, one at a time: what each says, its file, and the text that takes the place of another."""

import os
import shutil

HERE = os.path.dirname(os.path.abspath(__file__))
COMPARE = os.path.dirname(HERE)

PLANTS = {
    "ranges that touch do not meet": ("sheet", "a[0] <= b[1] and b[0] <= a[1]", "a[0] < b[1] and b[0] < a[1]"),
    "a span ends where its last table by number does": ("sheet", "max(t.max for t in tables)", "tables[-1].max"),
    "numbers of a sheet need not differ": ("sheet", "and len({t.number for t in tables}) == len(tables)\n", "\n"),
    "a linked sum has no bound": ("sheet", " and table.linked <= MOST_BYTES", ""),
    "a sheet may weigh one byte more": ("sheet", "total(tables) <= MOST_BYTES", "total(tables) <= MOST_BYTES + 1"),
    "the blob total has no bound": ("sheet", "and blobs <= MOST_BYTES\n", "\n"),
    "level 0's runs may have gaps": ("sheet", "and runs(tables) == list(range(len(runs(tables))))\n", "\n"),
    "a sheet may have 1,025 places": ("sheet", "places <= MOST_TABLES", "places <= MOST_TABLES + 1"),
    "a run below level 0 may have any number": ("sheet", "and all(t.run == 0 for t in tables if t.level > 0)\n", "\n"),
    "a sheet need not be in order": ("sheet", "and tables == sorted(tables, key=order)\n", "\n"),
    "no table of a sheet is tested for the others of its run": ("sheet", "if any(a.max >= b.min for a, b in zip(home, home[1:])):", "if False:"),
    "level 0 moves to level 6 between its tables": ("choosers", "return bool(below) and meet(span(above), span(below))", "return meets_any(span(above), below)"),
    "free bytes count hidden tables": ("choosers", "total(t for t in self.levels[level] if t.number not in self.hidden)", "total(self.levels[level])"),
    "targets are not shifted": ("choosers", "self.settings.target_of(level - shift)\n\n    def move", "self.settings.target_of(level)\n\n    def move"),
    "products are not rounded to binary32": ("choosers", "size = single(size * ratios[min(step, len(ratios) - 1)])", "size = size * ratios[min(step, len(ratios) - 1)]"),
    "the first level is never raised": ("choosers", "if first > 1 and used and all(self.is_full(level, shift) for level in used):", "if False:"),
    "level 0 moves over hidden tables": ("choosers", "self.is_one_run and is_free and levels[first]", "self.is_one_run and levels[first]"),
    "the first among equal scores wins": ("choosers", "key=lambda level: (scores[level], level)", "key=lambda level: (scores[level], -level)"),
    "a level above an empty one scores its quotient": ("choosers", "return 99.99", "return self.free(level) / self.settings.target_of(level - shift)"),
    "level 0 takes along what it does not meet": ("choosers", "met = [t for t in self.levels[first] if meet(range_of(t), span(above))]", "met = list(self.levels[first])"),
    "the shortest window moves": ("choosers", "key=len, reverse=True", "key=len"),
    "a merge of no bytes is admissible": ("choosers", " or total(inside) == 0", ""),
    "the bound is 49 targets": ("choosers", "50 * self.settings.target", "49 * self.settings.target"),
    "the last among the cheapest is merged": ("choosers", "< total(best)", "<= total(best)"),
    "a window with a hidden table is merged": ("choosers", "are_hidden(window + inside, self.hidden)", "are_hidden(inside, self.hidden)"),
    "a canonical level is the destination": ("choosers", "return self.pick(winner, winner + 1 - shift)", "return self.pick(winner, winner + 1)"),
    "FIFO takes blobs for nothing": ("choosers", "total(level) + blobs - weight(expired)", "total(level) - weight(expired)"),
    "FIFO's linked sums are not counted": ("choosers", "return sum(t.size + t.linked for t in tables)", "return total(tables)"),
    "FIFO drops at the limit": ("choosers", "left > self.limit + weight", "left >= self.limit + weight"),
    "a table expires a nanosecond late": ("choosers", "self.seconds * 10**9 <= clock", "self.seconds * 10**9 < clock"),
    "FIFO takes the youngest first": ("choosers", "live.sort(key=lambda t: t.created)", "live.sort(key=lambda t: -t.created)"),
    "two runs are refused after a hidden table": ("choosers", "if len(runs(tables)) > 1:", "if len(runs(tables)) > 1 and not are_hidden(level, hidden):"),
    "major goes by its tables on level 6": ("choosers", '"merge", list(tables), 6, 6', '"merge", on_level(tables, 6), 6, 6'),
    "a range drop takes what meets": ("choosers", "table.max < self.high[1] or", "table.min < self.high[1] or"),
    "an included end is left out": ("choosers", 'self.high[0] == "["', 'self.high[0] == "("'),
    "an answer names by number": ("book", "choice.tables.sort(key=self.tables.index)", "choice.tables.sort(key=lambda t: t.number)"),
    "the first question of a look ahead wants ids": ("book", "first = self.ask(strategy, clock, self.hidden())", "first = self.propose(strategy, clock, ids)"),
    "look ahead hides nothing": ("book", " | {t.number for t in first.tables}", ""),
    "an id sheet needs a place to spare": ("book", "len(choice.tables) > ids", "len(choice.tables) >= ids and ids"),
    "the last hidden table is at fault": ("book", "for table in choice.tables:", "for table in reversed(choice.tables):"),
    "drops bar a span too": ("book", '"drop" not in (job.kind, choice.kind)\n            and job.destination == choice.destination\n            and', ""),
    "jobs to one level never bar each other": ("book", "job.destination == choice.destination", "False"),
    "nine jobs may run": ("book", "MOST_JOBS = 8", "MOST_JOBS = 9"),
    "255 tables may be hidden": ("book", "MOST_HIDDEN = 256", "MOST_HIDDEN = 255"),
    "257 tables may be hidden": ("book", "MOST_HIDDEN = 256", "MOST_HIDDEN = 257"),
    "a job is known by its largest number": ("book", "return min(self.numbers)", "return max(self.numbers)"),
    "outputs may have one number": ("book", "            standing.add(table.number)\n", ""),
    "an output may have the number of a table of its job": ("book", "        self.refuse_bad_tables(outputs)\n        if", "        self.refuse_bad_tables([o for o in outputs if o.number not in job.numbers])\n        if"),
    "unwanted outputs are refused before bad ones": ("book", '        self.refuse_bad_tables(outputs)\n        if (job.kind == "merge") != bool(outputs):\n            raise Refused(4)\n', '        if (job.kind == "merge") != bool(outputs):\n            raise Refused(4)\n        self.refuse_bad_tables(outputs)\n'),
    "outputs may touch": ("book", "outputs[place - 1].max < table.min", "outputs[place - 1].max <= table.min"),
    "outputs may pass the span's end": ("book", " or table.max > high", ""),
    "the place of a bad output is that before it": ("book", "raise Refused(4, place)", "raise Refused(4, max(0, place - 1))"),
    "a sheet keeps a place free": ("book", "len(tables) > self.places", "len(tables) >= self.places"),
    "the total has no bound": ("book", " or total(tables) > MOST_BYTES", ""),
    "level 0 is not counted anew": ("book", "{run: place for place, run in enumerate(runs(tables))}", "{run: run for run in runs(tables)}"),
    "each landing has a run of its own": ("book", "return last + 1 if met else last", "return last + 1"),
    "a landing looks at all of level 0": ("book", "t.run == last and meet", "meet"),
    "a dropped table stays": ("book", '"drop": []', '"drop": self.tables_of(job)'),
    "a refused close ends the job": ("book", "        self.settle(self.others(job) +", "        self.jobs.remove(job)\n        self.jobs.append(job) if len(self.others(job)) + len(outputs) <= self.places else None\n        self.settle(self.others(job) +"),
    "a closed job goes on": ("book", "for t in arrived])\n        self.jobs.remove(job)", "for t in arrived])"),
}


def plant(words, folder):
    """A copy of the comparison with one error, in a folder."""
    name, old, new = PLANTS[words]
    for file in ("calls", "build.py"):
        shutil.copy(f"{COMPARE}/{file}", folder)
    shutil.copytree(HERE, f"{folder}/model")
    with open(f"{HERE}/{name}.py", encoding="utf-8") as file:
        text = file.read()
    if text.count(old) != 1:
        raise SystemExit(f"calls: {old!r} stands {text.count(old)} times in {name}.py, and not once")
    with open(f"{folder}/model/{name}.py", "w", encoding="utf-8") as file:
        file.write(text.replace(old, new))
