"""A plain model of what `percobpf_keep` answers, over the table of model.py.

It is written from docs/KEEPING.md and docs/FORMATS.md alone. It takes lines as bytes, and none of them is put into a log.
"""
from __future__ import annotations

import json
from dataclasses import astuple

import logs
import model
from faults import LAST, Fault, number, read_change, taken
from logs import Snapshot, Version

MOST_BYTES, MOST_CHANGES = 4096, 10_000
OUT_OF_PLACE, TOO_MANY, GONE, NOT_MADE, FULL = 76, 75, 77, 78, 79
# How many runs follow a change at most, and how many entries a run leaves at most: of 16 cells and of an acknowledgment, two of each.
MOST_RUNS, MOST_OF_RUN = 100_000, 2 * (16 + 1)
# The last timestamp after which no change is taken: each of 10,000 changes may need two, and each of its runs.
MOST_CLOCK = LAST - 10_000 * 2 * (1 + MOST_RUNS)

# the words of one line alone, without operands
ALONE = ("list", "quiet?", "stats", "begin", "end", "compact")

# how the line of `stats` on the log is shown, before how often it began anew, and the number of its changes since then: how many bytes
# these have is known to those who have the file, since it depends on which of them share a record
LOG_OF = "log of "


def read_cell(words):
    """A row and a column."""
    return number(taken(words, 70), 0, LAST, 70, 71), number(taken(words, 70), 0, 15, 70, 71)


def read_commit(words):
    return number(taken(words, 70), 0, LAST, 70, 71)


def read_request(line):
    """What a line asks for: its verb, and its operands as numbers. The operations of a change aren't read."""
    if len(line) > MOST_BYTES:
        raise Fault(70)
    try:
        text = line.decode()
    except UnicodeDecodeError:
        raise Fault(70) from None
    first, semicolon, operations = text.partition("; ")
    verb, *words = (first if text.startswith("if ") else text).split(" ")
    if verb in ("put", "del"):
        return "change", text
    if verb == "get":
        operands = read_cell(words)
    elif verb in ("since", "copy"):
        operands = (read_commit(words),)
    elif verb == "if" and semicolon:
        operands = (*read_cell(words), read_commit(words), operations)
    elif verb in ALONE:
        operands = ()
    else:
        raise Fault(70)
    if words:
        raise Fault(70)
    return verb, *operands


def known_by(manifest):
    """What makes each observer of a manifest the same as one of another manifest. Helpers are a set."""
    its = json.loads(manifest)
    return [
        (it["name"], it["column"], bytes.fromhex(it["code"]), frozenset(it["helpers"]), its["profile"], it.get("record", 1))
        for it in its["observers"]
    ]


class OneSeat(model.Table):
    """A table of one seat, whose records of a cell rise in the order in which they are made, so that the newest is soon found."""

    def newest(self, cell, ts):
        its = self.records[cell]
        commit = next((commit for commit in reversed(its) if commit <= ts), None)
        return None if commit is None else (its[commit], commit, self.data[cell][its[commit]])

    def has_record_from(self, cell, start):
        return next(reversed(self.records[cell]), 0) >= start


class KeptTable:
    """A table with observers; `known` says which of them are those of another manifest. `lines` are those of its changes since it began,
    and `groups` says which of them are of one group: from one place up to another. Of the writes up to `begun` some are gone, and `before`
    are the runs that were committed by then.
    It has begun anew so often: `generation`. `size` has the bytes of its log, if each line is sent once the one before it is answered. From
    `least` bytes on it is compacted, and next from `large` bytes on.
    It may have so many entries: `limit`. So many changes of the record that isn't over yet were taken: `recorded`. And so often there
    weren't all runs after a change that there would have been without a limit: `cut_off`."""

    def __init__(self, manifest, limit=logs.DEFAULT_LIMIT):
        self.manifest, self.limit = manifest, limit
        # how many runs observers make as they catch up, beside one for each entry and each observer
        self.catching_up = MOST_RUNS
        self.recorded = self.cut_off = 0
        self.observers, self.known = model.observers_of(manifest), known_by(manifest)
        self.table = OneSeat(self.observers)
        self.begun, self.generation, self.lines, self.groups = 0, 0, [], []
        self.size, self.least, self.large = 0, LAST, LAST
        self.log_has([])
        self.before = [0] * len(self.observers)
        # the copies of its log, by their numbers
        self.copies = {}
        # the answers of a group that hasn't ended, and the changes of it
        self.waiting, self.changes = None, []

    def newest(self, row, column):
        """The start, the commit and the content of the newest write of a cell, or None."""
        return self.table.newest(model.data_cell(row, column), self.table.clock)

    def commit_of(self, row, column):
        newest = self.newest(row, column)
        return newest[1] if newest else 0

    def left(self):
        """What is left to do."""
        locks = sum(map(len, self.table.locks.values()))
        return f"marks {len(self.table.marks)} locks {locks}" if self.table.marks or locks else "quiet"

    def is_behind(self, cell):
        """Whether an observer is behind on a data cell: it hasn't acknowledged the newest write."""
        return any(column == cell[1] and self.table.is_behind(number, cell) for number, column in enumerate(self.table.columns))

    def entries(self):
        """How many entries the table has."""
        table = self.table
        return sum(len(its) for sort in (table.data, table.locks, table.records) for its in sort.values())

    def stats(self):
        """What each observer has done, and the sizes of the log and of the table."""
        lines = [
            f"stats {it.name} runs {its.runs} nonzero {its.nonzero} conflicts {its.conflicts} asks {its.asks} instructions {its.instructions}"
            for it, its in zip(self.observers, self.table.counts)
        ]
        return [*lines, f"{LOG_OF}{self.generation} {len(self.lines)}", f"entries {self.entries()}", "end"]

    def runs(self):
        """How many runs of each observer are committed, also before the table began anew."""
        return [sum(its) for its in zip(self.before, model.runs_in(self.table, self.observers))]

    def report(self):
        return [*model.report(self.table, self.observers, self.runs()).splitlines(), "end"]

    def log_has(self, records):
        """The log is one of these records, after its header."""
        self.size = sum(13 + len(item) for item in (logs.header(self.manifest.encode(), self.limit), *records))

    def make_all(self, lines):
        """Makes changes that share a record of the log, and answers each."""
        self.size += 13 + sum(len(line) + 1 for line in lines) if lines else 0
        return [self.make(line) for line in lines]

    def make(self, line):
        """Makes a change, and answers it."""
        before, most = len(self.table.transactions), self.most_runs()
        model.ended(model.change(self.table, 0, model.writes_of(line)))
        commit = self.table.clock
        is_at_rest = model.passes(self.table, 0, self.observers, most)
        self.lines.append(line)
        after = list(self.table.transactions.values())[before + 1 :]
        self.cut_off += not is_at_rest and len(after) == most < MOST_RUNS
        return f"made {commit} runs {sum(it.phase == 'committed' for it in after)}" if is_at_rest else f"made {commit} unquiet"

    def most_runs(self):
        """How many runs the next change has at most after it: the table's limit has room for what each of them may leave."""
        return min(MOST_RUNS, max(self.limit - self.entries(), 0) // MOST_OF_RUN)

    def is_full(self):
        """Whether the first change of a record is refused."""
        return self.entries() >= self.limit or self.table.clock > MOST_CLOCK

    def has_room(self):
        """A change comes, and is one of the record, if there is room for it. That is looked at for the first change of a record."""
        if self.recorded == 0 and self.is_full():
            raise Fault(FULL)
        self.recorded += 1

    def end_record(self):
        """What has come is kept, but for a group that hasn't ended. So the next change is the first one of a record."""
        if self.waiting is None:
            self.recorded = 0

    def get(self, row, column):
        newest = self.newest(row, column)
        return [f"{model.shown(newest[2])} commit {newest[1]}" if newest else "absent"]

    def taken_of(self, cell):
        """The commits and starts of the versions of a cell that a snapshot takes: of a data cell that an observer is behind on all of them,
        and of any other the newest."""
        rising = sorted(self.table.records[cell].items())
        return rising if model.is_data(cell) and self.is_behind(cell) else rising[-1:]

    def snapshot(self, places=None):
        """The versions that are taken of each cell, of which those of one transaction follow one another, and what the observers have done;
        or what a snapshot has of the observers at these places, each with the number of its place."""
        table, places = self.table, range(len(self.observers)) if places is None else places
        # of each cell, the one that it will be
        cells = {cell: cell for cell in table.records if model.is_data(cell)}
        cells |= {cell: (*cell[:3], places.index(cell[3])) for cell in table.records if not model.is_data(cell) and cell[3] in places}
        taken = [(cell, commit, start) for cell in cells for commit, start in self.taken_of(cell)]
        versions = [Version(start, cells[cell], commit, table.data[cell][start]) for cell, commit, start in taken]
        in_order = sorted(versions, key=lambda it: (it.start, it.cell))
        return Snapshot(table.clock, [astuple(table.counts[place]) for place in places], in_order)

    def begin_anew(self, places=None):
        """Begins anew with the versions of a snapshot, and with the observers at these places alone. What is left of a transaction has
        declared those of them that it wrote. Each cell that one of these observers is behind on is marked, and no other."""
        places = range(len(self.observers)) if places is None else places
        snapshot, runs, counts = self.snapshot(places), self.runs(), self.table.counts
        self.observers, self.known = [self.observers[place] for place in places], [self.known[place] for place in places]
        self.before, table = [runs[place] for place in places], OneSeat(self.observers, self.table.clock)
        for it in snapshot.versions:
            table.data[it.cell][it.start] = it.content
            table.records[it.cell][it.commit] = it.start
            own = table.transactions.setdefault(it.start, model.Transaction(None, "script", "committed", it.commit))
            own.declared.append((it.cell, it.content))
        table.counts = [counts[place] for place in places]
        self.table, self.begun, self.lines, self.groups = table, table.clock, [], []
        table.marks = {cell for cell in [*table.records] if model.is_data(cell) and self.is_behind(cell)}
        self.generation += 1
        self.log_has([logs.snapshot_record(snapshot)])
        return len(snapshot.versions)

    def compact(self):
        """Begins anew, where a timestamp is left. Answers how many versions it has then, or None."""
        if self.table.clock == LAST:
            return None
        versions = self.begin_anew()
        self.large = max(self.least, 2 * self.size)
        return versions

    def copy(self, number):
        """The log is copied, where no copy has this number yet. A copy has the changes of now, and this limit."""
        if number in self.copies:
            return f"refused {NOT_MADE}"
        self.copies[number] = self.manifest, self.limit, self.begun, [*self.lines]
        return f"copied {len(self.lines)}"

    def start(self, least=LAST):
        """A program is started, by which its log is compacted from so many bytes on."""
        self.least, self.large = least, least
        self.compact_large()

    def compact_large(self):
        """Begins anew where its log is large. Where no timestamp is left, it is left until the log has twice the bytes."""
        if self.size >= self.large and self.compact() is None:
            self.large = 2 * self.size

    def change_observers(self, manifest):
        """Goes on with the observers of this manifest: with those that it has, then with the others, and passes are made, until no cell is
        marked, or so many as may be made; and then in the order of the manifest, if that is another one, with passes of its own. Answers
        how many came, how many runs were committed in the passes that came first, and how many are gone."""
        observers, known, had = model.observers_of(manifest), known_by(manifest), len(self.known)
        self.begin_anew([self.known.index(it) for it in known if it in self.known])
        stayed = len(self.known)
        runs = self.observe_also([(it, its) for it, its in zip(observers, known) if its not in self.known])
        self.manifest, places = manifest, [self.known.index(it) for it in known]
        if places != sorted(places):
            self.begin_anew(places)
            self.observe_also([])
        return len(known) - stayed, runs, had - stayed

    def observe_also(self, added):
        """Gets observers after its own, or none, and makes passes, with a run more for each entry and each observer than after a change.
        Answers how many runs were committed."""
        observers, table, before = [it for it, _ in added], self.table, len(self.table.transactions)
        self.observers, self.known = [*self.observers, *observers], [*self.known, *(its for _, its in added)]
        self.before += [0 for _ in added]
        table.observers, table.columns = self.observers, [it.column for it in self.observers]
        table.counts += [model.Counts() for _ in added]
        columns = {it.column for it in observers}
        table.marks |= {cell for cell, its in table.records.items() if its and model.is_data(cell) and cell[1] in columns}
        model.passes(table, 0, self.observers, self.catching_up + self.entries() * len(self.observers))
        return sum(it.phase == "committed" for it in list(table.transactions.values())[before:])

    def since(self, above):
        """The writes above a commit, in the order of commits, and of cells within one. Of those up to where the table began, some are
        gone."""
        if above < self.begun:
            return [f"refused {GONE} {self.begun}"]
        cells = [cell for cell in self.table.records if model.is_data(cell)]
        writes = [(commit, cell, start) for cell in cells for commit, start in self.table.records[cell].items() if commit > above]
        return [*(self.line(*write) for write in sorted(writes)), "end"]

    def line(self, commit, cell, start):
        return f"cell {cell[0]} {cell[1]} commit {commit} {model.shown(self.table.data[cell][start])}"

    def change_if(self, row, column, commit, operations):
        read_change(operations)
        newest = self.commit_of(row, column)
        if newest != commit:
            return [f"unmade commit {newest}"]
        self.has_room()
        return self.make_all([operations])

    def grouped(self, verb, operands):
        """Takes a line of a group, of which nothing is answered before its end."""
        if verb == "change":
            read_change(*operands)
            if len(self.changes) == MOST_CHANGES:
                raise Fault(TOO_MANY)
            self.has_room()
            self.changes.append((len(self.waiting), *operands))
            self.waiting.append(None)
        elif verb == "end":
            return self.end()
        else:
            raise Fault(OUT_OF_PLACE)
        return []

    def end(self):
        """Makes the changes of a group, and answers its lines."""
        self.groups.append((len(self.lines), len(self.lines) + len(self.changes)))
        places = [place for place, _ in self.changes]
        for place, answer in zip(places, self.make_all([line for _, line in self.changes])):
            self.waiting[place] = answer
        answers = [*self.waiting, "ended"]
        self.waiting, self.changes = None, []
        return answers

    def asked(self, verb, operands):
        """Takes a line that stands in no group. All but a change and an `end` are taken once what came before is kept."""
        if verb == "change":
            read_change(*operands)
            self.has_room()
            return self.make_all(operands)
        if verb != "end":
            self.end_record()
        if verb == "if":
            return self.change_if(*operands)
        if verb == "begin":
            self.waiting = ["begun"]
            return []
        if verb == "end":
            raise Fault(OUT_OF_PLACE)
        if verb == "list":
            return self.report()
        if verb == "quiet?":
            return [self.left()]
        if verb == "stats":
            return self.stats()
        if verb == "copy":
            return [self.copy(*operands)]
        if verb == "compact":
            versions = self.compact()
            return [f"refused {NOT_MADE}" if versions is None else f"compacted {versions}"]
        return self.get(*operands) if verb == "get" else self.since(*operands)

    def take(self, line, has_more=False):
        """Takes a line, and answers it; or, at the end of a group, all of its lines. If a line more has come with it, what it changes waits
        for that."""
        answers = self.answers_to(line)
        if not has_more:
            self.end_record()
        return answers

    def answers_to(self, line):
        try:
            verb, *operands = read_request(line)
            return self.asked(verb, operands) if self.waiting is None else self.grouped(verb, operands)
        except Fault as fault:
            refusal = f"refused {fault.args[0]}"
        if self.waiting is None:
            return [refusal]
        self.waiting.append(refusal)
        return []

    def drop_group(self):
        """The input ends within a group: nothing of it is made."""
        self.waiting, self.changes, self.recorded = None, [], 0
