"""What `percobpf_keep` does with the observers of hostile_observers.py, as a plain model, for `checks/hostile`.

It is written from docs/TABLE.md ("Workers") and docs/KEEPING.md alone: passes over the marked cells, of which so many are made after a
change, with so many runs; what a compaction keeps; and what a limit of entries refuses. Cells are rows with columns, in this order.
"""
from __future__ import annotations

import heapq
from collections import Counter
from dataclasses import dataclass, field

from hostile_observers import MAX_PASSES, MAX_RUNS

# How many entries a table may have where no other limit is named, and how many a run is reckoned with. A full table refuses a change.
LIMIT, OF_RUN, FULL = 10_000_000, 34, "refused 79"


@dataclass
class HostileTable:
    """The commit of the newest write of each cell, and the cells whose newest write is a deletion; the marked cells; what each observer has
    acknowledged; how many versions of each cell and of each acknowledgment there are; the clock, and what it was when the log was compacted
    last; and of each observer how many runs are committed. It may have so many entries."""

    observers: tuple
    limit: int = LIMIT
    newest: dict = field(default_factory=dict)
    deleted: set = field(default_factory=set)
    marks: set = field(default_factory=set)
    acknowledged: dict = field(default_factory=dict)
    versions: Counter = field(default_factory=Counter)
    stamps: Counter = field(default_factory=Counter)
    clock: int = 0
    begun: int = 0
    runs: list = field(default_factory=list)

    def __post_init__(self):
        self.runs = [0 for _ in self.observers]
        self.observe(self.observers)

    def observe(self, observers):
        """The table has these observers."""
        columns = {it.column for it in observers}
        self.observers = observers
        self.of_column = {column: [at for at, it in enumerate(observers) if it.column == column] for column in columns}

    def write(self, cells, is_deletion):
        """A transaction that has begun commits these writes."""
        self.clock += 1
        if is_deletion:
            self.deleted.update(cells)
        else:
            self.deleted.difference_update(cells)
        self.versions.update(cells)
        for cell in cells:
            self.newest[cell] = self.clock
            if cell[1] in self.of_column:
                self.marks.add(cell)

    def is_behind(self, number, cell):
        return self.newest[cell] > self.acknowledged.get((number, cell), 0)

    def is_left(self, cell):
        """Whether an observer is behind on a cell."""
        return any(self.is_behind(it, cell) for it in self.of_column.get(cell[1], ()))

    def run(self, number, cell):
        """A run of an observer on a marked cell. It is committed if the observer is behind. Answers the cells that it writes."""
        self.clock += 1
        if not self.is_behind(number, cell):
            return []
        observer, start = self.observers[number], self.clock
        cells = observer.writes(cell[0])
        self.write(cells, observer.deletes)
        self.acknowledged[number, cell] = start
        self.stamps[number, cell] += 1
        self.runs[number] += 1
        if not self.is_left(cell):
            self.marks.discard(cell)
        return cells

    def pass_over(self, left):
        """One pass, with so many runs at most. Answers how many were made, and whether it found a mark, or None where one more is due."""
        ahead, made, last = [*self.marks], 0, None
        heapq.heapify(ahead)
        while ahead:
            cell = heapq.heappop(ahead)
            if cell not in self.marks or (last is not None and cell <= last):
                continue
            for number in self.of_column[cell[1]]:
                if made == left:
                    return made, None
                made += 1
                for other in self.run(number, cell):
                    if other > cell and other in self.marks:
                        heapq.heappush(ahead, other)
            last = cell
        return made, last is not None

    def change(self, cell):
        """A change of one cell, with what follows. Answers as the program does."""
        left = self.limit - self.entries()
        if left <= 0:
            return FULL
        self.clock += 1
        self.write([cell], False)
        commit = self.clock
        runs, rests = self.drain(min(MAX_RUNS, left // OF_RUN))
        return f"made {commit} runs {runs}" if rests else f"made {commit} unquiet"

    def drain(self, most):
        """Passes, with so many runs at most. Answers how many were committed, and whether the last pass found no mark."""
        made, before = 0, sum(self.runs)
        for _ in range(MAX_PASSES):
            runs, goes_on = self.pass_over(most - made)
            made += runs
            if goes_on is None:
                break
            if not goes_on:
                return sum(self.runs) - before, True
        return sum(self.runs) - before, False

    def compact(self):
        """Its log is compacted: of each cell that an observer is behind on all versions are kept, of each other and of each acknowledgment the
        newest. Answers how many these are. Each cell that one is behind on is marked, and no other."""
        self.marks = {cell for cell in self.newest if self.is_left(cell)}
        self.versions = Counter({cell: count if cell in self.marks else 1 for cell, count in self.versions.items()})
        self.stamps, self.begun = Counter(dict.fromkeys(self.stamps, 1)), self.clock
        return self.entries() // 2

    def entries(self):
        """How many entries the table has: two for each version."""
        return 2 * (self.versions.total() + self.stamps.total())

    def go_on_with(self, observers):
        """Its log is given a manifest with these of its observers alone, which keep what they have acknowledged. Answers what is printed of
        that, after how many changes the log has."""
        self.compact()
        places = {self.observers.index(it): place for place, it in enumerate(observers)}
        gone, self.runs = len(self.observers) - len(observers), [self.runs[number] for number in places]
        self.acknowledged = {(places[it], cell): start for (it, cell), start in self.acknowledged.items() if it in places}
        self.stamps = Counter({(places[it], cell): count for (it, cell), count in self.stamps.items() if it in places})
        self.observe(observers)
        self.marks = {cell for cell in self.newest if self.is_left(cell)}
        runs, _ = self.drain(MAX_RUNS + self.entries() * len(observers))
        return f"added 0 runs {runs} gone {gone}\ncompacted {self.compact()}\n"

    def quiet(self):
        return f"marks {len(self.marks)} locks 0" if self.marks else "quiet"

    def line(self, cell):
        return f"cell {cell[0]} {cell[1]} commit {self.newest[cell]} {'deleted' if cell in self.deleted else 'value 2a'}"

    def list(self):
        runs = [f"runs {it.name} {count}" for it, count in zip(self.observers, self.runs)]
        return [*map(self.line, sorted(self.newest)), *runs, self.quiet(), "end"]

    def since_last(self):
        """The commit before that of the last writes, and the answer to `since` it: these, or a refusal, where the log was compacted after
        them."""
        last = max(self.newest.values())
        if last <= self.begun:
            return last - 1, [f"refused 77 {self.begun}"]
        return last - 1, [*(self.line(cell) for cell in sorted(it for it, commit in self.newest.items() if commit == last)), "end"]

    def get(self, cell):
        return f"{'deleted' if cell in self.deleted else 'value 2a'} commit {self.newest[cell]}"

    def stats(self):
        """How the lines of `stats` begin, but that on the size of the log."""
        of = zip(self.observers, self.runs)
        lines = [f"stats {it.name} runs {count} nonzero {count if it.result else 0} conflicts 0 asks 0 instructions " for it, count in of]
        return [*lines, f"entries {self.entries()}", "end"]
