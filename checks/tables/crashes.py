"""Changes of five and of three cells, and runs of observers, that stop after each of their steps, and what clears up after them.

Worked out by hand from docs/TABLE.md, "Where a worker stops half way" and "The conversation of a run".
"""
from __future__ import annotations

from collections.abc import Callable
from dataclasses import dataclass

from tables import CHANGED, COPIED, NOBODY, ONE, WATCHED, Row, Tables, encoded, manifest_of, observer, replay

# its primary is cell 1 1; the last cell is of the second tablet
FIVE_CELLS = "put 1 1 01; put 1 0 02; put 2 0 03; put 3 1 04; put 1000 0 05\n"

CELLS = (
    "cell 1 0 commit 2 value 02\ncell 1 1 commit 2 value 01\ncell 2 0 commit 2 value 03\ncell 3 1 commit 2 value 04\n"
    "cell 1000 0 commit 2 value 05\n"
)

CLEAN_UP = "settle 1 1\nclear 1 0\nclear 2 0\nclear 3 1\nclear 1000 0\n"

RUNS = "".join(f"launch 1 run watch {row}\nstep 1 100\n" for row in (1, 2, 1000))

# the last line of the report where the change stops after so many steps: begin, declare, five prewrites, stamp, the
# primary's commit, and those of four cells
LEFT = [
    "quiet",
    "quiet",
    "quiet",
    "marks 0 locks 1",
    "marks 0 locks 2",
    "marks 0 locks 3",
    "marks 0 locks 4",
    "marks 0 locks 5",
    "marks 0 locks 5",
    "marks 0 locks 4",
    "marks 1 locks 3",
    "marks 2 locks 2",
    "marks 2 locks 1",
    "marks 3 locks 0",
]

# so many steps until it is committed
COMMITTED = 9


def five_cells_crash(steps: int, more: str, runs: int, last: str) -> Row:
    """A crash after so many steps, and more, with these runs and this last line of the report."""
    made = f"step 1 {steps}\n" if steps else ""
    cells = CELLS if steps >= COMMITTED else ""
    schedule = f"launch 1 change 1\n{made}crash 1\n{more}"
    return replay(WATCHED, FIVE_CELLS, schedule, f"{cells}runs watch {runs}\n{last}\n")


AFTER_EACH_STEP = [five_cells_crash(steps, "", 0, last) for steps, last in enumerate(LEFT)]

# before the primary's commit all is taken back, and after it all is committed
CLEARED = [five_cells_crash(steps, CLEAN_UP, 0, "quiet") for steps in range(COMMITTED)] + [
    five_cells_crash(steps, CLEAN_UP, 0, "marks 3 locks 0") for steps in range(COMMITTED, len(LEFT))
]

OBSERVED = [five_cells_crash(steps, CLEAN_UP + RUNS, 0, "quiet") for steps in range(COMMITTED)] + [
    five_cells_crash(steps, CLEAN_UP + RUNS, 3, "quiet") for steps in range(COMMITTED, len(LEFT))
]

# runs clear the locks that they meet themselves, which that on 3 1 isn't
MET_BY_RUNS = [five_cells_crash(steps, RUNS, 3, "marks 0 locks 1") for steps in (9, 10, 11)] + [
    five_cells_crash(steps, RUNS, 3, "quiet") for steps in (12, 13)
]

# its primary is cell 7 2, and nobody observes it
THREE_CELLS = "del 7 2; del 7 0; del 7 1\n"

DELETED = "cell 7 0 commit 2 deleted\ncell 7 1 commit 2 deleted\ncell 7 2 commit 2 deleted\n"


def stopped(steps: int, more: str, last: str, is_committed: bool) -> Row:
    """A worker that makes so many steps and no more, and then others."""
    made = f"step 1 {steps}\n" if steps else ""
    cells = DELETED if is_committed else ""
    return replay(NOBODY, THREE_CELLS, f"launch 1 change 1\n{made}{more}", f"{cells}{last}\n")


# how many steps are made, whether the change is committed then, and the last line
STOPS = [
    (0, False, "quiet"),
    (1, False, "quiet"),
    (2, False, "quiet"),
    (3, False, "marks 0 locks 1"),
    (4, False, "marks 0 locks 2"),
    (5, False, "marks 0 locks 3"),
    (6, False, "marks 0 locks 3"),
    (7, True, "marks 0 locks 2"),
    (8, True, "marks 0 locks 1"),
    (9, True, "quiet"),
]

STOPPED = [stopped(steps, "", last, is_committed) for steps, is_committed, last in STOPS]

STOPPED_AND_CLEARED = [
    stopped(steps, "settle 7 2\nclear 7 0\nclear 7 1\n", "quiet", is_committed) for steps, is_committed, _ in STOPS
]



@dataclass(frozen=True)
class Writer:
    """An observer of column 0: its instructions, and what it leaves in column 1 of which rows where it runs on cell 7 0."""

    name: str
    manifest: str
    instructions: int
    rows: tuple[int, ...]
    content: str

    # the events of its run are begin, two reads, the instructions, declare, a prewrite of the acknowledgment and of each cell,
    # stamp, the primary's commit, that of each cell, and sweep: so many until it is
    @property
    def declared(self) -> int:
        return 4 + self.instructions

    @property
    def stamped(self) -> int:
        return self.declared + 1 + len(self.rows) + 1

    @property
    def committed(self) -> int:
        return self.stamped + 1

    @property
    def swept(self) -> int:
        return self.committed + len(self.rows) + 1

    def report(self, commit: int | None, marks: int, locks: int) -> str:
        """The report if a run of it is committed then, or none is, and so much is left."""
        lines = {(7, 0): CHANGED}
        if commit is not None:
            lines |= {(row, 1): f"cell {row} 1 commit {commit} {self.content}\n" for row in self.rows}
        last = f"marks {marks} locks {locks}" if marks or locks else "quiet"
        return f"{''.join(lines[cell] for cell in sorted(lines))}runs {self.name} {len(lines) > 1:d}\n{last}\n"

    def clean_up(self) -> str:
        """What others do with the acknowledgment, which is the primary, and then with each cell."""
        return f"settle ack {self.name} 7\n" + "".join(f"clear {row} 1\n" for row in self.rows)

    def run_behind(self) -> str:
        """The run of another actor on the same cell."""
        return f"launch 3 run {self.name} 7\nstep 3 100\n"


COPIER = Writer("copy", COPIED, 16, (7,), "value 2a")

# ten cells of the first tablet, and six of the second
SIXTEEN_ROWS = tuple(range(0, 1600, 100))

SIXTEEN_DELETIONS = encoded(*(f"mov64 r1, {row}; mov64 r2, 1; call 3" for row in SIXTEEN_ROWS), "mov64 r0, 0; exit").hex()

DELETER = Writer("delete", manifest_of(observer("delete", 0, "3", SIXTEEN_DELETIONS)), 50, SIXTEEN_ROWS, "deleted")


def run_crash(writer: Writer, steps: int, more: str, report: str) -> Row:
    """A run after the one change that crashes after so many events, and more."""
    made = f"step 2 {steps}\n" if steps else ""
    schedule = f"launch 1 change 1\nstep 1 5\nlaunch 2 run {writer.name} 7\n{made}crash 2\n{more}"
    return replay(writer.manifest, ONE, schedule, report)


def locks_at(writer: Writer, steps: int) -> int:
    """How many locks of the run stand after so many events: those of prewrites, and then those that aren't committed yet."""
    if steps < writer.committed:
        return max(0, min(steps, writer.stamped - 1) - writer.declared)
    return max(0, len(writer.rows) + writer.committed - steps)


def commit_at(writer: Writer, steps: int) -> int | None:
    """When the run is committed that does so many events: it begins at 3, after the change."""
    return 4 if steps >= writer.committed else None


def commit_behind(writer: Writer, steps: int) -> int:
    """When the run is committed, or else that of another after it, which begins with the next timestamp."""
    if steps == 0 or steps >= writer.committed:
        return 4
    return 6 if steps == writer.stamped else 5


def crashed(writer: Writer, steps: int) -> Row:
    marks = 0 if steps == writer.swept else 1
    return run_crash(writer, steps, "", writer.report(commit_at(writer, steps), marks, locks_at(writer, steps)))


def crashed_and_waiting(writer: Writer, steps: int) -> Row:
    """`Clear` alone takes no lock away whose primary has one, and leaves a primary; it commits the cells of a committed run."""
    more = f"clear ack {writer.name} 7\n" + "".join(f"clear {row} 1\n" for row in writer.rows)
    commit = commit_at(writer, steps)
    locks = locks_at(writer, steps) if commit is None else 0
    return run_crash(writer, steps, more, writer.report(commit, 0 if steps == writer.swept else 1, locks))


def crashed_and_cleared(writer: Writer, steps: int) -> Row:
    """The mark stays, whether the run is committed or not, as long as nobody sweeps."""
    marks = 0 if steps == writer.swept else 1
    return run_crash(writer, steps, writer.clean_up(), writer.report(commit_at(writer, steps), marks, 0))


def crashed_and_swept(writer: Writer, steps: int) -> Row:
    """The mark goes where the run is committed, and stays where the observer has not run on the change."""
    commit = commit_at(writer, steps)
    return run_crash(writer, steps, f"{writer.clean_up()}sweep 7 0\n", writer.report(commit, 1 if commit is None else 0, 0))


def crashed_cleared_and_run(writer: Writer, steps: int) -> Row:
    """A run after it makes it up, or finds nothing newer; both sweep."""
    more = writer.clean_up() + writer.run_behind()
    return run_crash(writer, steps, more, writer.report(commit_behind(writer, steps), 0, 0))


def crashed_and_run(writer: Writer, steps: int) -> Row:
    """Without a clean-up the run after it settles the acknowledgment that it reads. It doesn't read the cells that it writes:
    where one is locked, it is in conflict, and the mark stays; and where it finds nothing newer, it leaves their locks."""
    locks = locks_at(writer, steps) - 1 if steps < writer.committed else locks_at(writer, steps)
    if steps < writer.committed and locks > 0:
        return run_crash(writer, steps, writer.run_behind(), writer.report(None, 1, locks))
    return run_crash(writer, steps, writer.run_behind(), writer.report(commit_behind(writer, steps), 0, max(0, locks)))


def after_each(row: Callable[[Writer, int], Row]) -> list[Row]:
    return [row(writer, steps) for writer in (COPIER, DELETER) for steps in range(writer.swept + 1)]


RUNS_AFTER_EACH_STEP = after_each(crashed)

RUNS_WAITING = after_each(crashed_and_waiting)

RUNS_CLEARED = after_each(crashed_and_cleared)

RUNS_SWEPT = after_each(crashed_and_swept)

RUNS_CLEARED_AND_RUN_AGAIN = after_each(crashed_cleared_and_run)

RUNS_MET_BY_RUNS = after_each(crashed_and_run)

TABLES: Tables = {
    "after each step": AFTER_EACH_STEP,
    "cleared": CLEARED,
    "observed": OBSERVED,
    "met by runs": MET_BY_RUNS,
    "stopped": STOPPED,
    "stopped and cleared": STOPPED_AND_CLEARED,
    "runs after each step": RUNS_AFTER_EACH_STEP,
    "runs waiting": RUNS_WAITING,
    "runs cleared": RUNS_CLEARED,
    "runs swept": RUNS_SWEPT,
    "runs cleared and run again": RUNS_CLEARED_AND_RUN_AGAIN,
    "runs met by runs": RUNS_MET_BY_RUNS,
}
