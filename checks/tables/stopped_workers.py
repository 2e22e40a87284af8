"""Workers that are stopped at each of their steps, by the end of the journal or of the clock, or by a tablet that refuses a change;
and what the main seat makes of what they leave.

All is worked out by hand from docs/TABLE.md. A star stands for what isn't: how often the main seat tries runs that meet a lock.
"""
from __future__ import annotations

from tables import COPIED, ONE, Row, Tables
from tables.workers import LAST, left, starred, told, words_of

# its primary is cell 7 1, which the copy of 7 0 writes too
THREE_CELLS = "put 7 1 aa; put 7 0 2a; put 1000 0 2b\n"

# how many entries that change has up to its commit, and all that the worker does; the main seat has one more
COMMITTED, WHOLE = 7, 33

# the report up to its last line, if the change isn't committed; `report` has it for a change without a run
UNMADE = "runs copy 0\n"


def report(made: int = 2, copy: int = 0, other: int = 0) -> str:
    """The report on the change of three cells up to its last line, by its commit and those of its runs on 7 0 and 1000 0 or 0."""
    first = f"cell 7 1 commit {copy} value 2a\n" if copy else f"cell 7 1 commit {made} value aa\n"
    second = f"cell 1000 1 commit {other} value 2b\n" if other else ""
    runs = (copy > 0) + (other > 0)
    return f"cell 7 0 commit {made} value 2a\n{first}cell 1000 0 commit {made} value 2b\n{second}runs copy {runs}\n"


MADE, COPIED_FIRST, BOTH = report(), report(copy=4), report(copy=4, other=6)


def cleared(code: int) -> str:
    """What is printed for seven calls of the main seat, each of them refused with this number, or answered."""
    return f"cleared {' '.join([str(code)] * 7)}\n"


def ended_at(script: str, limit: int, committed: int, whole: int, before: str) -> Row:
    """A script of one change by one worker, where the journal ends after so many entries: the change is committed with so many,
    all that the worker does has so many, and the main seat has one more. Nobody may clear up then."""
    own = min(limit, whole)
    refusals = [44 if limit <= whole else 0, 44 if limit < whole else 0]
    text = left(refusals, [limit - own, own], [0] if limit < committed else [])
    return told(words_of("cleared", COPIED, script, limit=limit), f"{text}{before}{cleared(44)}accepted\n{before}")


def ended(script: str, committed: int, whole: int, reports: list[tuple[int, str, str]]) -> list[Row]:
    """The same for each number of entries, with what is reported from so many entries on."""
    rows = []
    for limit in range(whole + 2):
        first, last = [told[1:] for told in reports if told[0] <= limit][-1]
        rows.append(ended_at(script, limit, committed, whole, f"{first}{last}\n"))
    return rows


CHANGED_ONE = "cell 7 0 commit 2 value 2a\nruns copy 0\n"
COPIED_ONE = "cell 7 0 commit 2 value 2a\ncell 7 1 commit 4 value 2a\nruns copy 1\n"

# the change has five entries, a mark is the sixth, and the run has ten; no mark is left for two questions
JOURNAL_OF_ONE_CELL = ended(ONE, 5, 18, [
    (0, UNMADE, "quiet"),
    (3, UNMADE, "marks 0 locks 1"),
    (5, CHANGED_ONE, "marks 1 locks 0"),
    (11, CHANGED_ONE, "marks 1 locks 1"),
    (12, CHANGED_ONE, "marks 1 locks 2"),
    (14, COPIED_ONE, "marks 1 locks 1"),
    (15, COPIED_ONE, "marks 1 locks 0"),
    (16, COPIED_ONE, "quiet"),
])

# the change has nine entries; a mark and a run of ten follow, and again; and no mark is left for two questions
JOURNAL_OF_THREE_CELLS = ended(THREE_CELLS, COMMITTED, WHOLE, [
    (0, UNMADE, "quiet"),
    (3, UNMADE, "marks 0 locks 1"),
    (4, UNMADE, "marks 0 locks 2"),
    (5, UNMADE, "marks 0 locks 3"),
    (7, MADE, "marks 0 locks 2"),
    (8, MADE, "marks 1 locks 1"),
    (9, MADE, "marks 2 locks 0"),
    (15, MADE, "marks 2 locks 1"),
    (16, MADE, "marks 2 locks 2"),
    (18, COPIED_FIRST, "marks 2 locks 1"),
    (19, COPIED_FIRST, "marks 2 locks 0"),
    (20, COPIED_FIRST, "marks 1 locks 0"),
    (26, COPIED_FIRST, "marks 1 locks 1"),
    (27, COPIED_FIRST, "marks 1 locks 2"),
    (29, BOTH, "marks 1 locks 1"),
    (30, BOTH, "marks 1 locks 0"),
    (31, BOTH, "quiet"),
])


def out_of_time(timestamps: int, entries: int, refusals: list[int], last: str, then: str) -> Row:
    """The change of three cells with so few timestamps left that a begin or a stamp is refused: how many entries the worker has,
    the refusals of both seats, what is left, and what is when it is cleared up."""
    clock = LAST - timestamps
    commits = [clock + nth if nth <= timestamps else 0 for nth in (2, 4, 6)]
    first = report(*commits) if commits[0] else UNMADE
    text = left(refusals, [1, entries], [] if entries >= COMMITTED else [0])
    words = words_of("cleared", COPIED, THREE_CELLS, last=clock)
    return told(words, f"{text}{first}{last}\n{cleared(0)}accepted\n{first}{then}\n")


CLOCK = [
    out_of_time(0, 0, [0, 40], "quiet", "quiet"),
    out_of_time(1, 5, [0, 40], "marks 0 locks 3", "quiet"),
    out_of_time(2, 10, [40, 40], "marks 2 locks 0", "marks 2 locks 0"),
    out_of_time(3, 16, [40, 40], "marks 2 locks 2", "marks 2 locks 0"),
    out_of_time(4, 21, [40, 40], "marks 1 locks 0", "marks 1 locks 0"),
    out_of_time(5, 27, [40, 40], "marks 1 locks 2", "marks 1 locks 0"),
    out_of_time(6, WHOLE, [0, 0], "quiet", "quiet"),
]

# the report if the main seat makes a run or both: that on 7 0 begins above the worker's timestamps, and that on 1000 0
# above these
BOTH_MADE_UP, SECOND_MADE_UP, SECOND_ALONE = report(copy=5, other=7), report(copy=4, other=7), report(other=7)

# for each change of the table that is refused: how many entries the worker has; what the main seat's passes leave; and the last
# line when it is cleared up; a run that stopped with its lock on the cell that it copies to is in the way of each later one, since
# nobody reads that cell
REFUSED = [
    (2, UNMADE, "quiet", "quiet"),
    (3, UNMADE, "marks 0 locks 1", "quiet"),
    (4, UNMADE, "marks 0 locks 2", "quiet"),
    (6, UNMADE, "marks 0 locks 3", "quiet"),
    (7, MADE, "marks 0 locks 2", "marks 2 locks 0"),
    (8, COPIED_FIRST, "marks 0 locks 1", "marks 1 locks 0"),
    (14, BOTH_MADE_UP, "quiet", "quiet"),
    (15, BOTH_MADE_UP, "quiet", "quiet"),
    (17, SECOND_ALONE, "marks 1 locks 1", "marks 1 locks 0"),
    (18, SECOND_MADE_UP, "marks 0 locks 1", "quiet"),
    (19, SECOND_MADE_UP, "quiet", "quiet"),
    (25, SECOND_MADE_UP, "quiet", "quiet"),
    (26, SECOND_MADE_UP, "quiet", "quiet"),
    (28, COPIED_FIRST, "marks 1 locks 1", "marks 1 locks 0"),
    (29, BOTH, "marks 0 locks 1", "quiet"),
    (30, BOTH, "quiet", "quiet"),
    (WHOLE, BOTH, "quiet", "quiet"),
]


def out_of_memory(refused: int, entries: int, first: str, last: str, then: str) -> Row:
    """The change of three cells, where the tablet refuses this one of its changes."""
    own = 1 if entries < WHOLE else 0
    text = left([0, own], ["*", entries], [] if entries >= COMMITTED else [0])
    words = words_of("cleared", COPIED, THREE_CELLS, sorts="l", refused=refused)
    return starred(words, f"{text}{first}{last}\n{cleared(0)}accepted\n{first}{then}\n")


MEMORY = [out_of_memory(number, *row) for number, row in enumerate(REFUSED)]

TABLES: Tables = {
    "the journal ends after each entry of a change of one cell": JOURNAL_OF_ONE_CELL,
    "the journal ends after each entry of a change of three cells": JOURNAL_OF_THREE_CELLS,
    "the clock ends at each timestamp": CLOCK,
    "memory ends before each change of the table": MEMORY,
}
