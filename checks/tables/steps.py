"""Steps of a shared table, each with the seat that asks: what `test_table` prints for each, and what stands in the table then.

A step is written as the program takes it, with its answer after it, so that a row is the whole story. All is worked out by hand
from docs/TABLE.md.
"""
from __future__ import annotations

import re
from collections.abc import Iterator

from tables import NOBODY, ROWS, START, WATCHED, Row, Tables, manifest_of, observer

# what the program is given of a run alone, in brackets
GIVEN = re.compile(r" \[([^]]*)\]")


def asked(line: str) -> str:
    """The step of a line, as the program takes it."""
    step = line.partition(" -> ")[0]
    found = GIVEN.search(step)
    return step if found is None else f"{step[:found.start()]} {found[1]}"


def steps(text: str, manifest: str = NOBODY, last: int = 0, limit: int = 100, tablets: str = "0l") -> Row:
    """The steps of this story."""
    words = [asked(line) for line in text.splitlines() if " -> " in line]
    told = GIVEN.sub("", text).encode()
    return Row(["table", tablets, str(last), str(limit), manifest, *words], out=told, program=ROWS)


def of_run(
    start: int, version: str, acknowledged: int = 0, before: str = "deleted", reply: str = "deleted", program: str = "watch",
    cell: str = "7 0",
) -> str:
    """What a run is made of: whose program runs, from which start, on which version of the cell and on what of before, and what is
    replied to each of its asks."""
    return f"[{program} {start} {cell} {version} {acknowledged} {before} {reply}]"


def change(start: int, content: str = "deleted") -> str:
    """A change of cell 7 0 by seat 1, which commits one above its start."""
    return f"""\
1 begin script -> at {start}
1 declare {start} script; 7 0 {content} -> done
1 prewrite {start} 7 0 -> done
1 stamp {start} -> at {start + 1}
1 commit {start} -> committed
"""


# What rivals do with a transaction of two cells that stops half way.

# one settles the primary, so that it can't commit any more
ROLLS_BACK = """\
1 begin script -> at 1
1 declare 1 script; 7 1 deleted; 7 0 deleted -> done
1 prewrite 1 7 0 -> refused 42
1 prewrite 1 7 1 -> done
1 prewrite 1 7 1 -> refused 46
1 prewrite 1 8 0 -> refused 45
1 prewrite 1 7 0 -> done
2 begin script -> at 2
2 read 2 7 0 -> locked 1 7 1
2 clear 7 0 -> waits
2 settle 7 0 -> locked 1 7 1
2 settle 7 1 -> rolled back
2 clear 7 0 -> rolled back
2 read 2 7 0 -> absent
2 read 1 7 0 -> refused 41
1 commit 1 7 0 -> refused 42
1 stamp 1 -> at 3
1 commit 1 -> lost
1 commit 1 7 0 -> refused 42
0 settle 7 1 -> absent
0 clear 7 0 -> absent
marks 0 locks 0
"""

# one commits the other cell, once the primary is
FINISHES = """\
1 begin script -> at 1
1 declare 1 script; 7 1 deleted; 7 0 deleted -> done
1 prewrite 1 7 1 -> done
1 prewrite 1 7 0 -> done
1 stamp 1 -> at 2
0 clear 7 1 -> waits
1 commit 1 -> committed
2 commit 1 7 0 -> refused 41
1 commit 1 8 0 -> refused 45
2 clear 7 0 -> committed at 2
1 commit 1 7 0 -> done
2 begin script -> at 3
2 read 3 7 1 -> found 1 2 deleted
2 read 3 7 0 -> found 1 2 deleted
marks 0 locks 0
"""

RIVALS = [steps(ROLLS_BACK), steps(FINISHES)]


# Reads at a timestamp that they name.

# By the transaction 5 of seat 2 a version is there from its commit on, and nothing above the start is read. Lower numbers come
# first: of another seat, of no transaction, of one that is committed, and of one that has declared what it writes. The lock of 6
# is in the way from 6 on, and what begins later lets no transaction read above its start.
SNAPSHOTS = f"""\
{change(1)}{change(3)}2 begin script -> at 5
2 read 5 7 0 at 0 -> absent
2 read 5 7 0 at 1 -> absent
2 read 5 7 0 at 2 -> found 1 2 deleted
2 read 5 7 0 at 3 -> found 1 2 deleted
2 read 5 7 0 at 4 -> found 3 4 deleted
2 read 5 7 0 at 5 -> found 3 4 deleted
2 read 5 7 0 at 6 -> refused 49
2 read 5 7 0 at 18446744073709551615 -> refused 49
1 read 5 7 0 at 4 -> refused 41
1 read 5 7 0 at 6 -> refused 41
2 read 6 7 0 at 9 -> refused 41
1 read 3 7 0 at 2 -> refused 42
1 read 3 7 0 at 9 -> refused 42
1 begin script -> at 6
1 declare 6 script; 7 0 deleted -> done
1 read 6 7 0 at 6 -> refused 42
1 read 6 7 0 at 9 -> refused 42
1 prewrite 6 7 0 -> done
2 begin script -> at 7
2 read 5 7 0 at 5 -> found 3 4 deleted
2 read 5 7 0 at 6 -> refused 49
2 read 5 7 0 at 7 -> refused 49
2 read 7 7 0 at 2 -> found 1 2 deleted
2 read 7 7 0 at 5 -> found 3 4 deleted
2 read 7 7 0 at 6 -> locked 6 7 0
2 read 7 7 0 at 7 -> locked 6 7 0
2 read 7 7 0 at 8 -> refused 49
marks 0 locks 1
"""

# a full journal is reported before a later timestamp
FULL = f"""\
{change(1)}{change(3)}2 begin script -> at 5
2 read 5 7 0 at 5 -> refused 44
2 read 5 7 0 at 6 -> refused 44
1 read 5 7 0 at 6 -> refused 41
1 read 3 7 0 at 9 -> refused 42
marks 0 locks 0
"""

EARLIER = [steps(SNAPSHOTS), steps(FULL, limit=11)]


# Marks of changed cells, and what the runs on them write.

# a cell is marked by the commit that reaches it, and swept once its observer has acknowledged that; neither a cell of a column
# without an observer is marked, nor an acknowledgment
SWEPT = f"""\
1 begin script -> at 1
1 declare 1 script; 7 1 deleted; 7 0 deleted -> done
1 prewrite 1 7 1 -> done
1 prewrite 1 7 0 -> done
1 stamp 1 -> at 2
1 commit 1 -> committed
2 next mark -> no mark
2 clear 7 0 -> committed at 2
2 next mark -> marked 7 0
2 next mark after 7 0 -> no mark
2 next mark after 6 15 -> marked 7 0
0 sweep 7 1 -> no mark
0 sweep 7 0 -> still behind
2 begin run watch 7 -> at 3
2 read 3 7 0 -> found 1 2 deleted
2 read 3 ack watch 7 0 -> absent
2 declare 3 run watch {of_run(3, "1 2 deleted")} result 0 -> done
2 prewrite 3 ack watch 7 0 -> done
2 stamp 3 -> at 4
1 sweep 7 0 -> still behind
2 commit 3 -> committed
0 next mark after 7 0 -> no mark
0 next mark -> marked 7 0
0 sweep 7 0 -> done
0 sweep 7 0 -> no mark
0 next mark -> no mark
marks 0 locks 0
"""

# a change, and a run that has read its cell and its acknowledgment
BEGUN = f"""\
{change(1)}2 begin run watch 7 -> at 3
2 read 3 7 0 -> found 1 2 deleted
2 read 3 ack watch 7 0 -> absent
"""

# asks for cell 7 1, and ends with 0 where there is a value, else with 1
ASK = "b701000007000000b702000001000000bfa300000000000007030000e0ffffff85000000010000009500000000000000"

# before that cell is read, with a reply that it wasn't read with, and with the one that it was
READ = f"""\
{BEGUN}2 declare 3 run watch {of_run(3, "1 2 deleted")} result 1 -> refused 43
2 read 3 7 1 -> absent
2 declare 3 run watch {of_run(3, "1 2 deleted", reply="value 09")} result 0 -> refused 43
2 declare 3 run watch {of_run(3, "1 2 deleted")} result 1 -> done
marks 1 locks 0
"""

# deletes cell 5 15
DELETE = "b701000005000000b70200000f00000085000000030000009500000000000000"

WRITTEN = f"""\
{BEGUN}2 declare 3 run watch {of_run(3, "1 2 deleted")} result 0; 5 15 deleted -> done
2 prewrite 3 5 15 -> refused 42
2 prewrite 3 ack watch 7 0 -> done
2 stamp 3 -> refused 42
2 prewrite 3 5 15 -> done
2 stamp 3 -> at 4
2 commit 3 -> committed
2 commit 3 5 15 -> done
0 begin script -> at 5
0 read 5 ack watch 7 0 -> found 3 4 stamp 3
0 read 5 5 15 -> found 3 4 deleted
marks 1 locks 0
"""

MARKS = [
    steps(SWEPT, WATCHED),
    steps(READ, manifest_of(observer(helpers="1", digits=ASK))),
    steps(WRITTEN, manifest_of(observer(helpers="3", digits=DELETE))),
]


# Numbers: the lowest that applies is reported.

# no such transaction; not declared; not prewritten; the primary isn't; not declared among the cells; prewritten before
REFUSED = """\
0 begin script -> at 1
0 stamp 2 -> refused 41
0 stamp 1 -> refused 42
0 declare 1 script; 7 0 deleted -> done
0 stamp 1 -> refused 42
0 prewrite 1 7 1 -> refused 42
0 prewrite 1 7 0 -> done
0 prewrite 1 7 1 -> refused 45
0 prewrite 1 7 0 -> refused 46
marks 0 locks 1
"""

PREWRITTEN = """\
0 begin script -> at 1
0 declare 1 script; 7 0 deleted -> done
0 prewrite 1 7 0 -> done
"""

# the last timestamps, and the ends of journals
NUMBERS = [
    steps(REFUSED, limit=10),
    steps("0 begin script -> refused 40\nmarks 0 locks 0\n", last=2**64 - 1),
    steps(f"0 begin script -> at {2**64 - 1}\n0 begin script -> refused 40\nmarks 0 locks 0\n", last=2**64 - 2),
    steps("0 begin script -> refused 44\nmarks 0 locks 0\n", limit=0),
    steps("0 begin script -> at 1\n0 begin script -> refused 44\nmarks 0 locks 0\n", limit=1),
    steps(f"{PREWRITTEN}0 prewrite 1 7 0 -> refused 44\n0 stamp 1 -> refused 44\nmarks 0 locks 1\n", limit=3),
    steps(f"{PREWRITTEN}0 stamp 1 -> at 2\n0 commit 1 -> refused 44\nmarks 0 locks 1\n", limit=4),
]


# Tables of several tablets.

# each of three tablets takes what is of its rows, and marks are reported in the order of rows
ORDER = """\
0 begin script -> at 1
0 declare 1 script; 25 0 value 01; 5 0 value 02; 15 0 value 03 -> done
0 prewrite 1 25 0 -> done
0 prewrite 1 5 0 -> done
0 prewrite 1 15 0 -> done
0 stamp 1 -> at 2
0 commit 1 -> committed
0 commit 1 5 0 -> done
0 commit 1 15 0 -> done
0 next mark -> marked 5 0
0 next mark after 5 0 -> marked 15 0
0 next mark after 15 0 -> marked 25 0
0 next mark after 25 0 -> no mark
0 begin script -> at 3
0 read 3 5 0 -> found 1 2 value 02
0 read 3 15 0 -> found 1 2 value 03
0 read 3 25 0 -> found 1 2 value 01
marks 3 locks 0
"""

# no tablet, one that begins too late, and two that begin at the same row or the other way round: all are handed back
TABLETS = [
    *(steps(ORDER, WATCHED, tablets=tablets) for tablets in ("0l", "0l 10l 20l", "0s 10s 20s", "0l 10s 20l", "0l 5s 15s 25l")),
    *(steps(f"{told}\n", tablets=tablets) for tablets, told in {
        "": "refused 2",
        "5l": "refused 3 5",
        "0l 10s 10l": "refused 3 0 10 10",
        "0s 20l 10s": "refused 3 0 20 10",
    }.items()),
]


# What a transaction may declare: what it is for, and a run of exactly what was read.

# ends with its start
STARTS = manifest_of(observer(helpers="4", digits=START), observer("other", 1))


def declares(given: str, result: int, answer: str = "refused 43", name: str = "watch") -> str:
    return f"2 declare 3 run {name} {given} result {result} -> {answer}\n"


# another start, cell, version or acknowledged timestamp; another program, and the run of another observer; a script's change
UNLIKE = f"""\
{BEGUN}{declares(of_run(4, "1 2 deleted"), 4)}\
{declares(of_run(3, "1 2 deleted", cell="8 0"), 3)}\
{declares(of_run(3, "1 2 deleted", cell="7 1"), 3)}\
{declares(of_run(3, "0 2 deleted"), 3)}\
{declares(of_run(3, "1 1 deleted"), 3)}\
{declares(of_run(3, "1 2 value 00"), 3)}\
{declares(of_run(3, "1 2 deleted", 1), 3)}\
{declares(of_run(3, "1 2 deleted", program="other"), 0)}\
{declares(of_run(3, "1 2 deleted"), 3, name="other")}\
2 declare 3 script; 7 0 deleted -> refused 43
{declares(of_run(3, "1 2 deleted"), 3, "done")}\
{declares(of_run(3, "1 2 deleted"), 3, "refused 42")}\
marks 1 locks 0
"""

# a run in place of a script's change
OF_SCRIPT = f"""\
1 begin script -> at 1
1 declare 1 run watch {of_run(1, "1 2 deleted")} result 1 -> refused 43
1 declare 1 script; 7 0 deleted -> done
marks 0 locks 0
"""

CELL, ACKNOWLEDGMENT = "7 0 -> found 1 2 deleted", "ack watch 7 0 -> absent"


def on_reads(*reads: str) -> Row:
    """A run that reads these cells, and not just its cell and then its acknowledgment."""
    told = "".join(f"2 read 3 {read}\n" for read in reads) + declares(of_run(3, "1 2 deleted"), 3)
    return steps(f"{change(1)}2 begin run watch 7 -> at 3\n{told}marks 1 locks 0\n", STARTS)


# the cell has no version
NOT_THERE = f"""\
2 begin run watch 7 -> at 1
2 read 1 7 0 -> absent
2 read 1 ack watch 7 0 -> absent
2 declare 1 run watch {of_run(1, "0 0 deleted")} result 1 -> refused 43
marks 0 locks 0
"""

# it has none that is newer than what is acknowledged
NOT_NEWER = f"""\
{BEGUN}{declares(of_run(3, "1 2 deleted"), 3, "done")}\
2 prewrite 3 ack watch 7 0 -> done
2 stamp 3 -> at 4
2 commit 3 -> committed
2 begin run watch 7 -> at 5
2 read 5 7 0 -> found 1 2 deleted
2 read 5 ack watch 7 0 -> found 3 4 stamp 3
2 declare 5 run watch {of_run(5, "1 2 deleted", 3)} result 5 -> refused 43
marks 1 locks 0
"""

DECLARATIONS = [
    *(steps(text, STARTS) for text in (UNLIKE, OF_SCRIPT, NOT_THERE, NOT_NEWER)),
    on_reads(),
    on_reads(CELL),
    on_reads(ACKNOWLEDGMENT, CELL),
    on_reads(CELL, CELL, ACKNOWLEDGMENT),
    on_reads(CELL, ACKNOWLEDGMENT, ACKNOWLEDGMENT),
    on_reads("7 0 at 3 -> found 1 2 deleted", ACKNOWLEDGMENT),
    on_reads(CELL, "ack watch 7 0 at 3 -> absent"),
]


# What a run may declare whose record has what its cell held when its observer acknowledged it last. Cell 7 0 changes at 1 and has
# its first run at 3; it changes again at 5, so that the records of the runs from 7 on are to have what stood there at 3.

FIRST, SECOND = "1 2 value 01", "5 6 value 02"

ASKED = "7 1 -> absent"
RECALLED = f"7 0 at 3 -> found {FIRST}"


def two_versions(version: int) -> str:
    """An observer of this version of the record, and one of column 9 with the same program as it is accepted for the other."""
    observers = [("watch", 0, version), ("other", 9, 3 - version)]
    texts = (f'{observer(name, column, "1", ASK)[:-1]},"record":{record}}}' for name, column, record in observers)
    return manifest_of(*texts, profile=2)


def run_at(start: int, found: str, acknowledgment: str, reads: list[str], given: str, answer: str) -> str:
    """A run by seat 2 up to its declaration, which reads its cell, its acknowledgment and these cells."""
    lines = [f"read {start} {read}" for read in (f"7 0 -> found {found}", f"ack watch 7 0 -> {acknowledgment}", *reads)]
    lines = [f"begin run watch 7 -> at {start}", *lines, f"declare {start} run watch {given} result 1 -> {answer}"]
    return "".join(f"2 {line}\n" for line in lines)


def first_run(reads: list[str], answer: str) -> str:
    return change(1, "value 01") + run_at(3, FIRST, "absent", reads, of_run(3, FIRST), answer)


AGAIN = f"""\
{first_run([ASKED], "done")}2 prewrite 3 ack watch 7 0 -> done
2 stamp 3 -> at 4
2 commit 3 -> committed
{change(5, "value 02")}"""


def early(version: int, *reads: str) -> Row:
    """A first run, which has nothing acknowledged, and may not have read at a timestamp."""
    return steps(f"{first_run([*reads], 'refused 43')}marks 1 locks 0\n", two_versions(version))


def later(version: int, answer: str, before: str, *reads: str, program: str = "watch") -> Row:
    """The run at 7, on what was read and on this of before."""
    told = run_at(7, SECOND, "found 3 4 stamp 3", [*reads], of_run(7, SECOND, 3, before, program=program), answer)
    return steps(f"{AGAIN}{told}marks 1 locks 0\n", two_versions(version))


def later_runs() -> Iterator[Row]:
    # that read is missing
    yield later(2, "refused 43", "value 01", ASKED)
    yield later(2, "refused 43", "deleted", ASKED)
    # it is one timestamp before, one after, at the start, or at none
    yield later(2, "refused 43", "value 01", f"7 0 at 2 -> found {FIRST}", ASKED)
    yield later(2, "refused 43", "value 01", f"7 0 at 4 -> found {FIRST}", ASKED)
    yield later(2, "refused 43", "value 02", f"7 0 at 7 -> found {SECOND}", ASKED)
    yield later(2, "refused 43", "value 02", f"7 0 -> found {SECOND}", ASKED)
    # it is of another cell, in another place, or made twice; or it stands for the read of the cell that is asked for
    yield later(2, "refused 43", "deleted", "7 1 at 3 -> absent", ASKED)
    yield later(2, "refused 43", "value 01", ASKED, RECALLED)
    yield later(2, "refused 43", "value 01", RECALLED, RECALLED, ASKED)
    yield later(2, "refused 43", "value 01", RECALLED, "7 1 at 3 -> absent")
    # the value of before is another, or is left out
    yield later(2, "refused 43", "value 09", RECALLED, ASKED)
    yield later(2, "refused 43", "deleted", RECALLED, ASKED)
    # it is of the program for version 1
    yield later(2, "refused 43", "deleted", RECALLED, ASKED, program="other")
    yield later(2, "refused 43", "deleted", ASKED, program="other")
    yield later(2, "done", "value 01", RECALLED, ASKED)
    # the same of version 1, whose runs name no timestamp
    yield later(1, "refused 43", "deleted", RECALLED, ASKED)
    yield later(1, "refused 43", "deleted", ASKED, RECALLED)
    yield later(1, "refused 43", "value 01", RECALLED, ASKED, program="other")
    yield later(1, "refused 43", "deleted", ASKED, program="other")
    yield later(1, "done", "deleted", ASKED)


TOLD_RUNS = [
    *(early(version, "7 0 at 0 -> absent", ASKED) for version in (1, 2)),
    *(early(version, f"7 0 at 3 -> found {FIRST}", ASKED) for version in (1, 2)),
    *later_runs(),
]

TABLES: Tables = {
    "what rivals do": RIVALS,
    "reads at a timestamp": EARLIER,
    "marks": MARKS,
    "steps by their numbers": NUMBERS,
    "tables of several tablets": TABLETS,
    "what transactions declare": DECLARATIONS,
    "runs that are told of before": TOLD_RUNS,
}
