"""Scripts that are made, with what a run reports of them, and scripts that are refused, with their line and code.

Worked out by hand from docs/FORMATS.md, "Script": each change takes two timestamps, so that the Nth commits with 2 N.
"""
from __future__ import annotations

from tables import NOBODY, Row, Tables, manifest_of, observer, replay, run, run_fails


def made(script: str, *cells: str) -> Row:
    """A script after which the report has these lines of cells, and is quiet."""
    return run(NOBODY, script, "".join(f"cell {cell}\n" for cell in cells) + "quiet\n")


def script_fails(script: str, number: int, line: int = 1) -> Row:
    """A script that is refused."""
    return run_fails(NOBODY, script, f"script: line {line} code {number}")


SCRIPTS = [
    made("put 7 0 2a", "7 0 commit 2 value 2a"),
    made("# x\n\nput 7 1 aa\ndel 0 15\n", "0 15 commit 4 deleted", "7 1 commit 2 value aa"),
    made("put 18446744073709551615 15 00", "18446744073709551615 15 commit 2 value 00"),
    script_fails("put 7 16 2a", 71),
    script_fails("#\nput 07 1 2a", 70, 2),
    script_fails("put 18446744073709551616 x 2a", 71),
    script_fails("put 1 1 2A", 72),
    script_fails("put 1 1 2", 72),
    script_fails("put 1 1 ", 72),
    script_fails("put 1 1", 70),
    script_fails("put 1 1 2a 3", 70),
    script_fails("put 1 1 2a\r", 72),
]

RUNS = [
    made("put 7 0 2a\n", "7 0 commit 2 value 2a"),
    made("put 7 0 2a\ndel 7 0\n", "7 0 commit 4 deleted"),
    made("put 1000 15 00\nput 0 0 0100\n", "0 0 commit 4 value 01", "1000 15 commit 2 value 00"),
    script_fails("put 7 16 2a\n", 71),
    script_fails("put 7 0 2a\nput 07 0 2a\n", 70, 2),
]

OPERATIONS = [
    made("put 7 0 2a; put 7 1 2a", "7 0 commit 2 value 2a", "7 1 commit 2 value 2a"),
    made(
        "del 1 2; del 2 1; put 2 2 00",
        "1 2 commit 2 deleted",
        "2 1 commit 2 deleted",
        "2 2 commit 2 value 00",
    ),
    made("del 7 0; del 7 1\n\ndel 7 0; del 7 1\n", "7 0 commit 4 deleted", "7 1 commit 4 deleted"),
    made("# del 7 0; x"),
    # the first fault, wherever it is, with anything after it
    script_fails("put 7 16 2a; put 7 1 2a", 71),
    script_fails("put 7 0 2a; x", 70),
    script_fails("put 7 0 2a; put 07 1 2a", 70),
    script_fails("put 7 0 2a; put 18446744073709551616 1 2a", 71),
    script_fails("put 7 0 2a; put 7 16 2a", 71),
    script_fails("put 7 0 2a; put 7 1 2A", 72),
    script_fails("del 1 1; del 2 2; del 3", 70),
    script_fails("del 1 1; del 2 2; del 3 16", 71),
    script_fails("del 1 1; del 2 2; put 3 3 2", 72),
    script_fails("del 1 1; del 2 16; x", 71),
    script_fails("del 1 1\ndel 1 1; del 2 16\nx", 71, 2),
    # a cell named before, after the operation's own faults
    script_fails("put 7 0 2a; put 7 0 2a", 73),
    script_fails("put 7 0 2a; del 7 0", 73),
    script_fails("del 7 0; del 7 1; del 7 0; x", 73),
    script_fails("x; del 7 0; del 7 0", 70),
    script_fails("del 7 0; put 7 0 2A", 72),
    script_fails("del 7 0; del 7 0 x", 70),
]

JOINTS = [
    script_fails("put 1 1 2a;del 1 2", 72),
    script_fails("del 1 1;del 1 2", 70),
    script_fails("put 1 1 2a;", 72),
    script_fails("put 1 1 2a;  del 1 2", 70),
    script_fails("put 1 1 2a ; del 1 2", 70),
    script_fails("put 1 1 ; del 1 2", 72),
    script_fails("put 1 1 2a; ", 70),
    script_fails("; put 1 1 2a", 70),
    script_fails("del 1 1; ; del 1 2", 70),
    script_fails("; ", 70),
    script_fails("del 1 1; # x", 70),
]

SEVERAL_CELLS = [
    made("put 7 1 aa; put 7 0 2a\n", "7 0 commit 2 value 2a", "7 1 commit 2 value aa"),
    made(
        "put 7 1 aa; put 7 0 2a\ndel 7 0; put 8 0 0b\n",
        "7 0 commit 4 deleted",
        "7 1 commit 2 value aa",
        "8 0 commit 4 value 0b",
    ),
    made("put 1000 15 00; put 0 0 0100\n", "0 0 commit 2 value 01", "1000 15 commit 2 value 00"),
    script_fails("put 7 0 2a; del 7 0\n", 73),
    script_fails("put 7 0 2a\n# a remark\nput 7 0 2b; put 7 16 2a\n", 71, 3),
    script_fails("put 7 0 2a;put 7 1 2a\n", 72),
    script_fails("put 7 0 2a; \n", 70),
]


def deletions(count: int) -> str:
    """Deletions in column 0 of so many rows, from 0 on, in one line."""
    return "; ".join(f"del {row} 0" for row in range(count))


def deleted(count: int) -> Row:
    return made(deletions(count), *(f"{row} 0 commit 2 deleted" for row in range(count)))


COUNTED_CELLS = [
    deleted(2),
    deleted(15),
    deleted(16),
    script_fails(deletions(17), 74),
    script_fails(f"{deletions(15)}; del 14 0", 73),
    script_fails(f"{deletions(15)}; put 0 0 2a", 73),
    script_fails(f"{deletions(16)}; del 0 1", 74),
    script_fails(f"{deletions(16)}; del 3 0", 73),
    script_fails(f"{deletions(16)}; put 15 0 2a", 73),
    script_fails(f"{deletions(16)}; put 16 0 2A", 72),
    script_fails(f"{deletions(16)}; del 16 16", 71),
    script_fails(f"{deletions(16)}; ", 70),
    script_fails(f"{deletions(17)}; del 0 0", 74),
    script_fails(f"{deletions(17)}; x", 74),
]

LAST_COLUMN = manifest_of(observer("watch", 15))


def puts(count: int) -> str:
    """A line of so many operations on row 7, on the last column first."""
    return "; ".join(f"put 7 {15 - place} 1{place:x}" for place in range(count))


def of_size(count: int) -> Row:
    cells = "".join(f"cell 7 {15 - place} commit 2 value 1{place:x}\n" for place in reversed(range(count)))
    return run(LAST_COLUMN, puts(count), f"{cells}runs watch 1\nquiet\n")


EACH_SIZE = [
    *(of_size(count) for count in range(1, 17)),
    run_fails(LAST_COLUMN, f"put 8 0 2a; {puts(16)}", "script: line 1 code 74"),
]

TWO_CELLS_EACH = "del 0 0; del 1 0\n" * 10_000

COUNTED_CHANGES = [
    made(TWO_CELLS_EACH, "0 0 commit 20000 deleted", "1 0 commit 20000 deleted"),
    script_fails(f"{TWO_CELLS_EACH}del 0 0", 75, 10_001),
    script_fails(f"{TWO_CELLS_EACH}del 0 0; del 1 0", 75, 10_001),
    script_fails(f"{TWO_CELLS_EACH}x", 70, 10_001),
    script_fails(f"{TWO_CELLS_EACH}del 0 0; del 1 16", 71, 10_001),
    script_fails(f"{TWO_CELLS_EACH}del 0 0; put 1 0 2A", 72, 10_001),
    script_fails(f"{TWO_CELLS_EACH}del 0 0; del 0 0", 73, 10_001),
    script_fails(f"{TWO_CELLS_EACH}{deletions(17)}", 74, 10_001),
]

# three cells, then one
ORDER = "put 7 0 2a; del 7 15; put 0 3 00ff\n# x\ndel 7 0"


def three_cells_crash(steps: int, more: str, last: str) -> Row:
    """The first of these changes, crashed after so many steps, and then more."""
    cells = "cell 0 3 commit 2 value 00ff\ncell 7 0 commit 2 value 2a\ncell 7 15 commit 2 deleted\n" if steps > 6 else ""
    return replay(NOBODY, ORDER, f"launch 1 change 1\nstep 1 {steps}\ncrash 1\n{more}", f"{cells}{last}\n")


# begin, declare, a prewrite of each cell, stamp, and a commit of each cell: which cell's turn it was shows
# when one is cleared, once the primary is settled or committed
KEPT_IN_ORDER = [
    made(ORDER, "0 3 commit 2 value 00ff", "7 0 commit 4 deleted", "7 15 commit 2 deleted"),
    three_cells_crash(3, "settle 7 15\nsettle 0 3\n", "marks 0 locks 1"),
    three_cells_crash(3, "settle 7 0\n", "quiet"),
    three_cells_crash(4, "settle 7 0\nclear 0 3\n", "marks 0 locks 1"),
    three_cells_crash(4, "settle 7 0\nclear 7 15\n", "quiet"),
    three_cells_crash(5, "settle 7 0\nclear 7 15\n", "marks 0 locks 1"),
    three_cells_crash(5, "settle 7 0\nclear 7 15\nclear 0 3\n", "quiet"),
    three_cells_crash(7, "clear 7 15\n", "marks 0 locks 1"),
    three_cells_crash(8, "clear 7 15\n", "marks 0 locks 1"),
    three_cells_crash(8, "clear 0 3\n", "quiet"),
    three_cells_crash(9, "", "quiet"),
]

TABLES: Tables = {
    "scripts": SCRIPTS,
    "runs": RUNS,
    "operations": OPERATIONS,
    "joints": JOINTS,
    "several cells": SEVERAL_CELLS,
    "counted cells": COUNTED_CELLS,
    "each size": EACH_SIZE,
    "counted changes": COUNTED_CHANGES,
    "operations kept in order": KEPT_IN_ORDER,
}
