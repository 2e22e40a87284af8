"""Schedules that are read, shown by what their events leave, and schedules that are refused, with their line and code.

Worked out by hand from docs/FORMATS.md, "Schedule", and docs/TABLE.md. A change of one cell takes five steps: begin, declare,
prewrite, stamp and commit. A run of `watch` takes ten: begin, two reads, two instructions, declare, prewrite, stamp, commit
and sweep.
"""
from __future__ import annotations

from tables import NOBODY, Row, Tables, manifest_of, observer, replay, replay_fails

THREE = manifest_of(observer("watch", 0), observer("ack", 3), observer("copy-2", 15))

LAST_ROW = 18446744073709551615


def left(script: str, schedule: str, cells: str, runs: tuple[int, int, int], last: str) -> Row:
    """A schedule after which the report has these cells, runs of the three observers, and this last line."""
    watch, ack, copy = runs
    return replay(THREE, script, schedule, f"{cells}runs watch {watch}\nruns ack {ack}\nruns copy-2 {copy}\n{last}\n")


def put(row: int, column: int, schedule: str, runs: tuple[int, int, int], last: str, is_committed: bool = True) -> Row:
    """The same of a script that puts 2a to one cell, which is committed or not."""
    cells = f"cell {row} {column} commit 2 value 2a\n" if is_committed else ""
    return left(f"put {row} {column} 2a\n", schedule, cells, runs, last)


def idle(schedule: str) -> Row:
    """A schedule that is read, and whose events do nothing."""
    return left("", schedule, "", (0, 0, 0), "quiet")


def counted(schedule: str, count: int) -> Row:
    """A schedule of so many events that do nothing, shown by one after them that can't happen."""
    return replay_fails(THREE, "", f"{schedule}\nlaunch 63 change 1", f"event {count} code 63")


def schedule_fails(schedule: str, number: int, line: int = 1) -> Row:
    """A schedule that is refused."""
    return replay_fails(THREE, "", schedule, f"schedule: line {line} code {number}")


NONE = (0, 0, 0)
CHANGE_MADE = "launch 1 change 1\nstep 1 5\n"
LONGEST_SCRIPT = "del 0 0\n" * 9_999 + "put 7 1 2a\n"

EVENTS_OF_JOBS = [
    put(7, 0, "launch 1 change 1\nstep 1 5", NONE, "marks 1 locks 0"),
    left(LONGEST_SCRIPT, "launch 63 change 10000\nstep 63 5", "cell 7 1 commit 2 value 2a\n", NONE, "quiet"),
    put(7, 0, f"{CHANGE_MADE}launch 2 run watch 7\nstep 2 10", (1, 0, 0), "quiet"),
    put(0, 3, f"{CHANGE_MADE}launch 2 run ack 0\nstep 2 10", (0, 1, 0), "quiet"),
    put(LAST_ROW, 15, f"{CHANGE_MADE}launch 63 run copy-2 {LAST_ROW}\nstep 63 10", (0, 0, 1), "quiet"),
    # the third step puts the lock, the fifth commits
    put(7, 0, "launch 1 change 1\nstep 1\nstep 1", NONE, "quiet", False),
    put(7, 0, "launch 1 change 1\nstep 1\nstep 1\nstep 1", NONE, "marks 0 locks 1", False),
    put(7, 0, "launch 63 change 1\nstep 63 2\nstep 63 1", NONE, "marks 0 locks 1", False),
    put(7, 0, "launch 63 change 1\nstep 63 4\nstep 63 1", NONE, "marks 1 locks 0"),
    put(7, 0, "launch 1 change 1\nstep 1 3\ncrash 1\nstep 1 5", NONE, "marks 0 locks 1", False),
    put(7, 0, "launch 63 change 1\nstep 63 3\ncrash 63\nstep 63 5", NONE, "marks 0 locks 1", False),
]


def cut_run(name: str, more: str) -> str:
    """A run of this observer on row 7 with its lock on the acknowledgment, crashed then, and more."""
    return f"{CHANGE_MADE}launch 2 run {name} 7\nstep 2 7\ncrash 2\n{more}"


def unswept(name: str, row: int, more: str) -> str:
    """A run of this observer that is committed and crashed before its sweep, and more."""
    return f"{CHANGE_MADE}launch 2 run {name} {row}\nstep 2 9\ncrash 2\n{more}"


def second_cell(more: str) -> Row:
    """A change of the cells 7 0 and 0 15, crashed when it is committed, and more."""
    cells = "cell 0 15 commit 2 value 01\ncell 7 0 commit 2 value 2a\n"
    last = "marks 2 locks 0" if more else "marks 1 locks 1"
    schedule = f"launch 1 change 1\nstep 1 6\ncrash 1\n{more}"
    return left("put 7 0 2a; put 0 15 01\n", schedule, cells, NONE, last)


EVENTS_ON_CELLS = [
    put(7, 0, "launch 1 change 1\nstep 1 3\nsettle 7 0\nstep 1 5", NONE, "quiet", False),
    put(LAST_ROW, 15, f"launch 1 change 1\nstep 1 3\nsettle {LAST_ROW} 15\nstep 1 5", NONE, "quiet", False),
    put(7, 15, cut_run("copy-2", ""), NONE, "marks 1 locks 1"),
    put(7, 15, cut_run("copy-2", "settle ack copy-2 7"), NONE, "marks 1 locks 0"),
    put(7, 3, cut_run("ack", ""), NONE, "marks 1 locks 1"),
    put(7, 3, cut_run("ack", "settle ack ack 7"), NONE, "marks 1 locks 0"),
    second_cell(""),
    second_cell("clear 0 15"),
    put(0, 0, unswept("watch", 0, ""), (1, 0, 0), "marks 1 locks 0"),
    put(0, 0, unswept("watch", 0, "sweep 0 0"), (1, 0, 0), "quiet"),
    put(LAST_ROW, 15, unswept("copy-2", LAST_ROW, ""), (0, 0, 1), "marks 1 locks 0"),
    put(LAST_ROW, 15, unswept("copy-2", LAST_ROW, f"sweep {LAST_ROW} 15"), (0, 0, 1), "quiet"),
]

ORDER = "launch 1 change 2\n# x\nstep 1 2\n\ncrash 2\nstep 3 1000\nsweep 7 0"
THREE_CHANGES = "put 1 1 01\nput 7 1 02\nput 3 1 03\n"

# with these before, the crash takes a job away, and the thousand steps end one
BUSY = "launch 2 change 1\nstep 2 2\nlaunch 3 change 3\n"

EVENTS_IN_ORDER = [
    replay_fails(THREE, "del 0 1\ndel 0 1\n", f"{ORDER}\nlaunch 63 change 3", "event 1005 code 63"),
    # its last event sweeps the mark that a run has left
    left(
        "put 7 0 2a\nput 7 1 02\n",
        unswept("watch", 7, ORDER),
        "cell 7 0 commit 2 value 2a\n",
        (1, 0, 0),
        "quiet",
    ),
    left(THREE_CHANGES, ORDER, "", NONE, "quiet"),
    left(THREE_CHANGES, f"{ORDER}\nstep 1", "", NONE, "marks 0 locks 1"),
    left(THREE_CHANGES, f"{ORDER}\nstep 1 3", "cell 7 1 commit 2 value 02\n", NONE, "quiet"),
    left(
        THREE_CHANGES,
        f"{BUSY}{ORDER}\nstep 2 3\nstep 1 3",
        "cell 3 1 commit 4 value 03\ncell 7 1 commit 5 value 02\n",
        NONE,
        "quiet",
    ),
]

NUMBERS_OUT_OF_RANGE = [
    schedule_fails("launch 0 change 1", 91),
    schedule_fails("launch 64 run watch 7", 91),
    schedule_fails("step 0", 91),
    schedule_fails("step 64", 91),
    schedule_fails("crash 0", 91),
    schedule_fails("crash 64", 91),
    schedule_fails("launch 1 change 0", 91),
    schedule_fails("launch 1 change 10001", 91),
    schedule_fails("step 1 0", 91),
    schedule_fails("step 1 1000001", 91),
    schedule_fails("step 18446744073709551617", 91),
    schedule_fails("step 1 340282366920938463463374607431768211457", 91),
]

CELLS_OUT_OF_RANGE = [
    schedule_fails("launch 1 run watch 18446744073709551616", 91),
    schedule_fails("settle 18446744073709551616 0", 91),
    schedule_fails("settle 7 16", 91),
    schedule_fails("settle 7 18446744073709551616", 91),
    schedule_fails("settle ack watch 18446744073709551616", 91),
    schedule_fails("clear 18446744073709551616 0", 91),
    schedule_fails("clear 7 16", 91),
    schedule_fails("clear ack watch 18446744073709551616", 91),
    schedule_fails("sweep 18446744073709551616 0", 91),
    schedule_fails("sweep 7 16", 91),
]

WORDS_OUT_OF_FORM = [
    schedule_fails("stop 1", 90),
    schedule_fails("Step 1", 90),
    schedule_fails("launch", 90),
    schedule_fails("launch 1", 90),
    schedule_fails("launch 1 walk watch 7", 90),
    schedule_fails("launch 1 change", 90),
    schedule_fails("launch 1 run", 90),
    schedule_fails("launch 1 run watch", 90),
    schedule_fails("settle ack", 90),
    schedule_fails("settle ack watch", 90),
    schedule_fails("sweep ack watch 7", 90),
    schedule_fails(" # step 1", 90),
]

NUMBERS_OUT_OF_FORM = [
    schedule_fails("step", 90),
    schedule_fails("step +1", 90),
    schedule_fails("step 01", 90),
    schedule_fails("step 1 00", 90),
    schedule_fails("step 1 1000000x", 90),
    schedule_fails("step 1\r", 90),
    schedule_fails("launch 1 change 1.0", 90),
    schedule_fails("launch 1 run watch -7", 90),
    schedule_fails("settle 7", 90),
    schedule_fails("settle 7 x", 90),
    schedule_fails("clear  7 0", 90),
    schedule_fails("sweep 7 00", 90),
]

WORDS_BEHIND_THE_LAST = [
    schedule_fails("launch 1 change 1 1", 90),
    schedule_fails("launch 1 run watch 7 7", 90),
    schedule_fails("step 1 1 1", 90),
    schedule_fails("step 1 ", 90),
    schedule_fails("step 1 1 ", 90),
    schedule_fails("crash 1 1", 90),
    schedule_fails("settle 7 0 0", 90),
    schedule_fails("settle ack watch 7 0", 90),
    schedule_fails("clear 7 0 ", 90),
    schedule_fails("clear ack watch 7 0", 90),
    schedule_fails("sweep 7 0 0", 90),
]

NAMES_OF_NOBODY = [
    schedule_fails("launch 1 run nobody 7", 93),
    schedule_fails("launch 1 run Watch 7", 93),
    schedule_fails("launch 1 run  7", 93),
    schedule_fails("settle ack nobody 7", 93),
    schedule_fails("settle ack  7", 93),
    schedule_fails("settle ack 7 0", 93),
    schedule_fails("clear ack nobody 7", 93),
    schedule_fails("clear ack watc 7", 93),
    replay_fails(NOBODY, "", "launch 1 run watch 7", "schedule: line 1 code 93"),
    replay_fails(NOBODY, "", "launch 1 change 7", "event 0 code 63"),
    replay(NOBODY, "del 0 0\n" * 7, "launch 1 change 7", "quiet\n"),
]

FIRST_FAULT_OF_A_LINE = [
    schedule_fails("launch 0 walk", 91),
    schedule_fails("launch x change 0", 90),
    schedule_fails("launch 64 run nobody x", 91),
    schedule_fails("launch 1 run nobody 18446744073709551616", 93),
    schedule_fails("launch 1 run nobody x y", 93),
    schedule_fails("launch 1 run watch 18446744073709551616 x", 91),
    schedule_fails("step 64 x", 91),
    schedule_fails("step x 0", 90),
    schedule_fails("step 1 0 x", 91),
    schedule_fails("settle x 16", 90),
    schedule_fails("settle 18446744073709551616 x", 91),
    schedule_fails("clear ack nobody x", 93),
]

COUNTED_LINES = [
    idle(""),
    counted("", 0),
    idle("\n\n# step 0\n#"),
    counted("\n\n# step 0\n#", 0),
    idle("step 1"),
    counted("step 1", 1),
    idle("step 1\n"),
    counted("step 1\n", 1),
    idle("# x\n\nstep 1\n\nstep 2 3\n# y"),
    counted("# x\n\nstep 1\n\nstep 2 3\n# y", 4),
    schedule_fails("\n\nstep 0", 91, 3),
    schedule_fails("#step 0\nstep 1\n\nstep 01\nstep 0", 90, 4),
    schedule_fails("step 1\nlaunch 1 run nobody 7\nx", 93, 2),
]

COUNTED_EVENTS = [
    idle("step 1 1000000"),
    schedule_fails("step 1 1000000\nstep 1", 92, 2),
    idle("step 1 999999\nstep 1\n# x\n"),
    counted("step 1 999999", 999_999),
    schedule_fails("step 1 999999\nstep 1 2", 92, 2),
    schedule_fails("step 1 999998\n\nstep 1\ncrash 2\nsettle 7 0", 92, 5),
    schedule_fails("step 1 1000000\nlaunch 1 run watch 7", 92, 2),
    # its own faults come first
    schedule_fails("step 1 1000000\nx", 90, 2),
    schedule_fails("step 1 1000000\nstep 1 1 1", 90, 2),
    schedule_fails("step 1 1000000\nstep 64", 91, 2),
    schedule_fails("step 1 1000000\nstep 1 1000001", 91, 2),
    schedule_fails("step 1 1000000\nlaunch 1 run nobody 7", 93, 2),
]

TABLES: Tables = {
    "events of jobs": EVENTS_OF_JOBS,
    "events on cells": EVENTS_ON_CELLS,
    "events in order": EVENTS_IN_ORDER,
    "numbers out of range": NUMBERS_OUT_OF_RANGE,
    "cells out of range": CELLS_OUT_OF_RANGE,
    "words out of form": WORDS_OUT_OF_FORM,
    "numbers out of form": NUMBERS_OUT_OF_FORM,
    "words behind the last": WORDS_BEHIND_THE_LAST,
    "names of nobody": NAMES_OF_NOBODY,
    "first fault of a line": FIRST_FAULT_OF_A_LINE,
    "counted lines": COUNTED_LINES,
    "counted events": COUNTED_EVENTS,
}
