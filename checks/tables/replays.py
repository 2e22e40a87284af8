"""Schedules replayed: reports and faults.

Worked out by hand from docs/TABLE.md and docs/FORMATS.md, "Schedule" and "Report".
"""
from __future__ import annotations

from tables import CHANGED, COPIED, ONE, WATCHED, Row, Tables, manifest_of, observer, replay, replay_fails

ACTORS = range(1, 64)

RIVALS = [
    # two runs on one cell: the first to write its acknowledgment commits, and the other conflicts with it
    replay(
        WATCHED,
        ONE,
        "launch 1 change 1\nstep 1 100\nlaunch 1 run watch 7\nlaunch 2 run watch 7\nstep 1\nstep 2\nstep 1 2\nstep 2 2\n"
        "step 1 100\nstep 2 100\n",
        f"{CHANGED}runs watch 1\nquiet\n",
    ),
    # one run handles both changes of its cell
    replay(
        WATCHED,
        "put 7 0 2a\nput 7 0 2b\n",
        "launch 1 change 1\nstep 1 100\nlaunch 1 change 2\nstep 1 100\nlaunch 1 run watch 7\nstep 1 100\n",
        "cell 7 0 commit 4 value 2b\nruns watch 1\nquiet\n",
    ),
    # 63 runs on one cell, which begin with 3 to 65 and read the same: the first one commits, and sweeps
    replay(
        WATCHED,
        ONE,
        "launch 1 change 1\nstep 1 5\n"
        + "".join(f"launch {actor} run watch 7\nstep {actor}\n" for actor in ACTORS)
        + "".join(f"step {actor} 2\n" for actor in ACTORS)
        + "".join(f"step {actor} 100\n" for actor in ACTORS),
        f"{CHANGED}runs watch 1\nquiet\n",
    ),
]

TWO_CELLS = "put 7 1 aa; put 7 0 2a\n"
BOTH_CELLS = "cell 7 0 commit 2 value 2a\ncell 7 1 commit 2 value aa\n"


def two_cells_crash(steps: int, more: str, report: str) -> Row:
    """A change of two cells that crashes after so many steps, and more."""
    return replay(WATCHED, TWO_CELLS, f"launch 1 change 1\nstep 1 {steps}\ncrash 1\n{more}", report)


CRASHED = [
    # once it is committed, its other cell is committed by whoever clears it, and marked by that
    two_cells_crash(6, "", f"{BOTH_CELLS}runs watch 0\nmarks 0 locks 1\n"),
    two_cells_crash(6, "clear 7 0\n", f"{BOTH_CELLS}runs watch 0\nmarks 1 locks 0\n"),
    two_cells_crash(6, "clear 7 0\nlaunch 1 run watch 7\nstep 1 100\n", f"{BOTH_CELLS}runs watch 1\nquiet\n"),
    # before its commit it is taken back by whoever settles its primary and clears its other cell
    two_cells_crash(5, "", "runs watch 0\nmarks 0 locks 2\n"),
    two_cells_crash(5, "settle 7 1\nclear 7 0\n", "runs watch 0\nquiet\n"),
    # one whose primary was settled before it committed is lost
    replay(WATCHED, ONE, "launch 1 change 1\nstep 1 3\nsettle 7 0\nstep 1 100\n", "runs watch 0\nquiet\n"),
]

# a begin for which no timestamp is left is refused, which is no fault of its event
LAST_TIMESTAMPS = [
    replay(
        WATCHED,
        ONE,
        "launch 1 change 1\nstep 1\nlaunch 2 change 1\nstep 2\n",
        "runs watch 0\nquiet\n",
        "--clock",
        "18446744073709551614",
    ),
    replay(
        WATCHED,
        ONE,
        "launch 1 change 1\nstep 1\nstep 1\nlaunch 1 change 1\n",
        "runs watch 0\nquiet\n",
        "--clock",
        "18446744073709551615",
    ),
]


def copied(steps: int, last: str) -> Row:
    """A run of the copying observer that stops after so many events of the 26 that it takes."""
    schedule = f"launch 1 change 1\nstep 1 100\nlaunch 1 run copy 7\nstep 1 {steps}\n"
    return replay(COPIED, ONE, schedule, f"{CHANGED}cell 7 1 commit 4 value 2a\nruns copy 1\n{last}\n")


STEP_BY_STEP = [
    copied(24, "marks 1 locks 1"),
    copied(25, "marks 1 locks 0"),
    copied(26, "quiet"),
]

# launches of what isn't there, and on busy actors; no report is written then
EVENTS_AT_FAULT = [
    replay_fails(WATCHED, ONE, "launch 1 change 2\n", "event 0 code 63"),
    replay_fails(WATCHED, ONE, "launch 1 change 1\nlaunch 1 change 1\n", "event 1 code 61"),
    replay_fails(WATCHED, ONE, "step 5\nlaunch 2 change 10000\n", "event 1 code 63"),
    replay_fails(WATCHED, ONE, "launch 63 change 1\nlaunch 63 run watch 7\n", "event 1 code 61"),
]

IDLE_ACTORS = [
    replay(WATCHED, ONE, "step 5\ncrash 63\nstep 1 999998\n", "runs watch 0\nquiet\n"),
]

# the texts are read in the order given
TEXTS = [
    replay_fails("{", "put 07 0 2a\n", "step\n", "manifest: code 50"),
    replay_fails(WATCHED, "put 07 0 2a\n", "step\n", "script: line 1 code 70"),
    replay_fails(WATCHED, ONE, "step 1\nstep 01\n", "schedule: line 2 code 90"),
    replay_fails(WATCHED, ONE, "launch 1 run other 7\n", "schedule: line 1 code 93"),
]

REPORTS = [
    # the newest write of a cell is reported
    replay(
        manifest_of(),
        "put 7 0 2a\ndel 7 0\n",
        "launch 1 change 1\nstep 1 5\nlaunch 1 change 2\nstep 1 5\n",
        "cell 7 0 commit 4 deleted\nquiet\n",
    ),
    # cells by row and column, and no acknowledgment: the run is from 5 to 6
    replay(
        WATCHED,
        "put 1000 15 00\nput 0 0 0100\nput 9 1 01; put 9 2 02\n",
        "launch 1 change 1\nstep 1 5\nlaunch 1 change 2\nstep 1 5\nlaunch 1 run watch 0\nstep 1 10\n"
        "launch 1 change 3\nstep 1 4\n",
        "cell 0 0 commit 4 value 01\ncell 1000 15 commit 2 value 00\nruns watch 1\nmarks 0 locks 2\n",
    ),
    replay(manifest_of(), "", "", "quiet\n"),
    # runs before the last line
    replay(
        manifest_of(observer(), observer("copy-2", 15)),
        ONE,
        "launch 1 change 1\nstep 1 5\nlaunch 1 run watch 7\nstep 1 9\n",
        f"{CHANGED}runs watch 1\nruns copy-2 0\nmarks 1 locks 0\n",
    ),
]

TABLES: Tables = {
    "rivals": RIVALS,
    "crashed changes": CRASHED,
    "last timestamps": LAST_TIMESTAMPS,
    "step by step": STEP_BY_STEP,
    "events at fault": EVENTS_AT_FAULT,
    "idle actors": IDLE_ACTORS,
    "texts": TEXTS,
    "reports": REPORTS,
}
