"""Worlds: what `test_worlds` prints for lists of events that no schedule names, or of more seats and entries than a replay leaves
to choose; and of as many actors as there may be.

All is worked out by hand from docs/FORMATS.md, docs/CODES.md and docs/TABLE.md.
"""
from __future__ import annotations

from tables import ONE, ROWS, WATCHED, Row, Tables

REPORT = "runs watch 0\nquiet\n"


def world(seats: int, lists: list[str], notes: str, report: str = REPORT, limit: int = 1000) -> Row:
    """A world of one change and one observer, in which these lists of events are run one after another, and have these notes."""
    told = "".join(f"{note}\n" for note in notes.split("; ") if note)
    return Row(["worlds", str(seats), str(limit), WATCHED, ONE, *lists], out=f"{told}{report}".encode(), program=ROWS)


def steps(actor: int, count: int) -> str:
    return "; ".join([f"step {actor}"] * count)


# there is an actor for each seat but the first, and one change; after an event at fault a world goes on
FAULTS = [
    world(seats, [event, ""], f"event 0 code {code}")
    for seats, event, code in (
        (1, "step 1", 60),
        (3, "launch 0 change 1", 60),
        (3, "step 0", 60),
        (3, "crash 0", 60),
        (3, "launch 3 change 1", 60),
        (3, "step 3", 60),
        (3, "crash 3", 60),
        (64, "step 64", 60),
        (64, "crash 4294967295", 60),
        (3, "launch 2 change 0", 63),
        (3, "launch 2 change 2", 63),
    )
]

# there is one observer
OBSERVERS = [world(2, ["launch 1 run 1 7", "launch 1 run 0 7"], "event 0 code 63; launched")]

# the events before the one at fault stand, and those after it didn't happen; a later list goes on from there
GOES_ON = [
    world(
        3,
        [
            "launch 1 change 1; step 1; launch 1 change 1; step 1",
            "step 1; launch 2 change 1; step 2",
            "launch 2 change 2; crash 1",
            "crash 1; launch 1 change 1",
        ],
        "event 2 code 61; done; launched; at 2; event 0 code 61; crashed; launched",
    )
]

CHANGE = ["at 1", "done", "done", "at 2", "committed"]


def full(limit: int) -> Row:
    """A journal has room for so many of the five steps of a change, and refuses the next. The third puts the lock on the cell, and
    the fifth would take it off."""
    notes = "; ".join(["launched", *CHANGE[:limit], "refused 44"])
    report = REPORT if limit < 3 else "runs watch 0\nmarks 0 locks 1\n"
    return world(2, [f"launch 1 change 1; {steps(1, limit + 1)}"], notes, report, limit)


# a refused step ends its actor's job, and those of the main seat change nothing
FULL = [
    world(
        2,
        [f"launch 1 change 1; {steps(1, 5)}; launch 1 change 1; clear 7 0; step 1"],
        "launched; at 1; done; done; refused 44; idle; launched; refused 44; refused 44",
        "runs watch 0\nmarks 0 locks 1\n",
        3,
    ),
    *map(full, range(5)),
]

ACTORS = range(1, 64)


def all_actors() -> Row:
    """A change of one cell, and then runs on it: each actor begins, with 3 to 65, before any of them writes; then each reads, and
    reads the same; and then each goes on to its end. The first to write commits with the timestamp that is next, and sweeps; each
    other is in conflict on the acknowledgment, which has a write record above its start."""
    events = [f"launch 1 change 1; {steps(1, 5)}", *(f"launch {actor} run 0 7; step {actor}" for actor in ACTORS)]
    events += [steps(actor, count) for count in (2, 100) for actor in ACTORS]
    notes = ["launched", *CHANGE]
    for actor in ACTORS:
        notes += ["launched", f"at {actor + 2}"]
    notes += ["found 1 2 value 2a", "absent"] * len(ACTORS)
    declared = ["instruction", "instruction", "done"]
    notes += [*declared, "done", "at 66", "committed", "done", *["idle"] * 93]
    notes += [*declared, "conflict", *["idle"] * 96] * (len(ACTORS) - 1)
    return world(64, ["; ".join(events)], "; ".join(notes), "cell 7 0 commit 2 value 2a\nruns watch 1\nquiet\n")


TABLES: Tables = {
    "actors and changes that aren't there": FAULTS,
    "observers that aren't there": OBSERVERS,
    "a world goes on after a fault": GOES_ON,
    "full journals": FULL,
    "as many actors as there may be": [all_actors()],
}
