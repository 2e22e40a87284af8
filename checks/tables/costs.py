"""What much work costs at most, in memory and in time of a processor.

A body that makes room for far more than it uses, or looks for one among all of them, meets its contract; these rows refuse it. Each
limit is several times what is wanted. Worked out by hand from docs/TABLE.md and docs/FORMATS.md.
"""
from __future__ import annotations

from tables import COPIED, NOBODY, ONE, Row, Tables, in_time, replay, run, within

COUNT = 10_000


def copies() -> Row:
    """As many changes as there may be, each of its own row, and a copy of each: the changes have the first timestamps, two each,
    and the runs the next."""
    script = "".join(f"put {row} 0 2a\n" for row in range(COUNT))
    cells = "".join(
        f"cell {row} 0 commit {2 * row + 2} value 2a\ncell {row} 1 commit {2 * (COUNT + row) + 2} value 2a\n" for row in range(COUNT)
    )
    return run(COPIED, script, f"{cells}runs copy {COUNT}\nquiet\n")


def uneven(crashed: int, made: int) -> Row:
    """So many changes that crash once they have begun, with a timestamp each, and so many that are made, with two: whoever looks
    for one by its start finds it no sooner by guessing where it stands."""
    events = "launch 1 change 1\nstep 1\ncrash 1\n" * crashed + "launch 1 change 1\nstep 1 5\n" * made
    return replay(NOBODY, ONE, events, f"cell 7 0 commit {crashed + 2 * made} value 2a\nquiet\n")


MEMORY = [within(160, copies())]

TIME = [in_time(20, uneven(150_000, 60_000)), in_time(20, copies())]

TABLES: Tables = {"memory": MEMORY, "time": TIME}
