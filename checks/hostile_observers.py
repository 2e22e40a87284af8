"""Observers that don't come to rest, and those beside them that just do, for `checks/hostile`: their programs as texts, and what these do."""
from __future__ import annotations

from collections.abc import Callable
from dataclasses import dataclass

# Rows have 64 bits.
ROWS = 2**64
LAST = ROWS - 1

# The first row of most changes.
ROW = 7

# How many runs are made at most after a change, as crates/pb_keeper/src/passes.rt has it, and how many passes, as that of pb_passes has it.
MAX_RUNS, MAX_PASSES = 100_000, 1_000

# What a far row is made by: a full cycle of all rows, and as many of them as there are odd numbers to add.
FACTOR = 6364136223846793005


@dataclass(frozen=True)
class Move:
    """How a row is made of that of the change, as lines on register 1 and as a function. Register 7 is FACTOR."""

    lines: tuple[str, ...]
    row: Callable[[int], int]


def moved(by):
    return Move((f"add64 r1, {by}",), lambda row: (row + by) % ROWS)


def far(odd):
    return Move(("mul64 r1, r7", f"add64 r1, {odd}"), lambda row: (row * FACTOR + odd) % ROWS)


SAME, AFTER, BEFORE, HALF = Move((), lambda row: row), moved(1), moved(-1), Move(("rsh64 r1, 1",), lambda row: row // 2)


@dataclass(frozen=True)
class Hostile:
    """An observer of a column, which writes or deletes the cells of these rows and columns. Its result is 0, or another, with which it
    writes nothing. Where it has an end, it writes nothing if that comparison holds of the row of the change."""

    name: str
    column: int
    targets: tuple[tuple[Move, int], ...]
    deletes: bool = False
    result: int = 0
    end: tuple[str, int] | None = None

    def writes(self, row):
        """The cells that a run on this row writes, each once, in their order."""
        if self.result or (self.end and (row >= self.end[1] if self.end[0] == "jge64" else row <= self.end[1])):
            return []
        return [*dict.fromkeys((move.row(row), column) for move, column in self.targets)]

    def text(self):
        """The text of its program."""
        body = [f"lddw r7, {FACTOR}", *(f"stdw [r10-{at}], {42 if at == 32 else 0}" for at in (32, 24, 16, 8))]
        for move, column in self.targets:
            place = () if self.deletes else ("mov64 r3, r10", "add64 r3, -32")
            body += ["mov64 r1, r6", *move.lines, f"mov64 r2, {column}", *place, f"call {3 if self.deletes else 2}"]
        # a jump counts slots, and `lddw` has two
        end = [f"{self.end[0]} r6, {self.end[1]}, +{len(body) + 1}"] if self.end else []
        return "".join(f"{line}\n" for line in ["ldxdw r6, [r1+0]", *end, *body, f"mov64 r0, {self.result}", "exit"])

    def helpers(self):
        return [3 if self.deletes else 2]


@dataclass(frozen=True)
class Shape:
    """Observers, and the changes that are made: each is of one cell. `rests` is whether all of them come to rest. Of a large table the list
    isn't read."""

    name: str
    observers: tuple[Hostile, ...]
    rests: bool = False
    changes: tuple[tuple[int, int], ...] = ((ROW, 0),)
    is_large: bool = False


def one(*moves, **more):
    """An observer that writes cells of its own column, in these rows."""
    return (Hostile("one", 0, tuple((move, 0) for move in moves), **more),)


def chain(runs, is_up, rests):
    """An observer that ends: so many runs, from the first row up, or down to it."""
    last = ROW + runs - 1
    end, move, begin = (("jge64", last), AFTER, ROW) if is_up else (("jle64", ROW), BEFORE, last)
    return Shape(f"{runs} runs {'up' if is_up else 'down'}", one(move, end=end), rests, ((begin, 0),))


def in_turn(move):
    """Two observers, each of which writes the column of the other."""
    return Hostile("first", 0, ((move, 1),)), Hostile("second", 1, ((move, 0),))


# The second change of these, of a cell that no observer observes: after it runs go on where they were cut off.
AGAIN = ((ROW, 0), (5, 15))
# A change of a cell that another observer has, in a row before all others, and after them.
QUIET = Hostile("quiet", 2, ((SAME, 3),))

# Those that take longest come first.
SHAPES = (
    Shape("sixteen far rows", one(*map(far, range(1, 33, 2))), is_large=True),
    Shape("two far rows", one(far(1), far(3)), changes=AGAIN),
    Shape("half and a far row", one(HALF, far(1))),
    Shape("a quiet one, and a row after", (*one(AFTER), QUIET), changes=((ROW, 0), (5_000_000, 2), (LAST, 15))),
    Shape("a quiet one, and a row before", (*one(AFTER), QUIET), changes=((ROW, 0), (5, 2))),
    Shape("the row after", one(AFTER), changes=AGAIN),
    Shape("three of one column", tuple(Hostile(f"n{at}", 0, ((AFTER, 0),)) for at in range(3)), changes=AGAIN),
    Shape("the row after the last one", one(AFTER), changes=((LAST - 2, 0),)),
    Shape("two in turn in the row after", in_turn(AFTER)),
    Shape("the row after is deleted", one(AFTER, deletes=True)),
    chain(MAX_RUNS - 1, True, rests=True),
    chain(MAX_RUNS, True, rests=True),
    chain(MAX_RUNS + 1, True, rests=False),
    Shape("the row before", one(BEFORE), changes=((5_000_000, 0), (5, 15))),
    Shape("its own cell", one(SAME), changes=AGAIN),
    Shape("two in turn in one row", in_turn(SAME), changes=AGAIN),
    Shape("two in turn in the row before", in_turn(BEFORE), changes=((5_000_000, 0), (5, 15))),
    Shape("its own cell is deleted", one(SAME, deletes=True), changes=AGAIN),
    Shape("a far row", one(far(1)), changes=AGAIN),
    Shape("a far row is deleted", one(far(1), deletes=True), changes=AGAIN),
    Shape("a result other than 0", one(AFTER, result=1), rests=True, changes=AGAIN),
    Shape("its own cell, with a result other than 0", one(SAME, result=1), rests=True, changes=AGAIN),
    chain(MAX_PASSES - 1, False, rests=True),
    chain(MAX_PASSES, False, rests=False),
    chain(MAX_PASSES + 1, False, rests=False),
)
