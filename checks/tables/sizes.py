"""Texts, programs, manifests and reports at the sizes that they may have.

A contract lets a body report that memory is wanted for any input; these rows don't. Worked out by hand from
docs/MACHINE.md, docs/FORMATS.md and docs/TABLE.md: a change takes two timestamps, and each run two more.
"""
from __future__ import annotations

from itertools import cycle, islice

from tables import (
    ARITHMETIC_CODES,
    CHANGED,
    COPIED,
    JUMP_CODES,
    NOBODY,
    ONE,
    SIZES,
    WATCHED,
    WITHOUT_WIDTH,
    Row,
    Tables,
    accepted,
    asm,
    asm_fails,
    dis,
    dis_refused,
    encoded,
    files_of,
    manifest_of,
    observer,
    refused,
    replay,
    replay_fails,
    run,
    run_fails,
    within,
)

SLOTS = 512

# how many bytes a file may have
LARGEST = 16_777_216


def filled(most: int, first: list[str], again: list[str], last: list[str], slots: int = 1) -> list[str]:
    """A program of so many slots: between its first and last instructions these again and again, each of a few slots."""
    room = most - len(first) - len(last)
    return [*first, *islice(cycle(again), room // slots), *["mov64 r0, 0"] * (room % slots), *last]


def arithmetic(code: str) -> list[str]:
    """All forms of an operation."""
    if code == "neg":
        return ["neg32 r0", "neg64 r0"]
    return [f"{code}{width} r0, {operand}" for width in ("32", "64") for operand in ("-5", "r2")]


def on_row(group: list[str], row: int) -> list[str]:
    """A group of instructions with this row for `{}`."""
    return [line.format(row) for line in group]


def groups(group: list[str], count: int) -> list[str]:
    """The same on so many rows, one after another, and on the first of them once more."""
    return [line for row in (*range(count - 1), 0) for line in on_row(group, row)]


NUMBERS = ["mov64 r0, 1", "mov64 r2, 3"]
COMPARISONS = [code for code in JUMP_CODES if code not in WITHOUT_WIDTH]
PLACE = ["mov64 r6, r10", "add64 r6, -32"]
ASK = ["mov64 r1, {}", "mov64 r2, 1", "mov64 r3, r6", "call 1"]
DELETE = ["mov64 r1, {}", "mov64 r2, 15", "call 3"]
STORES = [f"stdw [r10{at}], 5" for at in (-32, -24, -16, -8)]
WRITE = ["mov64 r1, {}", "mov64 r2, 1", "mov64 r3, r6", "call 2"]


def waiting(most: int) -> list[str]:
    """Jumps in the first half, each to a slot of its own in the second, so that as many frames wait there."""
    half = most // 2 - 1
    jumps = [f"jeq64 r0, {number}, +{half}" for number in range(1, half + 1)]
    return ["mov64 r0, 0", *jumps, *["mov64 r0, 0"] * half, "exit"]


def half_written(most: int) -> list[str]:
    """The same, but that a byte is written where no jump goes by, and read at last."""
    lines = waiting(most)
    return [*lines[: most // 2 - 1], "stb [r10-1], 5", *lines[most // 2 : -2], "ldxb r0, [r10-1]", "exit"]


def kinds_of(most: int) -> dict[str, list[str]]:
    """Programs of so many slots, each with a kind of instruction in every slot that may have it."""
    comparisons = [
        f"{code}{width} r0, {operand}, +0" for code in COMPARISONS for width in ("32", "64") for operand in ("-5", "r2")
    ]
    return {
        **{code: filled(most, NUMBERS, arithmetic(code), ["exit"]) for code in ARITHMETIC_CODES},
        "pairs": filled(most, [], ["lddw r0, 18446744073709551615"], ["mov64 r0, 0", "exit"], 2),
        "loads": filled(most, [], [f"ldx{size} r0, [r1+{80 - SIZES[size]}]" for size in SIZES], ["exit"]),
        "stores": filled(most, ["mov64 r0, 0"], [f"st{size} [r10-512], -5" for size in SIZES], ["exit"]),
        "register stores": filled(most, ["mov64 r0, 0"], [f"stx{size} [r10-512], r0" for size in SIZES], ["exit"]),
        "ja": filled(most, ["mov64 r0, 0"], ["ja +0"], ["exit"]),
        "comparisons": filled(most, NUMBERS, comparisons, ["exit"]),
        "starts": filled(most, [], ["call 4"], ["exit"]),
        # as many as there is room for
        "asks": filled(most, [*PLACE, *groups(ASK, (most - 4) // 4)], ["mov64 r0, 0"], ["exit"]),
        "deletions": filled(most, groups(DELETE, (most - 1) // 3), ["mov64 r0, 0"], ["exit"]),
        "writes": filled(most, [*STORES, *PLACE, *groups(WRITE, (most - 8) // 4)], ["mov64 r0, 0"], ["exit"]),
        "stores at the end": filled(most, [], ["mov64 r0, 0"], [*STORES, *PLACE, *on_row(WRITE, 0), "exit"]),
        "waiting": waiting(most),
    }


KINDS = kinds_of(SLOTS)


def code_of(lines: list[str], most: int = SLOTS) -> bytes:
    """The bytes of a program, which has to have so many slots."""
    code = encoded(*lines)
    if len(code) != 8 * most:
        raise ValueError(f"{len(code) // 8} slots of {lines[0]}")
    return code


def text_of(lines: list[str]) -> str:
    return "".join(f"{line}\n" for line in lines)


ASSEMBLED = [asm(text_of(lines), code_of(lines)) for lines in KINDS.values()]
LISTED = [dis(code_of(lines), text_of(lines)) for lines in KINDS.values()]
ACCEPTED = [accepted(code_of(lines), SLOTS) for lines in KINDS.values()]


def ran(code: bytes, helpers: str, report: str, profile: int = 1) -> Row:
    """A run of this program on the one change, which leaves these cells."""
    manifest = manifest_of(observer("large", 0, helpers, code.hex()), profile=profile)
    return run(manifest, ONE, f"{report}runs large 1\nquiet\n")


def cells(kind: str, column: int) -> str:
    """The first 16 rows of a column, as the run left them, with the change in row 7."""
    lines = [f"cell {row} {column} commit 4 {kind}\n" for row in range(16)]
    return "".join([*lines[:7], CHANGED, *lines[7:]])


FIVES = f"value {'0500000000000000' * 3}05"

# the helpers of a kind and what its run leaves, where it isn't the change alone. Of the 17th cell on helpers 2 and 3 answer 3,
# and keep nothing
LEFT = {
    "starts": ("4", CHANGED),
    "asks": ("1", CHANGED),
    "deletions": ("3", cells("deleted", 15)),
    "writes": ("2", cells(FIVES, 1)),
    "stores at the end": ("2", f"cell 0 1 commit 4 {FIVES}\n{CHANGED}"),
}

RUN = [ran(code_of(lines), *LEFT.get(kind, ("", CHANGED))) for kind, lines in KINDS.items()]

MOV, EXIT = encoded("mov64 r0, 0"), encoded("exit")

# what is refused, at this slot from its first on, and with this number
BROKEN = [
    ("mov64 r0, r6; exit", 0, 21),
    ("mov64 r10, 0; exit", 0, 22),
    ("mov32 r0, r1; exit", 0, 23),
    ("stxdw [r10-8], r1; exit", 0, 24),
    ("stb [r10-513], 5; exit", 0, 25),
    ("ldxb r0, [r10-1]; exit", 0, 26),
    ("ldxb r0, [r1+80]; exit", 0, 27),
    ("stb [r1+0], 0; exit", 0, 28),
    ("ldxb r0, [r0+0]; exit", 0, 29),
    ("call 5; exit", 0, 30),
    ("mov64 r1, 0; mov64 r2, 0; mov64 r3, 0; call 1; exit", 3, 31),
    ("ja -1; exit", 0, 32),
    ("ja +100; exit", 0, 33),
    ("ja +1; lddw r0, 5; exit", 0, 34),
    ("exit; exit", 1, 35),
    ("mov64 r0, r1; exit", 1, 37),
    ("jeq64 r1, 0, +0; exit", 0, 38),
]

# so many good slots stand before
LATE = (450, 505)

LATE_REFUSALS = [
    refused(MOV * slots + encoded(text), slots + slot, number) for slots in LATE for text, slot, number in BROKEN
]

BROKEN_BYTES = [
    ("b70b000000000000", 13),
    ("8701000001000000", 14),
    ("1800000005000000", 15),
    ("18000000050000000100000000000000", 16),
]

NO_OPCODE = bytes.fromhex("8f01000000000000")

LATE_BYTES = [
    *(dis_refused(MOV * slots + bytes.fromhex(digits), slots, number) for slots in LATE for digits, number in BROKEN_BYTES),
    *(refused(MOV * slots + NO_OPCODE, slots, 12) for slots in LATE),
    # too long, or no multiple of 8
    dis_refused(bytes(5_001), 0, 10),
    dis_refused(bytes(5_008), 0, 11),
    dis_refused(bytes(LARGEST), 0, 11),
    refused(bytes(LARGEST), 0, 11),
]

# after each number of good slots or lines: nothing, bytes that are no slot's, and a line that is no instruction. What is
# refused so at the first and the last slot stands in verdicts.py and decoder.py, as do the listings of all these lengths
EACH_FAULT = [
    *(refused(MOV * slots, slots - 1, 36) for slots in range(2, SLOTS)),
    *(dis_refused(MOV * slots + NO_OPCODE, slots, 12) for slots in range(1, SLOTS)),
    *(asm_fails("mov64 r0, 0\n" * lines + "foo\n", lines + 1, 80) for lines in range(SLOTS)),
]

EACH_TEXT = [asm("mov64 r0, 0\n" * slots, MOV * slots) for slots in range(1, SLOTS + 1)]


def of_lengths(lengths: range) -> Row:
    """A run of programs of these many slots, an observer each."""
    observers = [observer(f"w{slots}", 0, "", (MOV * (slots - 1) + EXIT).hex()) for slots in lengths]
    runs = "".join(f"runs w{slots} 1\n" for slots in lengths)
    return run(manifest_of(*observers), ONE, f"{CHANGED}{runs}quiet\n")


EACH_RUN = [of_lengths(range(first, min(first + 32, SLOTS + 1))) for first in range(2, SLOTS + 1, 32)]


def one_jump(target: int) -> list[str]:
    """A program whose second slot may jump to this one."""
    return ["mov64 r0, 0", f"jeq64 r0, 1, +{target - 2}", *["mov64 r0, 0"] * 509, "exit"]


JUMPS = [
    *(accepted(code_of(one_jump(target)), SLOTS) for target in (100, 200, 250, 299, 300, 400, 511)),
    refused(code_of(half_written(SLOTS)), 510, 26),
]

# numbers over the whole range of an immediate
SPREAD = [*(f"mov64 r0, {-(2**31) + 8_404_000 * place}" for place in range(510)), "mov64 r0, 77777", "exit"]

TEXTS = [
    asm(text_of(SPREAD), code_of(SPREAD)),
    dis(code_of(SPREAD), text_of(SPREAD)),
    asm("".join(f"# {'x' * 200}\n{line}\n" for line in SPREAD), code_of(SPREAD)),
    asm_fails("# remark\n" * 600 + "foo r1\n", 601, 80),
    asm_fails("\n" * 70_000 + "exit \n", 70_001, 81),
    asm_fails(text_of(SPREAD[:511]) + "lddw r0, 1\n", 512, 83),
]

LONGEST = "b700000000000000" * 511 + "9500000000000000"


def watchers(digits: str) -> list[str]:
    """As many observers as there may be, with this program."""
    return [observer(f"w{number}", 0, "", digits) for number in range(32)]


def runs_of(count: int) -> str:
    return "".join(f"runs w{number} {count}\n" for number in range(32))


SIXTEEN = "; ".join(f"put {row} 0 2a" for row in range(16))
SIXTEEN_CELLS = "".join(f"cell {row} 0 commit 2 value 2a\n" for row in range(16))
EACH_ON_ROW_3 = "launch 1 change 1\nstep 1 100\n" + "".join(
    f"launch {number + 1} run w{number} 3\nstep {number + 1} 600\n" for number in range(32)
)

WRITERS = manifest_of(*(observer(f"w{number}", 0, "2", code_of(KINDS["writes"]).hex()) for number in range(32)))

LATE_FAULT = (MOV * 505 + encoded("mov64 r10, 0; exit")).hex()


def last_fails(last: str, fault: str) -> Row:
    """As many observers as there may be, the last of which is at fault."""
    return run_fails(manifest_of(*watchers(LONGEST)[:31], last), ONE, f"manifest: observer 31 code {fault}")


# the other rows stay marked; of the writers each writes the cells of the one before, and the last commits with 2 and 64 more.
# A start that takes a thousand times the memory that it needs meets its contract too
OBSERVERS = [
    within(64, run(manifest_of(*watchers(LONGEST)), ONE, f"{CHANGED}{runs_of(1)}quiet\n")),
    within(
        64,
        replay(manifest_of(*watchers(LONGEST)), SIXTEEN, EACH_ON_ROW_3, f"{SIXTEEN_CELLS}{runs_of(1)}marks 15 locks 0\n"),
    ),
    within(64, run(WRITERS, ONE, cells(FIVES, 1).replace("commit 4", "commit 66") + f"{runs_of(1)}quiet\n")),
    last_fails(observer("w0"), "53"),
    last_fails(observer("w31", 16), "54"),
    last_fails(observer("w31", digits="b"), "55"),
    last_fails(observer("w31", digits=LATE_FAULT), "56 slot 505 code 22"),
    last_fails(observer("w31", digits=LONGEST + LONGEST[:16]), "56 slot 0 code 11"),
]

CRASHED = "launch 1 change 1\nstep 1 {}\ncrash 1\n"
CLEAR_ALL = "".join(f"clear {row} 0\n" for row in range(1, 16))

# begin, declare and 16 prewrites are 18 steps; then come the stamp and the primary's commit, and those of the other cells
CELLS = [
    replay(NOBODY, SIXTEEN, "launch 1 change 1\nstep 1 36", f"{SIXTEEN_CELLS}quiet\n"),
    replay(WATCHED, SIXTEEN, CRASHED.format(18), "runs watch 0\nmarks 0 locks 16\n"),
    replay(WATCHED, SIXTEEN, f"{CRASHED.format(18)}settle 0 0\n{CLEAR_ALL}", "runs watch 0\nquiet\n"),
    replay(WATCHED, SIXTEEN, CRASHED.format(20), f"{SIXTEEN_CELLS}runs watch 0\nmarks 1 locks 15\n"),
    replay(WATCHED, SIXTEEN, CRASHED.format(20) + CLEAR_ALL, f"{SIXTEEN_CELLS}runs watch 0\nmarks 16 locks 0\n"),
    replay(WATCHED, SIXTEEN, CRASHED.format(35), f"{SIXTEEN_CELLS}runs watch 0\nmarks 16 locks 0\n"),
]

ACTORS = range(1, 64)
ALL_LAUNCHED = "".join(f"launch {actor} run copy 7\n" for actor in ACTORS)
IN_TURN = "".join(f"step {actor}\n" for actor in ACTORS) * 26

LAST = 2**64 - 1
POWERS = [2**power for power in range(64)]

# asks for a cell of the last row, and writes it
FAR = code_of([*["mov64 r0, 0"] * 493, *PLACE, *STORES, *on_row(ASK, -1), *STORES, *on_row(WRITE, -1), "exit"])

SEATS_AND_ROWS = [
    # all begin, at 3 to 65, before the first prewrites its acknowledgment, which is in the way of the others
    replay(
        COPIED,
        ONE,
        f"launch 1 change 1\nstep 1 5\n{ALL_LAUNCHED}{IN_TURN}",
        f"{CHANGED}cell 7 1 commit 66 value 2a\nruns copy 1\nquiet\n",
    ),
    run(WATCHED, f"put {LAST} 0 2a", f"cell {LAST} 0 commit 2 value 2a\nruns watch 1\nquiet\n"),
    run(
        manifest_of(observer("far", 0, "1,2", FAR.hex())),
        ONE,
        f"{CHANGED}cell {LAST} 1 commit 4 {FIVES}\nruns far 1\nquiet\n",
    ),
    run(
        WATCHED,
        "".join(f"put {row} 0 2a\n" for row in POWERS),
        "".join(f"cell {row} 0 commit {2 * number} value 2a\n" for number, row in enumerate(POWERS, 1))
        + "runs watch 64\nquiet\n",
    ),
    # the last four timestamps
    replay(
        COPIED,
        f"put {LAST} 0 2a",
        f"launch 63 change 1\nstep 63 5\nlaunch 63 run copy {LAST}\nstep 63 26",
        f"cell {LAST} 0 commit {LAST - 2} value 2a\ncell {LAST} 1 commit {LAST} value 2a\nruns copy 1\nquiet\n",
        "--clock",
        str(LAST - 4),
    ),
]


def large(width: int) -> Row:
    """10,000 changes, each of so many cells of rows of their own."""
    changes = [range(width * number, width * (number + 1)) for number in range(10_000)]
    script = "".join("; ".join(f"put {row} 0 2a" for row in rows) + "\n" for rows in changes)
    report = "".join(f"cell {row} 0 commit {2 * number} value 2a\n" for number, rows in enumerate(changes, 1) for row in rows)
    return run(NOBODY, script, f"{report}quiet\n")


REPORTS = [
    within(256, large(1)),
    within(1_024, large(16)),
    run_fails(NOBODY, "del 0 0\n" * 9_999 + "del 0\n", "script: line 10000 code 70"),
]

def behind_remark(text: str) -> str:
    """A text as long as a file may be: a remark, and then this."""
    return f"{'#' * (LARGEST - len(text) - 1)}\n{text}"


def behind_lines(text: str) -> str:
    """The same, after as many empty lines."""
    return "\n" * (LARGEST - len(text)) + text


LARGEST_TEXTS = [
    replay(
        f"{WATCHED:>{LARGEST}}",
        behind_remark(ONE),
        behind_remark("launch 1 change 1\nstep 1 5\nlaunch 1 run watch 7\nstep 1 10"),
        f"{CHANGED}runs watch 1\nquiet\n",
    ),
    run(NOBODY, behind_lines(ONE), f"{CHANGED}quiet\n"),
    run_fails(NOBODY, behind_lines("x"), f"script: line {LARGEST} code 70"),
    replay_fails(NOBODY, "", behind_lines("x"), f"schedule: line {LARGEST} code 90"),
    asm(behind_remark("mov64 r0, 0\nexit\n"), MOV + EXIT),
    asm_fails(behind_lines("x"), LARGEST, 80),
    run_fails("[" * LARGEST, ONE, "manifest: code 50"),
    Row(["run", "m", "s"], files_of(m=NOBODY, s=b"#" * (LARGEST - 1) + b"\xff"), 1, err=b"not text s\n"),
]

MILLION = 1_000_000
NINES = "9" * MILLION

LONG_WORDS = [
    run_fails(NOBODY, f"put {NINES} 0 2a", "script: line 1 code 71"),
    run_fails(NOBODY, f"put 7 0 {NINES}", "script: line 1 code 72"),
    run_fails(NOBODY, f"{NINES} 7 0", "script: line 1 code 70"),
    replay_fails(NOBODY, "", f"step {NINES}", "schedule: line 1 code 91"),
    replay_fails(NOBODY, "", f"launch 1 run {NINES} 7", "schedule: line 1 code 93"),
    asm_fails(f"mov64 r0, {NINES}", 1, 82),
    asm_fails(f"mov64 r{NINES}, 0", 1, 81),
    asm_fails(NINES, 1, 80),
    run_fails(manifest_of(observer("w" * MILLION)), ONE, "manifest: observer 0 code 53"),
    run_fails(manifest_of(observer(helpers="1," * MILLION + "1")), ONE, "manifest: observer 0 code 54"),
    run_fails(manifest_of(observer(digits="b" * (MILLION + 1))), ONE, "manifest: observer 0 code 55"),
    run_fails(manifest_of(observer(digits="b" * MILLION)), ONE, "manifest: observer 0 code 56 slot 0 code 11"),
    run_fails(manifest_of(*[observer()] * 10_000), ONE, "manifest: code 52"),
]

TABLES: Tables = {
    "assembled": ASSEMBLED,
    "listed": LISTED,
    "accepted": ACCEPTED,
    "run": RUN,
    "late refusals": LATE_REFUSALS,
    "late bytes": LATE_BYTES,
    "each fault": EACH_FAULT,
    "each text": EACH_TEXT,
    "each run": EACH_RUN,
    "jumps": JUMPS,
    "texts": TEXTS,
    "observers": OBSERVERS,
    "cells": CELLS,
    "seats and rows": SEATS_AND_ROWS,
    "reports": REPORTS,
    "largest texts": LARGEST_TEXTS,
    "long words": LONG_WORDS,
}
