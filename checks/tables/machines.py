"""The machine, move by move: what `test_machine` prints of what it asks and is replied, of how many instructions it has done, and of
what a run leaves.

Each program has all helpers, and runs at 3 on a change of row 7 and column 9, or another. All is worked out by hand from RFC 9669
and docs/MACHINE.md, or from the source in C.
"""
from __future__ import annotations

from tables import COPY, ROWS, Row, Tables, encoded
from tables.compiled import EXAMPLES, VALUE
from tables.profiles import EXIT, LOADS, MOV, MOVES

ZEROS = "00" * 32

DELETED, ABSENT = "-", "-"


def went(word: str | int, done: int) -> str:
    return f"{word} -> went, going, {done} done\n"


def asks(word: str | int, cell: str, done: int) -> str:
    return f"{word} -> asks {cell}, asking {cell}, {done} done\n"


def replied(word: str, done: int) -> str:
    return f"{word} -> replied, going, {done} done\n"


def ended(word: str | int, end: int, done: int) -> str:
    return f"{word} -> ended {end}, over {end}, {done} done\n"


def asked(cell: str, reply: str) -> str:
    return f"asked {cell} {'absent' if reply == ABSENT else f'value {reply}'}\n"


def wrote(cell: str, content: str) -> str:
    return f"wrote {cell} {'deleted' if content == DELETED else f'value {content}'}\n"


def machine(code: bytes, moves: str, left: str, column: int = 9, content: str = DELETED, profile: int = 1) -> Row:
    """A machine that makes these moves, and leaves this beside its start and its result."""
    words = [line.partition(" -> ")[0] for line in moves.splitlines()]
    result = moves.rpartition("over ")[2].partition(",")[0]
    told = f"{moves}run 3 result {result}\n{left}of profile {profile}\n"
    return Row(["machine", str(profile), code.hex(), str(column), content, *words], out=told.encode(), program=ROWS)


def plain(code: bytes, end: int, done: int, profile: int = 1) -> Row:
    """A machine that ends so, after so many instructions, and asks and writes nothing."""
    return machine(code, ended(">", end, done), "plain\n", profile=profile)


# Replies and writes.

# asks for cell 7 1 by its fifth instruction
READ = encoded("mov64 r1, 7; mov64 r2, 1; mov64 r3, r10; add64 r3, -32; call 1; exit")


def step_by_step(reply: str, end: int) -> Row:
    moves = "".join(went(".", done) for done in range(1, 5))
    moves += asks(".", "7 1", 4) + replied(reply, 5) + ended(".", end, 6)
    return machine(READ, moves, asked("7 1", reply))


def reply_at(place: int, reply: str, end: int) -> Row:
    """The first and the last byte of a reply at this place of the stack, counted from its end."""
    code = encoded(
        f"mov64 r1, 7; mov64 r2, 1; mov64 r3, r10; add64 r3, -{place}; call 1",
        f"ldxb r0, [r10-{place}]; lsh64 r0, 8; ldxb r1, [r10-{place - 31}]; or64 r0, r1; exit",
    )
    return machine(code, asks(">", "7 1", 4) + replied(reply, 5) + ended(">", end, 10), asked("7 1", reply))


def write_at(place: int) -> Row:
    """A write of what was replied at this place."""
    code = encoded(
        f"mov64 r1, 7; mov64 r2, 1; mov64 r3, r10; add64 r3, -{place}; call 1",
        f"mov64 r1, 8; mov64 r2, 15; mov64 r3, r10; sub64 r3, {place}; call 2; exit",
    )
    moves = asks(">", "7 1", 4) + replied(VALUE, 5) + ended(">", 0, 11)
    return machine(code, moves, asked("7 1", VALUE) + wrote("8 15", VALUE))


def two_asks(first: str, second: str, end: int) -> Row:
    """Reads 5 1 and 6 2 to two places, and ends with both results and the second byte of each value."""
    code = encoded(
        "mov64 r1, 5; mov64 r2, 1; mov64 r3, r10; add64 r3, -32; call 1; mov64 r6, r0",
        "mov64 r1, 6; mov64 r2, 2; mov64 r3, r10; add64 r3, -64; call 1; lsh64 r0, 8; or64 r0, r6",
        "ldxb r1, [r10-31]; lsh64 r1, 16; or64 r0, r1; ldxb r1, [r10-63]; lsh64 r1, 24; or64 r0, r1; exit",
    )
    moves = asks(">", "5 1", 4) + replied(first, 5) + asks(">", "6 2", 10) + replied(second, 11) + ended(">", end, 20)
    return machine(code, moves, asked("5 1", first) + asked("6 2", second))


REPLIES = [
    step_by_step(ABSENT, 1),
    step_by_step(VALUE, 0),
    *(reply_at(place, VALUE, 0x0120) for place in (512, 256, 32)),
    *(reply_at(place, ABSENT, 0) for place in (512, 256, 32)),
    *(write_at(place) for place in (512, 32)),
    two_asks(VALUE, ABSENT, 0x0002_0100),
    two_asks(ABSENT, VALUE, 0x0200_0001),
]


# What helpers write, and what they return: the result of the last is that of the run, whose writes are kept where it is 0.

def deletions(count: int) -> bytes:
    """Deletes the cells of column 0 in the rows from 0 on, so many."""
    return encoded(*(f"mov64 r1, {row}; mov64 r2, 0; call 3" for row in range(count)), "exit")


# deletes 5 0, writes these words to 6 0, and writes them to 5 0 too, which keeps its place
TWICE = encoded(
    "stdw [r10-8], 1; stdw [r10-16], 2; stdw [r10-24], 3; stdw [r10-32], 4; mov64 r1, 5; mov64 r2, 0; call 3",
    "mov64 r1, 6; mov64 r2, 0; mov64 r3, r10; add64 r3, -32; call 2",
    "mov64 r1, 5; mov64 r2, 0; mov64 r3, r10; add64 r3, -32; call 2; exit",
)
FOUR_WORDS = "".join(word.to_bytes(8, "little").hex() for word in (4, 3, 2, 1))


def told(text: str, end: int, done: int, *cells: str) -> Row:
    """A run that ends so, and deletes these cells."""
    left = "".join(wrote(cell, DELETED) for cell in cells) or "plain\n"
    return machine(encoded(text), ended(">", end, done), left, content=VALUE)


WRITES = [
    machine(deletions(17), ended(">", 3, 52), "plain\n"),
    machine(deletions(16), ended(">", 0, 49), "".join(wrote(f"{row} 0", DELETED) for row in range(16))),
    machine(TWICE, ended(">", 0, 18), wrote("5 0", FOUR_WORDS) + wrote("6 0", FOUR_WORDS), content=VALUE),
    told("mov64 r1, 5; mov64 r2, 15; call 3; exit", 0, 4, "5 15"),
    told("mov64 r1, 5; mov64 r2, 16; call 3; exit", 2, 4),
    told("mov64 r1, 5; mov64 r2, -1; call 3; exit", 2, 4),
    told("mov64 r1, 5; lddw r2, 4294967296; call 3; exit", 2, 4),
    told("mov64 r1, 5; mov64 r2, 256; call 3; mov64 r0, 0; exit", 0, 5),
    told("mov64 r1, 5; mov64 r2, 15; call 3; mov64 r0, 1; exit", 1, 5),
    told("mov64 r1, 5; mov64 r2, 15; call 3; lddw r0, 4294967296; exit", 4294967296, 5),
    told("mov64 r1, -1; mov64 r2, 0; call 3; exit", 0, 4, "18446744073709551615 0"),
    # once more after a column that isn't there
    told("mov64 r1, 5; mov64 r2, 15; call 3; mov64 r1, 5; mov64 r2, 16; call 3; mov64 r0, 0; exit", 0, 8, "5 15"),
]


# How many steps one move makes: as many as are asked for, and none beyond an ask or the end.

ADDS = encoded("mov64 r0, 4; add64 r0, 1; lddw r1, 9; add64 r0, r1; exit")
JUMPS = encoded("mov64 r0, 0; jeq64 r0, 0, +1; mov64 r0, 1; exit")
ADDS_TO_REPLY = encoded("mov64 r1, 5; mov64 r2, 3; mov64 r3, r10; add64 r3, -32; call 1; add64 r0, 1; exit")

MANY = [
    machine(ADDS, went(1, 1) + went(3, 4) + ended(1, 14, 5), "plain\n"),
    machine(JUMPS, ended(65535, 0, 3), "plain\n"),
    machine(encoded("mov64 r0, 7; exit"), ended(2, 7, 2), "plain\n"),
    machine(ADDS_TO_REPLY, asks(100, "5 3", 4) + replied(ABSENT, 5) + ended(100, 2, 7), asked("5 3", ABSENT)),
    # the longest programs, in profile 2 with as many slots as profile 1 has, and as it has itself
    *(plain(MOV * 511 + EXIT, 0, 512, profile) for profile in (1, 2)),
    plain(MOV * 4_095 + EXIT, 0, 4_096, 2),
]


# Whole observers, which write to the next column of the row of the change.

# clang makes the same bytes for both versions
(COPIER,) = {(EXAMPLES / f"copier.{version}.bin").read_bytes() for version in ("v1", "v3")}


def copied(column: int, content: str, done: int) -> Row:
    return machine(COPIER, ended(">", 0, done), wrote(f"7 {column + 1}", content), column, content)


OBSERVERS = [
    machine(bytes.fromhex(COPY), ended(">", 0, 16), wrote("7 1", VALUE), content=VALUE),
    machine(bytes.fromhex(COPY), ended(">", 0, 16), wrote("7 1", ZEROS), content=DELETED),
    copied(0, VALUE, 18),
    copied(9, ZEROS, 18),
    copied(14, VALUE, 18),
    copied(0, DELETED, 9),
    copied(14, DELETED, 9),
    # there is no next column
    machine(COPIER, ended(">", 2, 18), "plain\n", 15, VALUE),
    machine(COPIER, ended(">", 2, 9), "plain\n", 15, DELETED),
]


# What extends the sign, in profile 2 alone.

# the row of the change is 7
EXTENDED = [
    *(plain(bytes.fromhex(first + second) + EXIT, end, 3, 2) for first, second, end in MOVES + LOADS),
    plain(bytes.fromhex("9110000000000000") + EXIT, 7, 2, 2),
]

# of each width and each number of bits, with what is made of each number: the top bit of so many bits, and all below it
NUMBERS = (0x80, 0x7F, 0x8000, 0x7FFF, 0x8000_0000, 0x7FFF_FFFF)
ONES_32, ONES_64 = 0xFFFF_FFFF, 0xFFFF_FFFF_FFFF_FFFF

MOVED = {
    "movsx64 r0, r1, 8": (0xFFFF_FFFF_FFFF_FF80, 0x7F, 0, ONES_64, 0, ONES_64),
    "movsx64 r0, r1, 16": (0x80, 0x7F, 0xFFFF_FFFF_FFFF_8000, 0x7FFF, 0, ONES_64),
    "movsx64 r0, r1, 32": (0x80, 0x7F, 0x8000, 0x7FFF, 0xFFFF_FFFF_8000_0000, 0x7FFF_FFFF),
    "movsx32 r0, r1, 8": (0xFFFF_FF80, 0x7F, 0, ONES_32, 0, ONES_32),
    "movsx32 r0, r1, 16": (0x80, 0x7F, 0xFFFF_8000, 0x7FFF, 0, ONES_32),
}

LOADED = {"ldxsb": MOVED["movsx64 r0, r1, 8"], "ldxsh": MOVED["movsx64 r0, r1, 16"], "ldxsw": MOVED["movsx64 r0, r1, 32"]}

# with anything above these bits, and in the destination before
ABOVE = (0, 0x5555_5555_0000_0000, 0xFFFF_FFFF_0000_0000)

EACH_WIDTH = [
    *(
        plain(encoded(f"lddw r1, {number + above}; mov64 r0, -1; {text}; exit"), made, 4, 2)
        for text, results in MOVED.items()
        for number, made in zip(NUMBERS, results, strict=True)
        for above in ABOVE
    ),
    *(
        plain(encoded(f"lddw r1, {number + above}; stxdw [r10-8], r1; {word} r0, [r10-8]; exit"), made, 4, 2)
        for word, results in LOADED.items()
        for number, made in zip(NUMBERS, results, strict=True)
        for above in ABOVE
    ),
    # of other registers, and of one to itself
    *(
        plain(encoded(f"mov64 r{source}, 128; movsx64 r{target}, r{source}, 8; mov64 r0, r{target}; exit"), ONES_64 - 0x7F, 4, 2)
        for source in range(1, 10)
        for target in (source, source % 9 + 1)
    ),
]

TABLES: Tables = {
    "replies": REPLIES,
    "what helpers write": WRITES,
    "many steps": MANY,
    "whole observers": OBSERVERS,
    "what extends the sign": EXTENDED,
    "what extends the sign at each width": EACH_WIDTH,
}
