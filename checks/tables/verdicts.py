"""Whole programs and their verdicts, worked out by hand from docs/MACHINE.md, "Verification".

Unless a row names its helpers, a program may call all four. What breaks 37 and 38 stands in verifier.py.
"""
from __future__ import annotations

from tables import (
    COPY,
    SIZES,
    Row,
    Tables,
    accepted,
    encoded,
    manifest_of,
    observer,
    refused,
    run,
    run_fails,
    taken,
    told,
)

ARITHMETIC_AND_STORES = [
    told("mov64 r10, 0; exit", 0, 22),
    told("mov32 r0, r1; exit", 0, 23),
    told("stxdw [r10-8], r1", 0, 24),
    told("stb [r10-513], 5", 0, 25),
    taken("stb [r10-512], 5; mov64 r0, 0; exit"),
    told("stb [r1+0], 0", 0, 28),
    told("mov64 r2, 0; ldxb r0, [r2+0]", 1, 29),
]

CALLS_AND_ENDS = [
    told("mov64 r1, 0; mov64 r2, 0; mov64 r3, 0; call 1; exit", 3, 31),
    told("ja +1; exit", 0, 33),
    told("mov64 r0, 0; exit; exit", 2, 35),
    told("mov64 r0, 0", 0, 36),
    taken("mov64 r0, 0; exit"),
]

REGISTERS_AND_THE_RECORD = [
    told("mov64 r6, r1; exit", 1, 21),
    told("add64 r1, 80; ldxb r0, [r1+0]; exit", 1, 27),
    taken("add64 r1, 79; ldxb r0, [r1+0]; exit"),
]

JUMPS = [
    told("ja -1", 0, 32),
    told("ja +1; lddw r0, 5; exit", 0, 34),
    # one of two ways to slot 3 leaves the byte unwritten
    told("ldxdw r2, [r1+0]; jeq64 r2, 0, +1; stb [r10-1], 5; ldxb r0, [r10-1]; exit", 3, 26),
]


def around_pair(jump: str) -> str:
    """A program with the jump in slot 1, a pair in slots 2 and 3, and its exit in slot 4."""
    return f"mov64 r0, 0; {jump}; lddw r2, 5; exit"


# onto the first slot, the first of the pair, its second, the last slot, and past the end
JUMPS_OF_EVERY_CLASS = [
    row
    for operand in ("0", "r0")
    for word in ("jeq32", "jeq64")
    for row in (
        told(around_pair(f"{word} r0, {operand}, -2"), 1, 32),
        taken(around_pair(f"{word} r0, {operand}, +0")),
        told(around_pair(f"{word} r0, {operand}, +1"), 1, 34),
        taken(around_pair(f"{word} r0, {operand}, +2")),
        told(around_pair(f"{word} r0, {operand}, +3"), 1, 33),
    )
] + [
    told(around_pair("ja -2"), 1, 32),
    taken(around_pair("ja +0")),
    told(around_pair("ja +1"), 1, 34),
    # nothing else leads past a jump
    told(around_pair("ja +2"), 2, 35),
    told(around_pair("ja +3"), 1, 33),
]

MOV, EXIT = encoded("mov64 r0, 0"), encoded("exit")

SLOTS_512 = [
    refused(MOV * 512, 511, 36),
    accepted(MOV * 511 + EXIT, 512),
    refused(MOV * 255 + EXIT + MOV * 255 + EXIT, 256, 35),
    # a jump over all but the last
    refused(encoded("ja +510") + MOV * 254 + EXIT + MOV * 255 + encoded("mov64 r0, r10"), 1, 35),
    refused(MOV * 511 + EXIT * 2, 0, 11),
]

NINTH = 8 * 8


def copying(ninth: str, helpers: str) -> str:
    """A manifest of the observer that copies, with this in its slot 8, and these helpers."""
    digits = bytes.fromhex(COPY)
    changed = digits[:NINTH] + encoded(ninth) + digits[NINTH + 8 :]
    return manifest_of(observer("copy", 0, helpers, changed.hex()))


LAST_STORE = "stxdw [r10-8], r2"

COPIES = [
    accepted(bytes.fromhex(COPY), 16),
    run(copying(LAST_STORE, "2"), "", "runs copy 0\nquiet\n"),
    run_fails(copying(LAST_STORE, ""), "", "manifest: observer 0 code 56 slot 13 code 30"),
    # one store less leaves eight bytes unwritten
    run_fails(copying("stxdw [r10-16], r2", "2"), "", "manifest: observer 0 code 56 slot 13 code 26"),
    run_fails(copying("add64 r2, r6", "2"), "", "manifest: observer 0 code 56 slot 8 code 23"),
]


def meeting(way: str) -> str:
    """A program with two ways to slot 4, of which one changes register 3, a pointer to the end of the stack, so."""
    return f"ldxdw r2, [r1+0]; mov64 r3, r10; jeq64 r2, 0, +1; {way}; stb [r3-1], 5; mov64 r0, 0; exit"


WAYS_THAT_MEET = [
    # a pointer that has two distances is none, one that has the same twice stays
    told(meeting("add64 r3, -8"), 4, 21),
    taken(meeting("add64 r3, 0")),
    # a number on one way and a pointer on the other
    told(meeting("mov64 r3, 0"), 4, 21),
]


def stack_ends(size: str) -> list[Row]:
    """Stores of this size and loads of the same bytes at both ends of the stack, and loads where nothing is stored."""
    rows = []
    for offset in (-512, -SIZES[size]):
        rows += [
            taken(f"st{size} [r10{offset}], 5; ldx{size} r0, [r10{offset}]; exit"),
            taken(f"mov64 r0, 5; stx{size} [r10{offset}], r0; exit"),
            told(f"ldx{size} r0, [r10{offset}]; exit", 0, 26),
        ]
    for offset in (-513, 1 - SIZES[size]):
        rows += [
            told(f"st{size} [r10{offset:+}], 5; ldx{size} r0, [r10{offset:+}]; exit", 0, 25),
            told(f"mov64 r0, 5; stx{size} [r10{offset:+}], r0; exit", 1, 25),
            told(f"ldx{size} r0, [r10{offset:+}]; exit", 0, 25),
        ]
    return rows


def record_ends(size: str) -> list[Row]:
    """Loads of this size at both ends of the record."""
    last = 80 - SIZES[size]
    return [
        taken(f"ldx{size} r0, [r1+0]; exit"),
        told(f"ldx{size} r0, [r1-1]; exit", 0, 27),
        taken(f"ldx{size} r0, [r1+{last}]; exit"),
        told(f"ldx{size} r0, [r1+{last + 1}]; exit", 0, 27),
    ]


ENDS_OF_THE_STACK = [row for size in SIZES for row in stack_ends(size)]

ENDS_OF_THE_RECORD = [row for size in SIZES for row in record_ends(size)]


def far(*moves: str) -> str:
    """A program that moves a pointer to the end of the stack so, and stores a byte before it."""
    return "; ".join(["mov64 r2, r10", *moves, "stb [r2-1], 5", "mov64 r0, 0", "exit"])


POINTERS_COME_BACK = [
    # far out and back: the distance is a whole number, and nothing wraps
    taken(far("add64 r2, 2147483647", "add64 r2, 2147483647", "sub64 r2, 2147483647", "sub64 r2, 2147483647")),
    # twice 2 ^ 31 up is no way back to where it was
    told(far("sub64 r2, -2147483648", "sub64 r2, -2147483648", "add64 r2, 0", "add64 r2, 0"), 5, 25),
    taken(far("sub64 r2, -2147483648", "sub64 r2, -2147483648", "add64 r2, -2147483648", "add64 r2, -2147483648")),
]


BYTES = [
    refused(bytes.fromhex("1800000005000000"), 0, 15),
    refused(bytes.fromhex("720afffd00000000"), 0, 25),
    accepted(bytes.fromhex("720a00fe00000000b7000000000000009500000000000000"), 3),
]

TABLES: Tables = {
    "arithmetic and stores": ARITHMETIC_AND_STORES,
    "calls and ends": CALLS_AND_ENDS,
    "registers and the record": REGISTERS_AND_THE_RECORD,
    "jumps": JUMPS,
    "jumps of every class": JUMPS_OF_EVERY_CLASS,
    "512 slots": SLOTS_512,
    "an observer that copies": COPIES,
    "ways that meet": WAYS_THAT_MEET,
    "ends of the stack": ENDS_OF_THE_STACK,
    "ends of the record": ENDS_OF_THE_RECORD,
    "pointers come back": POINTERS_COME_BACK,
    "bytes": BYTES,
}
