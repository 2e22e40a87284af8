"""What programs end with, shown by a run: each opcode of the profile once at least, and both ends of stack and record.

Worked out by hand from RFC 9669, sections 4.1, 4.3 and 5, and docs/MACHINE.md, "The change record".
"""
from __future__ import annotations

from tables import Row, Tables, accepted, encoded, manifest_of, observer, replay, run

MAX = 0xFFFF_FFFF_FFFF_FFFF

# a row whose eight bytes are their places, from 1 on
ROW = 0x0807_0605_0403_0201

# the same of 32 bytes
VALUE = bytes(range(1, 33)).hex()

KEEP = (
    "stxdw [r10-32], r0; stdw [r10-24], 0; stdw [r10-16], 0; stdw [r10-8], 0; mov64 r1, 5; mov64 r2, 0; mov64 r3, r10; "
    "add64 r3, -32; call 2; exit"
)


def result(text: str, wanted: int) -> Row:
    """A program, without the exit that ends it, and what register 0 has there.

    In place of the exit stand instructions that write register 0 to cell 5 0. It runs at 3, on a change of row ROW and column
    9.
    """
    digits = (wanted.to_bytes(8, "little").rstrip(bytes(1)) or bytes(1)).hex()
    return run(
        manifest_of(observer(column=9, helpers="1,2,3,4", digits=encoded(text, KEEP).hex())),
        f"put {ROW} 9 {VALUE}\n",
        f"cell 5 0 commit 4 value {digits}\ncell {ROW} 9 commit 2 value {VALUE}\nruns watch 1\nquiet\n",
    )


COUNTED = 0xFEDC_BA98_7654_3210

# an operation, its operands, and what it makes at 64 and at 32 bits
ADDS = [
    ("add", COUNTED, 7, 0xFEDC_BA98_7654_3217, 0x7654_3217),
    ("add", COUNTED, -3, 0xFEDC_BA98_7654_320D, 0x7654_320D),
    ("add", MAX, 1, 0, 0),
    ("sub", COUNTED, -3, 0xFEDC_BA98_7654_3213, 0x7654_3213),
    ("sub", 0, 1, MAX, 0xFFFF_FFFF),
    ("mul", COUNTED, -2, 0x0246_8ACF_1357_9BE0, 0x1357_9BE0),
    ("mul", COUNTED, 65537, 0xB975_30EC_A864_3210, 0xA864_3210),
    ("mov", COUNTED, 7, 7, 7),
    ("mov", COUNTED, -2, 0xFFFF_FFFF_FFFF_FFFE, 0xFFFF_FFFE),
]

DIVIDES = [
    ("div", COUNTED, 16, 0x0FED_CBA9_8765_4321, 0x0765_4321),
    ("div", MAX, -2, 1, 1),
    ("div", COUNTED, 0, 0, 0),
    ("mod", COUNTED, 10, 0, 8),
    ("mod", MAX, -2, 1, 1),
    ("mod", COUNTED, 0, COUNTED, 0x7654_3210),
]

BITS = [
    ("or", COUNTED, -16, 0xFFFF_FFFF_FFFF_FFF0, 0xFFFF_FFF0),
    ("or", COUNTED, 15, 0xFEDC_BA98_7654_321F, 0x7654_321F),
    ("and", COUNTED, -16, COUNTED, 0x7654_3210),
    ("and", COUNTED, 255, 16, 16),
    ("xor", COUNTED, -1, 0x0123_4567_89AB_CDEF, 0x89AB_CDEF),
    ("xor", COUNTED, 255, 0xFEDC_BA98_7654_32EF, 0x7654_32EF),
]

# the amount is taken modulo the width
SHIFTS = [
    ("lsh", COUNTED, 4, 0xEDCB_A987_6543_2100, 0x6543_2100),
    ("lsh", COUNTED, 36, 0x6543_2100_0000_0000, 0x6543_2100),
    ("lsh", COUNTED, 65, 0xFDB9_7530_ECA8_6420, 0xECA8_6420),
    ("rsh", COUNTED, 36, 0x0FED_CBA9, 0x0765_4321),
    ("rsh", COUNTED, 65, 0x7F6E_5D4C_3B2A_1908, 0x3B2A_1908),
    ("arsh", COUNTED, 36, 0xFFFF_FFFF_FFED_CBA9, 0x0765_4321),
    ("arsh", COUNTED, 65, 0xFF6E_5D4C_3B2A_1908, 0x3B2A_1908),
    ("arsh", 0xF000_0000, 4, 0x0F00_0000, 0xFF00_0000),
]

# a comparison, its operands, and whether it holds at 64 and at 32 bits; all but the low half is of no account at 32
BEYOND = 0x0000_0001_0000_0005

EQUALITIES = [
    ("jeq", 5, 5, True, True),
    ("jeq", 5, 6, False, False),
    ("jeq", BEYOND, 5, False, True),
    ("jeq", 0xFFFF_FFFF, -1, False, True),
    ("jne", 5, 5, False, False),
    ("jne", 5, 6, True, True),
    ("jne", BEYOND, 5, True, False),
    ("jset", 6, 3, True, True),
    ("jset", 6, 9, False, False),
    ("jset", 0xFFFF_0000_0000_0000, -1, True, False),
    ("jset", 0x8000_0000, -0x8000_0000, True, True),
]

UNSIGNED = [
    ("jgt", 6, 5, True, True),
    ("jgt", 5, 5, False, False),
    ("jgt", BEYOND, 5, True, False),
    ("jgt", 5, -1, False, False),
    ("jge", 5, 5, True, True),
    ("jge", 5, -1, False, False),
    ("jge", BEYOND, 6, True, False),
    ("jlt", 5, 5, False, False),
    ("jlt", 5, -1, True, True),
    ("jlt", BEYOND, 6, False, True),
    ("jle", 5, 5, True, True),
    ("jle", 6, 5, False, False),
    ("jle", BEYOND, 5, False, True),
]

SIGNED = [
    ("jsgt", 5, -1, True, True),
    ("jsgt", 5, 5, False, False),
    ("jsgt", 0xFFFF_FFFF, 5, True, False),
    ("jsge", 5, 5, True, True),
    ("jsge", MAX, 5, False, False),
    ("jsge", 0xFFFF_FFFF, 5, True, False),
    ("jslt", MAX, 5, True, True),
    ("jslt", 5, 5, False, False),
    ("jslt", 0xFFFF_FFFF, 5, False, True),
    ("jsle", 5, 5, True, True),
    ("jsle", 6, 5, False, False),
    ("jsle", 0xFFFF_FFFF, 5, False, True),
]


def word(immediate: int) -> int:
    """An immediate as a word of 64 bits, with its sign in all upper bits."""
    return immediate & MAX


def arithmetic(operation: str, a: int, b: int, wide: int, narrow: int) -> list[Row]:
    """The second operand as an immediate, and in a register: at 32 bits the low half counts."""
    return [
        row
        for width, wanted in ((64, wide), (32, narrow))
        for row in (
            result(f"lddw r0, {a}; {operation}{width} r0, {b}", wanted),
            result(f"lddw r0, {a}; lddw r1, {word(b)}; {operation}{width} r0, r1", wanted),
        )
    ]


def comparison(jump: str, a: int, b: int, wide: bool, narrow: bool) -> list[Row]:
    """Programs that end with 1 where the jump is taken, and with 0 where it isn't."""
    return [
        row
        for width, holds in ((64, wide), (32, narrow))
        for row in (
            result(f"lddw r2, {a}; mov64 r0, 1; {jump}{width} r2, {b}, +1; mov64 r0, 0", int(holds)),
            result(
                f"lddw r2, {a}; lddw r3, {word(b)}; mov64 r0, 1; {jump}{width} r2, r3, +1; mov64 r0, 0", int(holds)
            ),
        )
    ]


ARITHMETIC = [row for rows in (ADDS, DIVIDES, BITS, SHIFTS) for fields in rows for row in arithmetic(*fields)]

COMPARISONS = [row for rows in (EQUALITIES, UNSIGNED, SIGNED) for fields in rows for row in comparison(*fields)]

OTHERS = [
    result("lddw r0, 18446744073709551614", 0xFFFF_FFFF_FFFF_FFFE),
    result("lddw r0, 4294967303", 4294967303),
    result("mov64 r0, 5; neg64 r0", 0xFFFF_FFFF_FFFF_FFFB),
    result("mov64 r0, 5; neg32 r0", 0xFFFF_FFFB),
    result("lddw r0, 4294967296; neg32 r0", 0),
    result("mov64 r0, 1; jeq64 r0, 2, +1; ja +1; mov64 r0, 3", 1),
    result("call 4", 3),
    # the low bytes of -2 are written, and the rest of the register is filled with zeros
    result("stb [r10-8], -2; ldxb r0, [r10-8]", 0xFE),
    result("sth [r10-8], -2; ldxh r0, [r10-8]", 0xFFFE),
    result("stw [r10-8], -2; ldxw r0, [r10-8]", 0xFFFF_FFFE),
    result("stdw [r10-8], 2147483647; ldxdw r0, [r10-8]", 0x7FFF_FFFF),
    # the lowest byte comes first
    result("stw [r10-8], 16909060; ldxb r0, [r10-8]", 4),
    result("stw [r10-8], 16909060; ldxh r0, [r10-7]", 0x0203),
]

# what a store of the counted word leaves of eight bytes of ones
STORES_OF_REGISTERS = [
    result(f"stdw [r10-8], -1; lddw r1, {COUNTED}; stx{size} [r10-8], r1; ldxdw r0, [r10-8]", wanted)
    for size, wanted in (
        ("b", 0xFFFF_FFFF_FFFF_FF10),
        ("h", 0xFFFF_FFFF_FFFF_3210),
        ("w", 0xFFFF_FFFF_7654_3210),
        ("dw", COUNTED),
    )
]


def record(size: str, bytes_moved: int, first: int, last: int) -> list[Row]:
    """The record's first and last word of a size, also by a pointer that was moved."""
    at = 80 - bytes_moved
    return [
        result(f"ldx{size} r0, [r1+0]", first),
        result(f"ldx{size} r0, [r1+{at}]", last),
        result(f"mov64 r2, r1; add64 r2, 1000; ldx{size} r0, [r2-1000]", first),
        result(f"sub64 r1, 1000; mov64 r2, r1; add64 r2, {at}; ldx{size} r0, [r2+1000]", last),
    ]


# at 0 the row stands with its lowest byte first, and the last bytes are those of the value
RECORD = [
    *record("b", 1, 0x01, 0x20),
    *record("h", 2, 0x0201, 0x201F),
    *record("w", 4, 0x0403_0201, 0x201F_1E1D),
    *record("dw", 8, 0x0807_0605_0403_0201, 0x201F_1E1D_1C1B_1A19),
]


def stored(size: str, at: int, wanted: int) -> list[Row]:
    """What a load returns after a store of -2 at the same place."""
    moved = f"mov64 r3, -2; mov64 r2, r10; add64 r2, -600; mov64 r4, r2; sub64 r4, {at}; stx{size} [r4+600], r3"
    return [
        result(f"st{size} [r10-{at}], -2; ldx{size} r0, [r10-{at}]", wanted),
        result(f"{moved}; ldx{size} r0, [r10-{at}]", wanted),
    ]


STACK = [
    row
    for size, bytes_moved, wanted in (
        ("b", 1, 0xFE),
        ("h", 2, 0xFFFE),
        ("w", 4, 0xFFFF_FFFE),
        ("dw", 8, 0xFFFF_FFFF_FFFF_FFFE),
    )
    for at in (512, bytes_moved)
    for row in stored(size, at, wanted)
]

RECORD_STAYS = [
    # the lowest byte of the stack, and the record's first and last word
    result("stdw [r10-512], -1; ldxdw r0, [r1+72]", 0x201F_1E1D_1C1B_1A19),
    result("stb [r10-512], -1; ldxdw r0, [r1+0]", ROW),
    result("stdw [r10-8], -1; ldxdw r0, [r1+0]", ROW),
    # a store beside a byte leaves it
    result("stb [r10-511], 7; stb [r10-512], 9; ldxb r0, [r10-511]", 7),
    result("stdw [r10-16], 7; stdw [r10-8], 9; ldxdw r0, [r10-16]", 7),
]

READ = "mov64 r3, r10; add64 r3, -32; call 1"

# a read of a column over 15 asks nothing, and leaves zeros; registers 6 to 10 and other bytes stay
READS = [
    result(f"stdw [r10-8], -1; mov64 r1, 5; mov64 r2, 16; {READ}; ldxdw r1, [r10-8]; add64 r0, r1", 2),
    result(f"stdw [r10-40], 5; mov64 r1, 5; mov64 r2, 16; {READ}; ldxdw r0, [r10-40]", 5),
    result(f"mov64 r6, r1; mov64 r1, 5; mov64 r2, 1; {READ}; ldxdw r0, [r6+0]", ROW),
]


def takes_steps(text: str, instructions: int) -> list[Row]:
    """A program that does so many instructions, and neither asks nor writes, on a deleted cell: a step of the run for each.

    Three steps of the table come before, and five after, of which the last is the sweep.
    """
    manifest = manifest_of(observer(column=9, helpers="1,2,3,4", digits=encoded(text).hex()))
    first = "launch 1 change 1\nstep 1 5\nlaunch 1 run watch 7\n"
    return [
        replay(manifest, "del 7 9\n", f"{first}step 1 {steps}\n", f"cell 7 9 commit 2 deleted\nruns watch 1\n{last}\n")
        for steps, last in ((7 + instructions, "marks 1 locks 0"), (8 + instructions, "quiet"))
    ]


PAIR = "lddw r0, 4294967303; mov64 r1, 0; mod32 r0, r1"

NO_COLUMN = f"mov64 r1, 7; mov64 r2, 16; {READ}"

FIRST_PROGRAMS = [
    result("mov64 r0, 0", 0),
    *takes_steps("mov64 r0, 0; exit", 2),
    result("mov64 r0, 7; mov64 r1, 0; div64 r0, r1", 0),
    *takes_steps("mov64 r0, 7; mov64 r1, 0; div64 r0, r1; exit", 4),
    result("mov64 r0, 7; mov64 r1, 0; mod64 r0, r1", 7),
    *takes_steps("mov64 r0, 7; mov64 r1, 0; mod64 r0, r1; exit", 4),
    accepted(encoded(PAIR, "exit"), 5),
    result(PAIR, 7),
    *takes_steps(f"{PAIR}; exit", 4),
    result(NO_COLUMN, 2),
    *takes_steps(f"{NO_COLUMN}; exit", 6),
    *takes_steps("call 4; exit", 2),
]

TABLES: Tables = {
    "arithmetic": ARITHMETIC,
    "comparisons": COMPARISONS,
    "other opcodes": OTHERS,
    "stores of registers": STORES_OF_REGISTERS,
    "record": RECORD,
    "stack": STACK,
    "record stays": RECORD_STAYS,
    "reads": READS,
    "first programs": FIRST_PROGRAMS,
}
