"""Each rule of docs/CODES.md, 21 to 38, by programs that break it and by the like that don't, worked out by hand.

Unless a row names its helpers, a program may call all four. The jumps into a pair, 34, stand in verdicts.py.
"""
from __future__ import annotations

from tables import SIZES, Row, Tables, encoded, manifest_of, observer, run_fails, taken, told

OPERATIONS = "add sub mul div or and lsh rsh mod xor arsh".split()
COMPARISONS = "jeq jgt jge jset jne jsgt jsge jlt jle jslt jsle".split()
WIDTHS = (32, 64)
END = "mov64 r0, 0; exit"


def first(text: str, number: int) -> Row:
    """An instruction that is refused with this code where it stands before two that end the program."""
    return told(f"{text}; {END}", 0, number)


def fits(text: str) -> Row:
    """An instruction that is accepted there."""
    return taken(f"{text}; {END}")


READS_UNSET = [
    first("mov64 r0, r7", 21),
    first("mov32 r0, r7", 21),
    first("neg64 r7", 21),
    first("neg32 r7", 21),
    first("ldxb r0, [r7+0]", 21),
    first("stb [r7+0], 0", 21),
    first("stxb [r7+0], r7", 21),
    first("stxb [r10-1], r7", 21),
    first("jeq64 r7, 0, +0", 21),
    first("call 1", 21),
    first("call 2", 21),
    first("call 3", 21),
    first("exit", 21),
    *(first(f"{operation}{width} r7, 1", 21) for operation in OPERATIONS for width in WIDTHS),
    # mov doesn't read its destination
    *(fits(f"mov{width} r7, 1") for width in WIDTHS),
]

UNSET_AFTER_A_CALL = [
    *(told(f"mov64 r{register}, 0; call 4; mov64 r0, r{register}; exit", 2, 21) for register in (1, 2, 3, 4, 5)),
    *(taken(f"mov64 r{register}, 0; call 4; mov64 r0, r{register}; exit") for register in (0, 6, 7, 8, 9)),
]

WRITES_R10 = [
    first("mov64 r10, 0", 22),
    first("mov64 r10, r10", 22),
    first("mov64 r10, r1", 22),
    first("add64 r10, -8", 22),
    first("sub64 r10, 8", 22),
    first("neg64 r10", 22),
    first("lddw r10, 5", 22),
    first("ldxb r10, [r1+0]", 22),
]

POINTER_ARITHMETIC = [
    *(first(f"{operation}64 r1, r10", 23) for operation in OPERATIONS),
    *(first(f"{operation}32 r1, 1", 23) for operation in OPERATIONS),
    *(fits(f"{operation}64 r1, 1") for operation in ("add", "sub")),
    *(first(f"{operation}64 r1, 1", 23) for operation in OPERATIONS if operation not in ("add", "sub")),
    *(first(f"neg{width} r1", 23) for width in WIDTHS),
    first("mov32 r0, r10", 23),
    # a pointer as the second operand of a number
    told("mov64 r2, 8; add64 r2, r10; exit", 1, 23),
]

POINTER_STORED = [
    *(first(f"stx{size} [r10-8], r{source}", 24) for size in SIZES for source in (1, 10)),
    # it is lower than the code of the place
    *(first(f"stx{size} [r1+0], r{source}", 24) for size in SIZES for source in (1, 10)),
]


def read_at(place: int) -> str:
    """A read to this distance from register 10."""
    return f"mov64 r1, 0; mov64 r2, 0; mov64 r3, r10; add64 r3, {place}; call 1; exit"


OUTSIDE_STACK = [
    first("stb [r10+0], 5", 25),
    first("ldxb r0, [r10+0]", 25),
    first("ldxb r0, [r10-513]", 25),
    taken(read_at(-32)),
    told(read_at(-31), 4, 25),
    taken(read_at(-512)),
    told(read_at(-513), 4, 25),
]

UNWRITTEN_BYTE = [
    first("ldxb r0, [r10-1]", 26),
    taken("stw [r10-8], 5; ldxw r0, [r10-8]; exit"),
    told("stw [r10-8], 5; ldxdw r0, [r10-8]; exit", 1, 26),
    told("stw [r10-8], 5; ldxw r0, [r10-6]; exit", 1, 26),
    taken("stw [r10-8], 5; ldxh r0, [r10-6]; exit"),
]


def filled_by(helper: int) -> str:
    """A call of this helper, and then a write of the 32 bytes that a read fills."""
    before = "mov64 r1, 0; mov64 r2, 0; mov64 r3, r10; add64 r3, -32; mov64 r6, r3"
    return f"{before}; call {helper}; mov64 r1, 0; mov64 r2, 0; mov64 r3, r6; stb [r10-33], 5; call 2; exit"


UNWRITTEN_IN_A_CALL = [
    taken(filled_by(1)),
    told(filled_by(3), 10, 26),
    told(filled_by(4), 10, 26),
]

OUTSIDE_RECORD = [
    fits("ldxb r0, [r1+79]"),
    first("ldxb r0, [r1+80]", 27),
    first("ldxb r0, [r1-1]", 27),
    fits("ldxdw r0, [r1+72]"),
    first("ldxdw r0, [r1+73]", 27),
    first("ldxdw r0, [r1+32767]", 27),
    first("ldxdw r0, [r1-32768]", 27),
]

WRITES_RECORD = [
    *(first(f"st{size} [r1{offset}], 0", 28) for size in SIZES for offset in ("+0", "+48", "+80", "-1")),
    told("mov64 r2, 0; stxdw [r1+0], r2; exit", 1, 28),
]

THROUGH_NUMBER = [
    told("lddw r2, 4096; ldxw r0, [r2+0]; exit", 2, 29),
    told("lddw r2, 4096; sth [r2+0], 0; exit", 2, 29),
    told("lddw r2, 4096; stxb [r2+0], r2; exit", 2, 29),
    # what a pointer was before it was loaded doesn't count
    told("ldxdw r1, [r1+0]; ldxb r0, [r1+0]; exit", 1, 29),
]


def with_helper_4(helper: int) -> str:
    """A manifest whose observer may call helper 4 alone, and calls this one."""
    return manifest_of(observer(helpers="4", digits=encoded(f"call {helper}; exit").hex()))


NOT_DECLARED = [
    *(told(f"call {helper}; exit", 0, 30) for helper in (-1, 0, 5, 2147483647)),
    # that it may call helper 4 stands in manifests.py
    *(run_fails(with_helper_4(helper), "", "manifest: observer 0 code 56 slot 0 code 30") for helper in (1, 2, 3)),
]

WRONG_ARGUMENT = [
    # register 1 points to the record
    told("mov64 r2, 0; mov64 r3, r10; add64 r3, -32; call 1; exit", 3, 31),
    told("mov64 r2, r1; mov64 r1, 0; call 3; exit", 2, 31),
    told("mov64 r3, r1; mov64 r1, 0; mov64 r2, 0; call 2; exit", 3, 31),
    taken("mov64 r1, -1; mov64 r2, 99; call 3; exit"),
]

# onto itself, the first slot, and before it
BACKWARD_JUMP = [
    told(f"mov64 r0, 0; {jump} {offset}; exit" if jump == "ja" else f"mov64 r0, 0; {jump}, {offset}; exit", 1, 32)
    for offset in (-1, -2, -3, -32768)
    for jump in ("ja", "jeq64 r0, 0")
]

JUMP_OUTSIDE = [
    taken("mov64 r0, 0; ja +0; exit"),
    taken("mov64 r0, 0; jeq64 r0, 0, +0; exit"),
    told("mov64 r0, 0; ja +1; exit", 1, 33),
    told("mov64 r0, 0; jeq64 r0, 0, +1; exit", 1, 33),
    told("mov64 r0, 0; ja +32767; exit", 1, 33),
    told("mov64 r0, 0; jeq64 r0, 0, +32767; exit", 1, 33),
]

UNREACHABLE = [
    told("mov64 r0, 0; ja +1; mov64 r10, 0; exit", 2, 35),
    told("mov64 r0, 0; exit; lddw r10, 5", 2, 35),
]

FALLS_OFF = [
    told("mov64 r6, 0; mov64 r0, 0", 1, 36),
    told("mov64 r6, 0; neg64 r6", 1, 36),
    told("mov64 r6, 0; ldxb r0, [r1+0]", 1, 36),
    told("mov64 r6, 0; stb [r10-1], 5", 1, 36),
    told("mov64 r6, 0; stxb [r10-1], r6", 1, 36),
    told("mov64 r6, 0; call 4", 1, 36),
    # the slot after a pair is the second after its first
    told("mov64 r6, 0; lddw r0, 5", 1, 36),
    told("mov64 r6, 0; jeq64 r6, 0, +0", 1, 33),
    told("mov64 r6, 0; mov64 r10, 0", 1, 22),
]

EXITS_WITH_POINTER = [
    told("mov64 r0, r1; exit", 1, 37),
    told("mov64 r0, r10; exit", 1, 37),
]

POINTER_COMPARED = [
    *(first(f"{comparison}{width} r10, 0, +0", 38) for comparison in COMPARISONS for width in WIDTHS),
    *(first(f"{comparison}{width} r1, r10, +0", 38) for comparison in COMPARISONS for width in WIDTHS),
    *(
        told(f"mov64 r0, 0; {comparison}{width} r0, r10, +0; exit", 1, 38)
        for comparison in COMPARISONS
        for width in WIDTHS
    ),
    # a jump's own codes are lower
    first("jeq64 r1, 0, +2", 33),
    first("jeq64 r1, 0, -1", 32),
]

TABLES: Tables = {
    "21 reads an unset register": READS_UNSET,
    "21 after a call": UNSET_AFTER_A_CALL,
    "22 writes register 10": WRITES_R10,
    "23 arithmetic on a pointer": POINTER_ARITHMETIC,
    "24 pointer stored": POINTER_STORED,
    "25 outside the stack": OUTSIDE_STACK,
    "26 unwritten stack byte": UNWRITTEN_BYTE,
    "26 in a call": UNWRITTEN_IN_A_CALL,
    "27 outside the record": OUTSIDE_RECORD,
    "28 writes the record": WRITES_RECORD,
    "29 access through a number": THROUGH_NUMBER,
    "30 helper not declared": NOT_DECLARED,
    "31 argument of a wrong kind": WRONG_ARGUMENT,
    "32 backward jump": BACKWARD_JUMP,
    "33 jump outside": JUMP_OUTSIDE,
    "35 unreachable": UNREACHABLE,
    "36 falls off the end": FALLS_OFF,
    "37 exit without a number": EXITS_WITH_POINTER,
    "38 pointer compared": POINTER_COMPARED,
}
