"""Texts that are assembled, and texts that are refused, with their line and code.

Worked out by hand from docs/MACHINE.md, "Assembler text".
"""
from __future__ import annotations

from tables import Row, Tables, asm, asm_fails, dis, encoded


def line(text: str, number: int) -> Row:
    """A text whose first line is refused."""
    return asm_fails(text, 1, number)


FAULTS_OF_A_LINE = [
    line("foo r1", 80),
    line("mov r1, 5", 80),
    line("MOV64 r1, 5", 80),
    line(" exit", 80),
    line("exit\r", 80),
    line("lddw64 r1, 5", 80),
    line("ja32 +1", 80),
    line("le\u0301", 80),
    line("mov64 r0, -0", 81),
    line("mov64 r0, 2147483648", 82),
    line("mov64 r0, -2147483649", 82),
    line("mov64 r0, 00", 81),
    line("mov64 r0, 07", 81),
    line("mov64 r0, +7", 81),
    line("mov64 r0, 5\r", 81),
    line("mov64 r0, 5 ", 81),
    line("mov64  r0, 5", 81),
    line("mov64 r0,5", 81),
    line("mov64 r0,  5", 81),
    line("mov64 r0,\t5", 81),
    line("mov64\tr0, 5", 80),
    line("mov64 r0 5", 81),
    line("mov64 r0", 81),
    line("mov64 r0,", 81),
    line("mov64", 81),
    line("mov64 ", 81),
    line("mov64 r11, 5", 81),
    line("mov64 r01, 5", 81),
    line("mov64 r0, r11", 81),
    line("mov64 r0, 5\u0661", 81),
    line("mov64 r11, 99999999999", 81),
    line("mov64 r0, 99999999999, 5", 81),
    line("mov64 r0, 99999999999 5", 82),
    line("lddw r0, -5", 81),
    line("lddw r0, -0", 81),
    line("lddw r0, 18446744073709551616", 82),
    line("ldxdw r0, [r1]", 81),
    line("ldxdw r0, [r1+]", 81),
    line("ldxdw r0, [r1-0]", 81),
    line("ldxdw r0, [r1+32768]", 82),
    line("ldxdw r0, [r1-32769]", 82),
    line("ldxdw r0, [r11+32768]", 81),
    line("ldxdw r0, r1+8", 81),
    line("stb [r10-1], r2", 81),
    line("stxb [r10-1], 5", 81),
    line("ja 3", 81),
    line("ja -0", 81),
    line("ja +32768", 82),
    line("jeq64 r1, 2147483648, x", 82),
    line("jeq64 r1, 5", 81),
    line("call r1", 81),
    line("call 2147483648", 82),
    line("exit 0", 81),
    line("exit ", 81),
]

FAULTS_OF_A_NUMBER = [
    line("mov64 r0, -07", 81),
    line("mov64 r0, -00", 81),
    line("mov64 r0, -", 81),
    line("mov64 r0, --5", 81),
    line("mov64 r0, 0x10", 81),
    line("mov64 r0, 1_000", 81),
    line("mov64 r0, 5-", 81),
    line("lddw r0, 00", 81),
    line("lddw r0, 07", 81),
    line("lddw r0, +7", 81),
    line("lddw r0, 0x7", 81),
    line("lddw r0, r1", 81),
    line("ja +00", 81),
    line("ja +07", 81),
    line("ja -07", 81),
    line("ja +", 81),
    line("ja -", 81),
    line("ja ++7", 81),
    line("ja +-7", 81),
    line("ja -32769", 82),
    line("call 01", 81),
    line("call -0", 81),
    line("call +1", 81),
    line("call -2147483649", 82),
    line("jeq64 r1, 05, +2", 81),
    line("jeq64 r1, 5, 2", 81),
    line("jeq64 r1, 5, -0", 81),
    line("jeq64 r1, 5, +02", 81),
    line("jeq64 r1, 5, +32768", 82),
    line("stw [r10-8], 05", 81),
    line("stw [r10-8], -0", 81),
    line("stw [r10-8], 2147483648", 82),
]

FAULTS_OF_A_PLACE = [
    line("ldxdw r0, [r1+00]", 81),
    line("ldxdw r0, [r1+08]", 81),
    line("ldxdw r0, [r1-08]", 81),
    line("ldxdw r0, [r1-]", 81),
    line("ldxdw r0, [r1++8]", 81),
    line("ldxdw r0, [r1--8]", 81),
    line("ldxdw r0, [r1+-8]", 81),
    line("ldxdw r0, [r1-+8]", 81),
    line("ldxdw r0, [r1 +8]", 81),
    line("ldxdw r0, [r1+ 8]", 81),
    line("ldxdw r0, [ r1+8]", 81),
    line("ldxdw r0, [r1+8", 81),
    line("ldxdw r0, r1+8]", 81),
    line("ldxdw r0, [r1+8]]", 81),
    line("ldxdw r0, [[r1+8]", 81),
    line("ldxdw r0, [r01+8]", 81),
    line("ldxdw r0, [+8]", 81),
    line("ldxdw r0, [8+r1]", 81),
    line("ldxdw r0, []", 81),
    line("ldxdw r0, [", 81),
    line("ldxdw [r1+8], r0", 81),
    line("stxdw [r10-8] r2", 81),
    line("stxdw [r10-8],, r2", 81),
    line("stxdw [r10-32769], r11", 82),
    line("stxdw [r11-32769], r2", 81),
    line("stxdw [r10+32768] r2", 81),
]

OTHER_CHARACTERS = [
    line("\r", 80),
    line("\t", 80),
    line(" ", 80),
    line("\texit", 80),
    line("exit\t", 80),
    line("exit\0", 80),
    line("exit;", 80),
    line("Exit", 80),
    line("exit#", 80),
    line("exit # done", 81),
    line("exit exit", 81),
    line("mov64 r0, 5 # five", 81),
    line("mov64 r0, 5\t", 81),
    line("mov64 r0, 5\0", 81),
    line("mov64 r0 , 5", 81),
    line("mov64 r0,, 5", 81),
    line("mov64 r0, 5,", 81),
    line("mov64 R0, 5", 81),
    line("mov64 r0, R1", 81),
    line("mov64 r, 5", 81),
    line("mov64 r-1, 5", 81),
    line("neg64 r1,", 81),
    line("neg64 r1, 5", 81),
    line("neg64 5", 81),
    line("jeq64 r1, 5,+2", 81),
    line("jeq64 r1, 5  +2", 81),
    line("jeq64 r1, 2147483648 +2", 81),
    line("\ufeffexit", 80),
    line("exit\u00a0", 80),
    line("exit\u0085exit", 80),
    line("exit\u2028exit", 80),
    line("mov64\u00a0r0, 5", 80),
    line("mov64 r\u0660, 5", 81),
    line("mov64 r0, \u0661", 81),
    line("mov64 r0, \u22125", 81),
    line("ldxdw r0, [r1\uff0b8]", 81),
]

TEXTS = [
    asm_fails("", 0, 84),
    asm_fails("\n\n", 0, 84),
    asm_fails("# nothing\n#exit", 0, 84),
    asm("# two\n\nlddw r1, 7\nexit\n", encoded("lddw r1, 7; exit")),
    asm_fails("exit\n#\nfoo\nbar", 3, 80),
    asm_fails("exit\nja -0\nfoo", 2, 81),
    asm_fails("exit\r\nexit\r\n", 1, 80),
    asm_fails(" # not a remark", 1, 80),
    asm_fails("\r\nexit", 1, 80),
    asm_fails("exit\n\r", 2, 80),
    asm_fails("exit\n\r\n", 2, 80),
    asm_fails("exit\n \n", 2, 80),
    asm_fails("exit\n\t", 2, 80),
    asm_fails("exit\rexit", 1, 80),
    asm_fails("# one\r\nexit\r", 2, 80),
    asm("\n\nexit\n\n", encoded("exit")),
    asm("lddw r0, 1", encoded("lddw r0, 1")),
    asm("exit\n# the last", encoded("exit")),
    asm("#\t\u00e9\u0661\r\nexit", encoded("exit")),
    asm_fails("#", 0, 84),
    asm_fails("\n", 0, 84),
]

LINES = [
    asm_fails("exit\n\nmov64 r0, -0", 3, 81),
    asm_fails("exit\n exit", 2, 80),
    asm_fails("mov64  r0, 7", 1, 81),
    asm_fails("mov64\tr0, 7", 1, 80),
    asm_fails("exit\r\n", 1, 80),
    asm_fails("exit\n\u00e9", 2, 80),
    asm_fails("# one\n\n# two\n", 0, 84),
]

# what is written before and after the digits
AROUND = [
    ("mov64 r0, ", ""),
    ("mov64 r0, -", ""),
    ("lddw r0, ", ""),
    ("ldxdw r0, [r1+", "]"),
    ("ldxdw r0, [r1-", "]"),
    ("stw [r10-8], -", ""),
    ("ja +", ""),
    ("ja -", ""),
    ("jeq64 r1, ", ", +2"),
    ("jeq64 r1, 5, +", ""),
    ("call ", ""),
]

# a number of nines is out of range, and one that begins with a zero isn't of the form
THOUSAND_DIGITS = [
    line(f"{front}{digits}{end}", number)
    for front, end in AROUND
    for digits, number in [("9" * 1000, 82), ("0" * 1000, 81), ("0" + "9" * 1000, 81)]
]

FULL = "exit\n" * 511

SLOT_513 = [
    asm(f"{FULL}exit\n", encoded("exit") * 512),
    asm_fails(f"{FULL}lddw r0, 1\n", 512, 83),
    asm_fails(f"{FULL}lddw r0, 1", 512, 83),
    asm_fails(f"{FULL}exit\nexit\n", 513, 83),
    asm_fails(f"{FULL}lddw r0, -1\n", 512, 81),
    asm_fails(f"{FULL}exit\nfoo\n", 513, 80),
    asm_fails(f"{FULL}exit\n# remark\nja +1\n", 514, 83),
]

REMARKS = [
    asm("# seven\n\nmov64 r0, 7\nexit", bytes.fromhex("b700000007000000" "9500000000000000")),
    dis(bytes.fromhex("b700000007000000" "9500000000000000"), "mov64 r0, 7\nexit\n"),
]

# what OUT held stands where IN is refused
KEPT = [
    Row(["asm", "i", "o"], {"i": b"exit\r", "o": b"kept"}, 1, err=b"line 1 code 80\n"),
]

TABLES: Tables = {
    "faults of a line": FAULTS_OF_A_LINE,
    "faults of a number": FAULTS_OF_A_NUMBER,
    "faults of a place": FAULTS_OF_A_PLACE,
    "other characters": OTHER_CHARACTERS,
    "texts": TEXTS,
    "lines": LINES,
    "numbers of a thousand digits": THOUSAND_DIGITS,
    "slot 513": SLOT_513,
    "remarks": REMARKS,
    "an output that is kept": KEPT,
}
