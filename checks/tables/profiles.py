"""What profile 2 has beside profile 1: moves and loads that extend the sign, and up to 4,096 slots.

Bytes and results are worked out by hand from RFC 9669, sections 3.1, 4.1 and 5.2, and docs/MACHINE.md; the encodings are those
that llvm-mc of LLVM 19 makes with -mcpu=v4 (`r0 = (s8)r1`, `w0 = (s16)w1`, `r0 = *(s32 *)(r10 - 4)`).
"""
from __future__ import annotations

from tables import (
    COPY, ONE, Row, Tables, accepted, asm, asm_fails, dis, dis_refused, encoded, in_profile, manifest_of, observer, refused,
    replay, run, run_fails,
)

MOV = bytes.fromhex("b700000000000000")
EXIT = bytes.fromhex("9500000000000000")

# each instruction that profile 2 has beside those of profile 1, with its bytes; and the code of these in profile 1
NEW = [
    ("movsx64 r0, r1, 8", "bf10080000000000", 14),
    ("movsx64 r0, r1, 16", "bf10100000000000", 14),
    ("movsx64 r9, r0, 32", "bf09200000000000", 14),
    ("movsx32 r0, r1, 8", "bc10080000000000", 14),
    ("movsx32 r3, r10, 16", "bca3100000000000", 14),
    ("ldxsw r2, [r1+48]", "8112300000000000", 12),
    ("ldxsh r0, [r10-2]", "89a0feff00000000", 12),
    ("ldxsb r0, [r10-1]", "91a0ffff00000000", 12),
]

# what extends nothing has no form: 32 bits to 32, 64 to 64, other numbers of bits, and another operation than mov
WITHOUT_FORM = [
    ("bc10200000000000", 14),
    ("bf10400000000000", 14),
    ("bf10180000000000", 14),
    ("bc10180000000000", 14),
    ("bf10010000000000", 14),
    ("bf1000ff00000000", 14),
    ("bf10f8ff00000000", 14),
    ("0f10080000000000", 14),
    ("ac10080000000000", 14),
    ("b700080000000000", 14),
    ("8700080000000000", 14),
    ("bf10080001000000", 14),
    ("bc10100001000000", 14),
    ("81a0fcff01000000", 14),
    ("91a0ffff00000001", 14),
    ("91b0ffff00000000", 13),
    ("bf1b080000000000", 13),
    # a sign-extending load of eight bytes, and other modes
    ("99a0f8ff00000000", 12),
    ("82a0f8ff00000000", 12),
    ("83a0f8ff00000000", 12),
    ("a1a0f8ff00000000", 12),
]

# a number in register 1, and what a move makes of it
MOVES = [
    ("b701000080000000", "bf10080000000000", 0xFFFF_FFFF_FFFF_FF80),
    ("b701000080000000", "bc10080000000000", 0xFFFF_FF80),
    ("b70100007f000000", "bf10080000000000", 0x7F),
    ("b701000000800000", "bf10100000000000", 0xFFFF_FFFF_FFFF_8000),
    ("b701000000800000", "bc10100000000000", 0xFFFF_8000),
    ("b7010000ff7f0000", "bc10100000000000", 0x7FFF),
    ("b401000000000080", "bf10200000000000", 0xFFFF_FFFF_8000_0000),
    ("b7010000ffffff7f", "bf10200000000000", 0x7FFF_FFFF),
]

# a byte, two or four on the stack, and what is loaded of them
LOADS = [
    ("720affff80000000", "91a0ffff00000000", 0xFFFF_FFFF_FFFF_FF80),
    ("720affff7f000000", "91a0ffff00000000", 0x7F),
    ("6a0afeff00800000", "89a0feff00000000", 0xFFFF_FFFF_FFFF_8000),
    ("6a0afeffff7f0000", "89a0feff00000000", 0x7FFF),
    ("620afcff00000080", "81a0fcff00000000", 0xFFFF_FFFF_8000_0000),
    ("620afcffffffff7f", "81a0fcff00000000", 0x7FFF_FFFF),
]


def first_refused(digits: str, number: int) -> Row:
    return dis_refused(bytes.fromhex(digits), 0, number)


def in_first(digits: str, number: int) -> int:
    """The same number in profile 1, but where the opcode alone is of profile 2, which is reported first."""
    return 12 if digits[:2] in ("81", "89", "91") else number


LISTED = [
    *(in_profile(2, dis(bytes.fromhex(digits), f"{text}\n")) for text, digits, _ in NEW),
    *(first_refused(digits, number) for _, digits, number in NEW),
    *(in_profile(1, first_refused(digits, number)) for _, digits, number in NEW),
    *(in_profile(2, first_refused(digits, number)) for digits, number in WITHOUT_FORM),
    *(in_profile(1, first_refused(digits, in_first(digits, number))) for digits, number in WITHOUT_FORM),
    # with offset 0 both are moves as before
    *(in_profile(2, dis(encoded(text), f"{text}\n")) for text in ("mov64 r0, r1", "mov32 r0, r1", "ldxw r0, [r1+0]")),
    in_profile(2, dis(MOV * 4_096, "mov64 r0, 0\n" * 4_096)),
    in_profile(2, dis_refused(MOV * 4_097, 0, 11)),
    in_profile(2, dis_refused((MOV * 4_097)[:-1], 0, 10)),
    in_profile(2, dis_refused(MOV * 4_095 + bytes.fromhex("1800000005000000"), 4_095, 15)),
    in_profile(1, dis_refused(MOV * 513, 0, 11)),
]

ASSEMBLED = [
    *(in_profile(2, asm(f"{text}\n", bytes.fromhex(digits))) for text, digits, _ in NEW),
    *(asm_fails(f"{text}\n", 1, 80) for text, _, _ in NEW),
    *(in_profile(1, asm_fails(f"exit\n{text}\n", 2, 80)) for text, _, _ in NEW),
    in_profile(2, asm("mov64 r0, 0\n" * 4_096, MOV * 4_096)),
    in_profile(2, asm_fails("mov64 r0, 0\n" * 4_097, 4_097, 83)),
    in_profile(2, asm_fails("exit\n" * 4_095 + "lddw r0, 1\n", 4_096, 83)),
    in_profile(1, asm_fails("exit\n" * 511 + "lddw r0, 1\n", 512, 83)),
    in_profile(2, asm_fails("# nothing\n", 0, 84)),
]

THIRD_OPERANDS = [
    *(
        in_profile(2, asm_fails(f"movsx64 r0, r1, {bits}\n", 1, number))
        for bits, number in (
            ("0", 82), ("1", 82), ("7", 82), ("9", 82), ("24", 82), ("31", 82), ("33", 82), ("64", 82), ("256", 82),
            ("65544", 82), ("4294967304", 82), ("18446744073709551624", 82), ("9" * 40, 82),
            ("08", 81), ("+8", 81), ("-8", 81), ("-0", 81), ("8 ", 81), ("8,", 81), ("", 81), ("x", 81), ("r1", 81), ("0x8", 81),
        )
    ),
    *(
        in_profile(2, asm_fails(f"movsx32 r0, r1, {bits}\n", 1, number))
        for bits, number in (("32", 82), ("24", 82), ("0", 82), ("64", 82), ("016", 81))
    ),
    *(
        in_profile(2, asm_fails(f"{text}\n", 1, number))
        for text, number in (
            ("movsx64 r0, r1", 81), ("movsx64 r0, 5, 8", 81), ("movsx64 r11, r1, 8", 81), ("movsx64 r0, r11, 24", 81),
            ("movsx64 r0, r1, 8, 8", 81), ("movsx64 r0 r1, 8", 81), ("movsx r0, r1, 8", 80), ("movsx16 r0, r1, 8", 80),
            ("ldxsdw r0, [r1+0]", 80), ("ldxsb r0, [r1]", 81), ("ldxsb r0, [r1+32768]", 82), ("stxsb [r10-1], r1", 80),
        )
    ),
]


def second(text: str, slots: int | None = None) -> Row:
    """A program of profile 2 that is accepted."""
    code = encoded(text)
    return in_profile(2, accepted(code, slots or len(code) // 8))


def told(text: str, at: int, number: int) -> Row:
    """A program of profile 2 that is refused."""
    return in_profile(2, refused(encoded(text), at, number))


CHECKED = [
    second("mov64 r1, 128; movsx64 r0, r1, 8; exit"),
    refused(encoded("mov64 r1, 128; movsx64 r0, r1, 8; exit"), 1, 14),
    second("mov64 r1, 128; movsx32 r0, r1, 8; exit"),
    second("stb [r10-1], 128; ldxsb r0, [r10-1]; exit"),
    refused(encoded("stb [r10-1], 128; ldxsb r0, [r10-1]; exit"), 1, 12),
    # a move reads its source, and takes no pointer
    told("movsx64 r0, r7, 8; exit", 0, 21),
    *(told(f"movsx64 r0, r{register}, {bits}; exit", 0, 23) for register in (1, 10) for bits in (8, 16, 32)),
    *(told(f"movsx32 r0, r{register}, {bits}; exit", 0, 23) for register in (1, 10) for bits in (8, 16)),
    in_profile(1, refused(encoded("movsx64 r0, r1, 32; exit"), 0, 14)),
    told("mov64 r2, 0; movsx64 r10, r2, 8; exit", 1, 22),
    # both are lower than the code of the source
    told("movsx64 r10, r7, 8; exit", 0, 21),
    told("movsx64 r10, r1, 8; exit", 0, 22),
    # the destination is a number afterwards
    told("mov64 r2, 8; movsx64 r1, r2, 8; ldxb r0, [r1+0]; exit", 2, 29),
    second("mov64 r2, 8; movsx64 r2, r2, 8; mov64 r0, r2; exit"),
    # a sign-extending load has the rules of a load
    told("ldxsb r0, [r7+0]; exit", 0, 21),
    told("ldxsb r10, [r1+0]; exit", 0, 22),
    told("ldxsb r0, [r10-1]; exit", 0, 26),
    told("ldxsh r0, [r10-1]; exit", 0, 25),
    told("ldxsw r0, [r10-513]; exit", 0, 25),
    told("mov64 r2, 0; ldxsw r0, [r2+0]; exit", 1, 29),
    *(told(f"ldxs{size} r0, [r1+{80 - width + 1}]; exit", 0, 27) for size, width in (("b", 1), ("h", 2), ("w", 4))),
    *(second(f"ldxs{size} r0, [r1+{80 - width}]; exit") for size, width in (("b", 1), ("h", 2), ("w", 4))),
    # what is loaded is a number
    told("ldxsw r2, [r1+0]; ldxb r0, [r2+0]; exit", 1, 29),
    in_profile(2, accepted(MOV * 4_095 + EXIT, 4_096)),
    in_profile(2, refused(MOV * 4_096 + EXIT, 0, 11)),
    in_profile(1, refused(MOV * 512 + EXIT, 0, 11)),
    in_profile(2, refused(MOV * 4_096, 4_095, 36)),
    *(in_profile(profile, accepted(MOV * 511 + EXIT, 512)) for profile in (1, 2)),
    in_profile(2, accepted(MOV * 512 + EXIT, 513)),
    *(in_profile(1, refused(MOV * count + EXIT, 0, 11)) for count in (4_095, 4_096)),
    *(in_profile(1, refused(bytes.fromhex(first + second) + EXIT, 1, 14)) for first, second, _ in MOVES),
    *(in_profile(1, refused(bytes.fromhex(first + second) + EXIT, 1, 12)) for first, second, _ in LOADS),
    *(in_profile(2, refused(bytes.fromhex(digits) + EXIT, 0, number)) for digits, number in WITHOUT_FORM),
    *(in_profile(1, refused(bytes.fromhex(digits) + EXIT, 0, in_first(digits, number))) for digits, number in WITHOUT_FORM),
    # a jump over as many slots as an offset and a program allow
    in_profile(2, accepted(
        encoded("mov64 r0, 0; jeq64 r0, 0, +4093") + MOV * 4_093 + EXIT, 4_096)),
    in_profile(2, refused(encoded("mov64 r0, 0; jeq64 r0, 0, +4094") + MOV * 4_093 + EXIT, 1, 33)),
]


# writes register 6 to column 1 of the row, as its first eight bytes, the low one first
WRITTEN = (
    "stxdw [r10-32], r6; mov64 r2, 0; stxdw [r10-24], r2; stxdw [r10-16], r2; stxdw [r10-8], r2; ldxdw r1, [r1+0]; "
    "mov64 r2, 1; mov64 r3, r10; add64 r3, -32; call 2; mov64 r0, 0; exit"
)


def makes(text: str, number: int) -> Row:
    """A run of profile 2 whose instructions leave this number in register 6."""
    code = encoded(text, WRITTEN)
    value = number.to_bytes(8, "little").rstrip(b"\0").hex() or "00"
    report = f"cell 7 0 commit 2 value 2a\ncell 7 1 commit 4 value {value}\nruns watch 1\nquiet\n"
    return run(manifest_of(observer(helpers="2", digits=code.hex()), profile=2), ONE, report)


TWO_64 = 1 << 64

RESULTS = [
    makes("mov64 r2, 128; movsx64 r6, r2, 8", TWO_64 - 128),
    makes("mov64 r2, 127; movsx64 r6, r2, 8", 127),
    makes("mov64 r2, 64; movsx64 r6, r2, 8", 64),
    makes("mov64 r2, 65408; movsx64 r6, r2, 8", TWO_64 - 128),
    makes("mov64 r2, -129; movsx64 r6, r2, 8", 127),
    makes("mov64 r2, 32768; movsx64 r6, r2, 16", TWO_64 - 32768),
    makes("mov64 r2, 32767; movsx64 r6, r2, 16", 32767),
    makes("mov64 r2, 128; movsx64 r6, r2, 16", 128),
    makes("lddw r2, 2147483648; movsx64 r6, r2, 32", TWO_64 - 2147483648),
    makes("lddw r2, 81985529216486895; movsx64 r6, r2, 32", TWO_64 - 0x76543211),
    makes("lddw r2, 2147483647; movsx64 r6, r2, 32", 2147483647),
    makes("mov64 r2, 128; movsx32 r6, r2, 8", (1 << 32) - 128),
    makes("lddw r2, 18446744069414584447; movsx32 r6, r2, 8", 127),
    makes("mov64 r2, 32768; movsx32 r6, r2, 16", (1 << 32) - 32768),
    makes("mov64 r2, -32769; movsx32 r6, r2, 16", 32767),
    makes("mov64 r6, -1; mov64 r2, 5; movsx32 r6, r2, 16", 5),
    makes("stb [r10-1], 128; ldxsb r6, [r10-1]", TWO_64 - 128),
    makes("stb [r10-1], 127; ldxsb r6, [r10-1]", 127),
    makes("sth [r10-2], 32768; ldxsh r6, [r10-2]", TWO_64 - 32768),
    makes("sth [r10-512], 32767; ldxsh r6, [r10-512]", 32767),
    makes("stw [r10-4], -2147483648; ldxsw r6, [r10-4]", TWO_64 - 2147483648),
    makes("stdw [r10-8], -2; ldxsb r6, [r10-8]", TWO_64 - 2),
    makes("stdw [r10-8], -2; ldxb r6, [r10-8]", 254),
    # of the record: the row, and the changed value
    makes("ldxsb r6, [r1+0]", 7),
    makes("ldxsw r6, [r1+48]", 42),
]

# the same program in both profiles, and one of profile 2 alone
MANIFESTS = [
    run(manifest_of(observer("copy", 0, "2", COPY), profile=2), ONE,
        "cell 7 0 commit 2 value 2a\ncell 7 1 commit 4 value 2a\nruns copy 1\nquiet\n"),
    replay(manifest_of(observer("copy", 0, "2", COPY), profile=2), ONE, "launch 1 change 1\nstep 1 100\n",
           "cell 7 0 commit 2 value 2a\nruns copy 0\nmarks 1 locks 0\n"),
    run(manifest_of(profile=2), ONE, "cell 7 0 commit 2 value 2a\nquiet\n"),
    run_fails(manifest_of(observer(digits=encoded("mov64 r1, 128; movsx64 r0, r1, 8; exit").hex())), "",
              "manifest: observer 0 code 56 slot 1 code 14"),
    run_fails(manifest_of(observer(digits=encoded("stb [r10-1], 1; ldxsb r0, [r10-1]; exit").hex())), "",
              "manifest: observer 0 code 56 slot 1 code 12"),
    run_fails(manifest_of(observer(digits=(MOV * 512 + EXIT).hex())), "", "manifest: observer 0 code 56 slot 0 code 11"),
    run(manifest_of(observer(digits=(MOV * 4_095 + EXIT).hex()), profile=2), ONE,
        "cell 7 0 commit 2 value 2a\nruns watch 1\nquiet\n"),
    run_fails(manifest_of(observer(digits=(MOV * 4_096 + EXIT).hex()), profile=2), "",
              "manifest: observer 0 code 56 slot 0 code 11"),
    *(run_fails(manifest_of(profile=profile), "", "manifest: code 51") for profile in ("2.0", '"2"', "null", "[2]")),
]

TABLES: Tables = {
    "listed": LISTED,
    "assembled": ASSEMBLED,
    "third operands": THIRD_OPERANDS,
    "checked": CHECKED,
    "results": RESULTS,
    "manifests": MANIFESTS,
}
