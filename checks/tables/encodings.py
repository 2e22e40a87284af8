"""The encoding of each instruction, read both ways: its text is assembled to the bytes, and the bytes are listed as the text.

Those of the first tables are LLVM's, one of each instruction of the profile, made with llvm-mc of LLVM 19.1 (Debian's
package `llvm-19`), as `llvm-mc -triple bpfel -mcpu=v3 -show-encoding in.s`, where `in.s` has the words beside each row, one a
line. The last two are worked out from RFC 9669, sections 3 to 5.
"""
from __future__ import annotations

from tables import Row, Tables, asm, dis, encoded, in_profile


def both(text: str, digits: str) -> list[Row]:
    """The text is assembled, without a newline after it and with one, and its bytes are listed.

    The tables' own encoder has to make the same bytes.
    """
    code = bytes.fromhex(digits)
    made = encoded(text)
    if made != code:
        raise ValueError(f"{text} is {digits}, and the tables' encoder makes {made.hex()}")
    return [asm(text, code), asm(f"{text}\n", code), dis(code, f"{text}\n")]


ARITHMETIC_64_WITH_IMMEDIATES = [
    *both("add64 r1, -5", "07010000fbffffff"),  # r1 += -5
    *both("sub64 r1, -5", "17010000fbffffff"),  # r1 -= -5
    *both("mul64 r1, -5", "27010000fbffffff"),  # r1 *= -5
    *both("div64 r1, -5", "37010000fbffffff"),  # r1 /= -5
    *both("or64 r1, -5", "47010000fbffffff"),  # r1 |= -5
    *both("and64 r1, -5", "57010000fbffffff"),  # r1 &= -5
    *both("lsh64 r1, -5", "67010000fbffffff"),  # r1 <<= -5
    *both("rsh64 r1, -5", "77010000fbffffff"),  # r1 >>= -5
    *both("mod64 r1, -5", "97010000fbffffff"),  # r1 %= -5
    *both("xor64 r1, -5", "a7010000fbffffff"),  # r1 ^= -5
    *both("mov64 r1, -5", "b7010000fbffffff"),  # r1 = -5
    *both("arsh64 r1, -5", "c7010000fbffffff"),  # r1 s>>= -5
]

ARITHMETIC_64_WITH_REGISTERS = [
    *both("add64 r1, r2", "0f21000000000000"),  # r1 += r2
    *both("sub64 r1, r2", "1f21000000000000"),  # r1 -= r2
    *both("mul64 r1, r2", "2f21000000000000"),  # r1 *= r2
    *both("div64 r1, r2", "3f21000000000000"),  # r1 /= r2
    *both("or64 r1, r2", "4f21000000000000"),  # r1 |= r2
    *both("and64 r1, r2", "5f21000000000000"),  # r1 &= r2
    *both("lsh64 r1, r2", "6f21000000000000"),  # r1 <<= r2
    *both("rsh64 r1, r2", "7f21000000000000"),  # r1 >>= r2
    *both("mod64 r1, r2", "9f21000000000000"),  # r1 %= r2
    *both("xor64 r1, r2", "af21000000000000"),  # r1 ^= r2
    *both("mov64 r1, r2", "bf21000000000000"),  # r1 = r2
    *both("arsh64 r1, r2", "cf21000000000000"),  # r1 s>>= r2
]

ARITHMETIC_32_WITH_IMMEDIATES = [
    *both("add32 r3, 7", "0403000007000000"),  # w3 += 7
    *both("sub32 r3, 7", "1403000007000000"),  # w3 -= 7
    *both("mul32 r3, 7", "2403000007000000"),  # w3 *= 7
    *both("div32 r3, 7", "3403000007000000"),  # w3 /= 7
    *both("or32 r3, 7", "4403000007000000"),  # w3 |= 7
    *both("and32 r3, 7", "5403000007000000"),  # w3 &= 7
    *both("lsh32 r3, 7", "6403000007000000"),  # w3 <<= 7
    *both("rsh32 r3, 7", "7403000007000000"),  # w3 >>= 7
    *both("mod32 r3, 7", "9403000007000000"),  # w3 %= 7
    *both("xor32 r3, 7", "a403000007000000"),  # w3 ^= 7
    *both("mov32 r3, 7", "b403000007000000"),  # w3 = 7
    *both("arsh32 r3, 7", "c403000007000000"),  # w3 s>>= 7
]

ARITHMETIC_32_WITH_REGISTERS = [
    *both("add32 r3, r9", "0c93000000000000"),  # w3 += w9
    *both("sub32 r3, r9", "1c93000000000000"),  # w3 -= w9
    *both("mul32 r3, r9", "2c93000000000000"),  # w3 *= w9
    *both("div32 r3, r9", "3c93000000000000"),  # w3 /= w9
    *both("or32 r3, r9", "4c93000000000000"),  # w3 |= w9
    *both("and32 r3, r9", "5c93000000000000"),  # w3 &= w9
    *both("lsh32 r3, r9", "6c93000000000000"),  # w3 <<= w9
    *both("rsh32 r3, r9", "7c93000000000000"),  # w3 >>= w9
    *both("mod32 r3, r9", "9c93000000000000"),  # w3 %= w9
    *both("xor32 r3, r9", "ac93000000000000"),  # w3 ^= w9
    *both("mov32 r3, r9", "bc93000000000000"),  # w3 = w9
    *both("arsh32 r3, r9", "cc93000000000000"),  # w3 s>>= w9
]

OTHERS = [
    *both("neg64 r1", "8701000000000000"),  # r1 = -r1
    *both("neg32 r3", "8403000000000000"),  # w3 = -w3
    *both("ja +3", "0500030000000000"),  # goto +3
    *both("call 2", "8500000002000000"),  # call 2
    *both("exit", "9500000000000000"),  # exit
]

LOADS_AND_STORES = [
    *both("ldxb r2, [r1+48]", "7112300000000000"),  # r2 = *(u8 *)(r1 + 48)
    *both("stb [r10-8], -5", "720af8fffbffffff"),  # *(u8 *)(r10 - 8) = -5
    *both("stxb [r10-32], r2", "732ae0ff00000000"),  # *(u8 *)(r10 - 32) = r2
    *both("ldxh r2, [r1+48]", "6912300000000000"),  # r2 = *(u16 *)(r1 + 48)
    *both("sth [r10-8], -5", "6a0af8fffbffffff"),  # *(u16 *)(r10 - 8) = -5
    *both("stxh [r10-32], r2", "6b2ae0ff00000000"),  # *(u16 *)(r10 - 32) = r2
    *both("ldxw r2, [r1+48]", "6112300000000000"),  # r2 = *(u32 *)(r1 + 48)
    *both("stw [r10-8], -5", "620af8fffbffffff"),  # *(u32 *)(r10 - 8) = -5
    *both("stxw [r10-32], r2", "632ae0ff00000000"),  # *(u32 *)(r10 - 32) = r2
    *both("ldxdw r2, [r1+48]", "7912300000000000"),  # r2 = *(u64 *)(r1 + 48)
    *both("stdw [r10-8], -5", "7a0af8fffbffffff"),  # *(u64 *)(r10 - 8) = -5
    *both("stxdw [r10-32], r2", "7b2ae0ff00000000"),  # *(u64 *)(r10 - 32) = r2
]

JUMPS_64_WITH_IMMEDIATES = [
    *both("jeq64 r1, -5, +2", "15010200fbffffff"),  # if r1 == -5 goto +2
    *both("jgt64 r1, -5, +2", "25010200fbffffff"),  # if r1 > -5 goto +2
    *both("jge64 r1, -5, +2", "35010200fbffffff"),  # if r1 >= -5 goto +2
    *both("jset64 r1, -5, +2", "45010200fbffffff"),  # if r1 & -5 goto +2
    *both("jne64 r1, -5, +2", "55010200fbffffff"),  # if r1 != -5 goto +2
    *both("jsgt64 r1, -5, +2", "65010200fbffffff"),  # if r1 s> -5 goto +2
    *both("jsge64 r1, -5, +2", "75010200fbffffff"),  # if r1 s>= -5 goto +2
    *both("jlt64 r1, -5, +2", "a5010200fbffffff"),  # if r1 < -5 goto +2
    *both("jle64 r1, -5, +2", "b5010200fbffffff"),  # if r1 <= -5 goto +2
    *both("jslt64 r1, -5, +2", "c5010200fbffffff"),  # if r1 s< -5 goto +2
    *both("jsle64 r1, -5, +2", "d5010200fbffffff"),  # if r1 s<= -5 goto +2
]

JUMPS_64_WITH_REGISTERS = [
    *both("jeq64 r1, r2, +2", "1d21020000000000"),  # if r1 == r2 goto +2
    *both("jgt64 r1, r2, +2", "2d21020000000000"),  # if r1 > r2 goto +2
    *both("jge64 r1, r2, +2", "3d21020000000000"),  # if r1 >= r2 goto +2
    *both("jset64 r1, r2, +2", "4d21020000000000"),  # if r1 & r2 goto +2
    *both("jne64 r1, r2, +2", "5d21020000000000"),  # if r1 != r2 goto +2
    *both("jsgt64 r1, r2, +2", "6d21020000000000"),  # if r1 s> r2 goto +2
    *both("jsge64 r1, r2, +2", "7d21020000000000"),  # if r1 s>= r2 goto +2
    *both("jlt64 r1, r2, +2", "ad21020000000000"),  # if r1 < r2 goto +2
    *both("jle64 r1, r2, +2", "bd21020000000000"),  # if r1 <= r2 goto +2
    *both("jslt64 r1, r2, +2", "cd21020000000000"),  # if r1 s< r2 goto +2
    *both("jsle64 r1, r2, +2", "dd21020000000000"),  # if r1 s<= r2 goto +2
]

JUMPS_32_WITH_IMMEDIATES = [
    *both("jeq32 r3, 7, +300", "16032c0107000000"),  # if w3 == 7 goto +300
    *both("jgt32 r3, 7, +300", "26032c0107000000"),  # if w3 > 7 goto +300
    *both("jge32 r3, 7, +300", "36032c0107000000"),  # if w3 >= 7 goto +300
    *both("jset32 r3, 7, +300", "46032c0107000000"),  # if w3 & 7 goto +300
    *both("jne32 r3, 7, +300", "56032c0107000000"),  # if w3 != 7 goto +300
    *both("jsgt32 r3, 7, +300", "66032c0107000000"),  # if w3 s> 7 goto +300
    *both("jsge32 r3, 7, +300", "76032c0107000000"),  # if w3 s>= 7 goto +300
    *both("jlt32 r3, 7, +300", "a6032c0107000000"),  # if w3 < 7 goto +300
    *both("jle32 r3, 7, +300", "b6032c0107000000"),  # if w3 <= 7 goto +300
    *both("jslt32 r3, 7, +300", "c6032c0107000000"),  # if w3 s< 7 goto +300
    *both("jsle32 r3, 7, +300", "d6032c0107000000"),  # if w3 s<= 7 goto +300
]

JUMPS_32_WITH_REGISTERS = [
    *both("jeq32 r3, r9, +300", "1e932c0100000000"),  # if w3 == w9 goto +300
    *both("jgt32 r3, r9, +300", "2e932c0100000000"),  # if w3 > w9 goto +300
    *both("jge32 r3, r9, +300", "3e932c0100000000"),  # if w3 >= w9 goto +300
    *both("jset32 r3, r9, +300", "4e932c0100000000"),  # if w3 & w9 goto +300
    *both("jne32 r3, r9, +300", "5e932c0100000000"),  # if w3 != w9 goto +300
    *both("jsgt32 r3, r9, +300", "6e932c0100000000"),  # if w3 s> w9 goto +300
    *both("jsge32 r3, r9, +300", "7e932c0100000000"),  # if w3 s>= w9 goto +300
    *both("jlt32 r3, r9, +300", "ae932c0100000000"),  # if w3 < w9 goto +300
    *both("jle32 r3, r9, +300", "be932c0100000000"),  # if w3 <= w9 goto +300
    *both("jslt32 r3, r9, +300", "ce932c0100000000"),  # if w3 s< w9 goto +300
    *both("jsle32 r3, r9, +300", "de932c0100000000"),  # if w3 s<= w9 goto +300
]

WIDE_IMMEDIATE = [
    *both("lddw r1, 4294967303", "18010000070000000000000001000000"),  # r1 = 4294967303 ll
]

BY_HAND = [
    *both("div64 r0, r1", "3f10000000000000"),
    *both("mod32 r0, r1", "9c10000000000000"),
    *both("jsgt32 r3, -5, +2", "66030200fbffffff"),
    *both("lddw r0, 4294967303", "18000000070000000000000001000000"),
]

ENDS_OF_RANGES = [
    *both("add64 r1, -32", "07010000e0ffffff"),
    *both("mov32 r10, -2147483648", "b40a000000000080"),
    *both("mov64 r9, 2147483647", "b7090000ffffff7f"),
    *both("lddw r0, 18446744073709551615", "18000000ffffffff00000000ffffffff"),
    *both("ldxb r2, [r1+0]", "7112000000000000"),
    *both("ldxh r2, [r1-32768]", "6912008000000000"),
    *both("stw [r10-1], 5", "620affff05000000"),
    *both("ja +32767", "0500ff7f00000000"),
    *both("ja -3", "0500fdff00000000"),
    *both("jeq64 r1, r2, +0", "1d21000000000000"),
    *both("call -1", "85000000ffffffff"),
]

# those that profile 2 adds, worked out from RFC 9669, sections 4.1 and 5.2; beside each stands how LLVM spells it
IN_PROFILE_2 = [
    in_profile(2, row)
    for text, digits in (
        ("movsx64 r3, r4, 8", "bf43080000000000"),  # r3 = (s8)r4
        ("movsx64 r5, r6, 16", "bf65100000000000"),  # r5 = (s16)r6
        ("movsx64 r7, r8, 32", "bf87200000000000"),  # r7 = (s32)r8
        ("movsx32 r9, r0, 8", "bc09080000000000"),  # w9 = (s8)w0
        ("movsx32 r2, r9, 16", "bc92100000000000"),  # w2 = (s16)w9
        ("ldxsb r9, [r6+79]", "91694f0000000000"),  # r9 = *(s8 *)(r6 + 79)
        ("ldxsh r5, [r10-512]", "89a500fe00000000"),  # r5 = *(s16 *)(r10 - 512)
        ("ldxsw r0, [r3+32767]", "8130ff7f00000000"),  # r0 = *(s32 *)(r3 + 32767)
        ("ldxsb r4, [r5-32768]", "9154008000000000"),  # r4 = *(s8 *)(r5 - 32768)
        ("movsx64 r10, r10, 32", "bfaa200000000000"),  # r10 = (s32)r10
    )
    for row in both(text, digits)
]

TABLES: Tables = {
    "arithmetic at 64 bits with immediates": ARITHMETIC_64_WITH_IMMEDIATES,
    "arithmetic at 64 bits with registers": ARITHMETIC_64_WITH_REGISTERS,
    "arithmetic at 32 bits with immediates": ARITHMETIC_32_WITH_IMMEDIATES,
    "arithmetic at 32 bits with registers": ARITHMETIC_32_WITH_REGISTERS,
    "others": OTHERS,
    "loads and stores": LOADS_AND_STORES,
    "jumps at 64 bits with immediates": JUMPS_64_WITH_IMMEDIATES,
    "jumps at 64 bits with registers": JUMPS_64_WITH_REGISTERS,
    "jumps at 32 bits with immediates": JUMPS_32_WITH_IMMEDIATES,
    "jumps at 32 bits with registers": JUMPS_32_WITH_REGISTERS,
    "wide immediate": WIDE_IMMEDIATE,
    "by hand": BY_HAND,
    "ends of ranges": ENDS_OF_RANGES,
    "in profile 2": IN_PROFILE_2,
}
