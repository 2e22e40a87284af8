"""Bytes that are listed, and bytes that are no program's, with the slot and the code that `dis` prints; and for each beginning of
a program what `check` prints too.

Worked out from RFC 9669, sections 3 to 5, and docs/MACHINE.md, "Encoding". The slots stand as their bytes in hexadecimal.
"""
from __future__ import annotations

from pathlib import Path

from tables import COPY, Row, Tables, dis, dis_refused, encoded, refused

MOV = bytes.fromhex("b700000000000000")


def first_refused(digits: str, number: int) -> Row:
    """Bytes that are refused at their first slot."""
    return dis_refused(bytes.fromhex(digits), 0, number)


LENGTHS = [
    *(dis(MOV * slots, "mov64 r0, 0\n" * slots) for slots in range(1, 513)),
    dis_refused(MOV * 513, 0, 11),
    *(dis_refused((MOV * 513)[:length], 0, 10) for length in (1, 7, 9, 4095, 4097)),
]

ONE_SLOT = [
    first_refused("8f01000000000000", 12),
    first_refused("b70b000000000000", 13),
    first_refused("b7b0000000000000", 13),
    first_refused("8701000001000000", 14),
    first_refused("1800000005000000", 15),
    # opcodes of the RFC that the profile leaves out
    first_refused("dc00000010000000", 12),
    first_refused("d700000010000000", 12),
    first_refused("0600000001000000", 12),
    first_refused("8600000001000000", 12),
    first_refused("8100000000000000", 12),
    first_refused("db10000000000000", 12),
    first_refused("2000000000000000", 12),
    # the lowest code, where several apply
    first_refused("ffffffffffffffff", 12),
    first_refused("95ff010000000000", 13),
    first_refused("18b0000005000000", 13),
    first_refused("1810000005000000", 14),
    first_refused("3f10010000000000", 14),
    first_refused("8510000001000000", 14),
    first_refused("0500000001000000", 14),
    first_refused("9500000000000001", 14),
]

TWO_SLOTS = [
    dis(bytes.fromhex("b700000000000000" "9500000000000000"), "mov64 r0, 0\nexit\n"),
    dis(bytes.fromhex("1800000005000000" "0000000000000000"), "lddw r0, 5\n"),
    first_refused("1810000005000000" "0000000000000000", 14),
    first_refused("1800000005000000" "0100000000000000", 16),
    first_refused("1800000005000000" "0001000000000000", 16),
    first_refused("1800000005000000" "0010000000000000", 16),
    first_refused("1800000005000000" "0000010000000000", 16),
    dis_refused(bytes.fromhex("b700000000000000" "1800000005000000"), 1, 15),
    dis_refused(bytes.fromhex("b700000000000000" "0000000000000000"), 1, 12),
]

BYTES = [
    first_refused("95000000000000", 10),
    first_refused("950000000000000095", 10),
    dis_refused(bytes.fromhex("9500000000000000" "8f01000000000000"), 1, 12),
    dis_refused(bytes.fromhex("9500000000000000") * 513, 0, 11),
    dis_refused(bytes.fromhex("9500000000000000" * 3 + "8f01000000000000"), 3, 12),
]

# the instructions of `copy`, of a slot each
COPY_TEXT = Path(__file__).resolve().parent.parent.parent / "examples/copy.s"
COPY_LINES = [line for line in COPY_TEXT.read_text().splitlines() if not line.startswith("#")]
COPY_CODE = encoded(*COPY_LINES)
if COPY_CODE.hex() != COPY:
    raise ValueError(f"{COPY_TEXT} isn't the text of COPY")


def beginning(length: int) -> list[Row]:
    """What `dis` and `check` print for so many first bytes of `copy`."""
    code, slots = COPY_CODE[:length], length // 8
    if length == 0 or length % 8:
        return [dis_refused(code, 0, 10), refused(code, 0, 10)]
    listing = "".join(f"{line}\n" for line in COPY_LINES[:slots])
    # each slot keeps the rules, but that the last one leads past the end
    return [dis(code, listing), refused(code, slots - 1, 36)]


# all but the whole, which ends with its exit
BEGINNINGS_OF_COPY = [row for length in range(len(COPY_CODE)) for row in beginning(length)]

TABLES: Tables = {
    "lengths": LENGTHS,
    "one slot": ONE_SLOT,
    "two slots": TWO_SLOTS,
    "bytes": BYTES,
    "beginnings of copy": BEGINNINGS_OF_COPY,
}
