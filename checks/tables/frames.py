"""What `percobpf_story frames` prints for programs, worked out by hand from docs/MACHINE.md, "Verification"."""
from __future__ import annotations

from tables import COPY, WATCH, Row, Tables, encoded

STORY = "percobpf_story"

ENTRY = "r1=record+0 r10=stack+0"


def frames(code: bytes, out: str, *more: str) -> Row:
    """The bytes of a program, for which this is printed, with more words."""
    return Row(["frames", "i", *more], {"i": code}, out=out.encode(), program=STORY)


def known(text: str, *told: str) -> Row:
    """A program, for which this is printed."""
    return frames(encoded(text), "".join(f"{line}\n" for line in told))


def refused(code: bytes, slot: int, number: int, *more: str) -> Row:
    """Bytes that are no program's."""
    return Row(["frames", "i", *more], {"i": code}, 1, f"refused slot {slot} code {number}\n".encode(), program=STORY)


ALL_32 = "written=-32..-1"
COPYING = "r6=record+0 r10=stack+0"

PROGRAMS = [
    frames(bytes.fromhex(WATCH), f"0 {ENTRY}\n1 r0=number {ENTRY}\n"),
    frames(
        bytes.fromhex(COPY),
        f"0 {ENTRY}\n"
        f"1 r1=record+0 {COPYING}\n"
        f"2 r1=record+0 r2=number {COPYING}\n"
        f"3 r1=record+0 r2=number {COPYING} written=-32..-25\n"
        f"4 r1=record+0 r2=number {COPYING} written=-32..-25\n"
        f"5 r1=record+0 r2=number {COPYING} written=-32..-17\n"
        f"6 r1=record+0 r2=number {COPYING} written=-32..-17\n"
        f"7 r1=record+0 r2=number {COPYING} written=-32..-9\n"
        f"8 r1=record+0 r2=number {COPYING} written=-32..-9\n"
        f"9 r1=record+0 r2=number {COPYING} {ALL_32}\n"
        f"10 r1=number r2=number {COPYING} {ALL_32}\n"
        f"11 r1=number r2=number {COPYING} {ALL_32}\n"
        f"12 r1=number r2=number r3=stack+0 {COPYING} {ALL_32}\n"
        f"13 r1=number r2=number r3=stack-32 {COPYING} {ALL_32}\n"
        f"14 r0=number {COPYING} {ALL_32}\n"
        f"15 r0=number {COPYING} {ALL_32}\n",
    ),
]

REGISTERS = [
    # pointers move in both directions, also where nothing may be accessed
    known(
        "mov64 r2, r10; add64 r2, 8; sub64 r1, 1; mov64 r9, r1; exit",
        f"0 {ENTRY}",
        "1 r1=record+0 r2=stack+0 r10=stack+0",
        "2 r1=record+0 r2=stack+8 r10=stack+0",
        "3 r1=record-1 r2=stack+8 r10=stack+0",
        "4 r1=record-1 r2=stack+8 r9=record-1 r10=stack+0",
    ),
    # arithmetic makes a number, from anything that was known
    known("add64 r1, r10; mov32 r10, r1; exit", f"0 {ENTRY}", "1 r1=number r10=stack+0", "2 r1=number r10=number"),
    # a call leaves registers 1 to 5 unset, and a read fills its 32 bytes
    known(
        "mov64 r3, r10; add64 r3, -40; call 1; exit",
        f"0 {ENTRY}",
        "1 r1=record+0 r3=stack+0 r10=stack+0",
        "2 r1=record+0 r3=stack-40 r10=stack+0",
        "3 r0=number r10=stack+0 written=-40..-9",
    ),
    known("call 2; exit", f"0 {ENTRY}", "1 r0=number r10=stack+0"),
]

STACK = [
    # from the lowest byte, each run as long as it is
    known(
        "stb [r10-1], 0; stb [r10-3], 0; sth [r10-512], 0; stb [r10-2], 0; stdw [r10-510], 0; exit",
        f"0 {ENTRY}",
        f"1 {ENTRY} written=-1..-1",
        f"2 {ENTRY} written=-3..-3 written=-1..-1",
        f"3 {ENTRY} written=-512..-511 written=-3..-3 written=-1..-1",
        f"4 {ENTRY} written=-512..-511 written=-3..-1",
        f"5 {ENTRY} written=-512..-503 written=-3..-1",
    ),
    # a store outside the stack writes nothing
    known("stw [r10-3], 0; stb [r10-513], 0; stb [r1+0], 0; exit", f"0 {ENTRY}", f"1 {ENTRY}", f"2 {ENTRY}", f"3 {ENTRY}"),
]

WAYS = [
    # the second slot of a pair has no line
    known("lddw r1, 4294967303; exit", f"0 {ENTRY}", "2 r1=number r10=stack+0"),
    known("ja +1; exit; mov64 r0, 0; exit", f"0 {ENTRY}", "1 unreachable", f"2 {ENTRY}", f"3 r0=number {ENTRY}"),
    # a jump backwards leads nowhere, and so does one into a pair
    known("ja -1; exit", f"0 {ENTRY}", "1 unreachable"),
    known("ja +1; lddw r0, 1; exit", f"0 {ENTRY}", "1 unreachable", "3 unreachable"),
    # what both ways say
    known(
        "mov64 r0, 0; mov64 r7, r1; mov64 r8, 0; jeq64 r0, 0, +3; add64 r7, 8; mov64 r8, r1; stb [r10-1], 0; stb [r10-1], 0; exit",
        f"0 {ENTRY}",
        f"1 r0=number {ENTRY}",
        "2 r0=number r1=record+0 r7=record+0 r10=stack+0",
        "3 r0=number r1=record+0 r7=record+0 r8=number r10=stack+0",
        "4 r0=number r1=record+0 r7=record+0 r8=number r10=stack+0",
        "5 r0=number r1=record+0 r7=record+8 r8=number r10=stack+0",
        "6 r0=number r1=record+0 r7=record+8 r8=record+0 r10=stack+0",
        "7 r0=number r1=record+0 r10=stack+0",
        "8 r0=number r1=record+0 r10=stack+0 written=-1..-1",
    ),
]


def straight(slots: int, *more: str) -> Row:
    """A program of so many slots, each line of which but the first is the same."""
    code = encoded("mov64 r0, 0") * (slots - 1) + encoded("exit")
    return frames(code, f"0 {ENTRY}\n" + "".join(f"{slot} r0=number {ENTRY}\n" for slot in range(1, slots)), *more)


SIZES = [
    straight(512),
    *(
        straight(slots, "--profile", "2")
        for slots in (513, 600, 601, 602, 777, 1_000, 1_023, 1_024, 1_025, 2_047, 2_048, 2_049, 3_001, 3_998, 3_999, 4_000, 4_095, 4_096)
    ),
    # every other byte of the stack written: as many runs as there can be
    known(
        "; ".join([*(f"stb [r10-{place}], 0" for place in range(1, 512, 2)), "exit"]),
        *(f"{slot} {ENTRY}" + "".join(f" written=-{place}..-{place}" for place in range(2 * slot - 1, 0, -2)) for slot in range(257)),
    ),
]

SIGNED = encoded("movsx64 r6, r1, 8; exit")

OPTIONS = [
    frames(SIGNED, f"0 {ENTRY}\n1 r1=record+0 r6=number r10=stack+0\n", "--profile", "2"),
    refused(SIGNED, 0, 14),
    refused(SIGNED, 0, 14, "--profile", "1"),
    # what is known is the same for both versions of the record
    *(frames(bytes.fromhex(WATCH), f"0 {ENTRY}\n1 r0=number {ENTRY}\n", "--record", version) for version in "12"),
    frames(encoded("ldxb r0, [r1+119]; exit"), f"0 {ENTRY}\n1 r0=number {ENTRY}\n"),
]

REFUSED = [
    refused(b"", 0, 10),
    refused(bytes(7), 0, 10),
    refused(bytes.fromhex(WATCH)[:8] + bytes.fromhex("8f01000000000000"), 1, 12),
    refused(bytes.fromhex("1800000000000000"), 0, 15),
    Row(["frames", "missing"], {}, 1, err=b"cannot read missing\n", program=STORY),
]

TABLES: Tables = {
    "programs": PROGRAMS,
    "registers": REGISTERS,
    "stack": STACK,
    "ways": WAYS,
    "sizes": SIZES,
    "options": OPTIONS,
    "refused": REFUSED,
}
