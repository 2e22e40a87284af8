"""What `percobpf_story trial` prints of one run, worked out by hand from docs/FORMATS.md, "A trial", and docs/MACHINE.md.

Where an observer of examples/c is named, its bytes are those that stand beside it.
"""
from __future__ import annotations

from pathlib import Path

from tables import COPY, START, TOO_LARGE, WATCH, Row, Tables, encoded

STORY = "percobpf_story"
EXAMPLES = Path(__file__).resolve().parent.parent.parent / "examples/c"

CHANGE = ["--row", "7", "--column", "0", "--value", "2a"]
OLD = ["--old", "29"]
SECOND = ["--record", "2"]


def trial(code: bytes, words: list[str], *lines: str) -> Row:
    """The bytes of a program, with the words of a trial, of which these lines are printed."""
    return Row(["trial", "i", *words], {"i": code}, out="".join(f"{line}\n" for line in lines).encode(), program=STORY)


def refused(code: bytes, slot: int, number: int, *more: str) -> Row:
    """Bytes that `check` refuses."""
    return Row(["trial", "i", *CHANGE, *more], {"i": code}, 1, f"refused slot {slot} code {number}\n".encode(), program=STORY)


def told(text: str, words: list[str], *lines: str) -> Row:
    """The text of a program, with the words of a trial, of which these lines are printed."""
    return trial(encoded(text), words, *lines)


def observer(name: str) -> bytes:
    """The bytes of an observer of examples/c."""
    return (EXAMPLES / f"{name}.v1.bin").read_bytes()


def field(at: int) -> str:
    """The text of a program that returns the record's word at this byte."""
    return f"ldxdw r0, [r1+{at}]; exit"


# reads the cell of the row and of the column in the changed value's first byte, and returns what the read did
READS = "mov64 r6, r1; ldxdw r1, [r6+0]; ldxb r2, [r6+48]; mov64 r3, r10; sub64 r3, 32; call 1; exit"

# the same, and then the cell of row 9 and column 3
READS_TWO = (
    "mov64 r6, r1; ldxdw r1, [r6+0]; ldxb r2, [r6+48]; mov64 r3, r10; sub64 r3, 32; call 1; "
    "mov64 r1, 9; mov64 r2, 3; mov64 r3, r10; sub64 r3, 32; call 1; ldxdw r0, [r10-32]; exit"
)

# deletes the cell of the row and column 1, and returns a number
DELETES = "ldxdw r1, [r1+0]; mov64 r2, 1; call 3; mov64 r0, {}; exit"

PROGRAMS = [
    trial(bytes.fromhex(WATCH), CHANGE, "result 0", "instructions 2"),
    trial(bytes.fromhex(COPY), CHANGE, "write 7 1 value 2a", "result 0", "instructions 16"),
    # a value without the zeros at its end, and one of zeros alone
    trial(bytes.fromhex(COPY), [*CHANGE[:4], "--value", "2a00"], "write 7 1 value 2a", "result 0", "instructions 16"),
    trial(bytes.fromhex(COPY), [*CHANGE[:4], "--value", "00"], "write 7 1 value 00", "result 0", "instructions 16"),
    trial(bytes.fromhex(COPY), [*CHANGE[:4], "--value", "ab" * 32], f"write 7 1 value {'ab' * 32}", "result 0", "instructions 16"),
    # the greatest row
    trial(bytes.fromhex(COPY), ["--row", str(2**64 - 1), *CHANGE[2:]], f"write {2**64 - 1} 1 value 2a", "result 0", "instructions 16"),
    told(DELETES.format(0), CHANGE, "write 7 1 deleted", "result 0", "instructions 5"),
    # no write stands where the result isn't 0
    told(DELETES.format(5), CHANGE, "result 5", "instructions 5"),
    # a jump over an instruction, which isn't counted
    told("mov64 r0, 0; jeq64 r0, 0, +1; mov64 r0, 1; exit", CHANGE, "result 0", "instructions 3"),
    # an instruction of two slots is one
    told("lddw r0, 4294967303; exit", CHANGE, "result 4294967303", "instructions 2"),
    # a cell that is written twice has one line, in the place of the first
    told(
        "mov64 r6, r1; mov64 r1, 1; mov64 r2, 1; call 3; mov64 r1, 2; mov64 r2, 1; call 3; mov64 r1, 1; mov64 r2, 1; call 3; exit",
        CHANGE, "write 1 1 deleted", "write 2 1 deleted", "result 0", "instructions 11",
    ),
    trial(observer("counter"), CHANGE, "read 7 15 -> absent", "write 7 15 value 01", "result 0", "instructions 18"),
    trial(observer("indexer"), [*CHANGE, *SECOND], "write 42 12 value 07", "result 0", "instructions 21"),
    trial(observer("indexer"), [*CHANGE, *OLD, *SECOND], "write 41 12 deleted", "write 42 12 value 07", "result 0", "instructions 25"),
]

ASKS = [
    # column 0 is that of the change, whose value is told
    told(READS, [*CHANGE[:4], "--value", "00"], "read 7 0 -> value 00", "result 0", "instructions 7"),
    told(READS, [*CHANGE[:4], "--value", "01"], "read 7 1 -> absent", "result 1", "instructions 7"),
    told(READS, [*CHANGE[:4], "--value", "01", "--cell", "7", "1", "0500"], "read 7 1 -> value 05", "result 0", "instructions 7"),
    # cells of another row or of another column are others
    told(READS, [*CHANGE[:4], "--value", "01", "--cell", "8", "1", "05", "--cell", "7", "2", "06"], "read 7 1 -> absent", "result 1", "instructions 7"),
    # the first that is given counts, and the change before all
    told(READS, [*CHANGE[:4], "--value", "01", "--cell", "7", "1", "05", "--cell", "7", "1", "06"], "read 7 1 -> value 05", "result 0", "instructions 7"),
    told(READS, [*CHANGE[:4], "--value", "00", "--cell", "7", "0", "05"], "read 7 0 -> value 00", "result 0", "instructions 7"),
    # a column over 15 asks nothing
    told(READS, [*CHANGE[:4], "--value", "10"], "result 2", "instructions 7"),
    told(
        READS_TWO, [*CHANGE[:4], "--value", "01", "--cell", "9", "3", "ff01"],
        "read 7 1 -> absent", "read 9 3 -> value ff01", "result 511", "instructions 13",
    ),
    # what a run wrote isn't read
    told(
        "mov64 r6, r1; stdw [r10-32], 5; stdw [r10-24], 0; stdw [r10-16], 0; stdw [r10-8], 0; mov64 r1, 7; mov64 r2, 1; mov64 r3, r10; "
        "sub64 r3, 32; call 2; mov64 r1, 7; mov64 r2, 1; mov64 r3, r10; sub64 r3, 32; call 1; mov64 r0, 0; exit",
        CHANGE, "read 7 1 -> absent", "write 7 1 value 05", "result 0", "instructions 17",
    ),
]

# row, column, start, commit, whether there is a value, acknowledged, and the first word of the value
FIELDS = [(0, 7), (8, 0), (16, 1), (24, 2), (32, 1), (40, 0), (48, 42)]
WITH_OLD = [(0, 7), (8, 0), (16, 5), (24, 6), (32, 1), (40, 3), (48, 42)]

RECORDS = [
    *(told(field(at), CHANGE, f"result {number}", "instructions 2") for at, number in FIELDS),
    *(told(field(at), [*CHANGE, *OLD], f"result {number}", "instructions 2") for at, number in WITH_OLD),
    *(told(field(at), [*CHANGE, *SECOND], f"result {number}", "instructions 2") for at, number in [*FIELDS, (80, 0), (88, 0)]),
    *(told(field(at), [*CHANGE, *OLD, *SECOND], f"result {number}", "instructions 2") for at, number in [*WITH_OLD, (80, 1), (88, 41)]),
    trial(bytes.fromhex(START), CHANGE, "result 3", "instructions 2"),
    trial(bytes.fromhex(START), [*CHANGE, *OLD], "result 7", "instructions 2"),
]



def read_of(row: int) -> str:
    """The text of a read of a row, of the column of the row's low four bits."""
    return f"mov64 r1, {row}; mov64 r2, {row % 16}; mov64 r3, r10; sub64 r3, 32; call 1"


def reads(count: int, *words: str) -> Row:
    """A program that reads so many cells, of which every other one is given."""
    text = "; ".join([*(read_of(row) for row in range(count)), "mov64 r0, 0; exit"])
    given = [word for row in range(0, count, 2) for word in ("--cell", str(row), str(row % 16), f"{row % 200 + 1:02x}")]
    lines = [f"read {row} {row % 16} -> {'absent' if row % 2 else f'value {row % 200 + 1:02x}'}" for row in range(count)]
    return told(text, [*CHANGE, *given, *words], *lines, "result 0", f"instructions {5 * count + 2}")


# seventeen cells deleted, of which the last isn't taken
SEVENTEEN = "; ".join(f"mov64 r1, {row}; mov64 r2, 1; call 3" for row in range(17))

SIZES = [
    # as many slots as a program of profile 1 has, and 4,082 of 4,096 in profile 2
    reads(102),
    reads(816, "--profile", "2"),
    told(f"{SEVENTEEN}; mov64 r0, 0; exit", CHANGE, *(f"write {row} 1 deleted" for row in range(16)), "result 0", "instructions 53"),
    told(f"{SEVENTEEN}; exit", CHANGE, "result 3", "instructions 52"),
]

FAULTS = [
    refused(b"", 0, 10),
    refused(bytes.fromhex(WATCH)[:-1], 0, 10),
    refused(encoded("exit"), 0, 21),
    refused(encoded(field(80)), 0, 27),
    refused(encoded(field(120)), 0, 27, *SECOND),
    # a move that extends the sign is one of profile 2
    refused(bytes.fromhex("b701000000000000" "bf10080000000000" "9500000000000000"), 1, 14),
    trial(bytes.fromhex("b701000000000000" "bf10080000000000" "9500000000000000"), [*CHANGE, "--profile", "2"], "result 0", "instructions 3"),
    Row(["trial", "i", *CHANGE], status=1, err=b"cannot read i\n", program=STORY),
    Row(["trial", "i", *CHANGE], {"i": TOO_LARGE}, 1, err=b"too large i\n", program=STORY),
]

TABLES: Tables = {"programs": PROGRAMS, "asks": ASKS, "records": RECORDS, "sizes": SIZES, "faults": FAULTS}
