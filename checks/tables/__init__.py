"""The tables that checks/rows runs, each a list of rows under its name in `TABLES` of a module here; and what rows are made of.

A row states what a program is run on, and how that ends. The files of a row have short names: m is a manifest, s a script,
e a schedule, i what `asm`, `dis` and `check` read, o what `asm` writes, and l the log of a table.
"""
from __future__ import annotations

import re
import struct
from collections.abc import Callable
from dataclasses import dataclass, field, replace
from functools import cache

# how many tables there are, and how many rows in all, so that a lost one is noticed
TABLE_COUNT = 319
ROW_COUNT = 10338

TOO_LARGE = bytes(16_777_217)

# the bytes of `mov64 r0, 0` and `exit`
WATCH = "b7000000000000009500000000000000"

# of `call 4` and `exit`, which ends with its start
START = "85000000040000009500000000000000"

# writes the changed value to column 1 of its row
COPY = (
    "bf1600000000000079623000000000007b2ae0ff0000000079623800000000007b2ae8ff0000000079624000000000007b2af0ff00000000"
    "79624800000000007b2af8ff000000007961000000000000b702000001000000bfa300000000000007030000e0ffffff8500000002000000"
    "b7000000000000009500000000000000"
)


# What stands in the errors of a row for the path of the folder that the program is started in.
FOLDER = b"(folder)"

# The program that keeps a table, and what stands beside a log that was opened: a file that is locked for a moment, and stays empty.
KEEP_PROGRAM = "percobpf_keep"
BESIDE = {"l-wal": b""}

# The program of rows that no program of the product has words for.
ROWS = "test_rows"

# The program that the scripts of bench/ time.
TIMED = "time_bench"

# The words by which a new program is tried that has no help of its own.
TRIED_BY = {ROWS: ["machine", "--help"], TIMED: ["tablets", "list", "build", "1"]}


@dataclass(frozen=True)
class Row:
    """The words after a program's name, the files of the folder that it is started in, its standard input, and how that ends.

    An output of None is any but the empty one. In the end the folder holds the files and what is `written`, and nothing
    else. What standard error has of the folder's path stands there as `FOLDER`. Where a `memory` is named, the program has so many
    bytes of addresses, where `seconds` are, so many of a processor, however busy the machine is, and where a `room` is, so many
    bytes for each file that it writes to. The output goes to the file that is named by `to`, if one is. An input of None can't be
    read. An output that differs from time to time has a `judge`, which returns what of it isn't as it has to be.
    """

    words: list[str]
    files: dict[str, bytes] = field(default_factory=dict)
    status: int = 0
    out: bytes | None = b""
    err: bytes | None = b""
    written: dict[str, bytes] = field(default_factory=dict)
    memory: int | None = None
    program: str = "percobpf"
    judge: Callable[[bytes], list[str]] | None = None
    seconds: int | None = None
    input: bytes | None = b""
    room: int | None = None
    to: str | None = None

    def key(self) -> tuple:
        """The same for the same rows alone."""
        files, written = frozenset(self.files.items()), frozenset(self.written.items())
        limits = (self.memory, self.seconds, self.input, self.room, self.to)
        return (self.program, tuple(self.words), files, self.status, self.out, self.err, written, *limits)


Tables = dict[str, list[Row]]


def manifest_of(*observers: str, profile: int | str = 1) -> str:
    """The text of a manifest of these observers."""
    return f'{{"profile":{profile},"observers":[{",".join(observers)}]}}'


def observer(name: str = "watch", column: int | str = 0, helpers: str = "", digits: str = WATCH) -> str:
    """The text of an observer."""
    return f'{{"name":"{name}","column":{column},"helpers":[{helpers}],"code":"{digits}"}}'


NOBODY = manifest_of()
WATCHED = manifest_of(observer())
COPIED = manifest_of(observer("copy", 0, "2", COPY))

# a script of one change, and its cell in a report
ONE = "put 7 0 2a\n"
CHANGED = "cell 7 0 commit 2 value 2a\n"


def files_of(**texts: str | bytes) -> dict[str, bytes]:
    return {name: text if isinstance(text, bytes) else text.encode() for name, text in texts.items()}


def within(mebibytes: int, row: Row) -> Row:
    """The row, where the program has no more memory than this."""
    return replace(row, memory=mebibytes << 20)


def in_time(seconds: int, row: Row) -> Row:
    """The row, where the program has no more time of a processor than this."""
    return replace(row, seconds=seconds)


def run(manifest: str, script: str, report: str, *more: str) -> Row:
    """A run that reports so, with more words."""
    return Row(["run", "m", "s", *more], files_of(m=manifest, s=script), out=report.encode())


def run_fails(manifest: str, script: str, fault: str) -> Row:
    """A run that prints this fault, and no report."""
    return Row(["run", "m", "s"], files_of(m=manifest, s=script), 1, err=f"{fault}\n".encode())


def replay(manifest: str, script: str, schedule: str, report: str, *more: str) -> Row:
    """A replay that reports so, with more words."""
    return Row(["replay", "m", "s", "e", *more], files_of(m=manifest, s=script, e=schedule), out=report.encode())


def replay_fails(manifest: str, script: str, schedule: str, fault: str) -> Row:
    """A replay that prints this fault, and no report."""
    return Row(["replay", "m", "s", "e"], files_of(m=manifest, s=script, e=schedule), 1, err=f"{fault}\n".encode())


def asm(text: str, code: bytes) -> Row:
    """A text that is assembled to these bytes."""
    return Row(["asm", "i", "o"], files_of(i=text), written={"o": code})


def asm_fails(text: str, line: int, number: int) -> Row:
    """A text that is refused in this line, so that no bytes are written."""
    return Row(["asm", "i", "o"], files_of(i=text), 1, err=f"line {line} code {number}\n".encode())


def dis(code: bytes, listing: str) -> Row:
    """The bytes of a program, which is listed so."""
    return Row(["dis", "i"], {"i": code}, out=listing.encode())


def dis_refused(code: bytes, slot: int, number: int) -> Row:
    """Bytes that are no program's."""
    return Row(["dis", "i"], {"i": code}, 1, f"refused slot {slot} code {number}\n".encode())


def accepted(code: bytes, slots: int) -> Row:
    """The bytes of a program that is accepted with all helpers."""
    return Row(["check", "i"], {"i": code}, out=f"accepted {slots} slots\n".encode())


def refused(code: bytes, slot: int, number: int) -> Row:
    """Bytes that are refused at this slot."""
    return Row(["check", "i"], {"i": code}, 1, f"refused slot {slot} code {number}\n".encode())


def in_profile(profile: int, row: Row) -> Row:
    """The same words, with this profile named after them."""
    return replace(row, words=[*row.words, "--profile", str(profile)])


ARITHMETIC_CODES = "add sub mul div or and lsh rsh neg mod xor mov arsh".split()
ARITHMETIC_CLASSES = {"32": 4, "64": 7}
JUMP_CODES = "ja jeq jgt jge jset jne jsgt jsge call exit jlt jle jslt jsle".split()
JUMP_CLASSES = {"32": 6, "64": 5}

# the jumps whose word has no width
WITHOUT_WIDTH = ("ja", "call", "exit")

# the sizes of loads and stores, in bytes, and their bits of an opcode
SIZES = {"b": 1, "h": 2, "w": 4, "dw": 8}
SIZE_BITS = {"w": 0x00, "h": 0x08, "b": 0x10, "dw": 0x18}
MEM = 0x60
MEMSX = 0x80

# the forms of MACHINE.md, "Assembler text", by what stands after the first word
FORMS = {
    "place to register": r"r(?P<dst>\d+), \[r(?P<src>\d+)(?P<offset>[+-]\d+)\]",
    "register to place": r"\[r(?P<dst>\d+)(?P<offset>[+-]\d+)\], r(?P<src>\d+)",
    "immediate to place": r"\[r(?P<dst>\d+)(?P<offset>[+-]\d+)\], (?P<imm>-?\d+)",
    "two registers and bits": r"r(?P<dst>\d+), r(?P<src>\d+), (?P<bits>\d+)",
    "two registers": r"r(?P<dst>\d+), r(?P<src>\d+)(, (?P<offset>[+-]\d+))?",
    "register and immediate": r"r(?P<dst>\d+), (?P<imm>-?\d+)(, (?P<offset>[+-]\d+))?",
    "register": r"r(?P<dst>\d+)",
    "offset": r"(?P<offset>[+-]\d+)",
    "nothing": r"",
}


def slot(opcode: int, dst: int = 0, src: int = 0, offset: int = 0, imm: int = 0) -> bytes:
    """A slot by section 3.1 of RFC 9669."""
    return struct.pack("<BBhi", opcode, src << 4 | dst, offset, imm)


def opcode(word: str, has_register: bool) -> int:
    """The opcode of a first word, by sections 3 to 5 of RFC 9669."""
    signed = re.fullmatch(r"ldxs(b|h|w)", word)
    if signed:
        return 1 | SIZE_BITS[signed[1]] | MEMSX
    named = re.fullmatch(r"(ldx|stx|st)(b|h|w|dw)", word)
    if named:
        return {"ldx": 1, "st": 2, "stx": 3}[named[1]] | SIZE_BITS[named[2]] | MEM
    if word in WITHOUT_WIDTH:
        return JUMP_CODES.index(word) << 4 | 5
    kind = 0x08 if has_register else 0x00
    name, width = word[:-2], word[-2:]
    if name in ARITHMETIC_CODES and width in ARITHMETIC_CLASSES:
        return ARITHMETIC_CODES.index(name) << 4 | kind | ARITHMETIC_CLASSES[width]
    if name in JUMP_CODES and name not in WITHOUT_WIDTH and width in JUMP_CLASSES:
        return JUMP_CODES.index(name) << 4 | kind | JUMP_CLASSES[width]
    raise ValueError(f"{word} is no first word")


@cache
def instruction(text: str) -> bytes:
    """The bytes of an instruction that is written as docs/MACHINE.md defines."""
    word, _, behind = text.partition(" ")
    if word == "call":
        return slot(opcode(word, False), imm=int(behind))
    found = next((found for form in FORMS.values() if (found := re.fullmatch(form, behind))), None)
    if found is None:
        raise ValueError(f"{text} is of no form")
    fields = {name: int(number) for name, number in found.groupdict().items() if number is not None}
    if word in ("movsx64", "movsx32"):
        return slot(opcode(f"mov{word[-2:]}", True), fields["dst"], fields["src"], fields["bits"])
    if word == "lddw":
        low, high = struct.unpack("<ii", struct.pack("<Q", fields["imm"]))
        return slot(0x18, fields["dst"], imm=low) + slot(0, imm=high)
    return slot(opcode(word, "src" in fields), **fields)


def encoded(*texts: str) -> bytes:
    """The bytes of a program, its instructions parted by `; `.

    It judges nothing, and is held to LLVM's encodings in encodings.py.
    """
    return b"".join(instruction(line) for text in texts for line in text.split("; "))


def taken(text: str) -> Row:
    """A program that is accepted with all helpers, with eight bytes for each of its slots."""
    code = encoded(text)
    return accepted(code, len(code) // 8)


def told(text: str, slot: int, number: int) -> Row:
    """A program that is refused at this slot with this number."""
    return refused(encoded(text), slot, number)
