"""Object files of clang for BPF: their sections, their symbols, and the relocations of a section.

Read is what the System V ABI calls a relocatable file of 64 bits with the low byte first, for machine 247, by its section
headers.
"""
from __future__ import annotations

import struct
from dataclasses import dataclass

BPF = 247
RELOCATABLE = 1

# kinds of sections and of symbols, by the ABI
SYMBOLS, RELOCATIONS_WITH_ADDEND, NOTHING_IN_THE_FILE, RELOCATIONS = 2, 4, 8, 9
VARIABLE, FUNCTION, SECTION = 1, 2, 3

# the kind of a call's relocation, by LLVM's documentation of BPF
OF_A_CALL = 10

# what is raised where a place that the file names isn't in it
NOT_WHOLE = (struct.error, IndexError, OverflowError)


class NotRead(Exception):
    """Why a file isn't read as an object file for BPF, in words."""


@dataclass(frozen=True)
class Section:
    number: int
    name: str
    kind: int
    content: bytes
    # what these two say depends on the kind; of relocations, the section of their symbols and the one that they are of
    link: int
    info: int


@dataclass(frozen=True)
class Symbol:
    name: str
    kind: int
    section: int
    value: int
    size: int


@dataclass(frozen=True)
class Relocation:
    """An instruction of a section, at `offset`, that depends on where a symbol lies, and the immediate that it has meanwhile."""

    offset: int
    kind: int
    symbol: Symbol
    immediate: int


def name_at(names: bytes, place: int) -> str:
    return names[place:].split(b"\0", 1)[0].decode(errors="replace")


def sections_of(content: bytes) -> list[Section]:
    kind, machine, _, _, _, start, _, _, _, _, _, number, of_names = struct.unpack_from("<HHIQQQIHHHHHH", content, 16)
    if machine != BPF or kind != RELOCATABLE:
        raise NotRead("it is an object file for another machine than BPF, or a program: compile by `clang -target bpfel -c`")
    headers = [struct.unpack_from("<IIQQQQIIQQ", content, start + 64 * at) for at in range(number)]
    read = []
    for at, (name, kind, _, _, place, size, link, info, _, _) in enumerate(headers):
        its = b"" if kind == NOTHING_IN_THE_FILE else content[place : place + size]
        read.append(Section(at, name_at(content[headers[of_names][4] :], name), kind, its, link, info))
    return read


class Object:
    """An object file, read from its bytes. Where it isn't a whole one, this and its methods raise one of NOT_WHOLE."""

    def __init__(self, content: bytes):
        if content[4:6] != b"\2\1":
            raise NotRead("it is an object file of 32 bits, or with the high byte first: compile by `clang -target bpfel -c`")
        self.sections = sections_of(content)
        tables = [section for section in self.sections if section.kind == SYMBOLS]
        self.symbols = [symbol for table in tables for symbol in self.symbols_in(table)]

    def section(self, name: str) -> Section | None:
        return next((section for section in self.sections if section.name == name), None)

    def symbols_in(self, table: Section) -> list[Symbol]:
        names = self.sections[table.link].content
        read = struct.iter_unpack("<IBBHQQ", table.content)
        return [Symbol(name_at(names, name), info & 15, section, value, size) for name, info, _, section, value, size in read]

    def functions(self, section: Section | None = None) -> list[Symbol]:
        """The functions of a section, or of all, in their order."""
        found = [it for it in self.symbols if it.kind == FUNCTION and (section is None or it.section == section.number)]
        return sorted(found, key=lambda it: (it.section, it.value))

    def relocations(self, section: Section) -> list[Relocation]:
        """The relocations of a section, in its order. An addend counts for nothing, since BPF has it in the section."""
        found = []
        for table in self.sections:
            form = {RELOCATIONS: "<QQ", RELOCATIONS_WITH_ADDEND: "<QQ8x"}.get(table.kind)
            if form and table.info == section.number:
                symbols = self.symbols_in(self.sections[table.link])
                for offset, info in struct.iter_unpack(form, table.content):
                    immediate = struct.unpack_from("<i", section.content, offset + 4)[0]
                    found.append(Relocation(offset, info & 0xFFFF_FFFF, symbols[info >> 32], immediate))
        return sorted(found, key=lambda it: it.offset)

    def name_of(self, relocation: Relocation) -> str:
        """The name of what a relocation leads to.

        clang names a variable of one file by its section, and has as the immediate how far it stands from the section's
        beginning; of a function it has the number of slots, less one.
        """
        symbol = relocation.symbol
        if symbol.kind != SECTION:
            return symbol.name
        place = 8 * (relocation.immediate + 1) if relocation.kind == OF_A_CALL else relocation.immediate
        others = [it for it in self.symbols if it.section == symbol.section and it.kind in (VARIABLE, FUNCTION)]
        named = [it.name for it in others if it.value <= place < it.value + it.size]
        return named[0] if named else f"{self.sections[symbol.section].name}+{place}"
