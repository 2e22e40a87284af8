"""What is explained: the bytes of a program, out of an object file, a text, or as they are, and where its slots come from."""
from __future__ import annotations

import functools
import os
import re
import shutil
import subprocess
from dataclasses import dataclass, field, replace
from pathlib import Path

from explanation import elf, programs

SECTION = "observer"
ELF = b"\x7fELF"

LISTED_PLACE = re.compile(r"; (?P<file>.+):(?P<line>\d+)")
LISTED_SLOT = re.compile(r"\s*(?P<slot>\d+):\t")


@dataclass(frozen=True)
class Place:
    """A line of a file, and its text where the file is there."""

    file: str
    line: int
    text: str | None

    def __str__(self) -> str:
        return f"{self.file}:{self.line}" + (f": {self.text}" if self.text else "")

    def short(self) -> str:
        """The same, without the folder of the file."""
        return str(replace(self, file=os.path.basename(self.file)))


@dataclass
class Subject:
    """A program's bytes, where the instruction at a slot comes from, and what is to be printed in words: `first`, of what the
    bytes don't show, and `last`, of what would show more. `is_object` where it comes from an object file."""

    code: bytes
    places: dict[int, Place] = field(default_factory=dict)
    first: list[str] = field(default_factory=list)
    last: list[str] = field(default_factory=list)
    is_object: bool = False


def subject_of(path: Path, options: programs.Options) -> Subject:
    """What a file holds. A text has no control characters, and a program that ends has zeros in its last slot."""
    content = path.read_bytes()
    if content.startswith(ELF):
        return of_object(path, content)
    if content and not re.search(rb"[\x00-\x08\x0b\x0c\x0e-\x1f]", content):
        return of_text(path, content.decode(errors="replace"), options)
    return Subject(content)


# Texts


def of_text(path: Path, text: str, options: programs.Options) -> Subject:
    subject = Subject(programs.assembled(path, options))
    slot = 0
    for number, line in enumerate(text.split("\n"), 1):
        if line and not line.startswith("#"):
            subject.places[slot] = Place(str(path), number, line)
            slot += 2 if line.startswith("lddw ") else 1
    return subject


# Object files


def of_object(path: Path, content: bytes) -> Subject:
    try:
        read = elf.Object(content)
        section = read.section(SECTION)
        if section is None:
            return Subject(b"", first=[without_section(read)], is_object=True)
        subject = Subject(section.content, first=[*of_functions(read, section), *of_relocations(read, section)], is_object=True)
    except elf.NOT_WHOLE:
        raise elf.NotRead("it begins as an object file does, and isn't a whole one") from None
    if read.section(".debug_line") is None:
        subject.last.append("the object has no lines of C: compile with -g too")
    elif objdump() is None:
        subject.last.append("llvm-objdump, which would print the lines of C, isn't here")
    else:
        subject.places = places_of(path)
    return subject


def named(symbols: list[elf.Symbol]) -> str:
    return ", ".join(f"`{symbol.name}`" for symbol in symbols)


def without_section(read: elf.Object) -> str:
    there = read.functions()
    has = f"; it has {named(there)} elsewhere" if there else ""
    return f"no section `{SECTION}` is in the object, so that no bytes are taken{has}: put OBSERVER before the function"


def of_functions(read: elf.Object, section: elf.Section) -> list[str]:
    functions = read.functions(section)
    if len(functions) == 1:
        return []
    if not functions:
        return [f"no function is in the section `{SECTION}`"]
    where = ", ".join(f"`{it.name}` from slot {it.value // 8} (byte {it.value}) on" for it in functions)
    return [f"{len(functions)} functions are in the section `{SECTION}`, {where}, and are taken as one program: one a file"]


def of_relocations(read: elf.Object, section: elf.Section) -> list[str]:
    """What is missing in the bytes, which is put in where a linker or a loader reads the object, and here by nobody."""
    told = []
    for it in read.relocations(section):
        is_call = it.kind == elf.OF_A_CALL
        deed, end = ("calls", "have it inlined") if is_call else ("takes the address of", f"the bytes have {it.immediate} there")
        place = f"slot {it.offset // 8} (byte {it.offset})"
        told.append(f"{place} {deed} `{read.name_of(it)}`, which stands outside the observer and isn't taken with it: {end}")
    return told


@functools.cache
def objdump() -> str | None:
    """LLVM's tool that lists an object: by its plain name, or else with the highest version after it."""
    folders = [Path(folder) for folder in os.get_exec_path() if Path(folder).is_dir()]
    versions = [re.fullmatch(r"llvm-objdump-(\d+)", it.name) for folder in folders for it in folder.glob("llvm-objdump-*")]
    numbers = sorted({int(version[1]) for version in versions if version}, reverse=True)
    names = ["llvm-objdump", *(f"llvm-objdump-{number}" for number in numbers)]
    return next((found for name in names if (found := shutil.which(name))), None)


def places_of(path: Path) -> dict[int, Place]:
    """The line of C that each slot comes from. LLVM lists by slots, and has each line before the first slot that it is of."""
    words = [objdump(), "--disassemble", "--line-numbers", f"--section={SECTION}", path]
    listed = subprocess.run(words, stdin=subprocess.DEVNULL, capture_output=True, text=True, errors="replace").stdout
    places, place, texts = {}, None, {}
    for line in listed.splitlines():
        if found := LISTED_PLACE.fullmatch(line):
            place = place_at(found["file"], int(found["line"]), texts)
        elif place and (found := LISTED_SLOT.match(line)):
            places[int(found["slot"])] = place
    return places


def place_at(file: str, line: int, texts: dict[str, list[str]]) -> Place:
    """A place, with the text of its line. `texts` has those of the files that were read."""
    if file not in texts:
        is_there = os.path.isfile(file)
        texts[file] = Path(file).read_text(errors="replace").split("\n") if is_there else []
    below = os.path.relpath(file)
    its = texts[file][line - 1].strip() if line <= len(texts[file]) else None
    return Place(file if below.startswith("..") else below, line, its)
