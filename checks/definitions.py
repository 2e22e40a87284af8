"""The definitions of .antt files, what the `use` lines of a file bring in, and which definitions a text cites.

`checks/reads` reads those of specs/ and proofs/, and `tools/theorems` prints those to which a contract leads.
"""
from __future__ import annotations

import re
from collections.abc import Collection, Iterable, Iterator, Mapping
from dataclasses import dataclass
from pathlib import Path

from sources import TOP
from words import module_of

SIGNATURE = re.compile(r"(?:(?:abbrev|unfoldable|pub)\s+)*(?P<name>◌\S*|[^\s(){};:=,]+)\s*:\s")
DECLARATION = re.compile(r"(?:pub\s+)?(?:data|record|ruleset)\s+(?P<name>\S+)")
USE = re.compile(r"use\s+(?P<path>[\w.+-]+?)(?:\.\{(?P<names>[^}]*)\}|\s+as\s+(?P<alias>[^\s;]+))?\s*;?\s*$", re.M)
WORD = re.compile(r"[^\s(){}\[\];,]+")
ROOT = "Rattle."
NOTE = re.compile(r"(?<!\S)--(?!\S).*")
# Where an argument of an operator stands in its name, and the operator that a line of a `do` stands for.
GAP = "◌"
BINDS = {"←": ">>="}

# What a `use` line brings in: a module, and a name there or None for the whole module.
Imports = Mapping[str, tuple[str, "str | None"]]


@dataclass
class Block:
    """A definition of an .antt file: where it stands, its name, the lines of its code without their indents, and the number of the
    last one."""

    crate: str
    file: Path
    line: int
    name: str
    text: str
    last: int

    @property
    def at(self) -> str:
        return f"{self.file.relative_to(TOP)}:{self.line}"


def crate_of(file: Path) -> str:
    return file.relative_to(TOP / "crates").parts[0]


def blocks_of(file: Path) -> list[Block]:
    """The definitions of an .antt file. One begins at a line with no indent, or in a `module _` at its indent of two, and
    ends before the next; the equations of a name belong to its signature."""
    found, name, indent = [], None, 0
    for number, line in enumerate(file.read_text(encoding="utf-8").split("\n"), 1):
        code, its = line.strip(), len(line) - len(line.lstrip())
        if not code or code.startswith("--") or (its == 0 and code.startswith(("use ", "mod ", "pub mod ", "infix", "mutual"))):
            continue
        if its == 0 and code.startswith("module "):
            name, indent = None, 2
            continue
        if its == 0:
            indent = 0
        begun = its == indent and (DECLARATION.match(code) or SIGNATURE.match(code))
        if begun and begun["name"] != name:
            name = begun["name"]
            found.append(Block(crate_of(file), file, number, name, code, number))
        elif found and name:
            found[-1].text += "\n" + code
            found[-1].last = number
    return found


def imports_of(text: str) -> dict[str, tuple[str, str | None]]:
    """What a file's `use` lines bring in, by its name here: the module, and the name there or None for a whole module."""
    found: dict[str, tuple[str, str | None]] = {}
    for use in USE.finditer(text):
        path = use["path"].removeprefix(ROOT)
        if use["names"] is not None:
            for name in use["names"].split(","):
                there, _, here = name.strip().partition(" as ")
                found[here.strip() or there] = (module_of(path, there), there)
        else:
            found[use["alias"] or path.rpartition(".")[2]] = (path, None)
    return found


def led_to(words: Iterable[str], imports: Imports, own: Collection[str], module: str) -> Iterator[tuple[str, str]]:
    """The definitions that these words name, as module and name."""
    for word in words:
        head, dot, rest = word.partition(".")
        if word in own:
            yield module, word
        elif word in imports:
            yield imports[word][0], imports[word][1] or word
        elif dot and head in imports and imports[head][1] is None:
            yield imports[head][0], rest
        if dot:
            yield from led_to([head], imports, own, module)


def named_by(word: str, imports: Imports, own: Collection[str]) -> str:
    """The name that a word of a text stands for: of an operator that of its definition."""
    word = BINDS.get(word, word)
    operator = f"{GAP}{word}{GAP}"
    return operator if operator in own or operator in imports else word


def cited_in(text: str, imports: Imports, own: Collection[str] = (), module: str = "") -> list[tuple[str, str]]:
    """The definitions that a text cites, in its order, as module and name: also by an operator, and by a path."""
    found = []
    for word in WORD.findall(NOTE.sub("", text)):
        if word.startswith(ROOT):
            path, _, name = word.removeprefix(ROOT).rpartition(".")
            found.append((module_of(path, name), name))
        else:
            found += led_to([named_by(word, imports, own)], imports, own, module)
    return [it for it in dict.fromkeys(found) if imports.get(it[1]) != (it[0], None)]
