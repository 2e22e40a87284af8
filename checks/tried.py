"""The notes on wrong bodies in checks/wrong-bodies.tried: which crates' were tried, and over what.

Each crate with wrong bodies has a line: its name, a sum, how many bodies there are, how many of them are unsettled, and the kit by
which they were tried. The sum is of all in the repository that a verdict rests on, without comments: the crate's code, definitions,
proofs and edits, and of each crate below it what the prover reads of it, which is its definitions, its types and constants, the heads of its
public functions with their clauses, and what its public lemmas state. So no body, private function or proof of a crate below counts.
Nor does the tool, but by JUDGED. `untried` in the place of the sum says openly that the bodies weren't tried over what is there now.
`checks/wrong-bodies` writes the sums; with --untried it writes that word where a sum is no longer that of now. The kit isn't in the
sum, since the next machine may have another, and nothing in the repository is changed by that.
"""
from __future__ import annotations

import functools
import hashlib
import re
import subprocess
from dataclasses import dataclass

from sources import EDITS, SOURCES, TOP, code_of, edits_of, functions_in, lines_of_crates, with_strings, without_comments, without_uses

NOTES = TOP / "checks/wrong-bodies.tried"
# How the tool judges. It is another one where a body that was refused, settled or unsettled may now end otherwise.
JUDGED = "2026-11-28"
UNTRIED = "untried"
# In the place of a kit's name, where the bodies weren't tried.
NO_KIT = "-"


@dataclass(frozen=True)
class Note:
    """What is noted of a crate: a sum, or that its bodies are untried, how many they are, how many of them are unsettled, and the kit by
    which they were tried."""

    made: str
    count: int
    unsettled: int = 0
    kit: str = NO_KIT


def sum_of_files(files, folder):
    """A sum of the names of some files and of what stands in them, but for the comments of sources."""
    made = hashlib.sha256()
    for it in files:
        content = code_of(it.name, it.read_text(encoding="utf-8")).encode()
        made.update(f"{it.relative_to(folder)} {len(content)}\n".encode() + content)
    return made.hexdigest()


@functools.cache
def sum_of_parts(crate, parts):
    """A sum of what stands in these parts of a crate."""
    folder = TOP / "crates" / crate
    return sum_of_files(sorted(it for part in parts for it in (folder / part).rglob("*") if it.is_file()), folder)


IS_PUBLIC = re.compile(r"(?:#\[[^\]]*\]\s*)*pub\s+(?!\()")
CONSTANT = re.compile(r"\bconst\s+\w+\s*:[^=;]*=[^;]*;")
# The head of a block of a file of proofs: a public lemma, anything else that is public, or an equation of what has a name.
LEMMA = re.compile(r"pub\s+[^\s(){};:=,]+\s*:(?:\s|$)")
PUBLIC = re.compile(r"(?:(?:abbrev|unfoldable|data|record|ruleset)\s+)*pub\s+(?:(?:abbrev|unfoldable|data|record|ruleset)\s+)*(?P<name>[^\s(){};:=,]+)")


def read_of_code(text):
    """What the prover reads of a file of code of a crate below."""
    functions, rest = functions_in("", without_comments(text))
    strings = with_strings(text)
    heads = [(it.owner, it.trait, strings[it.start : it.end - len(it.body)].split()) for it in functions if is_seen(it)]
    return repr((without_uses(rest), [it.split() for it in CONSTANT.findall(strings)], heads))


def is_seen(function):
    """Whether crates above may call a function, by its name or by its trait."""
    return function.is_of_trait or IS_PUBLIC.match(function.head) is not None


def read_of_proofs(name, text):
    """What the prover reads of a file of proofs of a crate below: what public lemmas state, and what else is public."""
    kept, whole, is_kept = [], set(), False
    for line in code_of(name, text).split("\n"):
        if line and not line[0].isspace() and line[0] not in ")}]":
            public = PUBLIC.match(line)
            is_lemma = LEMMA.match(line) is not None
            if public and not is_lemma:
                whole.add(public["name"])
            is_kept = bool(public) or line.split()[0] in whole or line.startswith("module")
        if is_kept:
            kept.append(" ".join(line.split()))
    return "\n".join(kept)


def read_of(file, part):
    """What the prover reads of a file of a crate below."""
    text = file.read_text(encoding="utf-8")
    if part == "src":
        return read_of_code(text)
    return read_of_proofs(file.name, text) if part == "proofs" else code_of(file.name, text)


@functools.cache
def sum_of_below(crate):
    """A sum of what the prover reads of a crate below, without its files that have nothing of that."""
    folder, made = TOP / "crates" / crate, hashlib.sha256()
    for part in SOURCES:
        for it in sorted(it for it in (folder / part).rglob("*") if it.is_file()):
            if content := read_of(it, part).encode():
                made.update(f"{it.relative_to(folder)} {len(content)}\n".encode() + content)
    return made.hexdigest()


def kit_here():
    """The name of the kit that is installed."""
    return subprocess.run(["rt", "version"], stdout=subprocess.PIPE, text=True, check=True).stdout.split()[0]


@functools.cache
def crates_below(crate):
    """The crates of the repository that a crate stands on, in the end."""
    stands_on = {name: named for name, named in lines_of_crates() if named is not None}
    below, ahead = set(), [crate]
    while ahead:
        new = {it for it in stands_on[ahead.pop()] if it in stands_on} - below
        below |= new
        ahead += new
    return below


def basis_of(crate):
    """A sum of all in the repository that the verdict on an edit of this crate rests on, but the edit itself."""
    sums = [JUDGED, f"{crate} {sum_of_parts(crate, SOURCES)}", *(f"{it} {sum_of_below(it)}" for it in sorted(crates_below(crate)))]
    return hashlib.sha256("\n".join(sums).encode()).hexdigest()[:16]


def sum_of(crate):
    """A sum of all that the verdicts on a crate's edits rest on."""
    return hashlib.sha256(f"{basis_of(crate)} {sum_of_parts(crate, (EDITS,))}".encode()).hexdigest()[:16]


def notes():
    """What is noted of each crate."""
    lines = NOTES.read_text(encoding="utf-8").splitlines() if NOTES.is_file() else []
    return {name: Note(made, int(count), int(unsettled), kit) for name, made, count, unsettled, kit in (it.split("\t") for it in lines)}


def write_notes(noted):
    """Writes what is noted of the crates, each on a line."""
    lines = (f"{name}\t{it.made}\t{it.count}\t{it.unsettled}\t{it.kit}\n" for name, it in sorted(noted.items()))
    NOTES.write_text("".join(lines), encoding="utf-8")


def crates_with_edits():
    return [name for name, below in lines_of_crates() if below is not None and edits_of(name)]


def untried_crates():
    """The crates whose bodies weren't tried over what is there now."""
    noted = notes()
    return [it for it in crates_with_edits() if it not in noted or noted[it].made != sum_of(it)]


def note_untried():
    """Notes of each crate whose bodies weren't tried over what is there now that it is so."""
    noted = notes()
    kept = {it: noted[it] for it in crates_with_edits() if it not in untried_crates()}
    write_notes({**{it: Note(UNTRIED, len(edits_of(it))) for it in untried_crates()}, **kept})


def faults():
    """Where the notes say something else than what is there."""
    noted, there = notes(), crates_with_edits()
    for name in sorted(noted.keys() - set(there)):
        yield f"{name} has no wrong bodies"
    for name in there:
        its = noted.get(name)
        if its is None:
            yield f"{name} isn't noted"
        elif its.count != len(edits_of(name)):
            yield f"{name} has {len(edits_of(name))} wrong bodies, and {its.count} are noted"
        elif its.made not in (UNTRIED, sum_of(name)):
            yield f"{name} is noted as tried over something else than what is there now"
