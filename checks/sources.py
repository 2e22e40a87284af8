"""What stands where in the repository's sources: the crates, the functions of a Rattle file, and the edits of wrong bodies.

Nothing of it proves or runs anything. `checks/wrong-bodies` tries the edits, checks/tried.py keeps which were tried, and `tools/theorems` lists what they are refused by.
"""
from __future__ import annotations

import os
import re
from dataclasses import dataclass, replace
from pathlib import Path

TOP = Path(__file__).resolve().parent.parent
SOURCES = ("src", "specs", "proofs")
# The folder of a crate with its wrong bodies.
EDITS = "wrong-bodies"

# What isn't code. A quote after a name is a prime of a clause's, and one before it a lifetime's.
NOT_CODE = re.compile(r"""//[^\n]*|/\*.*?\*/|"(?:\\.|[^"\\])*"|(?<!\w)'(?:\\.[^']*|[^'\\\n])'""", re.S)
# A string or a comment of a file of definitions or proofs.
NOTE = re.compile(r'"(?:\\.|[^"\\\n])*"|(?<!\S)--(?!\S)[^\n]*')
CLAUSE = re.compile(r"\b(?:requires|ensures|decreases)\b[^{}]*$")
OWNER = re.compile(r"(?P<kind>impl|trait|mod|struct|enum)\b(?P<head>[^{;]*)$", re.S)
FUNCTION = re.compile(r"\bfn\s+(\w+)")
# The last name of each path in the text of a trait.
HEADS = re.compile(r"\w+(?!\w|::)")
CYCLE = re.compile(r"#\[cycle\((\w+)\)\]")


class BadEdit(Exception):
    pass


@dataclass(frozen=True)
class Function:
    """A function of a source file: its name, the type of its `impl`, or the trait that declares it (or none), its text by parts,
    without comments, and the lines of the file at which that begins and ends. One that a trait declares without a body has an
    empty one. `trait` is the trait of an `impl` of one, in one word."""

    file: str
    owner: str
    is_of_trait: bool
    is_in_trait: bool
    name: str
    head: str
    body: str
    start: int
    end: int
    first_line: int = 0
    last_line: int = 0
    trait: str = ""

    @property
    def key(self):
        return self.file, self.owner, self.is_of_trait, self.name

    def path_in(self, files):
        """Its path below the crate. A method stands in the module of the file that declares its type, and `files` has that of each; one
        of a trait's `impl` below the names of type and trait in one."""
        owner = [f"{self.owner}{self.trait}"] if self.owner else []
        return "::".join([*module_of(files.get(self.owner, self.file)), *owner, self.name])

    def folder_in(self, files):
        """The folder of its own proof, that of all where functions call each other in a cycle."""
        path = self.path_in(files).split("::")
        cycle = CYCLE.search(self.head)
        return "/".join(["proofs", *path[:-1], f"+{cycle[1]}" if cycle else path[-1]])

    def is_meant_by(self, path, files):
        """Whether this path of a check's line is the function's. A method stands in the module of the file that declares its type,
        and `files` has that of each type; a trait's `impl` has both names in one."""
        words = path.split("::")[1:]
        for file in {self.file, files.get(self.owner, self.file)}:
            inside = module_of(file)
            between = words[len(inside) : -1]
            if words[: len(inside)] != inside or words[-1] != self.name:
                continue
            if (self.is_in_trait or not self.is_of_trait) and between == ([self.owner] if self.owner else []):
                return True
            if self.is_of_trait and len(between) == 1 and between[0].startswith(self.owner) and between[0] != self.owner:
                return True
        return False


def module_of(file):
    """The names of the modules that lead to a file of src/."""
    inside = file.removeprefix("src/").removesuffix(".rt").removesuffix("/mod").split("/")
    return [] if inside in (["lib"], ["main"]) else inside


def types_in(sources):
    """The file that declares each type of a crate."""
    found = {}
    for file, text in sources.items():
        if file.startswith("src/"):
            found.update(dict.fromkeys(re.findall(r"^\s*(?:pub(?:\(\w+\))? )?(?:struct|enum|trait)\s+(\w+)", text, re.M), file))
    return found


def located(function, text):
    """The function, with the lines at which it begins and ends in its file's text."""
    first, last = (text.count("\n", 0, at) + 1 for at in (function.start, function.end))
    return replace(function, first_line=first, last_line=last)


def blank(text):
    return re.sub(r"[^\n]", " ", text)


def without_comments(text):
    """The text with blanks for what isn't code, at the same places."""
    return NOT_CODE.sub(lambda it: blank(it[0]), text)


def with_strings(text):
    """The text with blanks for its comments alone, at the same places."""
    return NOT_CODE.sub(lambda it: blank(it[0]) if it[0].startswith("/") else it[0], text)


def code_of(name, text):
    """The lines of a source without comments, and without those that have nothing else."""
    if name.endswith(".rt"):
        text = with_strings(text)
    elif name.endswith(".antt"):
        text = NOTE.sub(lambda it: it[0] if it[0].startswith('"') else "", text)
    return "\n".join(line.rstrip() for line in text.split("\n") if line.strip())


def closing(text, at):
    """The place behind the brace that closes the one at this place."""
    depth = 0
    for found in re.finditer(r"[{}]", text[at:]):
        depth += 1 if found[0] == "{" else -1
        if not depth:
            return at + found.end()
    return len(text)


def head_end(text, at):
    """The place of the brace or semicolon that ends the head of an item: a semicolon in brackets, as of an array's type, doesn't."""
    depth = 0
    for found in re.compile(r"[][(){;]").finditer(text, at):
        if found[0] in "{;" and not depth:
            return found.start()
        depth += (found[0] in "[(") - (found[0] in "])")
    return len(text)


def functions_in(file, text, owner="", is_of_trait=False, is_in_trait=False, trait="", base=0):
    """The functions of a file's text without comments, and what is left of it beside them. `base` is where the text begins."""
    found, rest, at = [], [], 0
    while (start := head_end(text, at)) < len(text):
        head, is_brace = text[at:start], text[start] == "{"
        end = closing(text, start) if is_brace else start + 1
        named = FUNCTION.search(head)
        held = OWNER.search(head)
        if named and is_brace:
            while CLAUSE.search(text[at:start]) and (more := head_end(text, end)) < len(text):
                start, end = more, closing(text, more) if text[more] == "{" else more + 1
            begun = at + len(text[at:start]) - len(text[at:start].lstrip())
            body = text[start:end] if text[start] == "{" else ""
            places = base + begun, base + end
            found.append(Function(file, owner, is_of_trait, is_in_trait, named[1], text[at:start].strip(), body, *places, trait=trait))
        elif is_brace and held and held["kind"] in ("impl", "trait", "mod"):
            inner, left = functions_in(file, text[start + 1 : end - 1], *owner_of(held), base=base + start + 1)
            found += inner
            rest += [head, *left]
        else:
            rest.append(text[at:end])
        at = end
    return found, [*rest, text[at:]]


def owner_of(held):
    """The type that an `impl` is for, or the trait, whether the functions there are a trait's, and stand in the trait itself, and the
    trait of an `impl` in one word, with the types that it is given, but without theirs."""
    head = held["head"].strip()
    while head.startswith("<"):
        head = head[1:].partition(">")[2].strip()
    of_trait, _, of_type = head.rpartition(" for ")
    trait = "".join(HEADS.findall(re.sub(r"<(\w[\w:]*)<[^<>]*>>", r"<\1>", of_trait)))
    return re.match(r"\W*(\w*)", of_type)[1], bool(of_trait) or held["kind"] == "trait", held["kind"] == "trait", trait


def texts_of(crate):
    """The texts of a crate's sources, by their paths in it."""
    folder = TOP / "crates" / crate
    files = sorted(it for part in SOURCES for it in (folder / part).rglob("*") if it.is_file())
    return {str(it.relative_to(folder)): it.read_text(encoding="utf-8") for it in files}


def edits_of(crate):
    """The files of a crate's edits."""
    return sorted((TOP / "crates" / crate / EDITS).glob("*.edit"))


def pairs_of(file):
    """What an edit changes: the path of a source, the old text, and the new one."""
    path, old, pairs = None, None, []
    for line in file.read_text(encoding="utf-8").split("\n"):
        word, _, text = line.partition(": ")
        if word == "file":
            path = text.strip()
            if os.path.normpath(path) != path or not path.startswith(tuple(f"{it}/" for it in SOURCES)):
                raise BadEdit("a 'file:' line names no file below src/, specs/ or proofs/")
        elif word == "old":
            old = text
        elif line.startswith("new:"):
            if not path or not old:
                raise BadEdit("a 'new:' line stands before any 'file:' or 'old:' line")
            pairs.append((path, old, line.removeprefix("new:").removeprefix(" ")))
            old = None
    if not pairs:
        raise BadEdit("it has no 'old:' and 'new:' pair")
    return pairs


def settled_of(file):
    """Why an edit is known to be wrong, as a line of it says that begins with `settled: `, or none."""
    lines = file.read_text(encoding="utf-8").split("\n")
    return next((it.removeprefix("settled: ").strip() for it in lines if it.startswith("settled: ")), "")


def applied(sources, pairs):
    """The texts that these pairs change, by file."""
    changed = {}
    for file, old, new in pairs:
        text = changed.get(file, sources.get(file))
        if text is None:
            raise BadEdit(f"there is no file {file}")
        if text.count(old) != 1:
            raise BadEdit(f"an old text is in {file} {text.count(old)} times, and not once")
        changed[file] = text.replace(old, new)
    return changed


def functions_changed(sources, pairs):
    """The functions that the pairs change, as they are then, and whether it is the body of one alone; none where they change
    anything else, such as a definition, a constant or a type."""
    found, are_bodies = [], True
    slices = lambda text, functions: [with_strings(text)[it.start : it.end] for it in functions]
    for file, text in applied(sources, pairs).items():
        if not file.endswith(".rt"):
            return [], False
        before, rest = functions_in(file, without_comments(sources[file]))
        after, rest_after = functions_in(file, without_comments(text))
        if without_uses(rest) != without_uses(rest_after) or [it.key for it in before] != [it.key for it in after]:
            return [], False
        are_bodies = are_bodies and [it.split() for it in rest] == [it.split() for it in rest_after]
        are_bodies = are_bodies and all(a.head.split() == b.head.split() for a, b in zip(before, after))
        both = zip(slices(sources[file], before), slices(text, after), after)
        changed = [its for old, new, its in both if old != new]
        are_bodies = are_bodies and all([it.key for it in before].count(its.key) == 1 for its in changed)
        found += [located(it, text) for it in changed]
    return found, are_bodies and len(found) == 1


def without_uses(rest):
    """The words of what stands beside the functions, but for what is imported."""
    return re.sub(r"\b(?:ghost )?(?:pub )?use [^;]*;", "", " ".join(rest)).split()


def lines_of_crates():
    """The lines of crates.txt: a heading, or a crate and what it names."""
    for line in (TOP / "crates.txt").read_text(encoding="utf-8").splitlines():
        if line.startswith("# -- "):
            yield line.removeprefix("# -- "), None
        else:
            name, colon, rest = line.partition("#")[0].partition(":")
            if colon:
                yield name.split()[0], rest.split()
