"""The calls of the crates that have a contract, and the wrong bodies of each.

A call is a function, or an `impl` of a trait that states something of its type. It is public where a crate above can make it; of a
program, which none can call, each function counts that has a contract. `tools/theorems` prints them, and `checks/reads` reads
whether each is commented, and each wrong body one of a call.
"""
from __future__ import annotations

import heapq
import re
from collections.abc import Iterator
from dataclasses import dataclass
from functools import cache, cached_property
from pathlib import Path

from definitions import Imports, blocks_of, cited_in, crate_of, imports_of
from expectations import Has, expected
from sources import TOP, Function, closing, edits_of, functions_in, head_end, lines_of_crates, module_of, pairs_of, without_comments

# Crates under these headings of crates.txt promise nothing.
NO_LIBRARIES = ("examples", "tests", "tools")
# How far away a call is that most likely is none.
FAR = 4
# Traits of which an `impl` states nothing that a caller sees, and members of an `impl` that state nothing themselves.
SILENT = ("Model", "Error")
PROOFS = ("laws", "total", "matches_eq", "matches_partial_cmp", "coded", "inverse")

CLAUSE = re.compile(r"\b(?P<kind>requires|ensures)\b\s*(?P<name>\w*)\s*\{")
GHOST = re.compile(r"^\s*ghost (?P<name>\w+)\s*[=:]\s*\{", re.M)
IMPL = re.compile(r"^impl(?P<generic><[^{]*?>)?\s+(?P<trait>[\w:]+(?:<.*?>)?) for (?P<type>[^{]*?)\s*\{", re.M)
BLOCK = re.compile(r"^(?:impl|(?:pub )?trait)\b[^{;]*\{", re.M)
ITEM = re.compile(r"^(?:pub(?:\([^)]*\))? )?(?P<kind>struct|enum|trait|type|const|static) (?P<name>[A-Za-z]\w*)", re.M)
COMMENTS = ("//", "#[")
# The files of a crate that are its root.
ROOTS = ("lib.rt", "main.rt")
# What marks a definition that other files may cite, and what a file of Python defines at its margin.
MARKED = re.compile(r"(?:abbrev|unfoldable|pub|data|record|ruleset)\s")
OF_PYTHON = re.compile(r"^(?:(?:def|class) |(?=\w+(?:: [^=\n]+)? = ))(\w+)", re.M)


@dataclass(frozen=True)
class Clause:
    kind: str
    name: str
    text: str


@dataclass(frozen=True)
class Item:
    """A type, a trait or a constant of a crate, or an `impl`: where it stands in its file."""

    file: str
    kind: str
    start: int
    end: int


@dataclass(eq=False)
class Call:
    """A call with its clauses: its name, where it stands in its file, whether it is public, and its function, unless it is an `impl`."""

    crate: str
    name: str
    file: str
    start: int
    end: int
    clauses: list[Clause]
    is_public: bool = True
    function: Function | None = None

    @property
    def source(self) -> Source:
        return crate_named(self.crate).sources[self.file]

    @property
    def path(self) -> str:
        return f"crates/{self.crate}/{self.file}"

    @property
    def line(self) -> int:
        """The line with its name."""
        text = self.source.plain
        named = re.compile(r"\bfn\b|\bimpl\b").search(text, self.start)
        return text.count("\n", 0, named.start() if named else self.start) + 1

    @property
    def comment(self) -> str:
        """The comment above it, in one line."""
        return self.source.comment_above(self.start)

    @property
    def promised(self) -> list[Clause]:
        """Its clauses but for what it asks of its caller."""
        return [it for it in self.clauses if it.kind != "requires"]


@dataclass(frozen=True)
class Body:
    """A wrong body: its name, whether the gate tries it, the place of the function that it changes, and the public call of that, if
    there are such."""

    name: str
    is_in_gate: bool
    place: int | None
    call: Call | None


class Source:
    """A file of src/: its text, the same without comments, and what its `use` lines bring in."""

    def __init__(self, file: str, text: str):
        self.file, self.text = file, text

    @cached_property
    def plain(self) -> str:
        return without_comments(self.text)

    @cached_property
    def imports(self) -> Imports:
        """What it takes of definitions."""
        return imports_of(self.text)

    @cached_property
    def roots(self) -> dict[str, str]:
        """The crate of each name that it takes of code; `crate` is its own."""
        return {name: root for root, names in re.findall(r"\buse (\w+)::([^;]*);", self.plain) for name in re.findall(r"\w+", names)}

    @cached_property
    def blocks(self) -> list[tuple[int, int]]:
        """Where each `impl` and each trait begins and ends."""
        return [(it.start(), closing(self.plain, it.end() - 1)) for it in BLOCK.finditer(self.plain)]

    def begin(self, at: int) -> int:
        """Where the comments and attributes begin that stand above a place, or the line of the place."""
        begin = self.text.rfind("\n", 0, at) + 1
        while begin and self.text[self.text.rfind("\n", 0, begin - 1) + 1 : begin].lstrip().startswith(COMMENTS):
            begin = self.text.rfind("\n", 0, begin - 1) + 1
        return begin

    def comment_above(self, at: int) -> str:
        """The comment above a place, in one line."""
        lines = (line.strip() for line in self.text[self.begin(at) : at].split("\n"))
        return " ".join(line.lstrip("/").strip() for line in lines if line.startswith("//"))

    def head_around(self, at: int) -> str:
        """The head of the `impl` or trait in which a place is, or none."""
        start = next((start for start, end in self.blocks if start < at < end), None)
        return "" if start is None else self.text[start : self.plain.index("{", start)].strip()


def named_crates() -> list[str]:
    """All crates, in the order of crates.txt."""
    return [name for name, below in lines_of_crates() if below is not None]


def libraries() -> list[str]:
    """The crates that promise something, in the order of crates.txt."""
    found, is_library = [], True
    for name, below in lines_of_crates():
        if below is None:
            is_library = name.partition(":")[0] not in NO_LIBRARIES
        elif is_library:
            found.append(name)
    return found


@cache
def is_crate(name: str) -> bool:
    """Whether a crate of the repository has this name."""
    return (TOP / "crates" / name).is_dir()


@cache
def crate_named(name: str) -> Crate:
    return Crate(name)


@cache
def text_of(crate: str, file: str) -> str:
    """The text of a file of a crate, or none where it isn't there."""
    path = TOP / "crates" / crate / file
    return path.read_text(encoding="utf-8") if path.is_file() else ""


class Crate:
    """A crate: its code, its items, and its calls."""

    def __init__(self, name: str):
        self.name = name
        folder = TOP / "crates" / name
        files = sorted(str(it.relative_to(folder)) for it in (folder / "src").rglob("*.rt"))
        self.sources = {file: Source(file, text_of(name, file)) for file in files}
        self.is_program = "src/lib.rt" not in self.sources

    @property
    def root(self) -> str:
        return "src/main.rt" if self.is_program else "src/lib.rt"

    @property
    def comment(self) -> str:
        """The comment at the head of its root, in one line."""
        found = re.findall(r"^//!(.*)", self.sources[self.root].text, re.M)
        return " ".join(it.strip() for it in found if it.strip())

    @cached_property
    def items(self) -> dict[str, list[Item]]:
        """Its types, traits and constants, by their names."""
        found: dict[str, list[Item]] = {}
        for source in self.sources.values():
            for it in ITEM.finditer(source.plain):
                start = head_end(source.plain, it.start())
                end = closing(source.plain, start) if source.plain[start : start + 1] == "{" else start + 1
                found.setdefault(it["name"], []).append(Item(source.file, it["kind"], it.start(), end))
        return found

    @cached_property
    def models(self) -> dict[str, Item]:
        """What states the values of its types, by their names."""
        found = {}
        for source in self.sources.values():
            for it in IMPL.finditer(source.plain):
                if it["trait"] == "Model":
                    kind = re.match(r"\w+", it["type"])
                    found[kind[0] if kind else ""] = Item(source.file, "impl", it.start(), closing(source.plain, it.end() - 1))
        return found

    @cached_property
    def exported(self) -> set[str]:
        """The names that its root exports of its own, and the functions that other languages call."""
        root = self.sources["src/lib.rt"].text
        own = set(re.findall(r"^(?:pub )?mod (\w+);", root, re.M))
        found = set(re.findall(r'^pub extern "C" fn (\w+)', "\n".join(it.text for it in self.sources.values()), re.M))
        for path, names in re.findall(r"^pub use ([\w:]+)(?:::\{([^}]*)\})?;", root, re.M):
            if path.partition("::")[0] in own:
                found.update((it.strip() for it in names.split(",")) if names else [path.rpartition("::")[2]])
        return found

    @cached_property
    def open_files(self) -> set[str]:
        """The files of its root and of its public modules, all of whose public names are its own."""
        if self.is_program:
            return set()
        opened = re.findall(r"^pub mod (\w+);", self.sources["src/lib.rt"].text, re.M)
        return {file for file in self.sources if module_of(file)[:1] in ([], *([it] for it in opened))}

    # Calls

    @cached_property
    def functions(self) -> list[tuple[Function, Call | None]]:
        """Each function, and the call that it is or is of."""
        found: list[tuple[Function, Call | None]] = []
        for source in self.sources.values():
            stated = list(self.impls_in(source))
            for it in functions_in(source.file, source.plain)[0]:
                within = next((call for call in stated if call.start <= it.start < call.end), None)
                found.append((it, within or self.call_of(it, source)))
        return found

    @cached_property
    def calls(self) -> list[Call]:
        """Its calls, the public ones first, each in the order of the files."""
        found = list({id(call): call for _, call in self.functions if call}.values())
        return sorted(found, key=lambda it: not it.is_public)

    def impls_in(self, source: Source) -> Iterator[Call]:
        """The `impl`s of a file that state something."""
        for found in IMPL.finditer(source.plain):
            trait = re.match(r"(?:\w+::)*(\w+)", found["trait"])[1]
            kind = re.match(r"(?:\w+::)*(\w+)", found["type"])[1]
            if trait in SILENT:
                continue
            end, members = closing(source.plain, found.end() - 1), []
            for ghost in GHOST.finditer(source.plain, found.end(), end):
                text = source.text[ghost.end() : closing(source.plain, source.plain.index("{", ghost.start())) - 1]
                if ghost["name"] not in PROOFS and any(is_crate(it.partition(".")[0]) for it, _ in cited_in(text, source.imports)):
                    members.append(Clause("states", ghost["name"], text.strip()))
            named = found["trait"] if "<" in found["trait"] else trait
            of = found["type"].partition("<")[0] if found["generic"] else found["type"]
            is_public = self.is_program or bool({trait, kind} & self.exported)
            yield Call(self.name, f"{named} for {of}", source.file, found.start(), end, members, is_public)

    def call_of(self, it: Function, source: Source) -> Call | None:
        """The call that a function is, if it is public or has a contract."""
        if it.is_of_trait and not it.is_in_trait:
            return None
        end = it.end - len(it.body)
        clauses = [
            Clause(found["kind"], found["name"], source.text[found.end() : closing(source.plain, found.end() - 1) - 1].strip())
            for found in CLAUSE.finditer(source.plain, it.start, end)
        ]
        is_public = it.is_in_trait or re.search(r"(?:^|\s)pub (?:const |extern\s+)?fn\b", it.head) is not None
        if self.is_program:
            is_public = True
        elif (it.owner or it.name) not in self.exported and it.file not in self.open_files:
            is_public = False
        if not clauses and not is_public:
            return None
        name = f"{it.owner}::{it.name}" if it.owner else it.name
        return Call(self.name, name, it.file, it.start, end, clauses, is_public, it)

    # Wrong bodies

    @cached_property
    def callers(self) -> list[dict[int, int]]:
        """By the place of each function in the list, the places of those that call it, each with how far away that is: a method
        that is called where its type isn't even named is most likely another type's. One of a trait is called where its type is
        handed on, too."""
        found: list[dict[int, int]] = [{} for _ in self.functions]
        calls = [re.compile(pattern_of_call(it)) for it, _ in self.functions]
        for place, (caller, _) in enumerate(self.functions):
            text = re.sub(r"\bSelf::", f"{caller.owner}::", caller.body) if caller.owner else caller.body
            words, own = set(re.findall(r"\w+", self.sources[caller.file].text)), set(re.findall(r"\w+", text))
            for called, call in enumerate(calls):
                it = self.functions[called][0]
                if called != place and it.name in own and call.search(text):
                    found[called][place] = 1 if not it.owner or it.owner in words else FAR
                elif called != place and it.is_of_trait and it.owner in own:
                    found[called][place] = FAR
        return found

    def nearest(self, place: int) -> Call | None:
        """The public call of the function at this place, or of the nearest that calls it."""
        ahead, seen = [(0, place)], set()
        while ahead:
            distance, at = heapq.heappop(ahead)
            call = self.functions[at][1]
            if call and call.is_public:
                return call
            if at not in seen:
                seen.add(at)
                for caller, more in self.callers[at].items():
                    heapq.heappush(ahead, (distance + more, caller))
        return None

    def places_of(self, edit: Path) -> list[tuple[str, int]]:
        """Where an edit changes something: the file, and the place there, of each in the end and then of each pair. A pair may stand
        there for another alone. There are none where an old text isn't there."""
        changed, places = {}, []
        for file, old, new in pairs_of(edit):
            text = text_of(self.name, file)
            if old not in changed.get(file, text):
                return []
            places.append((file, text.find(old) + first_difference(old, new)))
            changed[file] = changed.get(file, text).replace(old, new)
        return [(file, first_difference(text_of(self.name, file), text)) for file, text in changed.items()] + places

    def function_at(self, places: list[tuple[str, int]]) -> int | None:
        """The place in the list of the first function in which something is changed."""
        for file, start in places:
            for at, (it, _) in enumerate(self.functions):
                if it.file == file and it.start <= start < it.end:
                    return at
        return None

    def call_of_constant(self, places: list[tuple[str, int]]) -> Call | None:
        """The public call of a constant in which something is changed: that which states its value, or of what makes use of it."""
        constants = [(name, it) for name, its in self.items.items() for it in its if it.kind in ("const", "static")]
        for name in (name for file, at in places for name, it in constants if it.file == file and it.start <= at < it.end):
            says = re.compile(rf"\b{name} ≡")
            stated = (it for it in self.calls if it.is_public and any(says.search(clause.text) for clause in it.clauses))
            if call := next(stated, None):
                return call
            uses = (at for at, (it, _) in enumerate(self.functions) if re.search(rf"\b{name}\b", it.body))
            return next(filter(None, map(self.nearest, uses)), None)
        return None

    @cached_property
    def bodies(self) -> list[Body]:
        """Its wrong bodies, those first that the gate tries, without those whose old texts aren't there."""
        found, tried = [], expected().get(self.name, Has()).edits
        for edit in edits_of(self.name):
            if places := self.places_of(edit):
                at = self.function_at(places)
                call = self.call_of_constant(places) if at is None else self.nearest(at)
                found.append(Body(edit.stem, edit.stem in tried, at, call))
        return sorted(found, key=lambda it: not it.is_in_gate)

    def bodies_of(self, call: Call) -> list[Body]:
        """Those of a call: of a public one also those of what no other call is nearer to."""
        return [it for it in self.bodies if it.call is call or (it.place is not None and self.functions[it.place][1] is call)]


def calls_in(file: Path) -> list[Call]:
    """The calls that stand in a file of a crate."""
    return [it for it in crate_named(crate_of(file)).calls if TOP / it.path == file]


def first_difference(old: str, new: str) -> int:
    """The first place at which two texts differ."""
    low, high = 0, min(len(old), len(new))
    while low < high:
        middle = (low + high + 1) // 2
        low, high = (middle, high) if old[:middle] == new[:middle] else (low, middle - 1)
    return low


def pattern_of_call(it: Function) -> str:
    """What a call of this function looks like."""
    if not it.owner:
        return rf"(?<![\w.:]){it.name}(?:::<[^>]*>)?\(|\b[a-z_]+::{it.name}\("
    if re.search(r"\(\s*(?:mut )?&?(?:mut )?(?:'\w+ )?(?:mut )?self\b", it.head):
        return rf"\.{it.name}\(|\b{it.owner}::{it.name}\b"
    return rf"\b{it.owner}::{it.name}\b"


@cache
def defined_in(file: Path) -> set[str]:
    """The names that a file of the sources defines: its definitions that other files may cite; its functions, of a type also with its
    name, and its types, traits and constants; or what stands at the margin of a file of Python."""
    text = file.read_text(encoding="utf-8")
    if file.suffix == ".antt":
        return {it.name for it in blocks_of(file) if MARKED.match(it.text)}
    if file.suffix == ".py":
        return set(re.findall(OF_PYTHON, text))
    plain = without_comments(text)
    functions = functions_in(file.name, plain)[0]
    items = {it["name"] for it in ITEM.finditer(plain)}
    return items | {it.name for it in functions} | {f"{it.owner}::{it.name}" for it in functions if it.owner}


def names_in(file: Path) -> set[str]:
    """These names, and what a file is named after: one of definitions the step that it is about, and the root of a crate the crate."""
    own = {file.stem} if file.suffix == ".antt" else {crate_of(file)} if file.name in ROOTS else set()
    return defined_in(file) | own
