"""What a contract leads to: the types, traits and definitions of the repository that it cites, and those which these cite in turn, down
to those of the toolchain's libraries.

Of a type with a model it is the model that is followed, and no private field. Of a trait, what it states of its types is shown; each
of its functions is a call by itself.
"""
from __future__ import annotations

import re
from collections.abc import Collection
from dataclasses import dataclass
from functools import cache

from contracts import GHOST, PROOFS, Call, Crate, Item, Source, crate_named, is_crate
from definitions import Block, Imports, blocks_of, cited_in, imports_of
from sources import TOP, closing, module_of

# What stands in a module of a crate: of its specs/, or of its src/.
Key = tuple[str, str]
CODE = ".src"
# Modules of what the toolchain makes of a crate's types.
DECLARED, MADE = "declared.", "contracts."
PARTS = ("TheVariants", "TheViews", "TheConstants")

# A definition that is a type of cases, and a case of it.
OF_CASES = re.compile(r"(?:pub\s+)?data\s")
CASE = re.compile(r"^(?:pub\s+)?([^\s():]+)\s*:\s", re.M)
CAPITAL = re.compile(r"\b[A-Z]\w*")
FIRST_CLAUSE = re.compile(r"\b(?:requires|ensures)\b")
# A member of a type's parameter, and a member of a type by its trait.
OF_PARAMETER = re.compile(r"(?<![\w.])([A-Z]\w*)\.\w")
OF_TRAIT = re.compile(r"\bas (\w+)[^⟧]*⟧")


@dataclass(frozen=True)
class Cited:
    """What is cited: its name, where it stands, and its text as it stands there, with the comment above it."""

    name: str
    path: str
    line: int
    text: str
    cites: tuple[Key, ...] = ()


# Definitions


@dataclass(frozen=True)
class Definitions:
    """A file of specs/: its lines, its definitions by their names, each type of cases by those of its cases, and what it brings in."""

    path: str
    lines: list[str]
    blocks: dict[str, Block]
    cases: dict[str, Block]
    imports: Imports


@cache
def definitions_of(module: str) -> Definitions | None:
    """The file of a module, or None for a module of another kind."""
    crate, _, rest = module.partition(".specs.")
    file = TOP / "crates" / crate / "specs" / f"{rest.replace('.', '/')}.antt"
    if not rest or not file.is_file():
        return None
    text = file.read_text(encoding="utf-8")
    blocks = blocks_of(file)
    cases = {name: it for it in blocks if OF_CASES.match(it.text) for name in CASE.findall(it.text)}
    return Definitions(str(file.relative_to(TOP)), text.split("\n"), {it.name: it for it in blocks}, cases, imports_of(text))


def definition(module: str, name: str) -> Cited | None:
    """A definition of a file of specs/, also by one of its cases, with the comment above it."""
    its = definitions_of(module)
    block = its and (its.blocks.get(name) or its.cases.get(name))
    if not its or not block:
        return None
    first = block.line - 1
    while first and its.lines[first - 1].startswith("--"):
        first -= 1
    text = "\n".join(its.lines[first : block.last])
    cites = [it for it in cited_in(block.text, its.imports, its.blocks, module) if it != (module, block.name)]
    return Cited(block.name, its.path, block.line, text, tuple(cites))


# Types, traits and constants


def item_of(crate: Crate, name: str, file: str | None = None) -> Item | None:
    """The item of this name, in a file if one is named."""
    its = crate.items.get(name, [])
    return next((it for it in its if file in (None, it.file)), None)


def types_in(text: str, source: Source, crate: Crate) -> list[Key]:
    """The types and traits of the repository that a text of a file names."""
    found = []
    for name in CAPITAL.findall(text):
        root = source.roots.get(name, crate.name)
        home = root if is_crate(root) else crate.name if root in ("crate", "self", "super") else ""
        if home and (it := item_of(crate_named(home), name)) and it.kind not in ("const", "static"):
            found.append((home + CODE, name))
    return list(dict.fromkeys(found))


def traits_in(clauses: str, heads: str, source: Source, crate: Crate) -> list[Key]:
    """The traits of whose members clauses speak, by the bounds of parameters in these heads, and by name."""
    found = []
    for name in dict.fromkeys(OF_PARAMETER.findall(clauses)):
        for bounds in re.findall(rf"\b{name}\s*:\s*([^,>={{]+)", heads):
            found += types_in(bounds, source, crate)
    return list(dict.fromkeys([*found, *types_in(" ".join(OF_TRAIT.findall(clauses)), source, crate)]))


def ghosts_in(source: Source, start: int, end: int) -> str:
    """What the members of a trait, or of an `impl`, state, but for what proves it alone."""
    found = (it for it in GHOST.finditer(source.plain, start, end) if it["name"] not in PROOFS)
    return "\n".join(source.text[it.start() : closing(source.plain, source.plain.index("{", it.start()))].strip("\n") + ";" for it in found)


def dotted_trait(source: Source, it: Item) -> str:
    """A trait with what it states of its types; its functions are calls by themselves."""
    head = source.plain.index("{", it.start) + 1
    text = source.text[source.begin(it.start) : head]
    members = ghosts_in(source, head, it.end)
    dots = ["    .."] if "fn " in source.plain[head : it.end] else []
    return "\n".join([text, *([members] if members else []), *dots, "}"])


def code(name: str, file: str | None, crate: Crate) -> Cited | None:
    """A type, a trait or a constant of a crate: of a type also its model."""
    it = item_of(crate, name, file)
    if it is None:
        return None
    source = crate.sources[it.file]
    text, cites = source.text[source.begin(it.start) : it.end], []
    model = crate.models.get(name)
    if it.kind == "trait":
        text = dotted_trait(source, it)
        cites = cited_in(text, source.imports)
    elif model and it.kind in ("struct", "enum"):
        at = crate.sources[model.file]
        stated = ghosts_in(at, model.start, model.end)
        head = at.text[model.start : at.plain.index("{", model.start) + 1]
        text += f"\n\n{head}\n{stated}\n}}"
        cites = cited_in(stated, at.imports) + traits_in(stated, head, at, crate)
    else:
        cites = types_in(source.plain[it.start : it.end], source, crate)
    own = (crate.name + CODE, name)
    line = source.text.count("\n", 0, it.start) + 1
    return Cited(name, f"crates/{crate.name}/{it.file}", line, text, tuple(key for key in cites if key != own))


# What is led to


def is_ours(key: Key) -> bool:
    """Whether something of the repository is meant, and nothing that the toolchain makes of its types."""
    crate, dot, rest = key[0].partition(".")
    return bool(dot) and is_crate(crate) and not f"{rest}.".startswith(f"specs.{MADE}")


@cache
def cited(key: Key) -> Cited | None:
    """What is cited by this module and name, or None where it is no definition of the repository."""
    module, name = key
    crate, _, rest = module.partition(".")
    if not is_ours(key):
        return None
    if module.endswith(CODE):
        return code(name, None, crate_named(crate))
    inside = rest.removeprefix("specs.")
    if not inside.startswith(DECLARED):
        return definition(module, name)
    return declared(inside.removeprefix(DECLARED).split("."), name, crate_named(crate))


def declared(parts: list[str], name: str, crate: Crate) -> Cited | None:
    """A type or a constant of a file of code, by the names that lead to it: those of the file's module, and then of the type or of
    one of its parts."""
    modules = [it for it in parts if it[0].islower()]
    kind = next((it for it in parts if it[0].isupper() and it not in PARTS), name)
    file = next((it for it in crate.sources if module_of(it) == modules), None)
    return code(kind, file, crate)


def cites_of(call: Call) -> list[Key]:
    """What the head of a call cites: the types and traits that it names, and what its clauses cite."""
    source, crate = call.source, crate_named(call.crate)
    if call.function is None:
        head = source.plain[call.start : source.plain.index("{", call.start)]
        stated = ghosts_in(source, call.start, call.end)
        keys = [*types_in(head, source, crate), *traits_in(stated, head, source, crate), *cited_in(stated, source.imports)]
        return list(dict.fromkeys(keys))
    head = source.plain[call.start : call.end]
    first = FIRST_CLAUSE.search(head)
    shape, clauses = (head[: first.start()], head[first.start() :]) if first else (head, "")
    around = source.head_around(call.start)
    types = types_in(f"{call.function.owner} {shape}", source, crate)
    return list(dict.fromkeys([*types, *traits_in(clauses, f"{around} {shape}", source, crate), *cited_in(clauses, source.imports)]))


def levels_from(ahead: list[Key]) -> list[list[Cited]]:
    """What is cited so, and then what that cites in turn, each once: a list for each step away. What stands in one file stays together
    there, in the order of the file, since a comment may speak of what stands above it."""
    levels, seen = [], set()
    while ahead:
        found = {(it.path, it.line): it for it in map(cited, ahead) if it}
        level = [it for at, it in found.items() if at not in seen]
        seen |= found.keys()
        if level:
            paths = list(dict.fromkeys(it.path for it in level))
            levels.append(sorted(level, key=lambda it: (paths.index(it.path), it.line)))
        ahead = list(dict.fromkeys(key for it in level for key in it.cites))
    return levels


@cache
def led_by(call: Call) -> list[list[Cited]]:
    """What a call's contract cites, and then what that cites in turn."""
    return levels_from(cites_of(call))


def definitions_led_by(call: Call, names: Collection[str]) -> set[tuple[str, str]]:
    """The definitions to which the clauses of these names lead, or all that the call promises where none is named, by file and name."""
    clauses = [it.text for it in call.promised if not names or it.name in names]
    levels = levels_from([key for text in clauses for key in cited_in(text, call.source.imports)])
    return {(it.path, it.name) for level in levels for it in level if it.path.endswith(".antt")}


@cache
def is_lost(key: Key) -> bool:
    """Whether something of the repository is cited, and can't be found."""
    return is_ours(key) and cited(key) is None


def lost_by(call: Call) -> list[str]:
    """What a call's contract leads to that should be a definition of the repository, and can't be found."""
    keys = [*cites_of(call), *(key for level in led_by(call) for it in level for key in it.cites)]
    return [".".join(key) for key in dict.fromkeys(keys) if is_lost(key)]
