"""The names and clauses of pages that link to sources, which `checks/docs` compares with these.

Each rule has lines that it has to report, and lines that it must not: `misread` says which of them are taken otherwise.
"""
from __future__ import annotations

import re
from collections.abc import Iterable, Iterator, Mapping
from pathlib import Path

from cited import definitions_led_by
from contracts import Call, calls_in, names_in
from pages import TOP, Page

# Names in code that link to a file of the sources, and one before such a link.
NAMES = (
    re.compile(r"\[(?P<names>`[^`\]]+`(?:, `[^`\]]+`)*)\]\((?P<file>[^)#\s]+\.(?:rt|antt|py))\)"),
    re.compile(r"(?P<names>`[\w:]+`) \(?(?:in|of) \[[^\]`]+\]\((?P<file>[^)#\s]+\.(?:rt|antt|py))\)"),
)
# A name that links to a file of definitions.
DEFINED = re.compile(r"\[`(?P<name>[^`]+)`\]\((?P<file>[^)]+\.antt)\)")
# A call with clauses of it, such as `serve`: `crash`, `shut`; and the columns that have them.
CARRIED = re.compile(r"`(?P<call>\w[\w:]*)`(?::(?P<clauses>(?: `\w+`,?)+))?")
CARRIES = ("Clause", "Function")

# Lines of a page in docs/ with names: those of the first list aren't defined in the file.
STALE = (
    "[`Row::new`](../crates/pb_base/src/names.rt)",
    "[`Cell`, `Column`](../crates/pb_base/src/cell.rt)",
    "`column` of [names.rt](../crates/pb_base/src/names.rt)",
    "[`is_batch`](../crates/pb_base/specs/Cell.antt)",
    "`cell_cmp` in [Batch](../crates/pb_base/specs/Batch.antt)",
    "`Writes` (in [Cell](../crates/pb_base/specs/Cell.antt))",
    "[`step`](../crates/pb_base/proofs/SameBatches.antt)",
    "[`names_in`](../checks/pages.py)",
)
SOUND = (
    "[`Column::new`](../crates/pb_base/src/names.rt)",
    "[`new`](../crates/pb_base/src/names.rt)",
    "[`MAX_CELLS`](../crates/pb_base/src/limits.rt)",
    "[`Row`, `Column`](../crates/pb_base/src/names.rt)",
    "`column` of [cell.rt](../crates/pb_base/src/cell.rt)",
    "[its cells](../crates/pb_base/src/cell.rt)",
    "[`pb_base`](../crates/pb_base/src/lib.rt)",
    "[`is_batch`](../crates/pb_base/specs/Batch.antt)",
    "`Writes` (in [Batch](../crates/pb_base/specs/Batch.antt))",
    "[`Batch`](../crates/pb_base/specs/Batch.antt)",
    "[`names_in`](../checks/contracts.py)",
    "[`CLAUSE`](../checks/contracts.py)",
)
# Cells of clauses, each with what stands beside it, in a part that links to this call: what those of the first list say isn't so.
ITS_CALL = "[`Log::put`](../crates/pb_log/src/log.rt)"
UNHELD = (
    "`Log::put`: `closed` | ..",
    "`Log::put`: `shut`, `closed` | ..",
    "`Log::put`: `short` | ..",
    "`Log::copy_into`: `copied` | ..",
    "`Log::put`: `shut` | [`Hides`](../crates/pb_log/specs/Records.antt)",
    "`Log::put`: `usable` | [`IsLog`](../crates/pb_log/specs/Records.antt)",
)
HELD = (
    "`Log::put`: `shut` | [`IsShutBeforeOrAfter`](../crates/pb_log/specs/Records.antt)",
    "`Log::put`: `usable`, `crash` | [`IsLog`](../crates/pb_log/specs/Records.antt)",
    "`Log::put` | [`IsLog`](../crates/pb_log/specs/Records.antt)",
    "`Log::put`, which returns | [`Log`](../crates/pb_log/src/log.rt)",
)

Numbered = tuple[int, str]


# Names


def names_linked(line: str, folder: Path) -> Iterator[tuple[str, Path]]:
    """The names in code of a line that link to a file of the sources, or stand before such a link, each with the file."""
    for link in (it for form in NAMES for it in form.finditer(line)):
        file = (folder / link["file"]).resolve()
        yield from ((name, file) for name in re.findall(r"`([^`]+)`", link["names"]) if file.is_file())


def undefined_in(line: str, folder: Path) -> Iterator[str]:
    """What is wrong with the names of a line."""
    for name, file in names_linked(line, folder):
        if name not in names_in(file):
            yield f"{file.relative_to(TOP)} defines no {name}"


# Clauses


def parts_of(page: Page) -> list[list[Numbered]]:
    """The lines of a page outside its blocks, with their numbers, from each heading to the next."""
    found: list[list[Numbered]] = [[]]
    for number, line in page.prose:
        if line.startswith("#"):
            found.append([])
        found[-1].append((number, line))
    return found


def rows_of(lines: Iterable[Numbered]) -> Iterator[tuple[int, str, str]]:
    """The rows with clauses in the tables among these lines, each with its number and the cell that has them."""
    column = None
    for number, line in lines:
        cells = line.strip("| ").split(" | ") if line.startswith("|") else []
        if column is None or not cells:
            column = next((at for at, cell in enumerate(cells) if cell in CARRIES), None)
        elif len(cells) > column:
            yield number, line, cells[column]


def calls_linked(lines: Iterable[str], folder: Path) -> dict[str, Call]:
    """The calls to whose files these lines link, by their names."""
    linked = dict.fromkeys(it for line in lines for it in names_linked(line, folder) if it[1].suffix == ".rt")
    return {name: call for name, file in linked for call in calls_in(file) if call.name == name}


def faults_of_row(cell: str, line: str, calls: Mapping[str, Call], folder: Path) -> Iterator[str]:
    """What is wrong with a row: with the clauses in this cell, of these calls, and with the definitions to which it links."""
    led: set[tuple[str, str]] = set()
    for it in CARRIED.finditer(cell):
        call, named = calls.get(it["call"]), re.findall(r"\w+", it["clauses"] or "")
        lacking = [name for name in named if call and name not in {clause.name for clause in call.promised}]
        if call and not lacking:
            led |= definitions_led_by(call, named)
        else:
            yield f"{it['call']} has no clause {', '.join(lacking)}" if call else f"this part doesn't link to {it['call']}"
    for it in DEFINED.finditer(line):
        if (str((folder / it["file"]).resolve().relative_to(TOP)), it["name"]) not in led:
            yield f"none of these clauses leads to {it['name']}"


# The rules


def misread() -> Iterator[str]:
    """The lines of the lists above that are taken otherwise than they should."""
    folder = TOP / "docs"
    for line in (*STALE, *SOUND):
        if any(undefined_in(line, folder)) == (line in SOUND):
            yield f"'{line}' is {'reported' if line in SOUND else 'passed over'}"
    for row in (*UNHELD, *HELD):
        if any(faults_of_row(row.partition(" | ")[0], row, calls_linked([ITS_CALL], folder), folder)) == (row in HELD):
            yield f"'{row}' is {'reported' if row in HELD else 'passed over'}"
