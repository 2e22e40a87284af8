"""What each code means, in words, as the documents have it: read from their tables, so that it stands in one place."""
from __future__ import annotations

import functools
import re
from dataclasses import dataclass
from pathlib import Path

DOCS = Path(__file__).resolve().parent.parent.parent / "docs"

# The documents with tables whose first column is `Code`, and how the columns are headed that are wanted of them.
DOCUMENTS = ("CODES.md", "MACHINE.md", "OBSERVERS.md")
MEANING = ("meaning", "what breaks it")
REMEDY = ("what to do",)
CAUSE_IN_C = ("what does it in c",)
REMEDY_IN_C = ("what to write instead",)


@dataclass(frozen=True)
class Rule:
    """What a code means and what to do about it, and the same of C. What no document has is None."""

    meaning: str | None
    remedy: str | None
    cause_in_c: str | None
    remedy_in_c: str | None


def cells_of(line: str) -> list[str] | None:
    """The cells of a line of a table, links by their names alone, or None of any other line."""
    if not line.startswith("|"):
        return None
    named = re.sub(r"\[([^\]]*)\]\([^)]*\)", r"\1", line.strip().removesuffix("|"))
    return [cell.strip().replace("\\|", "|") for cell in re.split(r"(?<!\\)\|", named)[1:]]


def rows_of(text: str) -> list[dict[str, str]]:
    """The rows of the tables of a page whose first column is `Code`: their cells by the heads of their columns."""
    rows, heads = [], None
    for line in text.split("\n"):
        cells = cells_of(line)
        if cells is None:
            heads = None
        elif heads is None:
            heads = [cell.lower() for cell in cells]
        elif heads[0] == "code" and not set(cells[0]) <= set("-: "):
            rows.append(dict(zip(heads, cells)))
    return rows


@functools.cache
def rows() -> list[dict[str, str]]:
    pages = [DOCS / name for name in DOCUMENTS]
    return [row for page in pages if page.exists() for row in rows_of(page.read_text(encoding="utf-8"))]


def cell_of(code: int, heads: tuple[str, ...]) -> str | None:
    """The cell of the first row of this code that has one of these columns."""
    found = [row[head] for row in rows() if row["code"] == str(code) for head in heads if row.get(head)]
    return found[0] if found else None


def rule_of(code: int) -> Rule:
    return Rule(*(cell_of(code, heads) for heads in (MEANING, REMEDY, CAUSE_IN_C, REMEDY_IN_C)))
