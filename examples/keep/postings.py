#!/usr/bin/env python3
"""Two writers and a reader share a table in which the observer `posting` (docs/PATTERNS.md) keeps, for each value, the list of the rows
that have it. Each writer numbers its changes in a cell of its own, and so goes on after the last that was made when it is started again.

    examples/keep/postings.py SOCKET write NAME COUNT     writes values of 0 to 9 into rows of its own, up to COUNT changes in all
    examples/keep/postings.py SOCKET read                 prints each list, and how many rows are in all of them
"""
from __future__ import annotations

import sys
from pathlib import Path

sys.path.insert(0, str(Path(__file__).resolve().parents[2] / "clients"))

from percobpf import Cell, Table

VALUES = 10

# the columns of the observed values, of the number of a writer's last change, of a list's first row, and of a row's neighbours
VALUE, NUMBER, FIRST, LINK = 0, 11, 12, 13


def word(number: int) -> str:
    """A number as the first word of a value: eight bytes, the lowest first."""
    return number.to_bytes(8, "little").hex()


def words(cell: Cell) -> list[int]:
    """The four words of a cell's value."""
    value = (cell.value or b"").ljust(32, b"\0")
    return [int.from_bytes(value[at : at + 8], "little") for at in range(0, 32, 8)]


def write(table: Table, name: int, count: int) -> None:
    """Makes the changes of a writer that aren't made yet."""
    last = table.get(name, NUMBER)
    begin = words(last)[0] if last else 0
    for number in range(begin, count):
        row = 1_000 * name + number * 7 % 100
        table.change(f"put {row} {VALUE} {word(number * 3 % VALUES)}", f"put {name} {NUMBER} {word(number + 1)}")
    print(f"writer {name}: {begin} changes were there, {count - begin} more")


def rows_of(table: Table, value: int) -> list[int]:
    """The rows that have a value, by the list of the observer."""
    rows, first = [], table.get(value, FIRST)
    row = words(first)[0] if first and first.value is not None else None
    while row is not None:
        rows.append(row)
        _, after, _, has_after = words(table.get(row, LINK))
        row = after if has_after else None
    return rows


def read(table: Table) -> None:
    lists = {value: rows_of(table, value) for value in range(VALUES)}
    for value, rows in lists.items():
        print(f"value {value}: {len(rows)} rows, the first {rows[:3]}")
    print(f"{sum(map(len, lists.values()))} rows")


def main(given: list[str]) -> None:
    match given:
        case [path, "write", name, count]:
            with Table.connect(path) as table:
                write(table, int(name), int(count))
        case [path, "read"]:
            with Table.connect(path) as table:
                read(table)
        case _:
            sys.exit(__doc__)


if __name__ == "__main__":
    main(sys.argv[1:])
