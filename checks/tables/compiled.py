"""The observers of examples/c as clang compiled them: every written byte is what their sources say, worked out by hand.

Each runs at 3 on a change of row 7 and column 9.
"""
from __future__ import annotations

from pathlib import Path

from tables import Row, Tables, manifest_of, observer, replay, run

EXAMPLES = Path(__file__).resolve().parent.parent.parent / "examples/c"

MAX = 0xFFFF_FFFF_FFFF_FFFF

# a value whose bytes are their places, from 1 on
VALUE = bytes(range(1, 33)).hex()


def compiled(name: str, helpers: str) -> list[str]:
    """Manifests of this observer with these helpers, on column 9: one for each version whose bytes differ."""
    codes = [(EXAMPLES / f"{name}.{version}.bin").read_bytes() for version in ("v1", "v3")]
    return [manifest_of(observer(name, 9, helpers, code.hex())) for code in dict.fromkeys(codes)]


def value_of(*words: int) -> str:
    """The digits of a value of four words, without the zeros at its end."""
    return b"".join(word.to_bytes(8, "little") for word in words).rstrip(bytes(1)).hex()


def adds_one(manifest: str, before: tuple[int, ...], after: tuple[int, ...], content: str, shown: str) -> list[Row]:
    """What column 15 of the row has, if anything, and what it has then.

    A run takes 29 steps: three before its 18 instructions, one for the cell that it asks for, and seven after, of which
    the last is the sweep.
    """
    put = f"; put 7 15 {value_of(*before)}" if before else ""
    cells = f"cell 7 9 commit 2 {shown}\ncell 7 15 commit 4 value {value_of(*after)}\nruns counter 1\n"
    change = f"{content}{put}\n"
    first = "launch 1 change 1\nstep 1 100\nlaunch 1 run counter 7\n"
    return [
        run(manifest, change, f"{cells}quiet\n"),
        replay(manifest, change, f"{first}step 1 28\n", f"{cells}marks 1 locks 0\n"),
        replay(manifest, change, f"{first}step 1 29\n", f"{cells}quiet\n"),
    ]


# clang makes the same bytes for both versions, which are run once
COUNTER = [
    row
    for manifest in compiled("counter", "1,2")
    for before, after in (
        ((), (1, 0, 0, 0)),
        ((1, 0, 0, 0), (2, 0, 0, 0)),
        ((255, 5, 6, 7), (256, 5, 6, 7)),
        ((MAX, 5, 6, MAX), (0, 5, 6, MAX)),
    )
    for content, shown in ((f"put 7 9 {VALUE}", f"value {VALUE}"), ("del 7 9", "deleted"))
    for row in adds_one(manifest, before, after, content, shown)
]


def graded(manifest: str, mark: int, weight: int, grade: int, total: int) -> Row:
    """The grade of a mark and a weight, and their sum of 32 bits. Without helper 1 it asks for nothing."""
    value = value_of(weight << 32 | mark & 0xFFFF_FFFF, 1, 2, MAX)
    cells = f"cell 7 9 commit 2 value {value}\ncell 7 14 commit 4 value {value_of(grade, total, 0, 0)}\n"
    return run(manifest, f"put 7 9 {value}\n", f"{cells}runs grader 1\nquiet\n")


GRADES = [
    (-1, 7, 1, 6),
    (-0x8000_0000, 0, 1, 0x8000_0000),
    (-5, 600, 1, 595),
    (1001, 3, 2, 1004),
    (1001, 500, 2, 1501),
    (0x7FFF_FFFF, 0, 2, 0x7FFF_FFFF),
    (1000, 7, 2, 1007),
    (1000, 8, 4, 1008),
    (0, 500, 503, 500),
    (0, 499, 4, 499),
    (5, 0xFFFF_FFFF, 0x0001_0000_0002, 4),
]

GRADER = [
    row
    for manifest in compiled("grader", "2,3")
    for row in (
        *(graded(manifest, *grade) for grade in GRADES),
        run(
            manifest,
            "del 7 9\n",
            "cell 7 9 commit 2 deleted\ncell 7 14 commit 4 deleted\nruns grader 1\nquiet\n",
        ),
    )
]

TABLES: Tables = {
    "counter": COUNTER,
    "grader": GRADER,
}
