"""Tables whose tablets are swapped between steps: what `test_table` prints for each swap, of which steps show nothing.

What comes back from a swap is named by its sort: `l`, a list, or `s`, a slab. All is worked out by hand from docs/TABLE.md.
"""
from __future__ import annotations

from collections.abc import Iterable

from tables import WATCHED, Row, Tables
from tables.steps import steps

OTHER = {"l": "s", "s": "l"}

# a change of two rows, and how it ends
CHANGE = """\
0 begin script -> at 1
0 declare 1 script; 7 0 value 2a; 1000 0 deleted -> done
0 prewrite 1 7 0 -> done
0 prewrite 1 1000 0 -> done
0 stamp 1 -> at 2
0 commit 1 -> committed
0 commit 1 1000 0 -> done
0 next mark -> marked 7 0
"""

LEFT = """\
0 next mark after 7 0 -> marked 1000 0
0 next mark after 1000 0 -> no mark
entries -> 7 0 data 1 value 2a; 7 0 write 2 1; 1000 0 data 1 deleted; 1000 0 write 2 1
"""

END = "marks 2 locks 0\n"


def named(sorts: Iterable[str], apart: int) -> str:
    """Tablets of these sorts, so many rows apart."""
    return " ".join(f"{apart * place}{sort}" for place, sort in enumerate(sorts))


def swapped(sorts: str, apart: int, count: int) -> Row:
    """The change over tablets of these sorts, where before each step each place takes a spare of the other sort, as long as there
    are spares."""
    there, lines = list(sorts), []
    for line in CHANGE.splitlines():
        for place, sort in enumerate(there):
            if count:
                lines.append(f"swap {place} {OTHER[sort]} -> {sort}")
                there[place], count = OTHER[sort], count - 1
        lines.append(line)
    return steps("".join(f"{line}\n" for line in lines) + LEFT + END, WATCHED, tablets=named(sorts, apart))


CHOICES = ("ll", "ls", "sl", "ss")

SWAPPED = [
    *(swapped(sorts, 1000, count) for sorts in CHOICES for count in (0, 1, 2, 7, 16)),
    *(swapped("lslslslsl"[:places], 125, places * rounds) for places in (1, 3, 9) for rounds in (0, 1, 2, 8)),
    # of one sort, so that a swap at any other place comes back as the wrong sort, then or when its turn comes
    *(swapped("l" * places, 1000 // places, places * rounds) for places in (10, 64, 1000) for rounds in (1, 2)),
]


# a spare for no place; one that isn't empty, for one and for none, which is reported first; and one that is taken after all
REFUSED_SWAPS = [
    steps(
        f"{CHANGE}swap 2 {first} -> refused 5 {first}\nswap 18446744073709551615 {first} -> refused 5 {first}\n"
        f"swap 2 {second} locked -> refused 4 {second}\nswap 0 {second} locked -> refused 4 {second}\n"
        f"swap 1 {first} marked -> refused 4 {first}\n{LEFT}swap 1 {first} -> {second}\n{LEFT}{END}",
        WATCHED,
        tablets=named((first, second), 1000),
    )
    for first, second in CHOICES
]


def in_all(places: int) -> Row:
    """A change of the first row of each of so many tablets, which commits, and of the last one of each, which does not; then each
    place takes a spare of the other sort, and all that is seen stays."""
    sorts = "lslslslsl"[:places]
    first = [f"{1000 * place} 0" for place in range(places)]
    last = [f"{1000 * place + 999} 0" for place in range(places)]
    made = [
        "0 begin script -> at 1",
        f"0 declare 1 script; {'; '.join(f'{cell} value 2a' for cell in first)} -> done",
        *(f"0 prewrite 1 {cell} -> done" for cell in first),
        "0 stamp 1 -> at 2",
        "0 commit 1 -> committed",
        *(f"0 commit 1 {cell} -> done" for cell in first[1:]),
        "0 begin script -> at 3",
        f"0 declare 3 script; {'; '.join(f'{cell} deleted' for cell in last)} -> done",
        *(f"0 prewrite 3 {cell} -> done" for cell in last),
        "1 begin script -> at 4",
    ]
    entries = [
        f"{one} data 1 value 2a; {one} write 2 1; {other} data 3 deleted; {other} lock 3 {last[0]}"
        for one, other in zip(first, last, strict=True)
    ]
    seen = [
        f"entries -> {'; '.join(entries)}",
        *(f"0 next mark{after} -> marked {cell}" for after, cell in zip(["", *(f" after {it}" for it in first)], first, strict=False)),
        f"0 next mark after {first[-1]} -> no mark",
        *(f"1 read 4 {cell} -> found 1 2 value 2a" for cell in first),
        *(f"1 read 4 {cell} -> locked 3 {last[0]}" for cell in last),
    ]
    lines = [*made, *seen]
    for place, sort in enumerate(sorts):
        lines += [f"swap {place} {OTHER[sort]} -> {sort}", *seen]
    story = "".join(f"{line}\n" for line in lines)
    return steps(f"{story}marks {places} locks {places}\n", WATCHED, limit=1000, tablets=named(sorts, 1000))


LAST = 2**64 - 1


def at_the_last_timestamp(first: str) -> Row:
    """A change that begins at the last timestamp, whose two entries are in the tablet, and then in a spare of the other sort, and in
    one of the same."""
    made = [
        f"0 begin script -> at {LAST}",
        f"0 declare {LAST} script; 7 0 value 2a -> done",
        f"0 prewrite {LAST} 7 0 -> done",
    ]
    seen = f"entries -> 7 0 data {LAST} value 2a; 7 0 lock {LAST} 7 0"
    swaps = [f"swap 0 {OTHER[first]} -> {first}", f"swap 0 {first} -> {OTHER[first]}"]
    lines = [*made, seen, swaps[0], seen, swaps[1], seen, "marks 0 locks 1"]
    return steps("".join(f"{line}\n" for line in lines), WATCHED, last=LAST - 1, tablets=f"0{first}")


TABLES: Tables = {
    "a change beside swaps": SWAPPED,
    "swaps that are refused": REFUSED_SWAPS,
    "each tablet keeps its rows": [in_all(places) for places in range(1, 10)],
    "the last timestamp": [at_the_last_timestamp(first) for first in "ls"],
}
