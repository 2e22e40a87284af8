"""Runs of observers after the changes of a script, shown by whole reports.

Worked out by hand from docs/TABLE.md, "Passes" and "Workers": by one worker each change takes two timestamps, then passes go by
rows and columns, and each run takes two. For more workers no row has a commit that differs by whoever comes first.
"""
from __future__ import annotations

from tables import CHANGED, COPIED, COPY, ONE, START, WATCHED, Row, Tables, encoded, manifest_of, observer, run

# counts its runs on the cells of a row, in column 15 of the row
COUNT = (
    "7916000000000000bfa300000000000007030000e0ffffffbf61000000000000b70200000f0000008500000001000000bf01000000000000"
    "b700000001000000150108000200000079a1e0ff0000000007010000010000007b1ae0ff00000000bfa300000000000007030000e0ffffff"
    "bf61000000000000b70200000f00000085000000020000009500000000000000"
)

# deletes column 0 of row 7
DELETE = "b701000007000000b70200000000000085000000030000009500000000000000"

# the same, but it ends with 1
DELETE_IN_VAIN = "b701000007000000b7020000000000008500000003000000b7000000010000009500000000000000"


WATCHES = [
    run(WATCHED, ONE, f"{CHANGED}runs watch 1\nquiet\n"),
    run(WATCHED, "put 7 0 2a\nput 7 0 2b\n", "cell 7 0 commit 4 value 2b\nruns watch 1\nquiet\n"),
    # nothing that it observes has changed
    run(WATCHED, "", "runs watch 0\nquiet\n"),
    run(WATCHED, "put 7 1 2a\n", "cell 7 1 commit 2 value 2a\nruns watch 0\nquiet\n"),
]

THREE = manifest_of(observer(), observer("start", 0, "4", START), observer("other", 1))

SEVERAL = [
    run(THREE, ONE, f"{CHANGED}runs watch 1\nruns start 1\nruns other 0\nquiet\n"),
    run(
        THREE,
        "put 7 1 2a; put 7 0 2b\n",
        "cell 7 0 commit 2 value 2b\ncell 7 1 commit 2 value 2a\nruns watch 1\nruns start 1\nruns other 1\nquiet\n",
    ),
]


def runs_once(digits: str) -> Row:
    """A program without helpers, which runs on one change."""
    return run(manifest_of(observer(digits=digits)), ONE, f"{CHANGED}runs watch 1\nquiet\n")


WITHOUT_HELPERS = [
    # a division by zero
    runs_once("b700000007000000b7010000000000003f100000000000009500000000000000"),
    # a pair
    runs_once("180000000700000000000000010000009500000000000000"),
    # a load from the record, a way over the stack, and both ways of a comparison
    runs_once("79123000000000007b2af8ff0000000079a0f8ff00000000550001002a000000b7000000000000009500000000000000"),
    runs_once("79122000000000001502010000000000b700000001000000b7000000000000009500000000000000"),
]

COPIER = observer("copy", 0, "2", COPY)
COPIED_ONCE = f"{CHANGED}cell 7 1 commit 4 value 2a\nruns copy 1\n"

COPIES = [
    run(manifest_of(COPIER), ONE, f"{COPIED_ONCE}quiet\n"),
    # one run handles both changes; of a deletion it copies zeros
    run(
        manifest_of(COPIER),
        "put 7 0 2a\ndel 7 0\n",
        "cell 7 0 commit 4 deleted\ncell 7 1 commit 6 value 00\nruns copy 1\nquiet\n",
    ),
    # marks are met by row
    run(
        manifest_of(COPIER),
        "put 8 0 01\nput 7 0 02\n",
        "cell 7 0 commit 4 value 02\ncell 7 1 commit 6 value 02\ncell 8 0 commit 2 value 01\ncell 8 1 commit 8 value 01\n"
        "runs copy 2\nquiet\n",
    ),
]

COUNTS = [
    run(
        manifest_of(observer("count", 0, "1,2", COUNT)),
        "put 7 0 2a\nput 7 0 2b\nput 8 0 01\n",
        "cell 7 0 commit 4 value 2b\ncell 7 15 commit 8 value 01\ncell 8 0 commit 6 value 01\n"
        "cell 8 15 commit 10 value 01\nruns count 2\nquiet\n",
    ),
    # the second reads what the first wrote
    run(
        manifest_of(observer("first", 0, "1,2", COUNT), observer("second", 1, "1,2", COUNT)),
        "put 7 0 2a; put 7 1 2b\n",
        "cell 7 0 commit 2 value 2a\ncell 7 1 commit 2 value 2b\ncell 7 15 commit 6 value 02\n"
        "runs first 1\nruns second 1\nquiet\n",
    ),
]

ONE_AFTER_ANOTHER = [
    # two observe one column
    run(manifest_of(COPIER, observer()), ONE, f"{COPIED_ONCE}runs watch 1\nquiet\n"),
    # what one writes the other observes
    run(manifest_of(COPIER, observer(column=1)), ONE, f"{COPIED_ONCE}runs watch 1\nquiet\n"),
    # it marks a cell that the pass has gone by, which the next pass finds
    run(
        manifest_of(observer(), observer("delete", 1, "3", DELETE)),
        "put 7 1 2a\n",
        "cell 7 0 commit 4 deleted\ncell 7 1 commit 2 value 2a\nruns watch 1\nruns delete 1\nquiet\n",
    ),
    # each of its runs changes the cell that it observes, so that every pass finds its mark: 1,000 of the worker, and then 1,000
    # of the main seat
    run(
        manifest_of(observer("delete", 0, "3", DELETE)),
        ONE,
        "cell 7 0 commit 4002 deleted\nruns delete 2000\nmarks 1 locks 0\n",
    ),
]

SEVENTEEN = encoded(*(f"mov64 r1, {row}; mov64 r2, 2; call 3" for row in range(17)), "exit").hex()

# nothing is written with another result than 0, which a program has that writes a 17th cell
OTHER_RESULTS = [
    run(manifest_of(observer("vain", 0, "3", DELETE_IN_VAIN)), ONE, f"{CHANGED}runs vain 1\nquiet\n"),
    run(manifest_of(observer("many", 0, "3", SEVENTEEN)), ONE, f"{CHANGED}runs many 1\nquiet\n"),
]

# a change takes the first two timestamps, whoever else is there; who runs the observer isn't reported
BY_MORE_WORKERS = [
    run(WATCHED, ONE, f"{CHANGED}runs watch 1\nquiet\n", "--workers", workers) for workers in ("2", "4", "63")
] + [
    run(THREE, ONE, f"{CHANGED}runs watch 1\nruns start 1\nruns other 0\nquiet\n", "--workers", "4"),
    run(WATCHED, "", "runs watch 0\nquiet\n", "--workers", "63"),
    run(
        WATCHED,
        "put 7 1 2a; put 8 1 2b\n",
        "cell 7 1 commit 2 value 2a\ncell 8 1 commit 2 value 2b\nruns watch 0\nquiet\n",
        "--workers",
        "8",
    ),
]

# tablets are replaced meanwhile, of both sorts and over and over, and nothing of it is seen
BOTH_TABLETS = (
    f"{CHANGED}cell 7 1 commit 6 value 2a\n"
    "cell 999 0 commit 4 value 01\ncell 999 1 commit 8 value 01\n"
    "cell 1000 0 commit 4 value 02\ncell 1000 1 commit 10 value 02\n"
    "runs copy 3\nquiet\n"
)

BESIDE_SWAPS = [
    *(run(COPIED, ONE, f"{COPIED_ONCE}quiet\n", "--swaps", swaps) for swaps in ("1", "2", "7", "1000")),
    *(
        run(COPIED, "put 7 0 2a\nput 999 0 01; put 1000 0 02\n", BOTH_TABLETS, "--swaps", swaps)
        for swaps in ("0", "1", "64", "999")
    ),
    run(WATCHED, ONE, f"{CHANGED}runs watch 1\nquiet\n", "--workers", "63", "--swaps", "1000"),
]

TABLES: Tables = {
    "watches": WATCHES,
    "several observers": SEVERAL,
    "programs without helpers": WITHOUT_HELPERS,
    "copies": COPIES,
    "counts": COUNTS,
    "one after another": ONE_AFTER_ANOTHER,
    "other results": OTHER_RESULTS,
    "by more workers": BY_MORE_WORKERS,
    "beside swaps": BESIDE_SWAPS,
}
