"""What `test_rows` hands on: a call of each crate that it links, but of `jobs`, whose first row is one; the words that each
names; and words that it hasn't.

The outputs are worked out by hand from docs/TABLE.md and docs/MACHINE.md.
"""
from __future__ import annotations

from tables import ROWS, WATCHED, Row, Tables

OF_MACHINE = """\
4 -> went, going, 4 done
. -> asks 7 1, asking 7 1, 4 done
2a -> replied, going, 5 done
> -> ended 0, over 0, 6 done
run 3 result 0
asked 7 1 value 2a00000000000000000000000000000000000000000000000000000000000000
of profile 1
"""

OF_TABLE = """\
1 begin script -> at 1
1 declare 1 script; 7 0 value 2a -> done
1 stamp 1 -> refused 42
1 prewrite 1 7 0 -> done
1 stamp 1 -> at 2
1 commit 1 -> committed
2 begin run watch 7 -> at 3
2 read 3 7 0 -> found 1 2 value 2a
2 read 3 ack watch 7 0 -> absent
2 declare 3 run watch result 0 -> done
marks 1 locks 0
"""

OF_WORLDS = """\
launched
at 1
done
done
refused 44
idle
event 0 code 63
launched
refused 44
idle
refused 44
runs watch 0
marks 0 locks 1
"""

CALLS = [
    Row(
        [
            "machine", "1", "b701000007000000b702000001000000bfa300000000000007030000e0ffffff85000000010000009500000000000000", "9",
            "-", "4", ".", "2a", ">",
        ],
        out=OF_MACHINE.encode(), program=ROWS,
    ),
    Row(
        [
            "table", "0l", "0", "100", WATCHED, "1 begin script", "1 declare 1 script; 7 0 value 2a", "1 stamp 1", "1 prewrite 1 7 0",
            "1 stamp 1", "1 commit 1", "2 begin run watch 7", "2 read 3 7 0", "2 read 3 ack watch 7 0",
            "2 declare 3 run watch watch 3 7 0 1 2 value 2a 0 deleted deleted",
        ],
        out=OF_TABLE.encode(), program=ROWS,
    ),
    Row(
        [
            "worlds", "2", "3", WATCHED, "put 7 0 2a", "launch 1 change 1; step 1; step 1; step 1; step 1; step 1", "launch 1 run 1 7",
            "launch 1 run 0 7; step 1; crash 1; clear 7 0",
        ],
        out=OF_WORLDS.encode(), program=ROWS,
    ),
]

NAMED = {
    "machine": "PROFILE DIGITS COLUMN CONTENT MOVE..",
    "jobs": "DIGITS FROM TASKS TURNS",
    "table": "TABLETS LAST LIMIT MANIFEST STEP..",
    "worlds": "SEATS LIMIT MANIFEST SCRIPT EVENTS..",
    "workers": "told|listed|cleared TURNS WORKERS LAST LIMIT SORTS REFUSED MANIFEST SCRIPT SPARE..\nfinish MANIFEST SCRIPT OTHER OPERATION..",
}

TABLES: Tables = {
    "a call of each crate": CALLS,
    "words that each names": [Row([crate, "--help"], out=f"{text}\n".encode(), program=ROWS) for crate, text in NAMED.items()],
    "no such words": [Row(words, status=1, program=ROWS) for words in ([], ["gone"], ["--help"], *([crate] for crate in NAMED))],
}
