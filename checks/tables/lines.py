"""Lines that `percobpf_keep` takes, their answers, and the bytes of the log that they leave.

Worked out by hand from docs/KEEPING.md, "Lines and answers". A log's bytes are those of decisions/100 and 122, by the writer of logs.py,
which has nothing of the program. All lines of a row come at once, so that changes that follow one another share a record.
"""
from __future__ import annotations

import re
from pathlib import Path

import logs
from tables import BESIDE, COPIED, COPY, KEEP_PROGRAM, NOBODY, WATCH, Row, Tables, encoded, files_of, in_time, manifest_of, observer


def log(manifest: str, *records: str | bytes, limit: int = logs.DEFAULT_LIMIT) -> bytes:
    """A log of this manifest and this limit of entries, with these records."""
    return logs.log_of([logs.header(manifest.encode(), limit), *(it if isinstance(it, bytes) else it.encode() for it in records)])


def served(manifest: str, lines: str | bytes, answers: str, *records: str | bytes) -> Row:
    """A new log: these lines have these answers, and it has these records then."""
    sent = lines if isinstance(lines, bytes) else lines.encode()
    out = f"open 0\n{answers}".encode()
    return Row(["m", "l"], files_of(m=manifest), out=out, written={"l": log(manifest, *records), **BESIDE}, program=KEEP_PROGRAM, input=sent)


PUT, MADE = "put 7 0 2a\n", "made 2 runs 0\n"

WIDE = "; ".join(f"put {row} {column} {row:02x}" for row in range(4) for column in range(0, 16, 4))

# observes the same cells as `copy`, and has no effect
BOTH = manifest_of(observer("copy", 0, "2", COPY), observer("watch", 0))

# writes the changed value to column 0 of its row. `down` does so for column 1, so that the next pass comes to the cell of column 0
AGAIN = COPY.replace("b702000001000000", "b702000000000000")
DOWN = manifest_of(observer("down", 1, "2", AGAIN), observer("watch", 0))

CHANGES = [
    served(NOBODY, PUT, MADE, PUT),
    # start 1 and commit 2, and then start 3 and commit 4 of the run
    served(COPIED, PUT, "made 2 runs 1\n", PUT),
    served(NOBODY, "put 7 0 2a; del 8 15\n", MADE, "put 7 0 2a; del 8 15\n"),
    # sixteen cells
    served(NOBODY, f"{WIDE}\n", MADE, f"{WIDE}\n"),
    served(NOBODY, f"put 18446744073709551615 15 {'2a' * 32}\n", MADE, f"put 18446744073709551615 15 {'2a' * 32}\n"),
    # those that come together share a record
    served(NOBODY, "put 7 0 2a\nput 8 0 2b\n", "made 2 runs 0\nmade 4 runs 0\n", "put 7 0 2a\nput 8 0 2b\n"),
    served(COPIED, "put 7 0 2a\nput 8 0 2b\n", "made 2 runs 1\nmade 6 runs 1\n", "put 7 0 2a\nput 8 0 2b\n"),
    # two observers of a column, which have a run each
    served(BOTH, "put 7 0 2a\ndel 7 0\n", "made 2 runs 2\nmade 8 runs 2\n", "put 7 0 2a\ndel 7 0\n"),
    # two cells of a change, each of which has a run
    served(COPIED, "put 7 0 2a; put 8 0 2b\n", "made 2 runs 2\n", "put 7 0 2a; put 8 0 2b\n"),
    # a question is answered after what waits, which is a record of its own then
    served(NOBODY, "put 7 0 2a\nquiet?\nput 8 0 2b\n", "made 2 runs 0\nquiet\nmade 4 runs 0\n", PUT, "put 8 0 2b\n"),
    # a column that nobody observes
    served(COPIED, "put 7 1 2a\n", MADE, "put 7 1 2a\n"),
    # no line, no record
    served(NOBODY, "", ""),
    # two passes with a run each
    served(DOWN, "put 7 1 2a\n", "made 2 runs 2\n", "put 7 1 2a\n"),
]

# writes the changed value to its own cell, so that it is marked again, for ever
ENDLESS = manifest_of(observer("again", 0, "2", AGAIN))

# writes the cell of the next row, which it is run on next in the same pass; 13 instructions
UP = manifest_of(
    observer(
        "up",
        0,
        "2",
        encoded(
            "ldxdw r6, [r1+0]; stdw [r10-32], 42; stdw [r10-24], 0; stdw [r10-16], 0; stdw [r10-8], 0",
            "mov64 r1, r6; add64 r1, 1; mov64 r2, 0; mov64 r3, r10; add64 r3, -32; call 2; mov64 r0, 0; exit",
        ).hex(),
    )
)

# Each write of a cell has two entries, and so has the acknowledgment of a run. A record has 13 bytes beside its own.
HEADED = 13 + len(logs.header(b""))
OF_PUT = 13 + len(PUT)

UNQUIET = [
    # a thousand passes, of one run each, after the change; the commits of the runs are 4 to 2002
    served(ENDLESS, PUT, "made 2 unquiet\n", PUT),
    served(ENDLESS, "put 7 0 2a\nquiet?\n", "made 2 unquiet\nmarks 1 locks 0\n", PUT),
    # the next change's start is 2003; another thousand follow it
    served(ENDLESS, "put 7 0 2a\nput 8 1 2b\n", "made 2 unquiet\nmade 2004 unquiet\n", "put 7 0 2a\nput 8 1 2b\n"),
    served(
        ENDLESS,
        "put 7 0 2a\nstats\n",
        "made 2 unquiet\nstats again runs 1000 nonzero 0 conflicts 0 asks 0 instructions 16000\n"
        f"log {HEADED + len(ENDLESS) + OF_PUT}\nentries {2 + 4 * 1000}\nend\n",
        PUT,
    ),
    # a hundred thousand runs in one pass
    in_time(
        30,
        served(
            UP,
            "put 7 0 2a\nquiet?\nstats\n",
            "made 2 unquiet\nmarks 1 locks 0\nstats up runs 100000 nonzero 0 conflicts 0 asks 0 instructions 1300000\n"
            f"log {HEADED + len(UP) + OF_PUT}\nentries {2 + 4 * 100_000}\nend\n",
            PUT,
        ),
    ),
]

REFUSED = [
    served(NOBODY, f"{line}\n", f"refused {code}\n")
    for line, code in (
        ("", 70),
        (" ", 70),
        ("# put 7 0 2a", 70),
        ("put", 70),
        ("put 7 0", 70),
        ("put 7 0 2a ", 70),
        ("put  7 0 2a", 70),
        ("PUT 7 0 2a", 70),
        ("put -1 0 2a", 70),
        ("put 07 0 2a", 70),
        ("del 7 0; ", 70),
        ("del 7", 70),
        ("get", 70),
        ("get 7", 70),
        ("get 7 0 1", 70),
        ("list 1", 70),
        ("quiet", 70),
        ("quiet? 1", 70),
        ("stats 1", 70),
        ("since", 70),
        ("since x", 70),
        ("since 0 0", 70),
        ("begin 1", 70),
        ("end 1", 70),
        ("compact 1", 70),
        ("copy", 70),
        ("copy x", 70),
        ("copy 07", 70),
        ("copy 7 8", 70),
        ("if", 70),
        ("if 7 0; put 7 0 2a", 70),
        ("if 7 0 0", 70),
        ("if 7 0 0; ", 70),
        ("if 7 0 0; get 7 0", 70),
        ("scan", 70),
        ("put 18446744073709551616 0 2a", 71),
        ("put 7 16 2a", 71),
        ("del 7 16", 71),
        ("get 18446744073709551616 0", 71),
        ("get 7 16", 71),
        ("since 18446744073709551616", 71),
        ("copy 18446744073709551616", 71),
        ("if 7 16 0; put 7 0 2a", 71),
        ("if 7 0 18446744073709551616; put 7 0 2a", 71),
        ("if 7 0 0; put 7 16 2a", 71),
        ("put 7 0 2a;", 72),
        ("put 7 0 2", 72),
        ("put 7 0 2A", 72),
        (f"put 7 0 {'2a' * 33}", 72),
        ("if 7 0 0; put 7 0 2", 72),
        ("put 7 0 2a; del 7 0", 73),
        ("; ".join(f"del {row} 0" for row in range(17)), 74),
        ("end", 76),
        # there is no folder of copies
        ("copy 7", 76),
    )
]

# a line has at most 4,096 bytes
BYTES = [
    served(NOBODY, b"put 7 0 2a\xff\n", "refused 70\n"),
    served(NOBODY, b"put 7 0 2a\0\n", "refused 72\n"),
    served(NOBODY, "put 7 0 2a\r\n", "refused 72\n"),
    served(NOBODY, "x" * 4_096 + "\n", "refused 70\n"),
    served(NOBODY, "x" * 4_097 + "\n" + PUT, f"refused 70\n{MADE}", PUT),
    # of which the first bytes, by themselves, would be a change
    served(NOBODY, f"put 7 0 2a; {'x' * 4_085}\n" + PUT, f"refused 70\n{MADE}", PUT),
    served(NOBODY, "x" * 100_000 + "\n" + PUT, f"refused 70\n{MADE}", PUT),
    # a refusal waits with the others, so that answers stand in the order of lines
    served(NOBODY, "put 7 0 2a\nx\nput 8 0 2b\n", "made 2 runs 0\nrefused 70\nmade 4 runs 0\n", "put 7 0 2a\nput 8 0 2b\n"),
    # the longest line is read, and its value is too long; of one with a byte more nothing is
    served(NOBODY, f"put 7 0 {'2a' * 2_044}\n", "refused 72\n"),
    served(NOBODY, f"put 77 0 {'2a' * 2_044}\n", "refused 70\n"),
    # what stands after the last newline is no line, however long it is
    served(NOBODY, "put 7 0 2a\nput 8 0 2b", MADE, PUT),
    served(NOBODY, "put 7 0 2a\n" + "x" * 5_000, MADE, PUT),
]

CONDITIONS = [
    served(NOBODY, "if 7 0 0; put 7 0 2a\n", MADE, PUT),
    served(NOBODY, "if 7 0 2; put 7 0 2a\n", "unmade commit 0\n"),
    served(NOBODY, "put 7 0 2a\nif 7 0 2; put 7 0 2b\n", "made 2 runs 0\nmade 4 runs 0\n", PUT, "put 7 0 2b\n"),
    served(NOBODY, "put 7 0 2a\nif 7 0 0; put 7 0 2b\n", "made 2 runs 0\nunmade commit 2\n", PUT),
    # the start of the change is no commit of it
    served(NOBODY, "put 7 0 2a\nif 7 0 1; put 7 0 2b\n", "made 2 runs 0\nunmade commit 2\n", PUT),
    # a deletion is a write, and has a commit
    served(NOBODY, "del 7 0\nif 7 0 0; put 7 0 2b\n", "made 2 runs 0\nunmade commit 2\n", "del 7 0\n"),
    # the condition is on one cell, and the change on others
    served(NOBODY, "put 7 0 2a\nif 7 0 2; del 8 0; put 9 0 2b\n", "made 2 runs 0\nmade 4 runs 0\n", PUT, "del 8 0; put 9 0 2b\n"),
    # on a cell that a run wrote
    served(COPIED, "put 7 0 2a\nif 7 1 4; put 7 2 2b\n", "made 2 runs 1\nmade 6 runs 0\n", PUT, "put 7 2 2b\n"),
    # the first of two is made before the second is looked at
    served(NOBODY, "if 7 0 0; put 7 0 2a\nif 7 0 0; put 7 0 2b\n", "made 2 runs 0\nunmade commit 2\n", PUT),
    # the form is looked at before the condition, which isn't met
    served(NOBODY, "if 7 0 2; put 7 0 2\n", "refused 72\n"),
    # a change that isn't made has no place in the record of the next one
    served(NOBODY, "if 7 0 2; put 7 0 2a\nput 8 0 2b\n", f"unmade commit 0\n{MADE}", "put 8 0 2b\n"),
]

CELLS = "cell 7 0 commit 2 value 2a\ncell 7 1 commit 4 value 2a\n"

QUESTIONS = [
    served(NOBODY, "get 7 0\n", "absent\n"),
    served(NOBODY, "put 7 0 2a\nget 7 0\n", f"{MADE}value 2a commit 2\n", PUT),
    # zero bytes at the end of a value aren't shown, and a value of zeros alone is 00
    served(NOBODY, "put 7 0 2a00\nget 7 0\n", f"{MADE}value 2a commit 2\n", "put 7 0 2a00\n"),
    served(NOBODY, "put 7 0 00\nget 7 0\n", f"{MADE}value 00 commit 2\n", "put 7 0 00\n"),
    served(NOBODY, "del 7 0\nget 7 0\n", f"{MADE}deleted commit 2\n", "del 7 0\n"),
    served(NOBODY, "put 7 0 2a\nget 8 0\nget 7 1\n", f"{MADE}absent\nabsent\n", PUT),
    served(COPIED, "put 7 0 2a\nget 7 1\n", "made 2 runs 1\nvalue 2a commit 4\n", PUT),
    served(NOBODY, "quiet?\n", "quiet\n"),
    served(NOBODY, "list\n", "quiet\nend\n"),
    served(COPIED, "list\n", "runs copy 0\nquiet\nend\n"),
    served(COPIED, "put 7 0 2a\nlist\n", f"made 2 runs 1\n{CELLS}runs copy 1\nquiet\nend\n", PUT),
    served(ENDLESS, "put 7 0 2a\nlist\n", "made 2 unquiet\ncell 7 0 commit 2002 value 2a\nruns again 1000\nmarks 1 locks 0\nend\n", PUT),
    served(NOBODY, "since 0\n", "end\n"),
    served(COPIED, "put 7 0 2a\nsince 0\n", f"made 2 runs 1\n{CELLS}end\n", PUT),
    served(COPIED, "put 7 0 2a\nsince 2\n", "made 2 runs 1\ncell 7 1 commit 4 value 2a\nend\n", PUT),
    served(COPIED, "put 7 0 2a\nsince 4\n", "made 2 runs 1\nend\n", PUT),
    served(COPIED, "put 7 0 2a\nsince 18446744073709551615\n", "made 2 runs 1\nend\n", PUT),
    # in the order of commits, and each write, not the newest alone
    served(
        NOBODY,
        "put 9 0 01\nput 7 0 02; put 8 0 03\ndel 9 0\nsince 0\n",
        "made 2 runs 0\nmade 4 runs 0\nmade 6 runs 0\n"
        "cell 9 0 commit 2 value 01\ncell 7 0 commit 4 value 02\ncell 8 0 commit 4 value 03\ncell 9 0 commit 6 deleted\nend\n",
        "put 9 0 01\nput 7 0 02; put 8 0 03\ndel 9 0\n",
    ),
]

# asks for a cell that is absent, by seven instructions; and one that ends with 1, by two
ASKS = encoded("ldxdw r1, [r1+0]; mov64 r2, 5; mov64 r3, r10; add64 r3, -32; call 1; mov64 r0, 0; exit").hex()
ENDS_WITH_1 = encoded("mov64 r0, 1; exit").hex()
THREE = manifest_of(observer("asks", 0, "1", ASKS), observer("one", 0, "", ENDS_WITH_1), observer("other", 3, "", WATCH))

# `copy` has 16 instructions, and asks nothing
STATS = [
    served(NOBODY, "stats\n", f"log {HEADED + len(NOBODY)}\nentries 0\nend\n"),
    served(NOBODY, "put 7 0 2a; del 8 0\nstats\n", f"{MADE}log {HEADED + len(NOBODY) + 33}\nentries 4\nend\n", "put 7 0 2a; del 8 0\n"),
    served(
        COPIED,
        "put 7 0 2a\nstats\n",
        "made 2 runs 1\nstats copy runs 1 nonzero 0 conflicts 0 asks 0 instructions 16\n"
        f"log {HEADED + len(COPIED) + OF_PUT}\nentries 6\nend\n",
        PUT,
    ),
    # a line for each observer, in the manifest's order, also of one that wasn't run
    served(
        THREE,
        "put 7 0 2a\nput 8 0 2a\nstats\n",
        "made 2 runs 2\nmade 8 runs 2\nstats asks runs 2 nonzero 0 conflicts 0 asks 2 instructions 14\n"
        "stats one runs 2 nonzero 2 conflicts 0 asks 0 instructions 4\nstats other runs 0 nonzero 0 conflicts 0 asks 0 instructions 0\n"
        f"log {HEADED + len(THREE) + OF_PUT + len(PUT)}\nentries 12\nend\n",
        "put 7 0 2a\nput 8 0 2a\n",
    ),
]

GROUPS = [
    served(NOBODY, "begin\nend\n", "begun\nended\n"),
    served(NOBODY, "begin\nput 7 0 2a\nput 8 0 2b\nend\n", "begun\nmade 2 runs 0\nmade 4 runs 0\nended\n", "put 7 0 2a\nput 8 0 2b\n"),
    # of what waits before a group, and of the group, each has a record
    served(NOBODY, "put 6 0 2a\nbegin\nput 7 0 2a\nend\n", f"{MADE}begun\nmade 4 runs 0\nended\n", "put 6 0 2a\n", PUT),
    # where the input ends within it, nothing of it is made
    served(NOBODY, "put 7 0 2a\nbegin\nput 8 0 2b\n", MADE, PUT),
    served(NOBODY, "begin\nput 8 0 2b\n", ""),
    # each line has its answer, and none but changes stand there
    served(
        NOBODY,
        "begin\nput 7 0 2a\nget 7 0\nif 7 0 2; put 7 0 2b\nbegin\nlist\nquiet?\nstats\nsince 0\ncompact\ncopy 7\nput 7 16 2a\nx\nend\n",
        f"begun\n{MADE}" + "refused 76\n" * 9 + "refused 71\nrefused 70\nended\n",
        PUT,
    ),
    # a record has at most 10,000 changes, and a group of more lines is one still
    in_time(
        30,
        served(
            NOBODY,
            "begin\n" + "del 7 0\n" * 10_001 + "compact\nend\n",
            "begun\n" + "".join(f"made {2 * number} runs 0\n" for number in range(1, 10_001)) + "refused 75\nrefused 76\nended\n",
            "del 7 0\n" * 10_000,
        ),
    ),
    # what waits before a group is answered, also where that is a refusal alone
    served(NOBODY, "x\nbegin\nput 8 0 2b\n", "refused 70\n"),
]

# The session that the page shows: a row of a line and the lines of its answer.
PAGE = Path(__file__).resolve().parent.parent.parent / "docs/KEEPING.md"
SHOWN = re.compile(r"^\| `([^`]+)` \| (`.*`) \|$", re.M)


def shown() -> Row:
    """The session, of which the page has each line with its answer, and this row what it leaves in the log."""
    table = PAGE.read_text(encoding="utf-8").partition("| Line | Answer |\n")[2].partition("\n\n")[0]
    rows = SHOWN.findall(table)
    lines = "".join(f"{line}\n" for line, _ in rows)
    answers = "".join(f"{answer}\n" for _, its in rows for answer in re.findall(r"`([^`]+)`", its))
    return served(COPIED, lines, answers, PUT, "put 7 0 2b\n", "put 8 0 2d\n", "del 7 1\n")


TABLES: Tables = {
    "changes": CHANGES,
    "tables that don't come to rest": UNQUIET,
    "lines that are refused": REFUSED,
    "bytes of lines": BYTES,
    "conditions": CONDITIONS,
    "questions": QUESTIONS,
    "stats": STATS,
    "groups": GROUPS,
    "the session of the page": [shown()],
}
