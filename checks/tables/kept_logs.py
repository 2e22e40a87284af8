"""Logs of `percobpf_keep`: how they are opened, compacted, limited and asked about, and the bytes that they have then.

Worked out by hand from docs/KEEPING.md ("Compaction", "A limit of entries", "Questions alone", "Other observers") and the head of
pb_snapshots, by the writer of logs.py, which has nothing of the program.
"""
from __future__ import annotations

import logs
from logs import DEFAULT_LIMIT, NO_LIMIT, Snapshot, Version
from tables import BESIDE, COPIED, COPY, FOLDER, KEEP_PROGRAM, NOBODY, WATCHED, Row, Tables, files_of, in_time, manifest_of, observer, within
from tables.lines import BOTH, CELLS, ENDLESS, HEADED, MADE, OF_PUT, PUT, THREE as THREE_OBSERVERS, UP, log, served

# The greatest timestamp, and the greatest last timestamp of a table that takes a change.
LAST = 2**64 - 1
MAX_CLOCK = 18_446_744_071_562_067_968


def over(words: list[str], manifest: str, had: bytes, ends: tuple[int, str, str], left: bytes, lines: str = "") -> Row:
    """The program with these words before the manifest, over a log that has these bytes, ends so, and leaves these."""
    status, out, err = ends
    files, written = files_of(m=manifest, l=had), {"l": left, **BESIDE}
    return Row([*words, "m", "l"], files, status, out.encode(), err.encode(), written, program=KEEP_PROGRAM, input=lines.encode())


def goes_on(manifest: str, had: tuple, opened: int, lines: str, answers: str, *records: str | bytes, limit: int = DEFAULT_LIMIT) -> Row:
    """A log of the records that it had: so many changes are made again, and these lines have these answers."""
    whole = log(manifest, *records, limit=limit)
    return over([], manifest, log(manifest, *had, limit=limit), (0, f"open {opened}\n{answers}", ""), whole, lines)


def limited(limit: int, manifest: str, lines: str, answers: str, *records: str | bytes) -> Row:
    """A new log of this limit: these lines have these answers, and it has these records then."""
    written = {"l": log(manifest, *records, limit=limit), **BESIDE}
    out = f"open 0\n{answers}".encode()
    words = ["--limit", str(limit), "m", "l"]
    return Row(words, files_of(m=manifest), out=out, written=written, program=KEEP_PROGRAM, input=lines.encode())


def compacts(words: list[str], manifest: str, had: bytes, said: str, left: bytes) -> Row:
    """The log is compacted with these words, which prints this."""
    return over([*words, "--compact"], manifest, had, (0, said, ""), left)


def asked(manifest: str, had: bytes, made: str, lines: str, answers: str) -> Row:
    """Questions alone, about a log of which so many changes are made of so many, as `1 of 1`."""
    return over(["--questions"], manifest, had, (0, f"open {made}\n{answers}", ""), had, lines)


def snapshot(clock: int, *versions: Version, stats: tuple = ()) -> bytes:
    """The record of a snapshot."""
    return logs.snapshot_record(Snapshot(clock, list(stats), list(versions)))


def value(byte: int) -> bytes:
    return bytes([byte]) + bytes(31)


# as long as the manifest of `copy`
COPE = COPIED.replace("copy", "cope")

FIRST = Version(1, (7, 0, 0, 0), 2, value(0x2A))
COPY_OF_FIRST = Version(3, (7, 1, 0, 0), 4, value(0x2A))
ACKNOWLEDGED = Version(3, (7, 0, 1, 0), 4, 3)

# what `put 7 0 2a` leaves, without observers and with `copy`
OF_ONE = snapshot(2, FIRST)
OF_COPY = snapshot(4, FIRST, ACKNOWLEDGED, COPY_OF_FIRST, stats=((1, 0, 0, 0, 16),))
EMPTY = snapshot(0)

# what it leaves with an observer that writes the same cell: all versions, since that one isn't up to date on them
AGAIN_AND_AGAIN = [Version(2 * run + 1, (7, 0, 0, 0), 2 * run + 2, value(0x2A)) for run in range(1, 1001)]
OF_ENDLESS = snapshot(2002, FIRST, *AGAIN_AND_AGAIN, Version(2001, (7, 0, 1, 0), 2002, 2001), stats=((1000, 0, 0, 0, 16_000),))

OF_THREE = snapshot(6, FIRST, ACKNOWLEDGED, Version(5, (7, 0, 1, 1), 6, 5), stats=((1, 0, 0, 1, 7), (1, 1, 0, 0, 2), (0, 0, 0, 0, 0)))

COMPACTIONS = [
    served(NOBODY, "compact\n", "compacted 0\n", EMPTY),
    served(COPIED, "compact\n", "compacted 0\n", snapshot(0, stats=((0, 0, 0, 0, 0),))),
    served(NOBODY, "put 7 0 2a\ncompact\n", f"{MADE}compacted 1\n", OF_ONE),
    served(NOBODY, "put 7 0 2a\ncompact\ncompact\n", f"{MADE}compacted 1\ncompacted 1\n", OF_ONE),
    served(NOBODY, "put 7 0 2a\ncompact\nput 7 0 2b\n", f"{MADE}compacted 1\nmade 4 runs 0\n", OF_ONE, "put 7 0 2b\n"),
    # the newest write of each cell, also where that is a deletion
    served(
        NOBODY,
        "put 7 0 2a\nput 8 0 2b\ndel 7 0\ncompact\n",
        f"{MADE}made 4 runs 0\nmade 6 runs 0\ncompacted 2\n",
        snapshot(6, Version(3, (8, 0, 0, 0), 4, value(0x2B)), Version(5, (7, 0, 0, 0), 6, "deleted")),
    ),
    served(COPIED, "put 7 0 2a\ncompact\n", "made 2 runs 1\ncompacted 3\n", OF_COPY),
    # no run handles the change again, and the numbers count on
    served(
        COPIED,
        "put 7 0 2a\ncompact\nput 8 1 01\nlist\n",
        f"made 2 runs 1\ncompacted 3\nmade 6 runs 0\n{CELLS}cell 8 1 commit 6 value 01\nruns copy 1\nquiet\nend\n",
        OF_COPY,
        "put 8 1 01\n",
    ),
    # of the writes up to 2 some may be gone
    served(NOBODY, "put 7 0 2a\ncompact\nsince 1\nsince 2\n", f"{MADE}compacted 1\nrefused 77 2\nend\n", OF_ONE),
    # a table that isn't quiet
    served(ENDLESS, "put 7 0 2a\ncompact\nquiet?\n", "made 2 unquiet\ncompacted 1002\nmarks 1 locks 0\n", OF_ENDLESS),
    # no timestamp is left for a change, and so for the table that would go on
    goes_on(NOBODY, (snapshot(LAST),), 0, "compact\nquiet?\n", "refused 78\nquiet\n", snapshot(LAST)),
    goes_on(NOBODY, (snapshot(LAST - 1),), 0, "compact\n", "compacted 0\n", snapshot(LAST - 1)),
    # what the runs of each observer did, of which one asked once, and one ended with 1
    served(THREE_OBSERVERS, "put 7 0 2a\ncompact\n", "made 2 runs 2\ncompacted 3\n", OF_THREE),
]

WHOLE = log(NOBODY, PUT)
OF_COPIED = log(COPIED, PUT)
WITH_BLANK = f"{COPIED}\n"

# of the same observer once more, with as many runs again
AND_AGAIN = [Version(2 * run + 1, (7, 0, 0, 0), 2 * run + 2, value(0x2A)) for run in range(1, 2001)]
OF_ENDLESS_TWICE = snapshot(4002, FIRST, *AND_AGAIN, Version(4001, (7, 0, 1, 0), 4002, 4001), stats=((2000, 0, 0, 0, 32_000),))

# of `copy` and `watch`, of which the second has a run of two instructions; and of a `watch` of another column
SWAPPED = manifest_of(observer("watch", 0), observer("copy", 0, "2", COPY))
ELSEWHERE = manifest_of(observer("watch", 3))
OF_WATCH = snapshot(6, FIRST, COPY_OF_FIRST, Version(5, (7, 0, 1, 0), 6, 5), stats=((1, 0, 0, 0, 2),))
OF_SWAPPED = snapshot(
    6, FIRST, Version(3, (7, 0, 1, 1), 4, 3), COPY_OF_FIRST, Version(5, (7, 0, 1, 0), 6, 5), stats=((1, 0, 0, 0, 2), (1, 0, 0, 0, 16))
)
# `copy` is tried first, which takes the start 5 and has nothing to run for
OF_BOTH = snapshot(7, FIRST, ACKNOWLEDGED, COPY_OF_FIRST, Version(6, (7, 0, 1, 1), 7, 6), stats=((1, 0, 0, 0, 16), (1, 0, 0, 0, 2)))
OF_FIRST_COMMIT = snapshot(1, Version(0, (7, 0, 0, 0), 1, value(0x2A)))

BY_WORDS = [
    compacts([], NOBODY, WHOLE, "open 1\ncompacted 1\n", log(NOBODY, OF_ONE)),
    # once more
    compacts([], NOBODY, log(NOBODY, OF_ONE), "open 0\ncompacted 1\n", log(NOBODY, OF_ONE)),
    compacts([], COPIED, OF_COPIED, "open 1\ncompacted 3\n", log(COPIED, OF_COPY)),
    compacts([], ENDLESS, log(ENDLESS, PUT), "open 1\ncompacted 1002\n", log(ENDLESS, OF_ENDLESS)),
    # a file in which no log was begun
    compacts([], NOBODY, b"", "open 0\ncompacted 0\n", log(NOBODY, EMPTY)),
    over(["--compact"], NOBODY, log(NOBODY, snapshot(LAST)), (1, "open 0\n", "Error: no timestamp is left\n"), log(NOBODY, snapshot(LAST))),
    # observers that come: the run of one has 3 and 4
    compacts([], COPIED, WHOLE, "open 1\nadded 1 runs 1 gone 0\ncompacted 3\n", log(COPIED, OF_COPY)),
    # and that go: what they wrote stays
    compacts([], NOBODY, OF_COPIED, "open 1\nadded 0 runs 0 gone 1\ncompacted 2\n", log(NOBODY, snapshot(4, FIRST, COPY_OF_FIRST))),
    # the same observers, by another text
    compacts([], WITH_BLANK, OF_COPIED, "open 1\nadded 0 runs 0 gone 0\ncompacted 3\n", log(WITH_BLANK, OF_COPY)),
    # one that never comes to rest is taken away
    compacts(
        [],
        NOBODY,
        log(ENDLESS, PUT),
        "open 1\nadded 0 runs 0 gone 1\ncompacted 1\n",
        log(NOBODY, snapshot(2002, Version(2001, (7, 0, 0, 0), 2002, value(0x2A)))),
    ),
    # a log of at least so many bytes, up to the end of its last record, is compacted before the first line
    over(["--compact-at", "1"], NOBODY, WHOLE, (0, "open 0\nvalue 2a commit 2\n", ""), log(NOBODY, OF_ONE), "get 7 0\n"),
    over(["--compact-at", str(len(WHOLE) - 1)], NOBODY, WHOLE, (0, "open 0\n", ""), log(NOBODY, OF_ONE)),
    over(["--compact-at", str(len(WHOLE))], NOBODY, WHOLE, (0, "open 1\n", ""), WHOLE),
    # and while lines are answered
    over(
        ["--compact-at", str(len(WHOLE))],
        NOBODY,
        WHOLE,
        (0, "open 1\nmade 4 runs 0\nvalue 2b commit 4\n", ""),
        log(NOBODY, snapshot(4, Version(3, (7, 0, 0, 0), 4, value(0x2B)))),
        "put 7 0 2b\nget 7 0\n",
    ),
    # a new log
    Row(["--compact-at", "1000", "m", "l"], files_of(m=NOBODY), out=b"open 0\n", written={"l": log(NOBODY), **BESIDE}, program=KEEP_PROGRAM),
    # served as it is, and one line has the reason
    over(
        ["--compact-at", "1"],
        NOBODY,
        log(NOBODY, snapshot(LAST)),
        (0, "open 0\nquiet\n", "(folder)/l: not compacted: no timestamp is left\n"),
        log(NOBODY, snapshot(LAST)),
        "quiet?\n",
    ),
    # another observer, by a text of as many bytes: its run has 5 and 6
    compacts(
        [],
        COPE,
        OF_COPIED,
        "open 1\nadded 1 runs 1 gone 1\ncompacted 3\n",
        log(COPE, snapshot(6, FIRST, Version(5, (7, 0, 1, 0), 6, 5), Version(5, (7, 1, 0, 0), 6, value(0x2A)), stats=((1, 0, 0, 0, 16),))),
    ),
    # one that never comes to rest catches up within a thousand passes
    compacts([], ENDLESS, WHOLE, "open 1\nadded 1 runs 1000 gone 0\ncompacted 1002\n", log(ENDLESS, OF_ENDLESS)),
    # the log has just as many bytes once the line is answered
    over(
        ["--compact-at", str(len(log(NOBODY, PUT, "put 7 0 2b\n")) - 1)],
        NOBODY,
        WHOLE,
        (0, "open 1\nmade 4 runs 0\n", ""),
        log(NOBODY, snapshot(4, Version(3, (7, 0, 0, 0), 4, value(0x2B)))),
        "put 7 0 2b\n",
    ),
    # no timestamp is left for other observers
    over(["--compact"], COPIED, log(NOBODY, snapshot(LAST)), (1, "open 0\n", "Error: no timestamp is left\n"), log(NOBODY, snapshot(LAST))),
    # an observer that stays, and isn't up to date, is run again, for as many passes as after a change
    compacts([], f"{ENDLESS}\n", log(ENDLESS, PUT), "open 1\nadded 0 runs 1000 gone 0\ncompacted 2002\n", log(f"{ENDLESS}\n", OF_ENDLESS_TWICE)),
    # the first of two goes, the two change places, and a second one comes: each keeps what it acknowledged, and what its runs did
    compacts([], WATCHED, log(BOTH, PUT), "open 1\nadded 0 runs 0 gone 1\ncompacted 3\n", log(WATCHED, OF_WATCH)),
    compacts([], SWAPPED, log(BOTH, PUT), "open 1\nadded 0 runs 0 gone 0\ncompacted 4\n", log(SWAPPED, OF_SWAPPED)),
    compacts([], BOTH, OF_COPIED, "open 1\nadded 1 runs 1 gone 0\ncompacted 4\n", log(BOTH, OF_BOTH)),
    # of the same name and program, and another column
    compacts([], ELSEWHERE, log(WATCHED, PUT), "open 1\nadded 1 runs 0 gone 1\ncompacted 1\n", log(ELSEWHERE, snapshot(4, FIRST, stats=((0, 0, 0, 0, 0),)))),
    # the first commit that there may be
    compacts([], NOBODY, log(NOBODY, OF_FIRST_COMMIT), "open 0\ncompacted 1\n", log(NOBODY, OF_FIRST_COMMIT)),
]

OF_ONE_BEHIND = snapshot(4, FIRST, ACKNOWLEDGED, COPY_OF_FIRST, stats=((1, 0, 0, 0, 16), (0, 0, 0, 0, 0)))

TWO = "del 7 0\nput 8 0 01\n"

# as many changes as a record has, and a manifest of more than a mebibyte
MANY = "del 7 0\n" * 10_000
LARGE = NOBODY.ljust(1_100_000)

STARTS = [
    goes_on(NOBODY, (), 0, "get 7 0\n", "absent\n"),
    goes_on(NOBODY, (PUT,), 1, "get 7 0\n", "value 2a commit 2\n", PUT),
    goes_on(NOBODY, (PUT, TWO), 3, "list\n", "cell 7 0 commit 4 deleted\ncell 8 0 commit 6 value 01\nquiet\nend\n", PUT, TWO),
    goes_on(COPIED, (PUT,), 1, "put 7 0 2b\n", "made 6 runs 1\n", PUT, "put 7 0 2b\n"),
    goes_on(COPIED, (OF_COPY, "put 7 0 2b\n"), 1, "quiet?\n", "quiet\n", OF_COPY, "put 7 0 2b\n"),
    goes_on(COPIED, (OF_COPY,), 0, "get 7 1\n", "value 2a commit 4\n", OF_COPY),
    goes_on(
        COPIED,
        (OF_COPY,),
        0,
        "stats\n",
        "stats copy runs 1 nonzero 0 conflicts 0 asks 0 instructions 16\n"
        f"log {HEADED + len(COPIED) + 13 + len(OF_COPY)}\nentries 6\nend\n",
        OF_COPY,
    ),
    # a cell on which an observer is behind is marked
    goes_on(ENDLESS, (OF_ENDLESS,), 0, "quiet?\n", "marks 1 locks 0\n", OF_ENDLESS),
    goes_on(ENDLESS, (PUT,), 1, "quiet?\n", "marks 1 locks 0\n", PUT),
    # a file of the name that a journal would have, which has nothing to play back
    Row(["m", "l"], files_of(m=NOBODY, l=WHOLE, **{"l-journal": b""}), out=b"open 1\n", written=BESIDE, program=KEEP_PROGRAM),
    Row(["m", "l"], files_of(m=NOBODY, l=WHOLE, **{"l-journal": b"\0x"}), out=b"open 1\n", written=BESIDE, program=KEEP_PROGRAM),
    # a snapshot without a version has a clock, too
    goes_on(NOBODY, (snapshot(9),), 0, "since 8\nsince 9\n", "refused 77 9\nend\n", snapshot(9)),
    # a record of two bytes, which is a script of no change
    goes_on(NOBODY, ("#\n",), 0, "put 7 0 2a\n", MADE, "#\n", PUT),
    # more than a hundred thousand changes
    in_time(30, goes_on(NOBODY, (MANY,) * 10 + (PUT,), 100_001, "get 7 0\n", "value 2a commit 200002\n", *((MANY,) * 10), PUT)),
    # a manifest is read whole, and compared whole
    goes_on(LARGE, (), 0, "put 7 0 2a\n", MADE, PUT),
    # seven records with the first
    goes_on(NOBODY, (PUT,) * 6, 6, "get 7 0\n", "value 2a commit 12\n", *(PUT,) * 6),
    # after a snapshot with an odd clock, the start of a change is even, and its commit odd
    goes_on(
        NOBODY,
        (snapshot(5),),
        0,
        "put 7 0 2a\nsince 4\nsince 6\nsince 7\n",
        "made 7 runs 0\nrefused 77 5\ncell 7 0 commit 7 value 2a\nend\nend\n",
        snapshot(5),
        PUT,
    ),
    # seven records after the first, and sixteen changes of one record
    goes_on(NOBODY, (PUT,) * 7, 7, "get 7 0\n", "value 2a commit 14\n", *(PUT,) * 7),
    goes_on(NOBODY, (PUT * 16,), 16, "get 7 0\n", "value 2a commit 32\n", PUT * 16),
    # the second of two observers is behind, and the first has nothing to run for
    goes_on(BOTH, (OF_ONE_BEHIND,), 0, "quiet?\nput 5 5 2a\nquiet?\n", "marks 1 locks 0\nmade 6 runs 1\nquiet\n", OF_ONE_BEHIND, "put 5 5 2a\n"),
]

ZEROED = log(NOBODY)[:-1] + bytes(1 + len(WHOLE) - len(log(NOBODY)))

# What a crash leaves of a record is dropped, and the next one is put there.
CUT = [
    over([], NOBODY, WHOLE + torn, (0, "open 1\nmade 4 runs 0\n", ""), log(NOBODY, PUT, "put 8 0 2b\n"), "put 8 0 2b\n")
    # shorter than the record that is put there
    for torn in (b"", b"\x0b\x00\x00", b"\xff" * 10)
] + [
    # before there was a first record
    over([], NOBODY, left, (0, "open 0\nmade 2 runs 0\n", ""), WHOLE, PUT)
    for left in (b"", b"\0", b"\xa5", b"\0" + log(NOBODY)[1:], b"\0" + log(NOBODY)[1:20])
] + [
    # a file that a crash may have left, but that was none of this program's
    over([], NOBODY, b"\0" + b"x" * 20, (0, "open 0\n", ""), log(NOBODY)),
    # zeros from the first byte of a record on: a crash leaves a last record so, and the log has those before it
    over([], NOBODY, ZEROED, (0, "open 0\n", ""), ZEROED),
]

PUT_2B, PUT_2C = "put 7 0 2b\n", "put 7 0 2c\n"
FULL = "refused 79\n"
OF_TWO = log(NOBODY, PUT, PUT_2B, limit=4)

LIMITS = [
    limited(
        4,
        NOBODY,
        "put 7 0 2a\nquiet?\nput 7 0 2b\nquiet?\nput 7 0 2c\ncompact\nput 7 0 2c\n",
        f"{MADE}quiet\nmade 4 runs 0\nquiet\n{FULL}compacted 1\nmade 6 runs 0\n",
        snapshot(4, Version(3, (7, 0, 0, 0), 4, value(0x2B))),
        PUT_2C,
    ),
    limited(0, NOBODY, PUT, FULL),
    limited(1, NOBODY, "put 7 0 2a\nquiet?\nput 7 0 2b\n", f"{MADE}quiet\n{FULL}", PUT),
    limited(3, NOBODY, "put 7 0 2a\nquiet?\nput 7 0 2b\n", f"{MADE}quiet\nmade 4 runs 0\n", PUT, PUT_2B),
    # it is looked at for the first change of a record
    limited(1, NOBODY, PUT + PUT_2B + PUT_2C, f"{MADE}made 4 runs 0\nmade 6 runs 0\n", PUT + PUT_2B + PUT_2C),
    limited(1, NOBODY, f"begin\n{PUT}{PUT_2B}end\n", f"begun\n{MADE}made 4 runs 0\nended\n", PUT + PUT_2B),
    limited(0, NOBODY, f"begin\n{PUT}{PUT_2B}end\n", f"begun\n{FULL}{FULL}ended\n"),
    # the form is looked at first, then the condition, and then the limit
    limited(
        2,
        NOBODY,
        "if 1 0 0; put 1 0 2a\nif 1 0 0; put 2 0 2a\nif 1 0 2; put 2 0 2a\nif 1 0 2; put 2 0 2\nput 9 0 2\nx\nget 1 0\n",
        f"{MADE}unmade commit 2\n{FULL}refused 72\nrefused 72\nrefused 70\nvalue 2a commit 2\n",
        "put 1 0 2a\n",
    ),
    # no room for a run, which may leave 34 entries; room for one
    limited(33, COPIED, "put 7 0 2a\nquiet?\n", "made 2 unquiet\nmarks 1 locks 0\n", PUT),
    limited(34, COPIED, "put 7 0 2a\nquiet?\n", "made 2 runs 1\nquiet\n", PUT),
    # a cell that nobody observes
    limited(1, COPIED, "put 7 1 2a\n", MADE, "put 7 1 2a\n"),
    # two runs of three; the next change's passes go on with what is left, with room for one, since there are 14 entries before it
    limited(
        80,
        COPIED,
        "put 7 0 2a; put 8 0 2a; put 9 0 2a\nquiet?\nput 5 5 2a\nquiet?\n",
        "made 2 unquiet\nmarks 1 locks 0\nmade 8 runs 1\nquiet\n",
        "put 7 0 2a; put 8 0 2a; put 9 0 2a\n",
        "put 5 5 2a\n",
    ),
    # a log keeps its own limit
    over([], NOBODY, OF_TWO, (0, f"open 2\n{FULL}", ""), OF_TWO, PUT_2C),
    over(["--limit", "4"], NOBODY, OF_TWO, (0, f"open 2\n{FULL}", ""), OF_TWO, PUT_2C),
    over(["--limit", "5"], NOBODY, OF_TWO, (1, "", "Error: (folder)/l: its limit is another one: --compact changes it\n"), OF_TWO, PUT_2C),
    # with --compact it gets another one, or keeps its own
    compacts(["--limit", "8"], NOBODY, OF_TWO, "open 2\ncompacted 1\n", log(NOBODY, snapshot(4, Version(3, (7, 0, 0, 0), 4, value(0x2B))), limit=8)),
    compacts([], NOBODY, OF_TWO, "open 2\ncompacted 1\n", log(NOBODY, snapshot(4, Version(3, (7, 0, 0, 0), 4, value(0x2B))), limit=4)),
    compacts(["--limit", str(NO_LIMIT)], NOBODY, WHOLE, "open 1\ncompacted 1\n", log(NOBODY, OF_ONE, limit=NO_LIMIT)),
    # none, which has no line
    limited(NO_LIMIT, NOBODY, PUT, MADE, PUT),
    limited(NO_LIMIT - 1, NOBODY, PUT, MADE, PUT),
    goes_on(NOBODY, (PUT,), 1, PUT_2B, "made 4 runs 0\n", PUT, PUT_2B, limit=NO_LIMIT),
    # too few timestamps are left, whatever the limit
    goes_on(NOBODY, (snapshot(MAX_CLOCK),), 0, PUT, f"made {MAX_CLOCK + 2} runs 0\n", snapshot(MAX_CLOCK), PUT),
    goes_on(NOBODY, (snapshot(MAX_CLOCK + 1),), 0, PUT, FULL, snapshot(MAX_CLOCK + 1)),
    goes_on(NOBODY, (snapshot(LAST),), 0, f"{PUT}get 7 0\n", f"{FULL}absent\n", snapshot(LAST), limit=NO_LIMIT),
    # room for one run, of which each pass has one
    limited(
        34,
        ENDLESS,
        "put 7 0 2a\nstats\n",
        "made 2 unquiet\nstats again runs 1 nonzero 0 conflicts 0 asks 0 instructions 16\n"
        f"log {len(log(ENDLESS, PUT, limit=34)) - 1}\nentries 6\nend\n",
        PUT,
    ),
    goes_on(NOBODY, (PUT,), 1, PUT_2B, "made 4 runs 0\n", PUT, PUT_2B, limit=NO_LIMIT - 1),
    # no room for the run of a change that is made again
    goes_on(COPIED, (PUT,), 1, "quiet?\n", "marks 1 locks 0\n", PUT, limit=33),
    # room for one run, which is tried of the first of two observers, also where that has nothing to run for
    limited(
        60,
        BOTH,
        "put 7 0 2a\nquiet?\nput 5 5 2a\nquiet?\n",
        "made 2 unquiet\nmarks 1 locks 0\nmade 6 unquiet\nmarks 1 locks 0\n",
        PUT,
        "put 5 5 2a\n",
    ),
    # room for one run, and then, with six entries, for none
    limited(34, COPIED, "put 7 0 2a\nput 8 0 2b\nquiet?\n", "made 2 runs 1\nmade 6 unquiet\nmarks 1 locks 0\n", PUT + "put 8 0 2b\n"),
]

# Each change has two timestamps, and so has the run after it. There are as many left as two of each take.
FEW = snapshot(LAST - 9, stats=((0, 0, 0, 0, 0),))
THREE = "put 7 0 01\nput 7 0 02\nput 7 0 03\n"
NO_TIMESTAMP = "Error: no timestamp is left\n"
OTHERS = "put 7 0 2d\ndel 7 0\nif 7 0 0; put 7 0 2a\nbegin\nend\ncompact\n"

ALONE = [
    asked(COPIED, OF_COPIED, "1 of 1", "get 7 1\nput 7 0 2d\nquiet?\n", "value 2a commit 4\nrefused 76\nquiet\n"),
    asked(COPIED, log(COPIED, OF_COPY), "0 of 0", "list\n", f"{CELLS}runs copy 1\nquiet\nend\n"),
    asked(COPIED, log(COPIED, OF_COPY), "0 of 0", "since 3\nsince 4\n", "refused 77 4\nend\n"),
    asked(NOBODY, log(NOBODY), "0 of 0", OTHERS, "refused 76\n" * 6),
    asked(NOBODY, WHOLE, "1 of 1", "x\nget 7\nget 7 16\n#\n" + "x" * 5_000 + "\n", "refused 70\nrefused 70\nrefused 71\nrefused 70\nrefused 70\n"),
    asked(NOBODY, WHOLE, "1 of 1", "stats\n", f"log {HEADED + len(NOBODY) + OF_PUT}\nentries 2\nend\n"),
    # no timestamp is left for the third change, by which no table can be served
    asked(COPIED, log(COPIED, FEW, THREE), "2 of 3", "get 7 0\nquiet?\n", f"value 02 commit {LAST - 3}\nquiet\n"),
    over([], COPIED, log(COPIED, FEW, THREE), (1, "", NO_TIMESTAMP), log(COPIED, FEW, THREE), "quiet?\n"),
    # memory is refused for the second change: a hundred thousand runs follow each where nothing bounds them, and take some 150 MB
    within(180, in_time(60, asked(UP, log(UP, PUT, PUT, limit=NO_LIMIT), "1 of 2", "get 8 0\n", "value 2a commit 4\n"))),
]


def copied(lines: str, answers: str, copies: dict[str, bytes], *records: str | bytes, had: tuple = (), err: str = "") -> Row:
    """A log of the records that it had, whose copies have a folder: these lines have these answers, and these copies are there then."""
    files, written = files_of(m=NOBODY), {"l": log(NOBODY, *records), **BESIDE, **copies}
    if had:
        files |= {"l": log(NOBODY, *had)}
    words = ["--copies", ".", "m", "l"]
    return Row(words, files, 0, f"open 0\n{answers}".encode(), err.encode(), written, program=KEEP_PROGRAM, input=lines.encode())


def printed(words: list[str], had: bytes, said: str, **written: bytes) -> Row:
    """These words, with a log that has these bytes, print this and leave it as it is, and this is there then, too."""
    return Row(words, files_of(l=had), out=said.encode(), written={**BESIDE, **written}, program=KEEP_PROGRAM)


NOT_COPIED = f"{FOLDER.decode()}/l: not copied: ./7.log: it is there already\n"

COPIES = [
    copied(f"{PUT}copy 7\nput 8 0 2b\n", f"{MADE}copied 1\nmade 4 runs 0\n", {"7.log": log(NOBODY, PUT)}, PUT, "put 8 0 2b\n"),
    copied("copy 0\ncopy 18446744073709551615\n", "copied 0\ncopied 0\n", {"0.log": log(NOBODY), "18446744073709551615.log": log(NOBODY)}),
    # one that begins with a snapshot
    copied("copy 7\n", "copied 0\n", {"7.log": log(NOBODY, OF_ONE)}, OF_ONE, had=(OF_ONE,)),
    # a copy stays where a second one is asked for
    copied(f"copy 7\n{PUT}copy 7\nquiet?\n", f"copied 0\n{MADE}refused 78\nquiet\n", {"7.log": log(NOBODY)}, PUT, err=NOT_COPIED),
    printed(["--copy", "l", "p"], log(NOBODY), "copied 0\n", p=log(NOBODY)),
    printed(["--copy", "l", "p"], WHOLE, "copied 1\n", p=WHOLE),
    printed(["--copy", "l", "p"], log(NOBODY, OF_ONE), "copied 0\n", p=log(NOBODY, OF_ONE)),
    # byte by byte, with the blanks that it was given with
    printed(["--manifest", "l"], WHOLE, NOBODY),
    printed(["--manifest", "l"], log(f"\n {COPIED}\n\n", limit=NO_LIMIT), f"\n {COPIED}\n\n"),
    printed(["--manifest", "l"], log(NOBODY, OF_ONE, limit=5), NOBODY),
    # none is made within a group
    copied(f"begin\n{PUT}copy 7\nend\n", f"begun\n{MADE}refused 76\nended\n", {}, PUT),
]

TABLES: Tables = {
    "compactions by lines": COMPACTIONS,
    "compactions by words": BY_WORDS,
    "starts": STARTS,
    "logs that a crash left": CUT,
    "limits of entries": LIMITS,
    "questions alone": ALONE,
    "copies and manifests": COPIES,
}
