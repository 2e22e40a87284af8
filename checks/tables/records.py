"""Change records of version 2, which have the value at the observer's last acknowledgment.

Worked out by hand from docs/MACHINE.md, "The change record", docs/FORMATS.md, "Manifest", and docs/TABLE.md.
"""
from __future__ import annotations

from tables import (
    COPY, ONE, Row, Tables, accepted, encoded, in_profile, manifest_of, observer, refused, replay, run, run_fails,
)


def slots(digits: str) -> list[str]:
    return [digits[at : at + 16] for at in range(0, len(digits), 16)]


# `copy` with the old value in place of the changed one, written to column 2: loads from 88 on, and another column
KEEP = "".join(
    {1: "7962580000000000", 3: "7962600000000000", 5: "7962680000000000", 7: "7962700000000000", 10: "b702000002000000"}.get(
        at, slot
    )
    for at, slot in enumerate(slots(COPY))
)

# writes the flag and the acknowledged timestamp to column 3 of its row: whether there was a value, and since when
FLAG = encoded(
    "ldxdw r2, [r1+80]; stxdw [r10-32], r2; ldxdw r2, [r1+40]; stxdw [r10-24], r2; mov64 r2, 0; stxdw [r10-16], r2; "
    "stxdw [r10-8], r2; ldxdw r1, [r1+0]; mov64 r2, 3; mov64 r3, r10; add64 r3, -32; call 2; mov64 r0, 0; exit"
).hex()


def recorded(record: int | str | None, **members: int | str) -> str:
    """An observer whose record is of this version, or of none that is named."""
    text = observer(**members)
    return text if record is None else f'{text[:-1]},"record":{record}}}'


def keeping(record: int | str | None = 2, profile: int = 2) -> str:
    """A manifest of `keep`."""
    return manifest_of(recorded(record, name="keep", helpers="2", digits=KEEP), profile=profile)


def on_record(record: int | str, row: Row) -> Row:
    """The same words, with this version of the record named after them."""
    return Row([*row.words, "--record", str(record)], row.files, row.status, row.out, row.err, row.written)


def reads_byte(place: int) -> bytes:
    """A program that loads the byte at this place of the record."""
    return encoded(f"add64 r1, {place}; ldxb r0, [r1+0]; exit")


CHECKED = [
    on_record(2, accepted(reads_byte(119), 3)),
    on_record(2, refused(reads_byte(120), 1, 27)),
    on_record(1, refused(reads_byte(119), 1, 27)),
    on_record(1, refused(reads_byte(80), 1, 27)),
    on_record(1, accepted(reads_byte(79), 3)),
    on_record(2, accepted(bytes.fromhex(KEEP), 16)),
    refused(bytes.fromhex(KEEP), 1, 27),
    in_profile(2, on_record(2, accepted(reads_byte(119), 3))),
    in_profile(2, refused(reads_byte(119), 1, 27)),
    in_profile(2, on_record(2, accepted(encoded("ldxsw r0, [r1+116]; exit"), 2))),
    in_profile(2, on_record(2, refused(encoded("ldxsw r0, [r1+117]; exit"), 0, 27))),
    # a load may go over from the first 80 bytes to the others
    on_record(2, accepted(encoded("ldxdw r0, [r1+76]; exit"), 2)),
]

TWO = "put 7 0 2a\nput 7 0 2b\n"
THREE = f"{TWO}put 7 0 2c\n"

TURNS = "launch 1 change 1\nstep 1 100\nlaunch 1 run keep 7\nstep 1 {}\nlaunch 1 change 2\nstep 1 100\nlaunch 1 run keep 7\nstep 1 {}\n"


def kept(first: int, second: int, report: str) -> Row:
    """Two changes, each with a run of `keep` after it that has so many events."""
    return replay(keeping(), TWO, TURNS.format(first, second), report)


AFTER_ONE = "cell 7 0 commit 2 value 2a\ncell 7 2 commit 4 value 00\nruns keep 1\n"
AFTER_TWO = "cell 7 0 commit 6 value 2b\ncell 7 2 commit 8 value 2a\nruns keep 2\n"

REPLAYED = [
    kept(100, 100, f"{AFTER_TWO}quiet\n"),
    kept(26, 27, f"{AFTER_TWO}quiet\n"),
    # a step less: the mark is still there
    kept(26, 26, f"{AFTER_TWO}marks 1 locks 0\n"),
    kept(26, 25, f"{AFTER_TWO}marks 1 locks 1\n"),
    replay(keeping(), TWO, TURNS.format(100, 100).split("launch 1 change 2")[0], f"{AFTER_ONE}quiet\n"),
    replay(keeping(), TWO, TURNS.format(25, 0).split("launch 1 change 2")[0], f"{AFTER_ONE}marks 1 locks 0\n"),
    # one run after both changes is a first one: it has no value of before
    replay(keeping(), TWO, "launch 1 change 1\nstep 1 100\nlaunch 1 change 2\nstep 1 100\nlaunch 1 run keep 7\nstep 1 26\n",
           "cell 7 0 commit 4 value 2b\ncell 7 2 commit 6 value 00\nruns keep 1\nquiet\n"),
    # three changes, each with a run: the third run's record has the value of the second, and not of the first
    replay(keeping(), THREE, TURNS.format(26, 27) + "launch 1 change 3\nstep 1 100\nlaunch 1 run keep 7\nstep 1 27\n",
           "cell 7 0 commit 10 value 2c\ncell 7 2 commit 12 value 2b\nruns keep 3\nquiet\n"),
]

# a change has 5 events, and the first run 26, with the start 3 and the commit 4
AFTER_THE_FIRST = "launch 1 change 1; step 1 5; launch 1 run keep 7; step 1 26; "


def at_once(script: str, schedule: str, report: str) -> Row:
    """A replay of `keep`, its events parted by `; `, where other steps than those of one change stand between two runs."""
    return replay(keeping(), script, "".join(f"{event}\n" for event in schedule.split("; ")), report)


# what the record has is the value as of the start of the last committed run, and not as of another timestamp near it
ACKNOWLEDGED = [
    # a lock of 7 comes on the cell after the second run, of 8, has read 6 there: it isn't in the way of what stood there at 3
    at_once(
        THREE,
        f"{AFTER_THE_FIRST}launch 1 change 2; step 1 5; launch 2 change 3; step 2 2; "
        "launch 1 run keep 7; step 1 3; step 2; step 1 24; step 2 2",
        "cell 7 0 commit 10 value 2c\ncell 7 2 commit 9 value 2a\nruns keep 2\nmarks 1 locks 0\n",
    ),
    # two changes between two runs: not the version before the one that the second run is on
    at_once(
        THREE,
        f"{AFTER_THE_FIRST}launch 1 change 2; step 1 5; launch 1 change 3; step 1 5; launch 1 run keep 7; step 1 27",
        "cell 7 0 commit 8 value 2c\ncell 7 2 commit 10 value 2a\nruns keep 2\nquiet\n",
    ),
    # the second change begins at 3 and commits at 5, between start and commit of the first run, 4 and 6, which hasn't seen it
    at_once(
        TWO,
        "launch 1 change 1; step 1 5; launch 2 change 2; step 2 2; launch 1 run keep 7; step 1 3; step 2 3; step 1 23; "
        "launch 1 run keep 7; step 1 27",
        "cell 7 0 commit 5 value 2b\ncell 7 2 commit 8 value 2a\nruns keep 2\nquiet\n",
    ),
    # a run that finds nothing newer has 4 events, and no look at what was: its actor is free for the second change then
    at_once(
        TWO,
        f"{AFTER_THE_FIRST}launch 1 run keep 7; step 1 4; launch 1 change 2; step 1 5",
        "cell 7 0 commit 7 value 2b\ncell 7 2 commit 4 value 00\nruns keep 1\nmarks 1 locks 0\n",
    ),
]


def flagged(script: str, schedule: str, report: str) -> Row:
    """A replay with the observer that writes the flag."""
    return replay(manifest_of(recorded(2, name="flag", helpers="2", digits=FLAG), profile=2), script, schedule, report)


def turns(*changes: int) -> str:
    """Changes with a run after each."""
    return "".join(f"launch 1 change {change}\nstep 1 100\nlaunch 1 run flag 7\nstep 1 100\n" for change in changes)


FLAGS = [
    # a first run has none; the second has the value as of the start of the first, 3, and the third that of 7
    flagged(ONE, turns(1), "cell 7 0 commit 2 value 2a\ncell 7 3 commit 4 value 00\nruns flag 1\nquiet\n"),
    flagged(TWO, turns(1, 2),
            "cell 7 0 commit 6 value 2b\ncell 7 3 commit 8 value 010000000000000003\nruns flag 2\nquiet\n"),
    flagged(THREE, turns(1, 2, 3),
            "cell 7 0 commit 10 value 2c\ncell 7 3 commit 12 value 010000000000000007\nruns flag 3\nquiet\n"),
    # a deletion is no value, and neither is what was deleted
    flagged("del 7 0\nput 7 0 2a\n", turns(1, 2),
            "cell 7 0 commit 6 value 2a\ncell 7 3 commit 8 value 000000000000000003\nruns flag 2\nquiet\n"),
    flagged("put 7 0 2a\ndel 7 0\n", turns(1, 2),
            "cell 7 0 commit 6 deleted\ncell 7 3 commit 8 value 010000000000000003\nruns flag 2\nquiet\n"),
]

RUN = [
    run(keeping(), ONE, "cell 7 0 commit 2 value 2a\ncell 7 2 commit 4 value 00\nruns keep 1\nquiet\n"),
    run(keeping(), TWO, "cell 7 0 commit 4 value 2b\ncell 7 2 commit 6 value 00\nruns keep 1\nquiet\n"),
    # observers of both versions on one column
    run(manifest_of(recorded(None, name="copy", helpers="2", digits=COPY), recorded(2, name="keep", helpers="2", digits=KEEP),
                    profile=2), ONE,
        "cell 7 0 commit 2 value 2a\ncell 7 1 commit 4 value 2a\ncell 7 2 commit 6 value 00\nruns copy 1\nruns keep 1\nquiet\n"),
    # `keep` runs on column 1 before `copy` writes there what column 15 has: its second run, of 7, has what its first saw
    run(manifest_of(recorded(2, name="keep", column=1, helpers="2", digits=KEEP),
                    recorded(None, name="copy", column=15, helpers="2", digits=COPY), profile=2), "put 7 1 2a; put 7 15 2b\n",
        "cell 7 1 commit 6 value 2b\ncell 7 2 commit 8 value 2a\ncell 7 15 commit 2 value 2b\n"
        "runs keep 2\nruns copy 1\nquiet\n"),
]


def told(manifest: str, fault: str) -> Row:
    return run_fails(manifest, "", f"manifest: {fault}")


MANIFESTS = [
    told(keeping(None), "observer 0 code 56 slot 1 code 27"),
    told(keeping(1), "observer 0 code 56 slot 1 code 27"),
    *(told(keeping(record), "observer 0 code 54") for record in (0, 3, 4294967298, 18446744073709551615)),
    *(told(keeping(record), "code 51") for record in ('"2"', "2.0", "-1", "null", "[2]", "18446744073709551616")),
    # profile 1 has no such member
    *(told(keeping(record, 1), "code 51") for record in (1, 2, 3)),
    run(manifest_of(recorded(1), profile=2), ONE, "cell 7 0 commit 2 value 2a\nruns watch 1\nquiet\n"),
    run(manifest_of(recorded(2), profile=2), ONE, "cell 7 0 commit 2 value 2a\nruns watch 1\nquiet\n"),
    told(manifest_of(f'{recorded(2)[:-1]},"more":1}}', profile=2), "code 51"),
    told(manifest_of('{"name":"watch","column":0,"helpers":[],"record":2}', profile=2), "code 51"),
    # of a member that is named twice the last one counts
    run(manifest_of(f'{recorded(3)[:-1]},"record":2}}', profile=2), ONE, "cell 7 0 commit 2 value 2a\nruns watch 1\nquiet\n"),
    told(manifest_of(f'{recorded(2)[:-1]},"record":3}}', profile=2), "observer 0 code 54"),
    told(manifest_of(f'{recorded(2, name="keep", helpers="2", digits=KEEP)[:-1]},"record":1}}', profile=2),
         "observer 0 code 56 slot 1 code 27"),
    # the lowest code
    told(manifest_of(recorded(3, name="Watch"), profile=2), "observer 0 code 53"),
    told(manifest_of(recorded(3, column="16"), profile=2), "observer 0 code 54"),
    told(manifest_of(recorded(3, digits="b"), profile=2), "observer 0 code 54"),
    told(manifest_of(recorded(2, digits="b"), profile=2), "observer 0 code 55"),
]

TABLES: Tables = {
    "checked": CHECKED,
    "replayed": REPLAYED,
    "acknowledged": ACKNOWLEDGED,
    "flags": FLAGS,
    "run": RUN,
    "manifests": MANIFESTS,
}
