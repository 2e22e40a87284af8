"""Manifests that are taken, with the observers that a report names then, and manifests that are refused.

Worked out by hand from docs/FORMATS.md, "Manifest". Each is run with a script, which is empty unless a row names one.
"""
from __future__ import annotations

from tables import NOBODY, ONE, START, WATCH, Row, Tables, accepted, manifest_of, observer, replay, run, run_fails


def registered(manifest: str, *names: str) -> Row:
    """A manifest of observers with these names."""
    return run(manifest, "", "".join(f"runs {name} 0\n" for name in names) + "quiet\n")


def whole(manifest: str, number: int, script: str = "") -> Row:
    """A manifest that is refused, without a place."""
    return run_fails(manifest, script, f"manifest: code {number}")


def at(manifest: str, place: int, number: int, script: str = "") -> Row:
    """A manifest whose observer in this place is refused."""
    return run_fails(manifest, script, f"manifest: observer {place} code {number}")


def program(manifest: str, slot: int, number: int, script: str = "") -> Row:
    """A manifest whose first observer's program isn't accepted."""
    return run_fails(manifest, script, f"manifest: observer 0 code 56 slot {slot} code {number}")


def one(**members: str) -> str:
    """A manifest of one observer, with these members in place of those of `watch`."""
    return manifest_of(observer(**members))


TEXTS = [
    registered('{"profile":1,"observers":[]}'),
    registered(' { "observers" : [ ] , "profile" : 1 } \n'),
    whole("", 50),
    whole('{"profile":1,"observers":[]', 50),
    whole('{"profile":1,"observers":[]} x', 50),
    whole('{"profile":+1,"observers":[]}', 50),
    whole("[]", 51),
    whole('{"profile":1}', 51),
    whole('{"profile":1,"observers":{}}', 51),
    whole('{"profile":1,"observers":[],"x":0}', 51),
    whole("{", 50, ONE),
    whole("[]", 51, ONE),
]

PROFILES = [
    registered('{"profile":2,"observers":[]}'),
    whole('{"profile":3,"observers":[]}', 51),
    whole('{"profile":0,"observers":[]}', 51),
    whole('{"profile":1.0,"observers":[]}', 51),
    whole('{"profile":1e0,"observers":[]}', 51),
    whole('{"profile":-1,"observers":[]}', 51),
    whole('{"profile":"1","observers":[]}', 51),
    registered('{"profile":2,"observers":[],"profile":1}'),
    registered('{"profile":1,"observers":[],"profile":2}'),
    whole('{"profile":1,"observers":[],"profile":3}', 51),
    registered('{"profile":1,"observers":[5],"observers":[]}'),
    whole('{"profile":1,"observers":[5]}', 51),
]

LONGEST = "abcdefghijklmnopqrstuvwxyz-01289"

NAMES = [
    at(one(name=""), 0, 53),
    registered(one(name="w"), "w"),
    registered(one(name="-"), "-"),
    registered(one(name=LONGEST), LONGEST),
    at(one(name="abcdefghijklmnopqrstuvwxyz-012890"), 0, 53),
    at(one(name="Watch"), 0, 53),
    at(one(name="a_b"), 0, 53),
]

NUMBERS = [
    registered(one(column="15"), "watch"),
    at(one(column="16"), 0, 54),
    at(one(column="18446744073709551615"), 0, 54),
    whole(one(column="18446744073709551616"), 51),
    whole(one(column="-1"), 51),
    whole(one(column="1.0"), 51),
    whole(one(column="1e0"), 51),
    whole(one(helpers="18446744073709551616"), 51),
    whole(one(helpers="2, -1"), 51),
    whole(one(helpers="1.0"), 51),
]

HELPERS = [
    registered(one(helpers="1"), "watch"),
    registered(one(helpers="4, 2, 3, 1"), "watch"),
    at(one(helpers="0"), 0, 54),
    at(one(helpers="5"), 0, 54),
    at(one(helpers="2, 2"), 0, 54),
    at(one(helpers="1, 2, 1"), 0, 54),
    at(one(helpers="1, 2, 3, 4, 4"), 0, 54),
    at(one(helpers="4294967298"), 0, 54),
    at(one(helpers="18446744073709551615"), 0, 54),
]

CODES = [
    at(one(digits="b"), 0, 55),
    at(one(digits="B7"), 0, 55),
    at(one(digits="g7"), 0, 55),
    program(one(digits="b7"), 0, 10),
    program(one(digits=""), 0, 10),
    program(one(digits="9500000000000000"), 0, 21),
    program(one(digits="b700000000000000"), 0, 36),
    program(one(digits=START), 0, 30),
    program(one(helpers="1, 2, 3", digits=START), 0, 30),
    registered(one(helpers="4", digits=START), "watch"),
]

LOWEST_CODES = [
    at(one(name="Watch", column="16", helpers="0", digits="b"), 0, 53),
    at(one(name="watch", column="16", helpers="", digits="b"), 0, 54),
    at(one(name="watch", column="0", helpers="2, 2", digits="b"), 0, 54),
    at(one(name="watch", column="0", helpers="2", digits="b"), 0, 55),
    whole(one(name="Watch", column="0", helpers="-1", digits="b"), 51),
]

BEFORE_A_CHANGE = [
    at(one(name="Watch"), 0, 53, ONE),
    at(one(column="16"), 0, 54, ONE),
    at(one(digits="b"), 0, 55, ONE),
    program(one(digits="b7"), 0, 10, ONE),
    program(one(digits="9500000000000000"), 0, 21, ONE),
    program(one(digits="b700000000000000"), 0, 36, ONE),
    program(one(digits="bf160000000000009500000000000000"), 1, 21, ONE),
    program(one(digits=START), 0, 30, ONE),
    at(one(helpers="2,2"), 0, 54, ONE),
    at(manifest_of(observer(), observer("start", 0, "4", START), observer("watch", 1)), 2, 53, ONE),
]

FIRST, SECOND, FAULTY = observer(), observer("start"), observer("start", digits="b")

USED_NAMES = [
    registered(manifest_of(FIRST, SECOND), "watch", "start"),
    at(manifest_of(FIRST, FIRST), 1, 53),
    at(manifest_of(FIRST, SECOND, FIRST), 2, 53),
    at(manifest_of(FIRST, observer(column="16", digits="b")), 1, 53),
]

FIRST_FAULT = [
    at(manifest_of(FIRST, FAULTY), 1, 55),
    at(manifest_of(FAULTY, observer("Watch")), 0, 55),
    at(manifest_of(observer(column="16"), FIRST), 0, 54),
    at(manifest_of(FIRST, FAULTY, FIRST), 1, 55),
]


def many(count: int) -> list[str]:
    return [observer(f"w{place}") for place in range(count)]


COUNTS = [
    registered(manifest_of(*many(32)), *(f"w{place}" for place in range(32))),
    whole(manifest_of(*many(33)), 52),
    whole(manifest_of(*many(32), "5"), 51),
    whole(manifest_of(*many(33), "5"), 51),
]


def ending(members: str) -> str:
    """A manifest of one observer without a column, and with these members after the others."""
    return manifest_of(f'{{"name":"watch","helpers":[],"code":"{WATCH}",{members}}}')


LAST_MEMBERS = [
    registered(ending('"column":16,"column":0'), "watch"),
    at(ending('"column":0,"column":16'), 0, 54),
    registered(ending('"column":0,"name":"w"'), "w"),
    at(ending('"column":0,"name":"W"'), 0, 53),
    registered(ending('"column":0,"helpers":[2]'), "watch"),
    at(ending('"column":0,"helpers":[2,2]'), 0, 54),
    at(ending('"column":0,"code":"b"'), 0, 55),
    whole(ending('"column":0,"more":0'), 51),
    whole(ending('"name":"w"'), 51),
]

# `watch` of column 3 and `start` of column 0; a run takes eight steps of the table and one for each of two instructions
WATCH_AND_START = manifest_of(observer("watch", 3), observer("start", 0, "4", START))

ORDERED = [
    registered(WATCH_AND_START, "watch", "start"),
    run(WATCH_AND_START, "put 7 3 2a", "cell 7 3 commit 2 value 2a\nruns watch 1\nruns start 0\nquiet\n"),
    run(WATCH_AND_START, ONE, "cell 7 0 commit 2 value 2a\nruns watch 0\nruns start 1\nquiet\n"),
    *(
        replay(
            WATCH_AND_START,
            f"put 7 {column} 2a",
            f"launch 1 change 1\nstep 1 5\nlaunch 1 run {name} 7\nstep 1 {steps}",
            f"cell 7 {column} commit 2 value 2a\n{runs}{last}\n",
        )
        for name, column, runs in (("watch", 3, "runs watch 1\nruns start 0\n"), ("start", 0, "runs watch 0\nruns start 1\n"))
        for steps, last in ((9, "marks 1 locks 0"), (10, "quiet"))
    ),
    accepted(bytes.fromhex(START), 2),
]

LONG = "del 0 0\n" * 10_001

# what is reported if texts are too long
TOO_LONG = [
    whole(manifest_of(*[observer(digits="")] * 33), 52),
    run_fails(NOBODY, LONG, "script: line 10001 code 75"),
    whole(manifest_of(*[observer(digits="")] * 33), 52, LONG),
]

TABLES: Tables = {
    "texts": TEXTS,
    "profiles": PROFILES,
    "names": NAMES,
    "numbers": NUMBERS,
    "helpers": HELPERS,
    "codes": CODES,
    "lowest codes": LOWEST_CODES,
    "before a change": BEFORE_A_CHANGE,
    "used names": USED_NAMES,
    "first fault": FIRST_FAULT,
    "counts": COUNTS,
    "last members": LAST_MEMBERS,
    "observers in order": ORDERED,
    "texts that are too long": TOO_LONG,
}
