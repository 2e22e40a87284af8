"""Excerpts: the lines that `percobpf_story replay` prints without `--idle`, with it, and with `--events`.

Worked out by hand from docs/FORMATS.md, "The story of a replay". In the story of the first two tables a change and a run are made, and
three events find their actor without a job.
"""
from __future__ import annotations

from dataclasses import replace

from tables import CHANGED, NOBODY, ONE, WATCHED, Row, Tables, files_of

STORY = "percobpf_story"

SCHEDULE = "launch 1 change 1\nstep 1 6\ncrash 1\nlaunch 2 run watch 7\nstep 2 10\nstep 63\n"

LINES = """\
0 1 launch change 1 -> launched
1 1 begin script -> at 1
2 1 declare 1 script; 7 0 value 2a -> done
3 1 prewrite 1 7 0 -> done
4 1 stamp 1 -> at 2
5 1 commit 1 -> committed
6 1 step -> idle
7 1 crash -> idle
8 2 launch run watch 7 -> launched
9 2 begin run watch 7 -> at 3
10 2 read 3 7 0 -> found 1 2 value 2a
11 2 read 3 ack watch 7 0 -> absent
12 2 instruction 0
13 2 instruction 1
14 2 declare 3 run watch result 0 -> done
15 2 prewrite 3 ack watch 7 0 -> done
16 2 stamp 3 -> at 4
17 2 commit 3 -> committed
18 2 sweep 7 0 -> done
19 63 step -> idle
""".splitlines(keepends=True)

LAST = "18446744073709551615"


def excerpt(numbers: list[int], *more: str) -> Row:
    """The replay with more words, of which the lines of these events are printed, and the report."""
    out = "".join(LINES[number] for number in numbers) + f"{CHANGED}runs watch 1\nquiet\n"
    return Row(["replay", *more, "m", "s", "e"], files_of(m=WATCHED, s=ONE, e=SCHEDULE), out=out.encode(), program=STORY)


def events(span: str, numbers: list[int], *more: str) -> Row:
    """The same with `--events`."""
    return excerpt(numbers, "--events", span, *more)


WHOLE = [
    excerpt([*range(6), *range(8, 19)]),
    excerpt([*range(20)], "--idle"),
    # both options may stand before, between and behind the operands
    replace(excerpt([*range(20)]), words=["replay", "m", "--idle", "s", "e"]),
    replace(excerpt([5, 6]), words=["replay", "m", "s", "e", "--events", "5-6", "--idle"]),
    replace(excerpt([5, 6]), words=["replay", "m", "--events=5-6", "s", "--idle", "e"]),
]

EVENTS = [
    # the edges of the list
    events("0-0", [0]),
    events("0-1", [0, 1]),
    events("18-18", [18]),
    events("18-19", [18]),
    events("18-19", [18, 19], "--idle"),
    events("19-19", []),
    events("19-19", [19], "--idle"),
    events("0-19", [*range(6), *range(8, 19)]),
    events("0-19", [*range(20)], "--idle"),
    # the first and the last of them are included, and neither of their neighbors
    events("2-4", [2, 3, 4]),
    events("12-13", [12, 13]),
    events("5-8", [5, 8]),
    events("5-8", [5, 6, 7, 8], "--idle"),
    events("6-7", []),
    events("6-7", [6, 7], "--idle"),
    events("6-6", [6], "--idle"),
    events("7-7", [7], "--idle"),
    # beyond the last event
    events("17-100", [17, 18]),
    events(f"17-{LAST}", [17, 18]),
    events(f"17-{LAST}", [17, 18, 19], "--idle"),
    events(f"0-{LAST}", [*range(6), *range(8, 19)]),
    events("20-30", []),
    events("20-20", [], "--idle"),
    events(f"{LAST}-{LAST}", [], "--idle"),
]

# the number of an event isn't its line in the schedule, nor its timestamp
CLOCKED = Row(
    ["replay", "m", "s", "e", "--clock", "100", "--events", "3-6", "--idle"],
    files_of(m=NOBODY, s=ONE, e="launch 1 change 1\nstep 1 5\ncrash 1\n"),
    out=b"3 1 prewrite 101 7 0 -> done\n4 1 stamp 101 -> at 102\n5 1 commit 101 -> committed\n6 1 crash -> idle\n"
    b"cell 7 0 commit 102 value 2a\nquiet\n",
    program=STORY,
)


def stopped(span: str, out: str) -> Row:
    """A replay whose third event is at fault, and what is printed before that is told."""
    files = files_of(m=WATCHED, s=ONE, e="launch 1 change 1\nstep 1\nlaunch 1 run watch 7\nstep 1\n")
    return Row(["replay", "m", "s", "e", "--events", span], files, status=1, out=out.encode(), err=b"event 2 code 61\n", program=STORY)


# an event is at fault wherever it stands, and no report follows
STOPPED = [
    stopped("0-0", LINES[0]),
    stopped("1-2", LINES[1]),
    stopped("2-2", ""),
    stopped("3-9", ""),
]

# of no event, and of a schedule that isn't read
NONE = [
    Row(["replay", "m", "s", "e", "--events", "0-0", "--idle"], files_of(m=WATCHED, s=ONE, e=""), out=b"runs watch 0\nquiet\n", program=STORY),
    Row(
        ["replay", "m", "s", "e", "--events", "5-6"],
        files_of(m=WATCHED, s=ONE, e="step 1\nstep 01\n"),
        status=1,
        err=b"schedule: line 2 code 90\n",
        program=STORY,
    ),
]

TABLES: Tables = {"whole": WHOLE, "events": EVENTS, "with a clock": [CLOCKED], "stopped": STOPPED, "of no event": NONE}
