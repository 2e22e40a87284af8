"""Stories: what `percobpf_story replay` prints for events, and what it refuses.

Those written out are worked out by hand from docs/TABLE.md and docs/FORMATS.md, "The story of a replay". Of the examples'
schedules, and of every replay that stands in another table, the plain model of checks/model.py prints the story. What is
refused before the first event is refused as by `percobpf`.
"""
from __future__ import annotations

import importlib
import re
from dataclasses import replace
from pathlib import Path

import model
from tables import CHANGED, COPIED, NOBODY, ONE, WATCHED, Row, Tables, files_of

EXAMPLES = Path(__file__).resolve().parent.parent.parent / "examples"

STORY = "percobpf_story"

# the model prints the story of no more events than this, which is as many as it does in a second
MOST_EVENTS = 20_000

# the modules of tables with replays
REPLAYED = "compiled crashes files manifests profiles records replays results schedules scripts sizes words".split()


def story(manifest: str, script: str, schedule: str, out: str, *more: str) -> Row:
    """A replay whose story is this, with more words, and `--idle` where events of actors without a job are in it."""
    files = files_of(m=manifest, s=script, e=schedule)
    return Row(["replay", "m", "s", "e", *more, *idle_of(out)], files, out=out.encode(), program=STORY)


def idle_of(out: str) -> list[str]:
    """The option without which a story has no such line."""
    return ["--idle"] if " -> idle\n" in out else []


def story_stops(manifest: str, script: str, schedule: str, out: str, fault: str) -> Row:
    """A replay that prints these lines, and then the fault of an event."""
    return replace(story(manifest, script, schedule, out), status=1, err=f"{fault}\n".encode())


def numbered(lines: str, first: int = 0) -> str:
    """The lines with their numbers before them."""
    return "".join(f"{number} {line}\n" for number, line in enumerate(lines.strip().split("\n"), first))


MADE = numbered("""
1 launch change 1 -> launched
1 begin script -> at 1
1 declare 1 script; 7 0 value 2a -> done
1 prewrite 1 7 0 -> done
1 stamp 1 -> at 2
1 commit 1 -> committed
""")

WATCHED_RUN = numbered("""
2 launch run watch 7 -> launched
2 begin run watch 7 -> at 3
2 read 3 7 0 -> found 1 2 value 2a
2 read 3 ack watch 7 0 -> absent
2 instruction 0
2 instruction 1
2 declare 3 run watch result 0 -> done
2 prewrite 3 ack watch 7 0 -> done
2 stamp 3 -> at 4
2 commit 3 -> committed
2 sweep 7 0 -> done
2 step -> idle
""", 6)

COPYING_RUN = numbered("""
2 launch run copy 7 -> launched
2 begin run copy 7 -> at 3
2 read 3 7 0 -> found 1 2 value 2a
2 read 3 ack copy 7 0 -> absent
""" + "".join(f"2 instruction {slot}\n" for slot in range(16)) + """
2 declare 3 run copy result 0; 7 1 value 2a -> done
2 prewrite 3 ack copy 7 0 -> done
2 prewrite 3 7 1 -> done
2 stamp 3 -> at 4
2 commit 3 -> committed
2 commit 3 7 1 -> done
2 sweep 7 0 -> done
""".lstrip("\n"), 6)

TWO_CELLS = "del 1000 1; put 7 0 0100\n"

BOTH_CELLS = "put 7 1 aa; put 7 0 2a\n"

LAST_ROW = 2**64 - 1

HAND_MADE = [
    story(WATCHED, ONE, "", "runs watch 0\nquiet\n"),
    story(
        WATCHED,
        ONE,
        "launch 1 change 1\nstep 1 5\nlaunch 2 run watch 7\nstep 2 11\n",
        f"{MADE}{WATCHED_RUN}{CHANGED}runs watch 1\nquiet\n",
    ),
    # a column that is written is printed with the run's declaration, and committed after the acknowledgment
    story(
        COPIED,
        ONE,
        "launch 1 change 1\nstep 1 5\nlaunch 2 run copy 7\nstep 2 26\n",
        f"{MADE}{COPYING_RUN}{CHANGED}cell 7 1 commit 4 value 2a\nruns copy 1\nquiet\n",
    ),
    # a crash after the primary's prewrite, and what others ask then: the other cell was never locked
    story(
        NOBODY,
        TWO_CELLS,
        "launch 3 change 1\nstep 3 3\nclear 1000 1\nclear 7 0\ncrash 3\ncrash 3\nsettle 1000 1\nsettle 1000 1\nsweep 7 0\n",
        numbered("""
3 launch change 1 -> launched
3 begin script -> at 1
3 declare 1 script; 1000 1 deleted; 7 0 value 01 -> done
3 prewrite 1 1000 1 -> done
0 clear 1000 1 -> waits
0 clear 7 0 -> absent
3 crash -> crashed
3 crash -> idle
0 settle 1000 1 -> rolled back
0 settle 1000 1 -> absent
0 sweep 7 0 -> no mark
""")
        + "quiet\n",
    ),
    # a crash between the primary's commit and the other's: whoever clears it commits it, and settles no other's primary
    story(
        NOBODY,
        TWO_CELLS,
        "launch 3 change 1\nstep 3 5\nsettle 7 0\nstep 3\ncrash 3\nclear 7 0\nstep 3\n",
        numbered("""
3 launch change 1 -> launched
3 begin script -> at 1
3 declare 1 script; 1000 1 deleted; 7 0 value 01 -> done
3 prewrite 1 1000 1 -> done
3 prewrite 1 7 0 -> done
3 stamp 1 -> at 2
0 settle 7 0 -> locked 1 1000 1
3 commit 1 -> committed
3 crash -> crashed
0 clear 7 0 -> committed at 2
3 step -> idle
""")
        + "cell 7 0 commit 2 value 01\ncell 1000 1 commit 2 deleted\nquiet\n",
    ),
    # one that is settled is lost, and one beside it in conflict
    story(
        NOBODY,
        "put 7 0 00\nput 7 0 01\n",
        "launch 1 change 1\nlaunch 2 change 2\nstep 1 3\nstep 2 3\nsettle 7 0\nstep 1 3\n",
        numbered("""
1 launch change 1 -> launched
2 launch change 2 -> launched
1 begin script -> at 1
1 declare 1 script; 7 0 value 00 -> done
1 prewrite 1 7 0 -> done
2 begin script -> at 2
2 declare 2 script; 7 0 value 01 -> done
2 prewrite 2 7 0 -> conflict
0 settle 7 0 -> rolled back
1 stamp 1 -> at 3
1 commit 1 -> lost
1 step -> idle
""")
        + "quiet\n",
    ),
    # an observer that has not run on the change: its cell keeps the mark, and its acknowledgment has no lock
    story(
        WATCHED,
        ONE,
        "launch 1 change 1\nstep 1 5\nsweep 7 0\nclear ack watch 7\nsettle ack watch 7\n",
        MADE
        + numbered("0 sweep 7 0 -> still behind\n0 clear ack watch 7 0 -> absent\n0 settle ack watch 7 0 -> absent", 6)
        + f"{CHANGED}runs watch 0\nmarks 1 locks 0\n",
    ),
    # where no timestamp is left, what asks for one is refused and its job ends
    story(
        NOBODY,
        ONE,
        "launch 1 change 1\nstep 1 5\n",
        numbered("""
1 launch change 1 -> launched
1 begin script -> at 18446744073709551615
1 declare 18446744073709551615 script; 7 0 value 2a -> done
1 prewrite 18446744073709551615 7 0 -> done
1 stamp 18446744073709551615 -> refused 40
1 step -> idle
""")
        + "marks 0 locks 1\n",
        "--clock",
        "18446744073709551614",
    ),
    # a job that is over leaves its actor idle, and a crash then takes nothing
    story(
        WATCHED,
        ONE,
        "launch 1 change 1\nstep 1 6\ncrash 1\nstep 1\n",
        MADE + numbered("1 step -> idle\n1 crash -> idle\n1 step -> idle", 6) + f"{CHANGED}runs watch 0\nmarks 1 locks 0\n",
    ),
    # a run on a cell that has no version only sweeps it
    story(
        WATCHED,
        "",
        "launch 3 run watch 7\nstep 3 4\n",
        numbered("""
3 launch run watch 7 -> launched
3 begin run watch 7 -> at 1
3 read 1 7 0 -> absent
3 sweep 7 0 -> no mark
3 step -> idle
""")
        + "runs watch 0\nquiet\n",
    ),
    # of two runs on one change the second meets the first's lock of the acknowledgment
    story(
        WATCHED,
        ONE,
        "launch 1 change 1\nstep 1 5\nlaunch 1 run watch 7\nlaunch 2 run watch 7\nstep 1 3\nstep 2 3\nstep 1 4\nstep 2 6\n",
        MADE
        + numbered(
            """
1 launch run watch 7 -> launched
2 launch run watch 7 -> launched
1 begin run watch 7 -> at 3
1 read 3 7 0 -> found 1 2 value 2a
1 read 3 ack watch 7 0 -> absent
2 begin run watch 7 -> at 4
2 read 4 7 0 -> found 1 2 value 2a
2 read 4 ack watch 7 0 -> absent
1 instruction 0
1 instruction 1
1 declare 3 run watch result 0 -> done
1 prewrite 3 ack watch 7 0 -> done
2 instruction 0
2 instruction 1
2 declare 4 run watch result 0 -> done
2 prewrite 4 ack watch 7 0 -> conflict
2 step -> idle
2 step -> idle
""",
            6,
        )
        + f"{CHANGED}runs watch 0\nmarks 1 locks 1\n",
    ),
    # a job that crashed is gone, and its actor may be launched anew
    story(
        WATCHED,
        ONE,
        "launch 1 change 1\ncrash 1\ncrash 1\nlaunch 1 change 1\nstep 1 2\ncrash 1\nstep 1\nlaunch 1 run watch 7\nstep 1\ncrash 1\n",
        numbered("""
1 launch change 1 -> launched
1 crash -> crashed
1 crash -> idle
1 launch change 1 -> launched
1 begin script -> at 1
1 declare 1 script; 7 0 value 2a -> done
1 crash -> crashed
1 step -> idle
1 launch run watch 7 -> launched
1 begin run watch 7 -> at 2
1 crash -> crashed
""")
        + "runs watch 0\nquiet\n",
    ),
    # the main seat's steps where nothing is, on locks before the commit, and on what was lost since
    story(
        WATCHED,
        BOTH_CELLS,
        "settle 7 0\nclear 7 0\nsweep 7 0\nlaunch 1 change 1\nstep 1 4\nsettle 7 0\nclear 7 0\nsettle 7 1\nclear 7 0\nstep 1 3\n"
        "settle ack watch 7\nclear ack watch 7\n",
        numbered("""
0 settle 7 0 -> absent
0 clear 7 0 -> absent
0 sweep 7 0 -> no mark
1 launch change 1 -> launched
1 begin script -> at 1
1 declare 1 script; 7 1 value aa; 7 0 value 2a -> done
1 prewrite 1 7 1 -> done
1 prewrite 1 7 0 -> done
0 settle 7 0 -> locked 1 7 1
0 clear 7 0 -> waits
0 settle 7 1 -> rolled back
0 clear 7 0 -> rolled back
1 stamp 1 -> at 2
1 commit 1 -> lost
1 clear 7 0 -> absent
0 settle ack watch 7 0 -> absent
0 clear ack watch 7 0 -> absent
""")
        + "runs watch 0\nquiet\n",
    ),
    # the main seat's steps after the primary's commit, and on a mark before and after its run
    story(
        WATCHED,
        BOTH_CELLS,
        "launch 1 change 1\nstep 1 6\nclear 7 0\nsweep 7 0\nlaunch 2 run watch 7\nstep 2 9\nsweep 7 0\n",
        numbered("""
1 launch change 1 -> launched
1 begin script -> at 1
1 declare 1 script; 7 1 value aa; 7 0 value 2a -> done
1 prewrite 1 7 1 -> done
1 prewrite 1 7 0 -> done
1 stamp 1 -> at 2
1 commit 1 -> committed
0 clear 7 0 -> committed at 2
0 sweep 7 0 -> still behind
2 launch run watch 7 -> launched
2 begin run watch 7 -> at 3
2 read 3 7 0 -> found 1 2 value 2a
2 read 3 ack watch 7 0 -> absent
2 instruction 0
2 instruction 1
2 declare 3 run watch result 0 -> done
2 prewrite 3 ack watch 7 0 -> done
2 stamp 3 -> at 4
2 commit 3 -> committed
0 sweep 7 0 -> done
""")
        + f"{CHANGED}cell 7 1 commit 2 value aa\nruns watch 1\nquiet\n",
    ),
    # an acknowledgment of the last row has the lock of a run, which waits
    story(
        WATCHED,
        f"put {LAST_ROW} 0 2a\n",
        f"launch 1 change 1\nstep 1 5\nlaunch 2 run watch {LAST_ROW}\nstep 2 7\nclear ack watch {LAST_ROW}\nclear ack watch 7\n",
        numbered(f"""
1 launch change 1 -> launched
1 begin script -> at 1
1 declare 1 script; {LAST_ROW} 0 value 2a -> done
1 prewrite 1 {LAST_ROW} 0 -> done
1 stamp 1 -> at 2
1 commit 1 -> committed
2 launch run watch {LAST_ROW} -> launched
2 begin run watch {LAST_ROW} -> at 3
2 read 3 {LAST_ROW} 0 -> found 1 2 value 2a
2 read 3 ack watch {LAST_ROW} 0 -> absent
2 instruction 0
2 instruction 1
2 declare 3 run watch result 0 -> done
2 prewrite 3 ack watch {LAST_ROW} 0 -> done
0 clear ack watch {LAST_ROW} 0 -> waits
0 clear ack watch 7 0 -> absent
""")
        + f"cell {LAST_ROW} 0 commit 2 value 2a\nruns watch 0\nmarks 1 locks 1\n",
    ),
    # of two actors, the last and the first, one had the last timestamp, and neither gets another
    story(
        WATCHED,
        ONE,
        "launch 1 change 1\nstep 1\nlaunch 63 change 1\nstep 63 2\nstep 1 3\n",
        numbered("""
1 launch change 1 -> launched
1 begin script -> at 18446744073709551615
63 launch change 1 -> launched
63 begin script -> refused 40
63 step -> idle
1 declare 18446744073709551615 script; 7 0 value 2a -> done
1 prewrite 18446744073709551615 7 0 -> done
1 stamp 18446744073709551615 -> refused 40
""")
        + "runs watch 0\nmarks 0 locks 1\n",
        "--clock",
        "18446744073709551614",
    ),
]

# as many events as a schedule may have
MILLION = [
    story(WATCHED, ONE, "step 63 1000000\n", "".join(f"{number} 63 step -> idle\n" for number in range(1_000_000)) + "runs watch 0\nquiet\n"),
]

# the lines of the events before the one at fault are printed, and no report
STOPPED = [
    story_stops(
        WATCHED,
        ONE,
        "launch 1 change 1\nstep 1\nlaunch 1 run watch 7\n",
        "0 1 launch change 1 -> launched\n1 1 begin script -> at 1\n",
        "event 2 code 61",
    ),
]


def files_and_clock(row: Row) -> tuple[list[str], int]:
    """The files that a replay names, and the clock that it begins with."""
    words = " ".join(row.words[1:])
    found = re.search(r" ?--clock[ =]\+?(\d+)", words)
    return (words.replace(found[0], "", 1).split(), int(found[1])) if found else (words.split(), 0)


def told_by_model(row: Row) -> Row:
    """The story of the events of a replay, as the model prints it."""
    files, clock = files_and_clock(row)
    out, err, status = model.story(*(row.files[file].decode() for file in files), clock, is_idle=True)
    return replace(row, words=[*row.words, *idle_of(out)], out=out.encode(), err=err.encode(), status=status, program=STORY)


def story_of(row: Row) -> Row:
    """The row of a replay, as its story: what is refused before its events is refused in the same way."""
    comes_to_events = row.status == 0 or (row.err or b"").startswith(b"event")
    has_files = all(file in row.files for file in files_and_clock(row)[0])
    return told_by_model(row) if comes_to_events and has_files else replace(row, program=STORY)


def is_short(row: Row) -> bool:
    """Whether a replay's events are few enough for the model."""
    steps = re.findall(rb"^step \d+ (\d+)$", row.files.get("e", b""), re.M)
    return sum(map(int, steps)) <= MOST_EVENTS


def replays_of(module: str) -> list[Row]:
    """The replays that stand in the tables of a module. Those that are no command line stand in story_words.py."""
    tables = importlib.import_module(f"tables.{module}").TABLES
    replays = [row for rows in tables.values() for row in rows if row.words[:1] == ["replay"] and row.status < 2]
    return [row for row in replays if is_short(row)]


def stories_of(module: str) -> list[Row]:
    """The stories of these replays, without those that are made by hand."""
    by_hand = {row.key() for row in HAND_MADE}
    return [told for row in replays_of(module) if (told := story_of(row)).key() not in by_hand]


def example(manifest: str, script: str, schedule: str, *more: str) -> Row:
    """The story of an example's schedule."""
    files = {name: (EXAMPLES / file).read_bytes() for name, file in (("m", manifest), ("s", script), ("e", schedule))}
    return told_by_model(Row(["replay", "m", "s", "e", *more], files))


EXAMPLE_SCHEDULES = [
    example("copy.json", "crash.txt", "crash.schedule"),
    example("copy.json", "crash.txt", "crash.schedule", "--clock", "100"),
    example("indexer.json", "indexer.txt", "indexer.schedule"),
]

TABLES: Tables = {
    "made by hand": HAND_MADE,
    "million": MILLION,
    "stopped": STOPPED,
    "example schedules": EXAMPLE_SCHEDULES,
    **{f"of {module}": stories_of(module) for module in REPLAYED},
}
