"""Tables that are left with something to do, and whose logs are compacted so, for `checks/keep`. What is expected is worked out by hand,
and what other observers make of a table by the model (kept_tables.py), too.

- ways: the log is the same whether it is compacted by `--compact`, by a line, or at a size. Its snapshot has each version of the cell on
  which something is left to do. The table that is opened is marked there, and has the same cells, runs and writes since then.
- going on: the next change is answered as without a compaction, and leaves the same log once it is compacted.
- one cell: of a cell that an observer is behind on also deletions are kept, and what a run gets of an older version; of others the newest.
- manifests: the table gets more observers, none, others in another order, or all but the one that doesn't come to rest.
- lists: the same with random lists, one after the other.
- last: a table without a timestamp left isn't compacted, in any of these ways.
"""
from __future__ import annotations

import copy
import json
from dataclasses import replace

import logs
from keep_compactions import compacted, from_size
from keep_ends import ask, expect
from keep_manifests import COPY, answered, manifest_file, next_generation, observer, one_generation, printed_of
from keep_room import TOP, left_of, line_of, without_history
from kept_tables import KeptTable
from logs import Snapshot, Version
from model import LAST
from sessions import DOWN
from tables import encoded

NO_TIMESTAMP = "no timestamp is left"

# The observer of this example observes column 15, and writes its cell there with 1 more, in 18 instructions: once in each of 1,000 passes.
ENDLESS, FIRST = TOP / "examples/endless.json", "put 7 15 2a"
AGAIN = {**COPY, "name": "again"}

# What is asked of a table after that change. Its transaction has the timestamps 1 and 2, and its last run 2001 and 2002. 0412 are the
# 42 of the change and 1,000 more.
ASKED = ("list", "since 2001", "since 2002", "quiet?", "get 7 15")
FOUND = [
    *("cell 7 15 commit 2002 value 1204", "runs counter 1000", "marks 1 locks 0", "end", "refused 77 2002", "end", "marks 1 locks 0"),
    "value 1204 commit 2002",
]

# A change after it: each pass has a run on both cells, in this order. So the first has 2,000 more than 42 then, and the second 1,000 more
# than 1. The transaction has 2003 and 2004, and the runs have two timestamps each.
MORE = ("put 8 15 01", "get 7 15", "get 8 15", "quiet?")
MORE_FOUND = ["made 2004 unquiet", "value fa07 commit 6002", "value e903 commit 6004", "marks 2 locks 0"]

# How many random lists are given one after the other, how many of them at least leave something to do, and the changes between them.
LISTS, LEAST_UNQUIET = 6, 1
CHANGES = ("put 7 15 01; put 7 0 02", "del 7 15; put 7 0 03", "put 7 0 04; put 8 2 05", "put 7 0 06")


def value(number):
    """The content of a cell that has this number."""
    return number.to_bytes(32, "little")


def endless_log(room):
    """A log with this change, and what it is once it is compacted: the change and 1,000 runs each wrote the cell, and the acknowledgment of
    the last run has its start."""
    log, manifest = room.log("endless"), ENDLESS.read_bytes()
    expect("a change without end", room.run(log, [FIRST], ENDLESS), (0, ["open 0", "made 2 unquiet"], ""))
    writes = [Version(2 * number + 1, (7, 15, 0, 0), 2 * number + 2, value(42 + number)) for number in range(1001)]
    snapshot = Snapshot(2002, [(1000, 0, 0, 1000, 18_000)], [*writes, Version(2001, (7, 15, 1, 0), 2002, 2001)])
    return log.read_bytes(), logs.log_of([logs.header(manifest), logs.snapshot_record(snapshot)])


# Ways


def is_kept(room, what, log, after):
    """The log of this table is compacted: its bytes are these, and what is opened has the table."""
    expect(f"a log that is compacted {what}", (log.read_bytes(), left_of(log)), (after, []))
    status, out, errors = room.run(log, [*ASKED, "stats"], ENDLESS)
    stats = ["stats counter runs 1000 nonzero 0 conflicts 0 asks 1000 instructions 18000", f"log {len(after) - 1}", "entries 2004", "end"]
    expect(f"a table that was compacted {what}", (status, out, errors), (0, ["open 0", *FOUND, *stats], ""))


def try_ways(room, before, after):
    """Compacts the log in each way. Answers how many there were."""
    log = room.log("unquiet")
    log.write_bytes(before)
    expect("a table that isn't quiet", room.compact(log, ENDLESS), compacted(1, 1002))
    is_kept(room, "by its option", log, after)
    expect("the same again", room.compact(log, ENDLESS), compacted(0, 1002))
    is_kept(room, "twice", log, after)
    log.write_bytes(before)
    asked = room.run(log, ["compact", *ASKED, "compact"], ENDLESS)
    expect("a line for a table that isn't quiet", asked, (0, ["open 1", "compacted 1002", *FOUND, "compacted 1002"], ""))
    is_kept(room, "by lines", log, after)
    log.write_bytes(before)
    served = room.run(log, ASKED, ENDLESS, from_size(len(before) - 1))
    expect("a large log of a table that isn't quiet", served, (0, ["open 0", *FOUND], ""))
    is_kept(room, "as it is opened", log, after)
    return 4 + try_served(room, before, after)


def try_served(room, before, after):
    """The log of a table that isn't quiet becomes large while it is served, and is compacted, and nothing is reported. It would have twice
    the bytes only after many other changes. Answers how often it was large."""
    log = room.log("unquiet-served")
    with room.start(log, from_size(len(before) - 1), manifest=ENDLESS) as running:
        expect("a log that isn't large yet", running.stdout.readline(), b"open 0\n")
        expect("a change without end", ask(running, FIRST.encode()), b"made 2 unquiet\n")
        expect("a table that is compacted at a size", ask(running, b"quiet?"), b"marks 1 locks 0\n")
        expect("the log of this table", log.read_bytes(), after)
        expect("another change", ask(running, MORE[0].encode()), f"{MORE_FOUND[0]}\n".encode())
        expect("a table that isn't compacted again", ask(running, b"quiet?"), b"marks 2 locks 0\n")
        expect("the log of that table", logs.changes_in(log.read_bytes(), ENDLESS.read_bytes()), [MORE[0]])
        running.stdin.close()
        expect("what is reported of it", (running.stderr.read(), running.wait()), (b"", 0))
    return 1


# Going on


def try_going_on(room, before, after):
    """Makes the next change over both logs, and compacts them then: the first cell has 2,001 versions, the second 1,001, and both have an
    acknowledgment. Answers how many there were."""
    logs_then = []
    for name, image, found in (("unquiet-whole", before, 1), ("unquiet-parted", after, 0)):
        log = room.log(name)
        log.write_bytes(image)
        expect(f"what comes after {name}", room.run(log, MORE, ENDLESS), (0, [f"open {found}", *MORE_FOUND], ""))
        found, opened = room.opened(log, ENDLESS), [*MORE_FOUND[1:]]
        expect(f"what is found then of {name}", room.run(log, MORE[1:], ENDLESS)[1][1:], opened)
        expect(f"a compaction after {name}", room.compact(log, ENDLESS), compacted(found[0], 2001 + 1001 + 2))
        expect(f"what is found of {name} after that", without_history(room.opened(log, ENDLESS)[1]), without_history(found[1]))
        logs_then.append(log.read_bytes())
    expect("both logs", logs_then[0], logs_then[1])
    return len(logs_then)


# One cell

# The changes that leave something to do on one cell. The observer `down` writes the row before that on which it runs, and nothing from row
# 0. After the first two changes it is run once, and after the third on each row down to 1: the 1,000 passes have no run on row 0 any more.
# So that has three versions, of which the newest has commit 10 + 2 * 1,000, and of each other row there is one.
BY_ONE_CELL = ("put 0 0 05", "del 0 0", "put 1000 0 01")
MADE_BY_ONE = ["made 2 runs 1", "made 6 runs 1", "made 10 unquiet"]
OF_ROW_0 = [(1, 2, value(5)), (5, 6, "deleted"), (2009, 2010, value(42))]

# Writes the value that the changed cell had when it was acknowledged last, 8 bytes of it, and after them whether there was one, to column 5.
OLD = encoded(
    *("ldxdw r6, [r1+0]", "ldxdw r7, [r1+80]", "ldxdw r8, [r1+88]", "stxdw [r10-32], r8", "stxdw [r10-24], r7", "stdw [r10-16], 0"),
    *("stdw [r10-8], 0", "mov64 r1, r6", "mov64 r2, 5", "mov64 r3, r10", "add64 r3, -32", "call 2", "mov64 r0, 0", "exit"),
)


def one_of(name, code, **others):
    """An observer of column 0 with this program."""
    return {"name": name, "column": 0, "helpers": [2], "code": code.hex(), **others}


def try_one_cell(room):
    """A table in which something is left to do on one cell of many. Answers how many of these there were."""
    manifest, log = manifest_file(room, "down", [one_of("down", DOWN)]), room.log("one-cell")
    expect("changes that leave one cell", room.run(log, BY_ONE_CELL, manifest), (0, ["open 0", *MADE_BY_ONE], ""))
    # the other 1,000 rows, and the acknowledgments of all
    expect("a table with one cell left", room.compact(log, manifest), compacted(3, 3 + 1000 + 1001))
    snapshot, _ = logs.parts_of(log.read_bytes(), manifest.read_bytes())
    expect("what is kept of it", [(it.start, it.commit, it.content) for it in snapshot.versions if it.cell == (0, 0, 0, 0)], OF_ROW_0)
    lines = ["quiet?", "put 0 3 00", "quiet?", "get 0 0", "compact"]
    # with the cell of column 3, and one version of row 0
    answers = ["marks 1 locks 0", "made 2012 runs 1", "quiet", "value 2a commit 2010", f"compacted {1 + 1 + 1000 + 1001}"]
    expect("what comes after that cell", room.run(log, lines, manifest), (0, ["open 0", *answers], ""))
    return 1 + try_old_version(room)


def try_old_version(room):
    """An observer that gets what the cell had when it was acknowledged last has it from what the snapshot kept: of the first change, where the
    second one is left out."""
    manifest = manifest_file(room, "down-and-old", [one_of("down", DOWN), one_of("old", OLD, record=2)], profile=2)
    for is_compacted in (False, True):
        log = room.log("old-version")
        lines = ["put 0 0 05", "put 1000 0 01", *(["compact"] if is_compacted else []), "put 0 3 00", "get 0 5", "quiet?"]
        # Each change and each run has two timestamps. Two runs follow the first change, which are over at 6. The second one has 8, and each
        # of 1,000 rows two runs, of which `down` is before `old`: that of row 1 writes row 0.
        made = ["made 2 runs 2", "made 8 unquiet", "made 4010 runs 2", f"value {(5).to_bytes(8, 'little').hex()}01 commit 4014", "quiet"]
        if is_compacted:
            # Of row 0 two versions; the other rows; both acknowledgments of each; and what `old` wrote of each but row 0 so far, and there.
            made.insert(2, f"compacted {2 + 1000 + 2 * 1001 + 1001}")
        what = f"an older version, where the log is{' ' if is_compacted else ' not '}compacted"
        expect(what, room.run(log, lines, manifest), (0, ["open 0", *made], ""))
    return 1


# Manifests

# The changes of a table with the endless observer and with `copy`, which copies column 0 to column 1. In the first pass `copy` runs before the
# other one, since its cell comes first. So the clock is 2 + 2 * 1,001, and 1,001 versions of the cell of column 15 stand there.
OF_BOTH = f"{FIRST}; put 7 0 2b"


def manifests_of(endless):
    """Observers that the table gets, by what they are, with what is printed of them, how many versions there are then, and how many cells
    are marked. The cells of columns 0 and 1 have one version each, and so has each acknowledgment. Passes that are made for others go on
    with the endless one: by 1,000 runs, of which each writes its cell."""
    other = {**endless, "name": "other"}
    yield "none", [], (0, 0, 2), 3, 0
    yield "all but the endless one", [COPY], (0, 0, 1), 2 + 1 + 1, 0
    yield "the endless one alone", [endless], (0, 1000, 1), 2 + 2001 + 1, 1
    yield "its own", [endless, COPY], (0, 1000, 0), 2 + 2001 + 2, 1
    yield "its own in another order", [COPY, endless], (0, 1000, 0), 2 + 2001 + 2, 1
    yield "one more", [endless, COPY, AGAIN], (1, 1001, 0), 2 + 2001 + 3, 1
    # the new one stands after those that stay first, and 1,000 more passes are made once it stands before them
    yield "one more before the others", [AGAIN, endless, COPY], (1, 1001, 0), 2 + 3001 + 3, 1
    yield "another one in its place", [AGAIN, COPY], (1, 1, 1), 2 + 1 + 2, 0
    yield "another one in the place of `copy`", [endless, AGAIN], (1, 1001, 1), 2 + 2001 + 2, 1
    # it has acknowledged nothing, so that what it observes stays whole
    yield "the endless one under another name", [COPY, other], (1, 1000, 1), 2 + 2001 + 2, 1
    yield "the same before `copy`", [other, COPY], (1, 1000, 1), 2 + 3001 + 2, 1
    # in each pass both of them run
    yield "it twice", [endless, COPY, other], (1, 2000, 0), 2 + 3001 + 3, 1


def try_manifests(room):
    """Gives the table each of these observers, and makes a change of both columns then. Answers how many there were."""
    (endless,) = json.loads(ENDLESS.read_text())["observers"]
    own, log = manifest_file(room, "endless-and-copy", [endless, COPY]), room.log("given-unquiet")
    expect("a change without end, and a copy", room.run(log, [OF_BOTH], own), (0, ["open 0", "made 2 unquiet"], ""))
    before, others, table = log.read_bytes(), list(manifests_of(endless)), KeptTable(own.read_text())
    answered(table, [OF_BOTH])
    for number, (what, observers, changed, versions, marks) in enumerate(others):
        log, kept = room.log(f"given-unquiet-{number}"), copy.deepcopy(table)
        log.write_bytes(before)
        manifest = manifest_file(room, f"given-unquiet-{number}", observers)
        manifest.write_text(json.dumps(json.loads(manifest.read_text()), indent=1))
        expect(f"a table that isn't quiet, for {what}", next_generation(room, log, kept, manifest), changed)
        expect(f"its versions, for {what}", (len(kept.snapshot().versions), kept.left()), (versions, left_on(marks)))
        one_generation(room, f"that table, for {what}", log, kept, manifest, ["put 7 15 05; put 7 0 06"])
    return len(others) + try_taken_away(room, before, endless) + try_come(room, endless)


def left_on(marks):
    return f"marks {marks} locks 0" if marks else "quiet"


def try_taken_away(room, before, endless):
    """The endless observer goes: a change of its column has no run after it. It comes again, with a run on each cell of its column in each
    pass, and goes again. Answers how many these were."""
    log, rest = room.log("taken-away"), manifest_file(room, "at-rest", [COPY])
    log.write_bytes(before)
    # the cells of columns 0, 1 and 15, and an acknowledgment
    expect("an endless one that goes", room.compact(log, rest), compacted(1, 4, printed_of((0, 0, 1))))
    lines = ["quiet?", "put 7 15 05; put 8 15 06", "put 7 0 2c", "quiet?", "stats"]
    # a run of `copy` has 16 instructions; the table has 4 versions, and then 2, 1 and 2 more, with two entries for each
    size = len(log.read_bytes()) - 1 + 13 + len(f"{lines[1]}\n{lines[2]}\n")
    stats = ["stats copy runs 2 nonzero 0 conflicts 0 asks 0 instructions 32", f"log {size}", f"entries {2 * (4 + 2 + 1 + 2)}", "end"]
    wanted = ["open 0", "quiet", "made 2006 runs 0", "made 2008 runs 1", "quiet", *stats]
    expect("a table from which it is gone", room.run(log, lines, rest), (0, wanted, ""))
    # both cells have a run in each of 1,000 passes: (7, 15) had two versions, of which the snapshot that begins the passes has one
    again = manifest_file(room, "not-at-rest", [COPY, endless])
    expect("one that comes again", room.compact(log, again), compacted(2, 2 + 2 * 1001 + 1 + 2, printed_of((1, 2000, 0))))
    expect("a table to which it came", room.run(log, ["quiet?", "get 8 15"], again)[1][1:], ["marks 2 locks 0", "value ee03 commit 6010"])
    expect("one that goes again", room.compact(log, rest), compacted(0, 2 + 2 + 1, printed_of((0, 0, 1))))
    expect("a table from which it is gone again", room.run(log, ["quiet?", "put 7 15 05"], rest)[1][1:], ["quiet", "made 6012 runs 0"])
    return 3


def try_come(room, endless):
    """A quiet table gets an observer that doesn't come to rest, behind its own or before them. Answers how many of these there were."""
    log, own = room.log("quiet-before"), json.loads(room.manifest.read_text())["observers"]
    expect("a change of another column", room.run(log, [FIRST])[1][1:], ["made 2 runs 0"])
    before, its = log.read_bytes(), {**endless, "name": "endless"}
    for observers, gone, versions in (([*own, its], 0, 1001 + 1), ([its, *own[1:]], 1, 2001 + 1)):
        log.write_bytes(before)
        manifest = manifest_file(room, "with-endless", observers)
        wanted = compacted(1, versions, printed_of((1, 1000, gone)))
        expect("an observer that doesn't come to rest", room.compact(log, manifest), wanted)
        expect("what it leaves", room.run(log, ["quiet?"], manifest), (0, ["open 0", "marks 1 locks 0"], ""))
    return 2


# Lists


def try_lists(room, chance):
    """Gives a table random lists, of which some have the endless observer. Answers how many of them left something to do."""
    (endless,) = json.loads(ENDLESS.read_text())["observers"]
    # the counter changes the cell that the endless one observes, too
    some = [endless, COPY, AGAIN, observer("counter", name="of-0"), observer("grader", name="of-2", column=2)]
    own, log, unquiet = [endless], room.log("unquiet-lists"), 0
    manifest = manifest_file(room, "unquiet-lists", own)
    kept = KeptTable(manifest.read_text())
    for number in range(LISTS):
        # the first change is one without end
        part = [chance.choice(CHANGES) if number else CHANGES[0]]
        one_generation(room, f"list {number} of a table that isn't quiet", log, kept, manifest, part)
        own = [it for it in chance.sample(some, len(some)) if chance.random() < (0.7 if it is endless else 0.5)]
        manifest = manifest_file(room, f"unquiet-lists-{number}", own)
        next_generation(room, log, kept, manifest)
        unquiet += kept.left() != "quiet"
    expect("how many random lists left something to do", unquiet >= LEAST_UNQUIET, True)
    return unquiet


# Last


def try_last(room):
    """Tables that have no timestamp left, or few. Answers how many there were."""
    cell = Version(1, (7, 0, 0, 0), 2, value(42))
    none, copying = manifest_file(room, "none", []), manifest_file(room, "copying", [COPY])
    log, own = room.log("last"), none.read_bytes()

    def begins(clock):
        log.write_bytes(logs.log_of([logs.header(own), logs.snapshot_record(Snapshot(clock, [], [cell]))]))
        return log.read_bytes()

    before = begins(LAST)
    for manifest, what in ((none, "its own observers"), (copying, "others")):
        wanted = (1, "open 0\n", line_of(NO_TIMESTAMP))
        expect(f"a table without a timestamp left, for {what}", room.compact(log, manifest), wanted)
    served = room.run(log, ["compact", "quiet?"], none, from_size(0))
    reported = f"{log}: not compacted: {NO_TIMESTAMP}\n"
    expect("a table without a timestamp left, at a size", served, (0, ["open 0", "refused 78", "quiet"], reported))
    expect("its log", (log.read_bytes(), left_of(log)), (before, []))
    # a run has two timestamps
    for clock, added in ((LAST - 1, ""), (LAST - 2, printed_of((1, 1, 0)))):
        before = begins(clock)
        wanted = (1, f"open 0\n{added}", line_of(NO_TIMESTAMP))
        expect(f"a run on a table with {LAST - clock} timestamps", room.compact(log, copying), wanted)
        expect(f"the log with {LAST - clock} timestamps", (log.read_bytes(), left_of(log)), (before, []))
    begins(LAST - 3)
    # the cell, its copy and an acknowledgment
    expect("a run that leaves one timestamp", room.compact(log, copying), compacted(0, 3, printed_of((1, 1, 0))))
    begins(LAST - 1)
    expect("a table with one timestamp", room.compact(log, none), compacted(0, 1))
    return 7


def try_marks(room):
    """Snapshots that no program has taken, of a cell and an acknowledgment of it: a cell is marked where the newest write is above what
    was acknowledged, and not where it isn't, however many versions there are. Answers how many there were."""
    manifest, log = manifest_file(room, "marks", [COPY]), room.log("marks")
    header, first, ack = logs.header(manifest.read_bytes()), Version(1, (7, 0, 0, 0), 2, value(1)), Version(5, (7, 0, 1, 0), 6, 5)
    later = [replace(first, start=start, commit=start + 1) for start in (3, 7)]
    rows = (([first], 1), ([first, ack], 0), ([first, later[0], ack], 0), ([first, ack, later[1]], 1), ([first, later[0], ack, later[1]], 1))
    others = (([replace(first, cell=(7, 1, 0, 0))], 0), ([replace(first, content="deleted")], 1), ([ack], 0), ([], 0))
    for versions, marks in (*rows, *others):
        snapshot = Snapshot(9, [(0, 0, 0, 0, 0)], versions)
        log.write_bytes(logs.log_of([header, logs.snapshot_record(snapshot)]))
        lines = ["quiet?", "put 0 3 00", "quiet?"]
        answers = [left_on(marks), f"made 11 runs {marks}", "quiet"]
        expect(f"marks of {len(versions)} versions", room.run(log, lines, manifest), (0, ["open 0", *answers], ""))
    return len(rows) + len(others)


def try_all(room, chance):
    """Tries all of it, and answers what was met, in words and as numbers."""
    before, after = endless_log(room)
    return {
        "ways for unquiet tables": try_ways(room, before, after),
        "unquiet tables that go on": try_going_on(room, before, after) + try_one_cell(room),
        "manifests for unquiet tables": try_manifests(room),
        "lists that left something": try_lists(room, chance),
        "tables of few timestamps": try_last(room),
        "marks of snapshots": try_marks(room),
    }
