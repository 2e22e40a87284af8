"""Tables with a limit of entries, for `checks/keep`. What is expected is worked out by hand: a change of one cell leaves two entries, and a
run two for each cell that it writes and two for its acknowledgment.

- changes: a table takes a change with an entry less than its limit, and refuses it with as many, before it is put into the log.
- records: lines that come at once, and groups. The limit is looked at for the first change of a record.
- drains: how many runs follow a change. The limit has room for what each may leave, and the next change goes on with what is left.
- upwards: an observer that writes row after row comes to its end, and the log is opened with little memory.
- names: the limit of a log stands in its first record. Another one is refused, but for `--compact`.
- room: a compaction that drops versions makes room, and so does a larger limit.
- heads: logs that name no limit, and lines that are none.
- last: tables with few timestamps left take no change, whatever their limit.
"""
from __future__ import annotations

import re

import logs
from keep_compactions import compacted, from_size
from keep_ends import ask, expect
from keep_manifests import COPY, manifest_file, printed_of
from keep_room import answers_in_turn, left_of, line_of
from logs import Snapshot, Version
from model import LAST
from sessions import OTHER_LIMIT
from tables import encoded

# A program that writes the cell in the row after its own, without end, and one that writes its own cell and the others of its row.
TO = ("ldxdw r6, [r1+0]", "stdw [r10-32], 42", "stdw [r10-24], 0", "stdw [r10-16], 0", "stdw [r10-8], 0")
UP = encoded(*TO, "mov64 r1, r6", "add64 r1, 1", "mov64 r2, 0", "mov64 r3, r10", "add64 r3, -32", "call 2", "mov64 r0, 0", "exit")
CELLS = [line for column in range(16) for line in ("mov64 r1, r6", f"mov64 r2, {column}", "mov64 r3, r10", "add64 r3, -32", "call 2")]
WIDE = encoded(*TO, *CELLS, "mov64 r0, 0", "exit")

# How many entries a run is reckoned with, and how many a change leaves at most.
OF_RUN, OF_CHANGE = 34, 32
# The greatest last timestamp of a table that takes a change: below 2^64 by two timestamps of 10,000 changes, and of 100,000 runs of each.
MAX_CLOCK = 18_446_744_071_562_067_968
# The limit of a table whose observer goes upwards, how much memory it is opened with, and what two changes take where nothing bounds it.
UPWARDS, MEMORY = 100_000, 200 << 20
IN_PART = re.compile(r"Error: no memory: ([01]) of 2 changes were made\n")

FULL = "refused 79"


def limited(limit):
    """The words by which a limit is named."""
    return "--limit", str(limit)


def manifests(room):
    """Manifests by what their observers do."""
    its = {"none": [], "copy": [COPY], "up": [one_of(UP)], "wide": [one_of(WIDE)]}
    return {name: manifest_file(room, f"limit-{name}", observers) for name, observers in its.items()}


def one_of(code):
    """An observer of column 0."""
    return {"name": "one", "column": 0, "helpers": [2], "code": code.hex()}


def puts(count, first=1):
    """Changes of so many cells, each of one."""
    return [f"put {row} 0 2a" for row in range(first, first + count)]


def in_turn(room, log, manifest, lines, *options):
    """What is answered to lines, each of which is sent once the one before it is answered."""
    with room.start(log, options, manifest) as running:
        status, out, errors = answers_in_turn(running, [[line] for line in lines])
    expect("lines in turn", (status, errors), (0, ""))
    return out


def done_in(room, log, manifest):
    """How many runs the only observer of a table had, and how many entries the table has, once its log is opened."""
    status, out, errors = room.run(log, ["stats"], manifest)
    expect("a log that is opened", (status, errors), (0, ""))
    return int(out[1].split()[3]), int(next(line for line in out if line.startswith("entries ")).split()[1])


# Changes


def try_changes(room, of):
    """Makes changes until they are refused, under limits beside each other. Answers how many limits there were."""
    limits = {0: 0, 1: 1, 2: 1, 3: 2, 4: 2, 5: 3, 6: 3, 7: 4}
    for limit, count in limits.items():
        log, lines = room.log("changes"), puts(6)
        wanted = ["open 0", *(f"made {2 * number} runs 0" for number in range(1, count + 1)), *[FULL] * (6 - count)]
        expect(f"changes under a limit of {limit}", in_turn(room, log, of["none"], lines, *limited(limit)), wanted)
        file = logs.log_of([logs.header(of["none"].read_bytes(), limit), *(f"{line}\n".encode() for line in lines[:count])])
        expect(f"the log under a limit of {limit}", log.read_bytes(), file)
        # a full table answers whatever isn't a change, and refuses by its form what is none
        asked = ["put 9 0 2", "get 1 0", "put 9 0 2a", "nothing", "del 1 0", "quiet?", "put 9 16 2a", "stats"]
        answers = ["refused 72", "value 2a commit 2" if count else "absent", FULL, "refused 70", FULL, "quiet", "refused 71"]
        stats = [f"log {len(file) - 1}", f"entries {2 * count}", "end"]
        is_full = 2 * count >= limit
        expect(f"a full table of {limit}", (room.run(log, asked, of["none"]), is_full), ((0, [f"open {count}", *answers, *stats], ""), True))
        expect(f"its log of {limit}", log.read_bytes(), file)
    return len(limits)


def try_conditions(room, of):
    """Changes with conditions. The form is looked at first, then the condition, and then the limit. Answers how many there were."""
    log = room.log("conditions")
    rows = (
        ("if 1 0 0; put 1 0 2a", "made 2 runs 0"),
        ("if 1 0 0; put 2 0 2a", "unmade commit 2"),
        ("if 1 0 2; put 2 0 2a", FULL),
        ("if 2 0 0; put 2 0 2a", FULL),
        ("if 2 0 7; put 2 0 2a", "unmade commit 0"),
        ("if 1 0 2; put 2 0 2", "refused 72"),
        ("if 1 0 3; put 2 0 2", "refused 72"),
        ("if 1 16 2; put 2 0 2a", "refused 71"),
        ("if 1 0 2; del 1 0", FULL),
    )
    out = in_turn(room, log, of["none"], [line for line, _ in rows], *limited(2))
    expect("conditions on a full table", out, ["open 0", *(answer for _, answer in rows)])
    expect("the log of these", logs.changes_in(log.read_bytes(), of["none"].read_bytes()), ["put 1 0 2a"])
    return len(rows)


# Records


def records():
    """Lines that come at once, by what they are, with the limit and the answers."""
    one, two, three = puts(3)
    made = [f"made {commit} runs 0" for commit in (2, 4, 6)]
    yield "one record", 1, [one, two, three], made
    yield "one record, on a full table", 0, [one, two, three], [FULL] * 3
    yield "a malformed line first", 1, ["put 1 0 2", one, two], ["refused 72", *made[:2]]
    yield "a question between", 4, [one, two, "quiet?", three], [*made[:2], "quiet", FULL]
    yield "a question between, with an entry more", 5, [one, two, "quiet?", three], [*made[:2], "quiet", made[2]]
    yield "a condition between", 2, [one, two, "if 3 0 0; put 3 0 2a"], [*made[:2], FULL]
    yield "a condition between that isn't met", 2, [one, "if 3 0 1; put 3 0 2a", two], [made[0], "unmade commit 0", FULL]
    yield "a condition first", 1, ["if 1 0 0; put 1 0 2a", two, three], made
    yield "a group", 1, ["begin", one, two, "end", "quiet?", three], ["begun", *made[:2], "ended", "quiet", FULL]
    yield "a group on a full table", 0, ["begin", one, two, "end"], ["begun", FULL, FULL, "ended"]
    yield "faults in a group on a full table", 0, ["begin", "put 1 0 2", one, "quiet?", "end"], ["begun", "refused 72", FULL, "refused 76", "ended"]
    yield "a group after a change", 2, [one, "begin", two, three, "end"], [made[0], "begun", FULL, FULL, "ended"]
    yield "a change after a group", 1, ["begin", one, "end", two, "end", three], ["begun", made[0], "ended", made[1], "refused 76", made[2]]
    yield "a change after an empty group", 0, ["begin", "end", one], ["begun", "ended", FULL]
    yield "a compaction between", 2, [one, two, "compact", three], [*made[:2], "compacted 2", FULL]
    wide = "; ".join(f"put 1 {column} 2a" for column in range(16))
    yield "sixteen cells each", 1, [wide, wide, wide], made


def try_records(room, of):
    """Sends lines at once: fewer bytes than a pipe takes as one piece. Answers how many of these there were."""
    its = list(records())
    for what, limit, lines, answers in its:
        log = room.log("records")
        status, out, errors = room.run(log, lines, of["none"], limited(limit))
        expect(f"{what}, under a limit of {limit}", (status, out, errors), (0, ["open 0", *answers], ""))
        made, found = sum(it.startswith("made ") for it in answers), room.opened(log, of["none"])[0]
        changes = 0 if "compact" in lines else made
        expect(f"the changes of the log: {what}", (found, len(logs.changes_in(log.read_bytes(), of["none"].read_bytes()))), (changes, changes))
    log, many = room.log("full-group"), puts(10_002)
    out = room.run(log, ["begin", *many, "end", many[0]], of["none"], limited(1))[1]
    wanted = ["open 0", "begun", *(f"made {2 * number} runs 0" for number in range(1, 10_001)), "refused 75", "refused 75", "ended"]
    expect("a group of more changes than a record has room for", (out[:-1], out[-1]), (wanted, FULL))
    out = room.run(log, ["begin", *many, "end"], of["none"])[1]
    expect("the same on a full table", out, ["open 10000", "begun", *[FULL] * 10_002, "ended"])
    return len(its) + 2


# Drains


def drains():
    """Limits, observers, a first change, its answer, and how many runs and entries there are then."""
    yield 33, "copy", "put 7 0 2a", "made 2 unquiet", 0, 2
    yield 34, "copy", "put 7 0 2a", "made 2 runs 1", 1, 6
    # both cells have a run
    yield 67, "copy", "put 7 0 2a; put 8 0 2a", "made 2 unquiet", 1, 8
    yield 68, "copy", "put 7 0 2a; put 8 0 2a", "made 2 runs 2", 2, 12
    yield 1, "copy", "put 7 1 2a", "made 2 runs 0", 0, 2
    yield 1, "up", "put 7 0 2a", "made 2 unquiet", 0, 2
    yield 101, "up", "put 7 0 2a", "made 2 unquiet", 2, 10
    yield 102, "up", "put 7 0 2a", "made 2 unquiet", 3, 14
    # each run leaves as many entries as it is reckoned with, and the change two
    yield 339, "wide", "put 7 0 2a", "made 2 unquiet", 9, 2 + 9 * OF_RUN
    yield 340, "wide", "put 7 0 2a", "made 2 unquiet", 10, 2 + 10 * OF_RUN
    # nothing but the limit of runs bounds these
    yield OF_RUN * 100_000, "up", "put 7 0 2a", "made 2 unquiet", 100_000, 400_002
    yield OF_RUN * 100_000 - 1, "up", "put 7 0 2a", "made 2 unquiet", 99_999, 399_998
    yield logs.NO_LIMIT, "up", "put 7 0 2a", "made 2 unquiet", 100_000, 400_002


def try_drains(room, of):
    """Makes a change under each of these limits. Answers how many there were."""
    its = list(drains())
    for limit, name, change, answer, runs, entries in its:
        log, what = room.log("drains"), f"{change} under a limit of {limit}, with `{name}`"
        marks = "marks 1 locks 0" if answer.endswith("unquiet") else "quiet"
        expect(what, in_turn(room, log, of[name], [change, "quiet?"], *limited(limit)), ["open 0", answer, marks])
        # a log that is opened has the same number of them
        expect(f"the runs of {what}", done_in(room, log, of[name]), (runs, entries))
    return len(its) + try_next(room, of)


# Of `up` under a limit of 340, after a change of its column, and after changes of another: the commit, and how many runs and entries there
# are then. Of 340 entries each run is reckoned with 34, and it leaves 4; a change leaves 2.
NEXT = ((2, 10, 42), (24, 18, 76), (42, 25, 106), (58, 31, 132))


def try_next(room, of):
    """The next change goes on with what is left, with as many runs as there is room for then, and at last with none. Answers how many changes
    there were, up to the first that is refused."""
    log, number, runs, entries, clock = room.log("next"), 0, 0, 0, 0
    with room.start(log, limited(340), of["up"]) as running:
        running.stdout.readline()
        while (answer := ask(running, b"put 5 15 2a" if number else b"put 7 0 2a").decode().strip()) != FULL:
            commit, more = clock + 2, max(340 - entries, 0) // OF_RUN
            expect(f"change {number} of an observer that goes on", answer, f"made {commit} unquiet")
            runs, entries, clock = runs + more, entries + 2 + 4 * more, commit + 2 * more
            if number < len(NEXT):
                expect(f"what it has done after change {number}", (commit, runs, entries), NEXT[number])
            number += 1
        running.stdin.close()
        expect("the end of these", (running.wait(), running.stderr.read()), (0, b""))
    expect("a full table of an observer that goes on", (entries >= 340, entries <= 340 + OF_CHANGE), (True, True))
    expect("what it has done", done_in(room, log, of["up"]), (runs, entries))
    return number


# Upwards


def try_upwards(room, of):
    """Makes changes under an observer that goes upwards, until one is refused. The log is opened with little memory then, and a log of two of
    these changes without a limit isn't. Answers how many changes were made."""
    log, runs, entries, made = room.log("upwards"), 0, 0, 0
    with room.start(log, limited(UPWARDS), of["up"]) as running:
        running.stdout.readline()
        while (answer := ask(running, b"put 7 0 2a")) != f"{FULL}\n".encode():
            expect("a change under an observer that goes upwards", answer.endswith(b" unquiet\n"), True)
            more, made = max(UPWARDS - entries, 0) // OF_RUN, made + 1
            runs, entries = runs + more, entries + 2 + 4 * more
        running.stdin.close()
        expect("the end of these", (running.wait(), running.stderr.read()), (0, b""))
    expect("a full table of an observer that goes upwards", UPWARDS <= entries <= UPWARDS + OF_CHANGE, True)
    little = room.run_by(["prlimit", f"--as={MEMORY}"])
    expect("what it has done, by a start with little memory", done_in(little, log, of["up"]), (runs, entries))
    change, header = b"put 7 0 2a\n", logs.header(of["up"].read_bytes(), logs.NO_LIMIT)
    log.write_bytes(logs.log_of([header, change, change]))
    status, out, errors = little.run(log, [], of["up"])
    expect("a start without a limit", (status, out, bool(IN_PART.fullmatch(errors))), (1, [], True))
    return made


# Names


def head_of(log):
    """The first record of a log."""
    return logs.records_in(log.read_bytes())[0][1]


def try_names(room, of):
    """Names limits of new logs and of logs that have one. Answers how many there were."""
    manifest, rows = of["none"].read_bytes(), 0
    for limit, line in ((0, b"limit 0\n"), (7, b"limit 7\n"), (2**64 - 2, b"limit 18446744073709551614\n"), (2**64 - 1, b""), (None, b"limit 10000000\n")):
        log, words, other = room.log("named"), limited(limit) if limit is not None else (), limited(8)
        expect(f"a new log with the words {words}", room.run(log, [], of["none"], words), (0, ["open 0"], ""))
        expect(f"its first record, with the words {words}", head_of(log), b"percobpf log 1\n" + line + manifest)
        before = log.read_bytes()
        for own in (words, (), (*words, *from_size(2**63))):
            expect(f"its own limit, {own}", room.run(log, ["quiet?"], of["none"], own), (0, ["open 0", "quiet"], ""))
        for named in (other, (*other, *from_size(0)), limited(10_000_001), limited(9_999_999)):
            wanted = (1, [], line_of(f"{log}: {OTHER_LIMIT}"))
            expect(f"another limit, {named}", room.run(log, ["put 7 0 2a"], of["none"], named), wanted)
        expect(f"the log after the words {words}", (log.read_bytes(), left_of(log)), (before, []))
        rows += 1 + 3 + 4
    log = room.log("unnamed")
    wrong = [limited(word) for word in ("", "x", "+5", "-1", "05", "5 ", 2**64)]
    wrong += [("--limit",), ("--compact", *limited(5)), (*from_size(5), *limited(5)), (*limited(5), *limited(5)), ("--limit=5",)]
    for options in wrong:
        status, out, errors = room.run(log, [], of["none"], options)
        is_usage = errors.count("\n") == 1 and "`percobpf_keep --help` has more" in errors
        expect(f"the words {options}", (status, out, is_usage, log.exists()), (1, [], True, False))
    return rows + len(wrong)


# Room


def try_room(room, of):
    """Compactions of full tables. Answers how many there were."""
    log, own = room.log("room"), of["none"]
    three = ["put 7 0 01", "put 7 0 02", "put 7 0 03"]
    made = ["made 2 runs 0", "made 4 runs 0", "made 6 runs 0"]
    # three versions of one cell, of which a compaction keeps one
    expect("three versions", in_turn(room, log, own, [*three, three[0]], *limited(6)), ["open 0", *made, FULL])
    full = log.read_bytes()
    wanted = ["open 3", FULL, "compacted 1", "made 8 runs 0", "made 10 runs 0", FULL]
    expect("a line that makes room", in_turn(room, log, own, [three[0], "compact", *three]), wanted)
    expect("the limit of that log", logs.limit_in(log.read_bytes()), 6)
    log.write_bytes(full)
    wanted = ["open 0", "made 8 runs 0", "made 10 runs 0", FULL]
    expect("a size that makes room", in_turn(room, log, own, three, *from_size(0)), wanted)
    for limit, made in ((None, 2), (3, 1), (2, 0), (0, 0), (7, 3), (logs.NO_LIMIT, 3)):
        log.write_bytes(full)
        words, next_limit = ((), 6) if limit is None else (limited(limit), limit)
        expect(f"a compaction with the words {words}", room.compact(log, own, words), compacted(3, 1))
        expect(f"its log, {words}", (head_of(log), left_of(log)), (logs.header(own.read_bytes(), next_limit), []))
        wanted = ["open 0", *(f"made {commit} runs 0" for commit in (8, 10, 12)[:made]), *[FULL] * (3 - made)]
        expect(f"changes after it, {words}", in_turn(room, log, own, three), wanted)
    # three cells, of which nothing is dropped
    log = room.log("no-room")
    expect("three cells", in_turn(room, log, own, puts(4), *limited(6)), ["open 0", "made 2 runs 0", "made 4 runs 0", "made 6 runs 0", FULL])
    expect("a compaction that drops nothing", room.compact(log, own), compacted(3, 3))
    expect("a table that stays full", in_turn(room, log, own, ["put 9 0 2a", "compact", "put 9 0 2a"]), ["open 0", FULL, "compacted 3", FULL])
    # each cell has a run of an observer that comes, whatever the limit
    expect("an observer that comes to a full table", room.compact(log, of["copy"]), compacted(0, 9, printed_of((1, 3, 0))))
    expect("a full table with an observer", room.run(log, ["put 9 0 2a", "quiet?"], of["copy"]), (0, ["open 0", FULL, "quiet"], ""))
    expect("a larger limit for it", room.compact(log, of["copy"], limited(18 + OF_RUN)), compacted(0, 9))
    expect("a change with it", room.run(log, ["put 9 0 2a", "stats"], of["copy"])[1][1:3], ["made 14 runs 1", STATS_OF_FOUR])
    # the log of before has the limit of before, until the new one stands
    log.write_bytes(logs.log_of([logs.header(of["up"].read_bytes(), OF_RUN * 3), b"put 7 0 2a\n"]))
    expect("a larger limit for a drain that was cut off", room.compact(log, of["up"], limited(OF_RUN * 9)), compacted(1, 4 + 3))
    # of 14 entries before the change
    expect("what goes on with it", room.run(log, ["put 7 15 2a"], of["up"])[1], ["open 0", "made 10 unquiet"])
    expect("its runs", done_in(room, log, of["up"]), (3 + (OF_RUN * 9 - 14) // OF_RUN, 14 + 2 + 4 * ((OF_RUN * 9 - 14) // OF_RUN)))
    return 3 + 6 + 6


# Four runs of `copy`, each of 16 instructions.
STATS_OF_FOUR = "stats copy runs 4 nonzero 0 conflicts 0 asks 0 instructions 64"


# Heads


def try_heads(room, of):
    """Logs that name no limit have none, and stay so; and what is no line of a limit is another manifest. Answers how many there were."""
    log, manifest = room.log("heads"), of["none"].read_bytes()
    header, change = logs.header(manifest, logs.NO_LIMIT), b"put 7 0 2a\n"
    expect("a header without a limit", header, b"percobpf log 1\n" + manifest)
    log.write_bytes(logs.log_of([header, change]))
    expect("a log without a limit", room.run(log, ["put 7 0 2b"], of["none"]), (0, ["open 1", "made 4 runs 0"], ""))
    expect("its first record", head_of(log), header)
    before = log.read_bytes()
    wanted = (1, [], line_of(f"{log}: {OTHER_LIMIT}"))
    expect("a limit for a log without one", room.run(log, ["put 7 0 2b"], of["none"], limited(logs.DEFAULT_LIMIT)), wanted)
    expect("that log", log.read_bytes(), before)
    expect("a compaction of a log without a limit", (room.compact(log, of["none"]), head_of(log)), (compacted(2, 1), header))
    expect("one that gives it a limit", room.compact(log, of["none"], limited(2)), compacted(0, 1))
    expect("that limit", (head_of(log), room.run(log, ["put 7 0 2a"], of["none"])[1]), (logs.header(manifest, 2), ["open 0", FULL]))
    expect("one that takes it away", room.compact(log, of["none"], limited(logs.NO_LIMIT)), compacted(0, 1))
    expect("a log without a limit again", (head_of(log), room.run(log, ["put 7 0 2a"], of["none"])[1]), (header, ["open 0", "made 6 runs 0"]))
    lines = ("007", "00", "+7", "-7", "7 ", " 7", "", "x", "7\r", "0x7", "7_0", "18446744073709551615", "18446744073709551616", "9" * 40)
    heads = [*(f"limit {word}\n".encode() for word in lines), b"limit 7", b"Limit 7\n", b"limit  7\n", b"limit 7\nlimit 7\n", b"\nlimit 7\n", b" limit 7\n"]
    for head in heads:
        log.write_bytes(logs.log_of([b"percobpf log 1\n" + head + manifest, change]))
        before = log.read_bytes()
        expect(f"a log that begins with {head}", room.run(log, ["list"], of["none"]), (1, [], line_of(logs.OTHER_MANIFEST)))
        # its own manifest is read first, and is none
        expect(f"a compaction of a log that begins with {head}", room.compact(log, of["none"]), (1, "", line_of("code 50")))
        expect(f"the log that begins with {head}", (log.read_bytes(), left_of(log)), (before, []))
    return 6 + len(heads) + try_torn(room, of)


def try_torn(room, of):
    """What a crash leaves before the first record is there is a new log for the same words, and for those whose record is no shorter. Answers
    how many there were."""
    log, manifest = room.log("torn"), of["none"].read_bytes()
    rows = ((7, 7, True), (7, 8, True), (7, 70, True), (7, None, True), (70, 7, False), (None, 7, False), (logs.NO_LIMIT, 7, True), (7, logs.NO_LIMIT, False))
    for of_before, limit, is_new in rows:
        header = logs.header(manifest, logs.DEFAULT_LIMIT if of_before is None else of_before)
        log.write_bytes(bytes([logs.CLOSED]) + logs.log_of([header])[1:])
        words = () if limit is None else limited(limit)
        wanted = (0, ["open 0"], "") if is_new else (1, [], line_of(logs.NO_LOG))
        expect(f"a torn log of {of_before} with the words {words}", room.run(log, [], of["none"], words), wanted)
        if is_new:
            expect("its first record", head_of(log), logs.header(manifest, logs.DEFAULT_LIMIT if limit is None else limit))
    return len(rows)


# Last


def try_last(room, of):
    """Tables near their last timestamp, with a limit and without one. Answers how many there were."""
    expect("whether timestamps are left for all changes of a record", LAST - MAX_CLOCK > 10_000 * 2 * 100_001, True)
    cell, own = Version(1, (7, 0, 0, 0), 2, bytes([42]) + bytes(31)), of["none"].read_bytes()
    for limit in (logs.DEFAULT_LIMIT, logs.NO_LIMIT):
        for clock in (MAX_CLOCK - 1, MAX_CLOCK, MAX_CLOCK + 1, LAST - 1, LAST):
            log = room.log("last-changes")
            log.write_bytes(logs.log_of([logs.header(own, limit), logs.snapshot_record(Snapshot(clock, [], [cell]))]))
            is_taken, before = clock <= MAX_CLOCK, log.read_bytes()
            lines = ["put 8 0 2a", "get 7 0", f"since {clock}", "if 7 0 2; del 7 0", "begin", "put 9 0 2a", "put 9 0 2b", "end", "quiet?"]
            written = [f"cell 8 0 commit {clock + 2} value 2a"] if is_taken else []
            # the change that takes the clock beyond is the first one, or the second
            first = [f"made {clock + 2} runs 0" if is_taken else FULL, "value 2a commit 2", *written, "end"]
            rest = [FULL, "begun", FULL, FULL, "ended", "quiet"]
            expect(f"changes at {clock}, with a limit of {limit}", room.run(log, lines, of["none"]), (0, ["open 0", *first, *rest], ""))
            after = logs.changes_in(log.read_bytes(), own)
            expect(f"the log at {clock}", (after, log.read_bytes() == before), (lines[:1] if is_taken else [], not is_taken))
            versions = f"compacted {1 + is_taken}" if clock != LAST else "refused 78"
            expect(f"a compaction at {clock}", room.run(log, ["compact", "get 7 0"], of["none"])[1][1:], [versions, "value 2a commit 2"])
    log, many = room.log("last-record"), puts(10_000)
    log.write_bytes(logs.log_of([logs.header(own), logs.snapshot_record(Snapshot(MAX_CLOCK, [], [cell]))]))
    out = room.run(log, ["begin", *many, "end", many[0]], of["none"])[1]
    wanted = ["open 0", "begun", *(f"made {MAX_CLOCK + 2 * number} runs 0" for number in range(1, 10_001)), "ended", FULL]
    expect("as many changes as a record may have, with the timestamps that are left for them", out, wanted)
    return 10 + 1


def try_all(room):
    """Tries all of it, and answers what was met, in words and as numbers."""
    of = manifests(room)
    return {
        "limits of tables": try_changes(room, of),
        "conditions under a limit": try_conditions(room, of),
        "records under a limit": try_records(room, of),
        "drains under a limit": try_drains(room, of),
        "changes of an observer that goes upwards": try_upwards(room, of),
        "limits that were named": try_names(room, of),
        "compactions of full tables": try_room(room, of),
        "first records": try_heads(room, of),
        "tables near their last timestamp": try_last(room, of),
    }
