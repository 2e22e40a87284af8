"""Compactions of a log (`percobpf_keep --compact`), for `checks/keep`.

- generations: a log that is compacted again and again answers as one that never is.
- interrupted: at each call of a compaction that changes a file or a folder, the program is killed, or the call fails.
- left: what a crash of the machine leaves of a new log is removed by the next compaction. What else has its name stays, and isn't in its
  way. What tables beside a log have of compactions is tried by the names (keep_names.py).
- snapshots: records of snapshots, with right sums, of which bytes are changed, or whose versions no table has.
- refused: a log that another program has open, that isn't there, or that is damaged, folders at all names of a new log, and a full disk.
- meanwhile: another program opens the log while it is compacted.
- sizes: a log that is compacted as it is opened, if it has so many bytes (`--compact-at`), and then served.

What is found after each is one of two logs, that of before and the compacted one, byte by byte, since a table has one snapshot. Tables
that aren't quiet have their own rows (keep_unquiet.py).
"""
from __future__ import annotations

import json
import shlex
import stat
import sys
from collections import Counter
from dataclasses import dataclass, replace
from pathlib import Path

import logs
from keep_ends import IN_USE, NO_SPACE, SmallDisk, expect
from keep_room import QUESTIONS, beside, free_names, left_of, line_of, made_in, new_names, take_names, without_history

NO_FILE, REPLACED = "No such file or directory (os error 2)", "another log was put in its place, start again"
KINDS = ("kill", "after", "torn", "short", "enospc", "eio")

# How many changes each generation has, and how many generations there are.
PART, GENERATIONS = 15, 5

# How many records of snapshots with changed bytes are tried, and how many changes follow a snapshot whose log is turned.
CHANGED, LATER = 150, 3


def compacted(changes, versions, added=""):
    """What a compaction of a log with so many changes prints, with what it prints of other observers, and its status."""
    return 0, f"open {changes}\n{added}compacted {versions}\n", ""


# Generations


def try_generations(room, changes):
    """Makes the same changes over a log that is compacted after each part of them, and over one that isn't. Answers how many there were."""
    whole, parted, begun = room.log("whole"), room.log("parted"), 0
    for number in range(GENERATIONS):
        part = changes[number * PART : (number + 1) * PART]
        lines = [*part, *QUESTIONS, f"since {begun}"]
        of_whole, of_parted = room.run(whole, lines), room.run(parted, lines)
        expect("the first lines of both logs", (of_whole[1][0], of_parted[1][0]), (f"open {number * PART}", "open 0"))
        expect(f"generation {number}", of_parted[2], "")
        expect(f"generation {number}", without_history(of_parted[1][1:]), without_history(of_whole[1][1:]))
        expect("the changes of a generation", made_in(of_parted[1]), len(part))
        status, out, errors = room.compact(parted)
        snapshot, scripts = logs.parts_of(parted.read_bytes(), room.manifest.read_bytes())
        expect("a compaction", (status, out, errors), compacted(len(part), len(snapshot.versions)))
        expect("the scripts of a compacted log, and what is left beside it", (scripts, left_of(parted)), ([], []))
        begun = snapshot.clock
        gone = room.run(parted, [f"since {begun - 1}", f"since {begun}"])
        expect("what is gone", gone, (0, ["open 0", f"refused 77 {begun}", "end"], ""))
    return GENERATIONS


# Interrupted


@dataclass(frozen=True)
class Log:
    """A log of before and what it is once it is compacted, what is found in either, how many changes and versions it has, and what
    comes next: the answers to a change after it is compacted. That is done for a manifest with other observers, where one is given;
    what is printed of these is `added`."""

    before: bytes
    after: bytes
    found: dict[bytes, tuple]
    changes: int
    versions: int
    next: tuple
    manifest: Path | None = None
    added: str = ""

    def manifest_of(self, file):
        """The manifest of the log of before, or of after."""
        return self.manifest if file == self.after else None


NEXT = ("put 3 0 2a", "get 3 0", "get 3 1", "get 3 15", "del 4 0; put 5 0 01", "quiet?")


def log_of(room, changes):
    """A log of these changes."""
    log = room.log("interrupted")
    status, out, errors = room.run(log, changes)
    expect("the changes of a log", (status, made_in(out), errors), (0, len(changes), ""))
    before, found = log.read_bytes(), room.opened(log)
    room.compact(log)
    after, since = log.read_bytes(), room.opened(log)
    versions = len(logs.parts_of(after, room.manifest.read_bytes())[0].versions)
    expect("a compacted log", since, (0, since[1]))
    expect("the table of a compacted log", without_history(since[1]), without_history(found[1]))
    answers = room.run(log, NEXT)
    log.write_bytes(before)
    expect("what comes after a compaction", answers[1][1:], room.run(log, NEXT)[1][1:])
    return Log(before, after, {before: found, after: since}, len(changes), versions, answers)


def goes_on(room, log, its, left, stays=()):
    """What is wrong with a log on which a compaction was begun, where this is left of it. Files of these names stay beside it."""
    if left not in its.found:
        return f"another log of {len(left)} bytes"
    if (found := room.opened(log, its.manifest_of(left))) != its.found[left]:
        return f"found was {found}"
    changes, added = (its.changes, its.added) if left == its.before else (0, "")
    if (again := room.compact(log, its.manifest)) != compacted(changes, its.versions, added):
        return f"the next compaction: {again}"
    if log.read_bytes() != its.after or left_of(log) != sorted(stays):
        return f"the next compaction left {left_of(log)}, and {len(log.read_bytes())} bytes"
    answers = room.run(log, NEXT, its.manifest)
    return None if answers == its.next else f"what came after it: {answers}"


def interrupted(room, its, kind, at):
    """What is wrong where this call of a compaction is failed so, and how it ended."""
    log = room.log(f"compact-{kind}-{at}")
    log.write_bytes(its.before)
    status, out, errors = room.compact(log, its.manifest, LD_PRELOAD=str(room.shim), FAULT_AT=str(at), FAULT_KIND=kind)
    left, whole = log.read_bytes(), compacted(its.changes, its.versions, its.added)
    is_said = {0: (out, errors) == whole[1:], 1: len(errors.splitlines()) == 1 and whole[1].startswith(out) and out != whole[1], -9: not errors}
    wrong = None if is_said.get(status) else f"output {out!r}, {errors!r}"
    if status == 0 and left != its.after:
        wrong = "it has ended, and the log is as before"
    if status == 1 and left_of(log) and "~new" not in errors:
        wrong = f"it has failed and left {left_of(log)}"
    wrong = wrong or goes_on(room, log, its, left)
    found = "compacted" if left == its.after else "as before"
    ended = {0: "whole", 1: f"failed, {found}"}.get(status, f"killed, {found}")
    return wrong and f"compaction, {kind} at call {at}, status {status}: {wrong}", ended


def try_interrupted(room, its, pool):
    """Fails each call of a compaction in each way. Answers how often it ended so."""
    ends = Counter()
    for kind in KINDS:
        at, whole = 1, 0
        while whole < (8 if kind == "short" else 1):
            for wrong, ended in pool.map(lambda n, kind=kind: interrupted(room, its, kind, n), range(at, at + 16)):
                if wrong:
                    sys.exit(f"keep: {wrong}")
                ends[ended] += 1
                whole += ended == "whole"
            at += 16
            if at > 1000:
                sys.exit(f"keep: compaction {kind}: the program never came to its end")
    return ends


# Left


def read_trace(lines, log):
    """Nothing of the old log is written; all of the new one is on the disk when it takes the other's name, and its folder is synced
    after that."""
    new, is_written, is_renamed, is_durable = str(new_names(log)[0]), False, False, False
    for what, _, middle, name in (line.split(" ") for line in lines):
        if what in "WT":
            expect("the file that a compaction writes to", name, new)
        if name == new:
            is_written = what in "WT"
        if what == "R":
            expect("a rename", (middle, name, is_written), (new, str(log), False))
            is_renamed = True
        is_durable |= is_renamed and (what, name) == ("S", str(log.parent))
    expect("a rename, and a sync of its folder after it", (is_renamed, is_durable), (True, True))


def traced(room, its):
    """The calls of a compaction."""
    log, trace = room.log("traced"), room.folder / "trace-of-compaction"
    log.write_bytes(its.before)
    trace.unlink(missing_ok=True)
    came = room.compact(log, its.manifest, LD_PRELOAD=str(room.shim), FAULT_TRACE=str(trace))
    expect("a compaction", came, compacted(its.changes, its.versions, its.added))
    read_trace(trace.read_text().splitlines(), log)
    return trace, str(new_names(log)[0])


def is_beginning(image):
    """Whether each of the first bytes is that of a log, or 0: a gate, a length and a sum of any bytes, and the first words of a header."""
    wanted = [logs.OPEN, *[None] * 12, *b"percobpf log "]
    return all(own is None or byte in (0, own) for byte, own in zip(image, wanted))


def left_over(room, its, job):
    """What is wrong where files of these bytes have the name of the new log and of what stands beside it: they are gone after a
    compaction where they may be the beginning of a log, and stay otherwise."""
    number, image = job
    log = room.log(f"left-{number}")
    log.write_bytes(its.before)
    new = new_names(log)[0]
    files = (new, beside(new))
    for file in files:
        file.write_bytes(image)
    stays = () if is_beginning(image) else files
    wrong = goes_on(room, log, its, its.before, [file.name for file in stays])
    return wrong or ("other bytes" if any(file.read_bytes() != image for file in stays) else None)


def try_left(room, its, images, pool):
    """Compacts a log beside what is left of another compaction. Answers how many there were, and how many of them stayed."""
    others = [b"", b"\0", bytes(range(256)) * 9, its.before, its.after, its.after[:-1], logs.log_of([logs.header(b"{}")]), b"a text", bytes(30)]
    jobs = list(enumerate([*others, *images]))
    for wrong in pool.map(lambda job: left_over(room, its, job), jobs):
        if wrong:
            sys.exit(f"keep: beside what is left of a compaction: {wrong}")
    return len(jobs), sum(not is_beginning(image) for _, image in jobs)


# Snapshots


def observers_of(cell, columns):
    """The numbers of the observers of a cell, where these are the columns of all observers."""
    return [number for number, column in enumerate(columns) if column == cell[1]]


def acknowledged(newest, cell, number):
    """The start up to which an observer has acknowledged a cell, by the newest version of each cell."""
    its = newest.get((*cell[:2], 1, number))
    return its.start if its else 0


def lines_of(snapshot, names, columns):
    """The lines of the report on cells, on runs and on marks, those of what the observers have done, and that of the entries, two for each
    version. Each cell on which an observer is behind is marked."""
    newest = {it.cell: it for it in snapshot.versions}
    data = sorted((it for it in newest.values() if not it.cell[2]), key=lambda it: it.cell)
    marks = sum(any(acknowledged(newest, it.cell, number) < it.commit for number in observers_of(it.cell, columns)) for it in data)
    left = f"marks {marks} locks 0" if marks else "quiet"
    shown = [it.content if it.content == "deleted" else f"value {(it.content.rstrip(bytes(1)) or bytes(1)).hex()}" for it in data]
    words = ("runs", "nonzero", "conflicts", "asks", "instructions")
    return [
        *(f"cell {it.cell[0]} {it.cell[1]} commit {it.commit} {content}" for it, content in zip(data, shown)),
        *(f"runs {name} {its[0]}" for name, its in zip(names, snapshot.stats)),
        *(left, left),
        *(" ".join(["stats", name, *(f"{word} {n}" for word, n in zip(words, its))]) for name, its in zip(names, snapshot.stats)),
        f"entries {2 * len(snapshot.versions)}",
    ]


def is_read(room, observers, name, item):
    """Whether a log with this record is read; and what is wrong, where a reader of its own reads other cells there, or reports something
    else."""
    log, manifest = room.log(name), room.manifest.read_bytes()
    file = logs.log_of([logs.header(manifest), item])
    log.write_bytes(file)
    found, told = room.opened(log)
    try:
        snapshot, _ = logs.parts_of(file, manifest)
        wanted = (0, lines_of(snapshot, *observers))
        came = (found, [line for line in told if line != "end"] if found is not None else told)
    except logs.Unreadable as why:
        wanted, came = (None, line_of(why)), (found, told)
    if came != wanted:
        return found is not None, f"{name}: {came}, wanted {wanted}"
    if found is None and log.read_bytes() != file:
        return False, f"{name}: the log was reported and changed"
    return found is not None, None


def later(good, **numbers):
    """A snapshot with one version more, which comes after the others but for these numbers, and with a later clock."""
    commit = good.versions[-1].commit
    more = logs.Version(commit + 1, (2**64 - 1, 9, 0, 0), commit + 2, "deleted")
    return replace(good, clock=good.clock + 9, versions=[*good.versions, replace(more, **numbers)])


def wrong_snapshots(good):
    """Snapshots that no table has, each by one rule."""
    first, last = good.versions[0], good.versions[-1]
    starts = Counter(it.start for it in good.versions)
    ack = next(it for it in good.versions if it.cell[2] and starts[it.start] == 1)
    row, column, _, observer = ack.cell

    def with_ack(cell):
        return replace(good, versions=[replace(it, cell=cell) if it is ack else it for it in good.versions])

    return [
        later(good, commit=last.commit + 1),
        later(good, commit=last.commit),
        replace(good, clock=last.commit - 1),
        later(good, commit=good.clock + 10),
        replace(good, versions=good.versions[::-1]),
        replace(good, versions=[*good.versions[1:], first]),
        later(good, start=last.commit),
        later(good, start=last.start),
        replace(good, versions=[*good.versions, last]),
        with_ack((row, column, 1, len(good.stats))),
        with_ack((row, column, 1, 31)),
        with_ack((row, column + 1, 1, observer)),
        replace(good, stats=good.stats[:-1]),
        replace(good, stats=[*good.stats, (0, 0, 0, 0, 0)]),
    ]


def changed_records(item, chance):
    """Records of which bytes are changed, some in the numbers of versions; and what is cut off a record, and put after it."""
    for _ in range(CHANGED):
        at, some = chance.randrange(len(item)), chance.choice((bytes([chance.randrange(256)]), bytes(2), b"\xff" * 9))
        yield item[:at] + some + item[at + len(some) :]
    for at in sorted(chance.sample(range(1, len(item)), CHANGED // 2)):
        yield item[:at]
    yield from (item + b"\0", item + item, item.replace(b"snapshot 1", b"snapshot 2"), item.replace(b"snapshot 1", b"snapshot 1 "))


def try_snapshots(room, its, chance, pool):
    """Opens logs with records of snapshots that are changed. Answers how many were reported, and how many were read."""
    manifest = room.manifest.read_bytes()
    good, _ = logs.parts_of(its.after, manifest)
    last, own = good.versions[-1], json.loads(manifest)["observers"]
    observers = [it["name"] for it in own], [it["column"] for it in own]
    item = logs.snapshot_record(good)
    expect("a compacted log that is made here", logs.log_of([logs.header(manifest), item]), its.after)
    late, one = 2**63, replace(last, start=0, commit=2**63)
    tables = (good, later(good), replace(good, clock=late), replace(good, clock=late, versions=[one]), replace(good, clock=0, versions=[]))
    # with another version of a cell that has one, also of an acknowledgment
    tables = (*tables, *(later(good, cell=it.cell) for it in good.versions))
    right = [logs.snapshot_record(it) for it in tables]
    wrong = [logs.snapshot_record(it) for it in wrong_snapshots(good)]
    jobs = list(enumerate([*right, *wrong, *changed_records(item, chance)]))
    results = list(pool.map(lambda job: is_read(room, observers, f"snapshot-{job[0]}", job[1]), jobs))
    for _, why in results:
        if why:
            sys.exit(f"keep: {why}")
    read = [found for found, _ in results]
    expect("snapshots that tables have, and that none has", read[: len(right) + len(wrong)], [True] * len(right) + [False] * len(wrong))
    change = b"put 7 0 2a\n"
    for name, records in (("a second snapshot", [item, item]), ("one after a change", [change, item])):
        log = room.log("second")
        log.write_bytes(logs.log_of([logs.header(manifest), *records]))
        expect(name, room.opened(log), (None, line_of(logs.NO_SCRIPT)))
    return read.count(False), read.count(True)


def is_as_read(room, tables, job):
    """How many changes are found in an image of a compacted log, or None where it is reported; and what is wrong."""
    name, image = job
    log = room.log(name)
    log.write_bytes(image)
    try:
        count = len(logs.changes_in(image, room.manifest.read_bytes()))
        wanted = (count, tables[count])
    except logs.Unreadable as why:
        count, wanted = None, (None, line_of(why))
    came = room.opened(log)
    return count, None if came == wanted else f"{name}: {came}, wanted {wanted}"


def try_damage(room, its, chance, pool):
    """Turns a bit of each byte of a compacted log, from its snapshot on to the changes after it, and cuts it at each length. Answers how
    many were reported: all of them."""
    log = room.log("damaged")
    log.write_bytes(its.after)
    tables = [room.opened(log)[1]]
    for number in range(LATER):
        room.run(log, [f"put {number} 0 2a"])
        tables.append(room.opened(log)[1])
    whole = log.read_bytes()
    places = range(13 + len(logs.header(room.manifest.read_bytes())), len(whole))
    turned = [(f"turned-{at}", whole[:at] + bytes([whole[at] ^ 1 << chance.randrange(8)]) + whole[at + 1 :]) for at in places]
    counts = Counter()
    for count, wrong in pool.map(lambda job: is_as_read(room, tables, job), [*turned, *((f"cut-{at}", whole[:at]) for at in places)]):
        if wrong:
            sys.exit(f"keep: a compacted log, {wrong}")
        counts["reported" if count is None else "read"] += 1
    expect("damaged logs that are read", counts["read"], 0)
    return counts["reported"]


# Refused


def is_refused(room, what, log, sentence):
    """A compaction reports this, and leaves the log as it was, and nothing beside it."""
    before = log.read_bytes() if log.is_file() else None
    expect(what, room.compact(log), (1, "", line_of(sentence)))
    expect(f"the log of {what}", (log.read_bytes() if log.is_file() else None, left_of(log)), (before, []))


def try_refused(room, its):
    """Compacts what can't be, and what has other names or rights. Answers how many there were."""
    log = room.log("shared")
    log.write_bytes(its.before)
    with room.start(log) as running:
        running.stdout.readline()
        is_refused(room, "a log that is open", log, f"{log}: {IN_USE}")
        running.kill()
    log = room.log("absent")
    is_refused(room, "a log that isn't there", log, f"{log}: {NO_FILE}")
    log = room.log("damaged")
    log.write_bytes(its.before[:-1])
    is_refused(room, "a log that is damaged", log, f"the log is damaged at byte {len(its.before) - 1}")
    return 3 + try_names(room, its)


def try_full(room, changes):
    """Compacts a log where the disk has no room for another, and then where it has. That no file system may be mounted is noted by the
    ends."""
    with SmallDisk("tmpfs", room.folder) as disk:
        if disk.is_there:
            inner, log = room.run_by(disk.words), disk.folder / "table.log"
            status, out, errors = inner.run(log, changes)
            expect("changes on a small disk", (status, made_in(out), errors), (0, len(changes), ""))
            disk.fill(0)
            before, opened = disk.shell("cat table.log"), f"open {len(changes)}\n"
            expect("a compaction on a full disk", inner.compact(log), (1, opened, line_of(NO_SPACE)))
            expect("one that a line asks for there", inner.run(log, ["compact"]), (1, [opened.rstrip("\n")], line_of(NO_SPACE)))
            expect("the log on a full disk", disk.shell("cat table.log; ls"), before + b"ballast\ntable.log\ntable.log-wal\n")
            disk.shell("rm ballast")
            status, out, errors = inner.compact(log)
            expect("a compaction with room again", (status, out.startswith(f"{opened}compacted "), errors), (0, True, ""))
    disk.folder.rmdir()


def try_names(room, its):
    """A log that ends in what a crash leaves of a change, one with other rights, one by a link, and one whose new log finds no name
    free."""
    log = room.log("torn")
    log.write_bytes(its.before + b"\x0b\0\0\0torn")
    expect("a log that ends in a part of a change", room.compact(log), compacted(its.changes, its.versions))
    expect("what it is then", log.read_bytes(), its.after)
    log = room.log("rights")
    log.write_bytes(its.before)
    log.chmod(0o640)
    expect("a log with rights", goes_on(room, log, its, its.before), None)
    expect("the rights", stat.S_IMODE(log.stat().st_mode), 0o640)
    log, link = room.log("linked"), room.log("link")
    log.write_bytes(its.before)
    link.unlink(missing_ok=True)
    link.symlink_to(log.name)
    expect("a log by a link", room.compact(link), compacted(its.changes, its.versions))
    expect("the link, and its log", (link.is_symlink(), log.is_symlink(), log.read_bytes()), (True, False, its.after))
    log = room.log("in-the-way")
    log.write_bytes(its.before)
    sentence = take_names(log)
    expect("folders in the way", (room.compact(log), log.read_bytes()), ((1, f"open {its.changes}\n", line_of(sentence)), its.before))
    free_names(log)
    return 4


def try_meanwhile(room, its):
    """A log that another program compacts and changes while this one opens it, before this one has its lock; this one makes a change, or
    compacts. It reports that, or goes on with the new log: no change that either answers is lost."""
    words = [str(room.program), str(room.manifest), str(room.log("meanwhile"))]
    command = f"{shlex.join([words[0], '--compact', *words[1:]])} </dev/null && echo {shlex.quote(NEXT[0])} | {shlex.join(words)}"
    more = {"LD_PRELOAD": str(room.shim), "FAULT_MEANWHILE": f"({command}) >/dev/null"}
    commit = its.next[1][1].split()[1]
    for is_compacted in (False, True):
        log = room.log("meanwhile")
        log.write_bytes(its.before)
        status, out, errors = room.compact(log, **more) if is_compacted else room.run(log, ["put 3 0 2b"], **more)
        answered = [] if is_compacted else [line.split()[1] for line in out if line.startswith("made ")]
        wanted = f"value 2b commit {answered[0]}" if answered else f"value 2a commit {commit}"
        found = room.run(log, ["get 3 0"])[1][-1]
        if found != wanted or (status, errors) not in ((0, ""), (1, line_of(f"{log}: {REPLACED}"))):
            what = "is compacted" if is_compacted else "changes"
            sys.exit(f"keep: a log that {what} while another program compacts it: status {status}, {out}, {errors}; found {found}, not {wanted}")


# Sizes


def from_size(size):
    """The words by which a log of so many bytes is compacted as it is opened."""
    return "--compact-at", str(size)


def try_sizes(room, its):
    """Serves logs that are compacted before that where they have so many bytes, and where the new log can be made. Answers how many there
    were."""
    log = room.log("sized")
    log.write_bytes(its.before)
    size = int(next(line for line in room.run(log, ["stats"])[1] if line.startswith("log ")).split()[1])
    status, out, errors = room.run(log, ["quiet?"], options=from_size(size + 1))
    expect("a log of fewer bytes", (status, out, errors, log.read_bytes()), (0, [f"open {its.changes}", "quiet"], "", its.before))
    sentence = take_names(log)
    served = room.run(log, ["quiet?"], options=from_size(size))
    expect("folders in the way", (served, log.read_bytes()), ((1, [], line_of(sentence)), its.before))
    free_names(log)
    with room.start(log, from_size(size)) as running:
        expect("a log of as many bytes", (running.stdout.readline(), log.read_bytes(), left_of(log)), (b"open 0\n", its.after, []))
        expect("a new log that is open", room.run(log, []), (1, [], line_of(f"{log}: {IN_USE}")))
        running.kill()
    log.write_bytes(its.before)
    expect("what comes after a log of more bytes", room.run(log, NEXT, options=from_size(0)), its.next)
    log = room.log("new")
    expect("a log that isn't there", room.run(log, NEXT[:1], options=from_size(2**64 - 1))[1][0], "open 0")
    before = log.read_bytes()
    wrong = [from_size(word) for word in ("", "x", "+5", "-1", "05", 2**64)]
    for options in (*wrong, from_size(0)[:1], ("--compact", *from_size(0)), (*from_size(0), "--compact")):
        status, out, errors = room.run(log, [], options=options)
        is_usage = errors.count("\n") == 1 and "`percobpf_keep --help` has more" in errors
        expect(f"the words {options}", (status, out, is_usage, log.read_bytes()), (1, [], True, before))
    return 6 + len(wrong) + 3


def try_all(room, its, changes, images_of, chance, pool):
    """Tries all of it, and answers what was met, in words and as numbers."""
    met = Counter(generations=try_generations(room, changes))
    met.update(try_interrupted(room, its, pool))
    trace, new = traced(room, its)
    images = [image for image, _ in images_of(trace, chance, new)]
    met["beside what is left"], met["beside what stays"] = try_left(room, its, images, pool)
    met["snapshots reported"], met["snapshots read"] = try_snapshots(room, its, chance, pool)
    met["damaged logs reported"] = try_damage(room, log_of(room, changes[:2]), chance, pool)
    met["refused"] = try_refused(room, its)
    try_full(room, changes[:12])
    try_meanwhile(room, its)
    met["opened with a size"] = try_sizes(room, its)
    return met
