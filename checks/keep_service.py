"""Compactions of a log while its program answers lines, for `checks/keep`: where a line `compact` asks for them, and at a size
(`--compact-at`).

- interrupted: at each call of a program that makes a change, compacts its log and makes another change, it is killed, or the call fails.
- killed: the program is killed at random moments, while it makes changes and compacts its log again and again.
- asked: what a line `compact` is answered.
- large: from which size on a log is compacted.

Tables that aren't quiet, and those without a timestamp left, have their own rows (keep_unquiet.py).
"""
from __future__ import annotations

import sys
import time
from collections import Counter
from dataclasses import dataclass

import logs
from keep_compactions import KINDS, compacted, from_size, read_trace
from keep_ends import IN_USE, ask, expect
from keep_room import free_names, left_of, line_of, made_in, take_names, without_history

LINES = ("put 3 0 2a", "compact", "put 4 0 2b; del 3 0")

# How often a program is killed, after how many parts of lines at most, how many changes each has at most, and from which sizes on the
# program compacts its log: the snapshot of the table has about 6,000 bytes.
KILLS, PARTS, MANY, SIZES = 24, 6, 80, (7_000, 9_000, 14_000)

# The cell that has the number of the last change.
NUMBERED = "2000 5"


# Interrupted


@dataclass(frozen=True)
class Stages:
    """A log, what a program prints on these lines, what is found before them and after each, and what the log is once it is compacted
    then, with how many versions."""

    before: bytes
    printed: list[str]
    found: list[tuple]
    after: list[tuple[bytes, int]]


def stages_of(room, before):
    """What these lines make of a log."""
    log, found, after, printed = room.log("stages"), [], [], []
    for count in range(len(LINES) + 1):
        log.write_bytes(before)
        status, printed, errors = room.run_in_turn(log, [[line] for line in LINES[:count]])
        expect("lines between which a log is compacted", (status, len(printed), errors), (0, 1 + count, ""))
        found.append(room.opened(log))
        file = log.read_bytes()
        room.compact(log)
        after.append((log.read_bytes(), len(logs.parts_of(log.read_bytes(), room.manifest.read_bytes())[0].versions)))
        if LINES[count - 1] == "compact":
            expect("a log that was compacted by a line, and by a start", (file, left_of(log)), (after[count - 1][0], []))
            expect("what that is answered", printed[-1], f"compacted {after[count][1]}")
    return Stages(before, printed, found, after)


def interrupted(room, its, kind, at):
    """What is wrong where this call of the program is failed so, and how many of the lines were done."""
    log = room.log(f"serve-{kind}-{at}")
    log.write_bytes(its.before)
    status, out, errors = room.run_in_turn(log, [[line] for line in LINES], LD_PRELOAD=str(room.shim), FAULT_AT=str(at), FAULT_KIND=kind)
    left, answered, found = left_of(log), max(len(out) - 1, 0), room.opened(log)
    done = its.found.index(found) if found in its.found else -1
    again = room.compact(log)
    is_said = {0: out == its.printed and not errors, 1: len(errors.splitlines()) == 1, -9: not errors}.get(status)
    wrong = None
    if not is_said or out != its.printed[: len(out)]:
        wrong = f"output {out}, {errors!r}"
    elif not answered <= done <= answered + 1:
        wrong = f"{answered} lines were answered, and {found} was found"
    elif status == 1 and left and "~new" not in errors:
        wrong = f"it has failed and left {left}"
    elif again != compacted(found[0], its.after[done][1]) or log.read_bytes() != its.after[done][0] or left_of(log):
        wrong = f"the next compaction: {again}, it left {left_of(log)}"
    ended = "whole" if status == 0 else f"{'failed' if status == 1 else 'killed'}, {'compacted' if done > 1 else 'as before'}"
    return wrong and f"served, {kind} at call {at}, status {status}: {wrong}", ended


def try_interrupted(room, its, pool):
    """Fails each call of such a program in each way. Answers how often it ended so."""
    ends = Counter()
    for kind in KINDS:
        at, whole = 1, 0
        while whole < (8 if kind == "short" else 1):
            for wrong, ended in pool.map(lambda n, kind=kind: interrupted(room, its, kind, n), range(at, at + 16)):
                if wrong:
                    sys.exit(f"keep: {wrong}")
                ends[f"{ended}, in service"] += 1
                whole += ended == "whole"
            at += 16
            if at > 1000:
                sys.exit(f"keep: served {kind}: the program never came to its end")
    return ends


# Killed


class Killed:
    """A program that is killed again and again, while it compacts its log. Each change has its number in a cell."""

    def __init__(self, room, changes, chance):
        self.room, self.chance, self.log = room, chance, room.log("killed-in-service")
        self.changes = [f"{line}; put {NUMBERED} {number:08x}" for number, line in enumerate(changes, start=1)]
        # how many changes were sent, and how many of them were answered
        self.sent = self.answered = 0
        # the clocks of the snapshots with which the log was found to begin
        self.begun = set()

    def found(self, answer):
        """The table has the first changes, up to that which this answer names."""
        count = int(answer.split(" ")[1].ljust(8, "0"), 16) if answer.startswith("value ") else 0
        if not self.answered <= count <= self.sent:
            sys.exit(f"keep: killed in service: {count} changes found, {self.answered} answered, {self.sent} sent")
        self.sent = self.answered = count
        snapshot, _ = logs.parts_of(self.log.read_bytes(), self.room.manifest.read_bytes())
        self.begun |= {snapshot.clock} if snapshot else set()

    def some_lines(self):
        """Changes, between which some lines ask for compactions."""
        lines = self.changes[self.sent : self.sent + self.chance.randrange(MANY)]
        self.sent += len(lines)
        return [each for line in lines for each in ((line, "compact") if self.chance.random() < 0.03 else (line,))]

    def some_parts(self, running):
        """Sends changes, part by part, and reads the answers to all parts but the last."""
        count = self.chance.randrange(1, PARTS)
        for number in range(count):
            lines = self.some_lines()
            running.stdin.write("".join(f"{line}\n" for line in lines).encode())
            running.stdin.flush()
            if number + 1 < count:
                self.answered += made_in(running.stdout.readline().decode() for _ in lines)

    def round(self):
        running = self.room.start(self.log, from_size(self.chance.choice(SIZES)))
        first = running.stdout.readline()
        if not first.startswith(b"open "):
            sys.exit(f"keep: killed in service: {first} {running.stderr.read()}")
        self.found(ask(running, f"get {NUMBERED}".encode()).decode().rstrip("\n"))
        self.some_parts(running)
        time.sleep(self.chance.random() * 0.02)
        running.kill()
        self.answered += made_in(running.stdout.read().decode().split("\n"))
        running.wait()

    def end(self):
        """Opens the log after the last kill, and compares the table."""
        status, out, errors = self.room.run(self.log, [f"get {NUMBERED}"])
        expect("a log after kills in service", (status, len(out), errors), (0, 2, ""))
        self.found(out[1])
        _, table = self.room.opened(self.log)
        expect("the table after kills in service", without_history(table), without_history(self.room.table(self.changes[: self.sent])))


def try_killed(room, changes, chance):
    """Kills the program so often. Answers how many changes were made, and how often the log was seen to begin anew."""
    its = Killed(room, changes, chance)
    for _ in range(KILLS):
        its.round()
    its.end()
    return its.sent, len(its.begun)


# Asked


def try_asked(room, its):
    """Asks for compactions of a log. Answers how often one was asked for."""
    log = room.log("asked")
    log.write_bytes(its.before)
    with room.start(log) as running:
        expect("a log that isn't compacted yet", running.stdout.readline(), f"open {its.changes}\n".encode())
        expect("a compaction in service", ask(running, b"compact"), f"compacted {its.versions}\n".encode())
        expect("the log after it", (log.read_bytes(), left_of(log)), (its.after, []))
        expect("a log that was compacted in service", room.run(log, []), (1, [], line_of(f"{log}: {IN_USE}")))
        expect("another one", ask(running, b"compact"), f"compacted {its.versions}\n".encode())
        expect("the log after another one", log.read_bytes(), its.after)
        expect("a change after that", ask(running, LINES[0].encode()).decode(), f"{its.next[1][1]}\n")
        expect("a log that goes on", logs.changes_in(log.read_bytes(), room.manifest.read_bytes()), [LINES[0]])
        running.kill()
    log.write_bytes(its.before)
    lines = ("begin", "compact", LINES[0], "end", "compact 1", "begin", LINES[0], "end", "compact")
    status, out, errors = room.run(log, lines)
    shown = [line.split(" ")[0] if line.startswith("made ") else line for line in out]
    # The changes of the groups may have written cells that had no version before.
    alone = room.log("asked-alone")
    alone.write_bytes(its.before)
    room.run(alone, [LINES[0], LINES[0]])
    room.compact(alone)
    versions = len(logs.parts_of(alone.read_bytes(), room.manifest.read_bytes())[0].versions)
    wanted = [f"open {its.changes}", "begun", "refused 76", "made", "ended", "refused 70", "begun", "made", "ended", f"compacted {versions}"]
    expect("groups about compactions", (status, shown, errors), (0, wanted, ""))
    log.write_bytes(its.before)
    sentence = take_names(log)
    served = room.run(log, ["compact", LINES[0]])
    expect("folders in the way", (served, log.read_bytes()), ((1, [f"open {its.changes}"], line_of(sentence)), its.before))
    free_names(log)
    trace, asked = room.folder / "trace-in-service", (0, [f"open {its.changes}", f"compacted {its.versions}"], "")
    expect("a compaction in service", room.run(log, ["compact"], LD_PRELOAD=str(room.shim), FAULT_TRACE=str(trace)), asked)
    read_trace(trace.read_text().splitlines(), log)
    log.write_bytes(its.before)
    link = room.log("asked-link")
    link.symlink_to(log.name)
    expect("a log by a link", room.run(link, ["compact"]), asked)
    expect("the link, and its log", (link.is_symlink(), log.is_symlink(), log.read_bytes()), (True, False, its.after))
    return 7


# Large


def size_of(log):
    """How many bytes a log has up to the end of its last record."""
    return logs.places_in(log.read_bytes())[-1][1]


def try_large(room, its):
    """Makes changes, each of 24 bytes of the log, until that is large, twice. Answers how often it was."""
    log, change = room.log("large"), b"put 3 0 2a"
    log.write_bytes(its.after)
    least = size_of(log) + 3 * 24
    with room.start(log, from_size(least)) as running:
        running.stdout.readline()
        for changes in range(1, 3):
            ask(running, change)
            ask(running, b"quiet?")
            expect("a log that isn't large yet", len(logs.changes_in(log.read_bytes(), room.manifest.read_bytes())), changes)
        ask(running, change)
        ask(running, b"quiet?")
        expect("a log that is large", len(logs.changes_in(log.read_bytes(), room.manifest.read_bytes())), 0)
        size = size_of(log)
        wanted = -(-(max(least, 2 * size) - size) // 24)
        running.stdin.write(b"".join(change + b"\nquiet?\n" for _ in range(wanted - 1)))
        running.stdin.flush()
        for _ in range(2 * (wanted - 1)):
            running.stdout.readline()
        expect("a log that is so large no more", size_of(log) - size, (wanted - 1) * 24)
        ask(running, change)
        ask(running, b"quiet?")
        expect("a log that has twice the bytes", len(logs.changes_in(log.read_bytes(), room.manifest.read_bytes())), 0)
        running.kill()
    return 2


def try_all(room, its, changes, chance, pool):
    """Tries all of it, and answers what was met, in words and as numbers."""
    met = try_interrupted(room, stages_of(room, its.before), pool)
    met["changes under kills, in service"], met["generations, in service"] = try_killed(room, changes, chance)
    met["asked for"] = try_asked(room, its)
    met["large"] = try_large(room, its)
    return met
