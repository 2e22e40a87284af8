"""Random sessions with `percobpf_keep`: each answer has to be that of kept_tables.py, and the log has to have the lines of the changes.

A session has a manifest, and a log that is opened several times. Its lines come one by one or many at once, and parted anywhere. The
input ends after a line, within a group, or within a line, of which nothing is made; or the program is killed once all is answered. Lines ask for compactions.
Some programs are started to compact logs of so many bytes: these get a line once the one before it is answered, so that the model knows
when that is. Between two starts the log may be compacted, for some with other observers, and then it has to have the versions of the
model. Some tables are left with something to do, and are compacted so.

Some tables have a limit of few entries. Of these the model has to know which changes share a record, since the limit is looked at for the
first one alone. So their lines come one by one, or so few at once that the program reads all of them at once. A compaction may give them
another limit, and a program that is started with another one has to refuse that.
"""
from __future__ import annotations

import copy
import json
import random
import re
import subprocess
import tempfile
import threading
import time
from collections import Counter
from pathlib import Path

import logs
from kept_tables import LOG_OF, KeptTable
from model import observers_of
from random_lines import LAST, NO_OBSERVERS, TOP, line_from, manifest_of
from random_texts import field_from
from tables import encoded, observer
from tables import manifest_of as manifest_with

SECONDS = 60

# What is reported where a start names another limit than the log's own.
OTHER_LIMIT = "its limit is another one: --compact changes it"

# A session is over once the table's clock is there, so that endless observers don't take the model minutes.
LAST_TIMESTAMP = 3_000
STARTS, BATCHES, LINES = (1, 2, 2, 3, 5), (1, 3, 6, 12), (1, 1, 1, 2, 5, 20, 60)
# How often the log is compacted after a start; how likely that is for other observers; and how likely a program is started to do so from
# a size on, which is that many bytes above that of its log.
COMPACTIONS, OTHERS, LARGE = (0, 1, 1, 2), 0.5, 0.35
ABOVE = (-1, 0, 1, 40, 150, 400)
# How likely an observer stays, and how many observers a manifest of others has at most.
STAYS, MOST_OBSERVERS = 0.8, 8
# How likely a table that is left with something to do is compacted by a line.
UNQUIET = 0.5
# How likely a table has a limit of its own, these limits, and that of a table that has none; how likely lines of such a table come at once,
# and how many bytes a pipe takes as one piece; how likely a start names a limit, and how likely a compaction names another one.
LIMITED, LIMITS, AT_ONCE, ONE_PIECE = 0.35, (20, 40, 60, 100, 150, 250, 400), 0.5, 4_096
NAMED, RENAMED, OTHER_NAMED = 0.3, 0.4, 0.3
# In how many runs such a table has to come to rest with other observers: its limit doesn't bound these.
FEW_RUNS = 2_000


# A program that writes the cell of the row before its own, and none from row 0, so that each pass has one run, and marks one cell.
DOWN = encoded(
    *("ldxdw r6, [r1+0]", "jeq64 r6, 0, +10", "stdw [r10-32], 42", "stdw [r10-24], 0", "stdw [r10-16], 0", "stdw [r10-8], 0"),
    *("mov64 r1, r6", "add64 r1, -1", "mov64 r2, 0", "mov64 r3, r10", "add64 r3, -32", "call 2", "mov64 r0, 0", "exit"),
)


class Differs(Exception):
    """What was wanted and what came, and where that is kept."""


class Session:
    """The program over a log, and the model of its table."""

    def __init__(self, program, folder, manifest, limits=None):
        self.program, self.folder = program, Path(folder)
        self.manifest, self.log = self.folder / "manifest.json", self.folder / "table.log"
        self.manifest.write_text(manifest)
        # what chooses limits, of a table that has one of its own
        self.limits = limits
        self.kept = KeptTable(manifest, limit_from(limits) if limits else logs.DEFAULT_LIMIT)
        # all observers that the table had
        self.had = json.loads(manifest)["observers"]
        self.sent, self.met, self.timer = b"", Counter(), threading.Timer(SECONDS, bool)
        # in which generation, after how many changes, the log was reported to have how many bytes
        self.reported = set()
        # whether a line is sent once the one before it is answered
        self.is_in_turn = False

    def compare(self, what, came, wanted):
        if came != wanted:
            raise Differs(f"{what}: {came!r}, wanted {wanted!r}")

    def start(self, least=LAST):
        """Starts the program; from so many bytes on, it compacts the log."""
        self.is_in_turn, options = least != LAST, [] if least == LAST else ["--compact-at", str(least)]
        options = [*self.limit_words(), "--copies", str(self.folder), *options]
        self.kept.size, generation = self.size(), self.kept.generation
        self.kept.start(least)
        self.met["compacted by a start"] += self.kept.generation - generation
        how = {"stdin": subprocess.PIPE, "stdout": subprocess.PIPE, "stderr": subprocess.PIPE}
        self.running = subprocess.Popen([self.program, *options, self.manifest, self.log], **how)
        self.sent = b""
        self.watch()
        self.compare("the first line", self.running.stdout.readline(), f"open {len(self.kept.lines)}\n".encode())
        self.timer.cancel()

    def limit_words(self):
        """The words by which a start names the limit of a table that has one of its own: of a new log, and for some also of one that has
        it. For some, another limit is named before that, and refused."""
        if self.limits is None:
            return []
        is_there, words = self.log.exists(), ["--limit", str(self.kept.limit)]
        if is_there and self.limits.random() < OTHER_NAMED:
            other = limit_from(self.limits)
            self.refuse_limit(other if other != self.kept.limit else other ^ 1)
        return words if not is_there or self.limits.random() < NAMED else []

    def refuse_limit(self, limit):
        """A program that is started with another limit than that of the log refuses it, and leaves the log as it is."""
        before = self.log.read_bytes()
        words = [self.program, "--limit", str(limit), self.manifest, self.log]
        ended = subprocess.run(words, input=b"put 7 0 2a\n", capture_output=True, timeout=SECONDS)
        wanted = (1, b"", f"Error: {self.log}: {OTHER_LIMIT}\n".encode())
        self.compare("another limit", (ended.returncode, ended.stdout, ended.stderr), wanted)
        self.compare("the log that has another limit", self.log.read_bytes(), before)
        self.met["other limits refused"] += 1

    def size(self):
        """How many bytes the log has up to the end of its last record, or will have as a new one."""
        places = logs.places_in(self.log.read_bytes()) if self.log.exists() else []
        return places[-1][1] if places else self.kept.size

    def watch(self):
        """From now on the program has so many seconds for what it is asked next."""
        self.timer.cancel()
        self.timer = threading.Timer(SECONDS, self.running.kill)
        self.timer.start()

    def stop(self):
        self.running.kill()
        self.timer.cancel()
        self.running.communicate()

    def end(self, status):
        """The program has ended, or does now, without another answer."""
        self.watch()
        try:
            self.running.stdin.close()
        except BrokenPipeError:
            pass
        rest, errors = self.running.stdout.read(), self.running.stderr.read()
        self.compare("the end", (self.running.wait(), rest, errors.decode()), (status, b"", ""))
        self.timer.cancel()
        file = self.log.read_bytes()
        self.compare("the log", logs.changes_in(file, self.manifest.read_bytes()), self.kept.lines)
        self.compare("the log's limit", logs.limit_in(file), self.kept.limit)
        self.compare("groups that stand in two records", self.parted_groups(file), [])
        self.kept.copies = {number: copied and self.compare_copy(number, *copied) for number, copied in self.kept.copies.items()}
        places = {(self.kept.generation, *place) for place in logs.places_in(file)}
        of_others = {it for it in self.reported if it[0] == self.kept.generation} - places
        self.compare("sizes of the log where no record of it ends", of_others, set())
        if self.is_in_turn:
            self.compare("the size of the log", self.kept.size, self.size())

    def compare_copy(self, number, manifest, limit, begun, lines):
        """A copy is a whole log of these changes, after a snapshot where the table began anew."""
        file = (self.folder / f"{number}.log").read_bytes()
        snapshot, scripts = logs.parts_of(file, manifest.encode())
        came = [line for script in scripts for line in script.decode().splitlines()]
        self.compare("a copy", (snapshot.clock if snapshot else 0, came, logs.limit_in(file)), (begun, lines, limit))
        self.compare("what follows the records of a copy", file, logs.log_of([item for _, item in logs.records_in(file)]))
        self.met["copies"] += 1

    def parted_groups(self, file):
        """The groups within which a record of the log ends."""
        ends, count = set(), 0
        for script in logs.scripts_in(file, self.manifest.read_bytes()):
            count += script.count(b"\n")
            ends.add(count)
        return [(first, last) for first, last in self.kept.groups if any(end in ends for end in range(first + 1, last))]

    def send(self, pieces):
        try:
            for piece in pieces:
                self.running.stdin.write(piece)
                self.running.stdin.flush()
                time.sleep(0.001 if len(pieces) > 1 else 0)
        except BrokenPipeError:
            pass

    def exchange(self, pieces, wanted):
        """Sends the pieces of lines, and compares the answers."""
        self.watch()
        self.sent += b"".join(pieces)
        sender = threading.Thread(target=self.send, args=(pieces,))
        sender.start()
        for place, answer in enumerate(wanted):
            came = self.running.stdout.readline()
            if not self.is_answer(came, answer):
                self.running.kill()
                sender.join()
                before = wanted[max(place - 3, 0) : place]
                raise Differs(f"answer {place} of {len(wanted)}: {came!r}, wanted {answer!r}, after {before}")
            self.met[" ".join(answer.split(" ")[: 2 if answer.startswith("refused") else 1])] += 1
            self.met["unquiet"] += answer.endswith(" unquiet")
        sender.join()
        # the model takes its own time for what comes next
        self.timer.cancel()

    def is_answer(self, came, answer):
        """Whether a line is this answer. How many bytes the log had is compared at the end, with its records."""
        if not answer.startswith(LOG_OF):
            return came == f"{answer}\n".encode()
        found = re.fullmatch(rb"log (\d+)\n", came)
        if found:
            self.reported.add((*map(int, answer.removeprefix(LOG_OF).split(" ")), int(found[1])))
        return found is not None

    def take(self, line, has_more=False):
        """What a line has to be answered. Where lines come in turn, the size of the log is known then, and whether it is too large."""
        wanted = self.kept.take(line, has_more)
        if not self.is_in_turn:
            return wanted
        wanted = [f"log {self.kept.size}" if answer.startswith(LOG_OF) else answer for answer in wanted]
        if self.kept.waiting is None:
            generation, is_left = self.kept.generation, self.kept.left() != "quiet"
            self.kept.compact_large()
            self.met["compacted at a size"] += self.kept.generation - generation
            self.met["compacted at a size, unquiet"] += is_left and self.kept.generation - generation
        return wanted

    def batch(self, pick, field):
        """Some lines, and their answers."""
        lines, wanted, is_limited = [], [], self.limits is not None
        is_one_piece = is_limited and not self.is_in_turn and self.limits.random() < AT_ONCE
        for _ in range(pick.choice(LINES)):
            if self.kept.table.clock >= LAST_TIMESTAMP:
                break
            kind, line = line_from(pick, field, self.kept)
            if is_one_piece and sum(map(len, lines)) + len(line) >= ONE_PIECE:
                break
            self.met[f"{kind} lines"] += 1
            lines.append(line + b"\n")
            wanted.append(self.take(line, has_more=is_one_piece))
        self.kept.end_record()
        if self.is_in_turn or (is_limited and not is_one_piece):
            for piece, its in zip(with_fronts(pick, lines), wanted):
                self.exchange([piece], its)
        else:
            pieces = [b"".join(lines)] if is_limited else parts_of(pick, b"".join(lines))
            self.exchange(pieces, [answer for its in wanted for answer in its])

    def compact(self, manifest=None):
        """Compacts the log, for a manifest with other observers where one is given, also where something is left to do."""
        kept, file = self.kept, self.folder / "others.json"
        file.write_text(manifest or kept.manifest)
        printed, is_left = f"open {len(kept.lines)}\n", kept.left() != "quiet"
        if manifest not in (None, kept.manifest):
            printed += self.change_observers(manifest)
        words = [self.program, *self.other_limit(), "--compact", file, self.log]
        ended = subprocess.run(words, stdin=subprocess.DEVNULL, capture_output=True, timeout=SECONDS)
        snapshot, was_full = kept.snapshot(), kept.is_full()
        wanted = 0, f"{printed}compacted {kept.compact()}\n", ""
        self.compare("a compaction", (ended.returncode, ended.stdout.decode(), ended.stderr.decode()), wanted)
        self.met["compacted between"] += 1
        self.met["compacted between, unquiet"] += is_left
        self.met["full no more"] += was_full and not kept.is_full()
        self.compare("the snapshot", logs.parts_of(self.log.read_bytes(), file.read_bytes()), (snapshot, []))
        self.compare("the limit of a compacted log", logs.limit_in(self.log.read_bytes()), kept.limit)
        file.rename(self.manifest)

    def other_limit(self):
        """The words by which a compaction gives a table another limit, for some that have one of their own."""
        if self.limits is None or self.limits.random() >= RENAMED:
            return []
        self.kept.limit = limit_from(self.limits)
        self.met["other limits given"] += 1
        return ["--limit", str(self.kept.limit)]

    def change_observers(self, manifest):
        """What is printed where the table gets the observers of this manifest."""
        kept = self.kept
        known, was_left = kept.known, kept.left() != "quiet"
        count, runs, gone = kept.change_observers(manifest)
        self.met["unquiet for others"] += was_left
        self.met["unquiet by others"] += kept.left() != "quiet"
        self.met["quiet by others"] += was_left and kept.left() == "quiet"
        places = [known.index(it) for it in kept.known if it in known]
        others = json.loads(manifest)["observers"]
        self.met["observers added"] += count
        self.met["observers gone"] += gone
        self.met["observers back"] += sum(it in self.had for it, its in zip(others, kept.known) if its not in known)
        self.met["lists in another order"] += places != sorted(places)
        self.met["runs that caught up"] += runs
        self.had += [it for it in others if it not in self.had]
        return f"added {count} runs {runs} gone {gone}\n"

    def rests_soon(self, manifest):
        """Whether a table that has a limit of its own comes to rest soon with these observers. After a change they have few runs, and here
        they may have so many that the model takes a minute. Other tables had as many after a change."""
        if self.limits is None:
            return True
        trial = copy.deepcopy(self.kept)
        trial.catching_up = FEW_RUNS
        trial.change_observers(manifest)
        return trial.left() == "quiet"

    def close(self, pick, field):
        """Ends a program that has answered all but a group that hasn't ended."""
        if self.kept.waiting is not None:
            self.kept.drop_group()
            self.met["group left"] += 1
            self.end(0)
        elif pick.random() < 0.3:
            if self.is_in_turn:
                # a log that is large is compacted before the next answer
                self.exchange([b"quiet?\n"], self.take(b"quiet?"))
            self.running.kill()
            self.met["killed"] += 1
            self.end(-9)
        else:
            if pick.random() < 0.4:
                self.part_of_a_line(pick, field)
            self.end(0)

    def part_of_a_line(self, pick, field):
        """The front of a line, or all of it without its newline: that is no line, and has no answer."""
        _, line = line_from(pick, field, self.kept)
        if line:
            part = line[: pick.choice((len(line), pick.randrange(1, len(line) + 1)))]
            self.met["parts of a line"] += 1
            self.sent += part
            self.send([part])

    def compact_unquiet(self, pick):
        """A line that compacts a table where something is left to do, for some; what is left stays so."""
        if self.kept.waiting is None and self.kept.left() != "quiet" and pick.random() < UNQUIET:
            for line in (b"compact", b"quiet?"):
                self.exchange([line + b"\n"], self.take(line))
            self.met["compacted by a line, unquiet"] += 1

    def go(self, pick, field):
        for _ in range(pick.choice(STARTS)):
            self.start(max(self.size() + pick.choice(ABOVE), 0) if pick.random() < LARGE else LAST)
            self.met["starts"] += 1
            for _ in range(pick.choice(BATCHES)):
                self.batch(pick, field)
                self.compact_unquiet(pick)
            self.close(pick, field)
            for _ in range(1 if self.kept.left() != "quiet" else pick.choice(COMPACTIONS)):
                others = others_from(pick, field, self.kept.manifest, self.had) if pick.random() < OTHERS else None
                self.compact(others if others and self.rests_soon(others) else None)


def limit_from(pick):
    """A limit of few entries, or none, for some the one of most tables."""
    return pick.choice(LIMITS) if pick.random() < 0.9 else pick.choice((0, 1, logs.DEFAULT_LIMIT, logs.NO_LIMIT))


def parts_of(pick, text):
    """A text in one to six pieces."""
    count = pick.choice((1, 1, 1, 2, 6))
    places = sorted(pick.randrange(len(text) + 1) for _ in range(count - 1))
    return [text[begin:end] for begin, end in zip([0, *places], [*places, len(text)])]


def with_fronts(pick, lines):
    """Lines as they are sent in turn: with each the front of the next one, which may be empty."""
    fronts = [b"", *(line[: pick.randrange(len(line))] for line in lines[1:]), b""]
    return [line[len(front) :] + of_next for line, front, of_next in zip(lines, fronts, fronts[1:])]


def others_from(pick, field, manifest, had):
    """A manifest of this profile with some of its observers, some of those that the table had, and those of another manifest; or with the
    same, as another text."""
    its = json.loads(manifest)
    own, others = its["observers"], (json.loads(manifest_of(pick, field)) for _ in range(3))
    if pick.random() < 0.1:
        return json.dumps(its, indent=pick.randrange(9))
    new = next((other["observers"] for other in others if other["profile"] == its["profile"]), [])
    back = [it for it in had if it not in own and pick.random() < 0.5]
    staying = [it if pick.random() < 0.96 else {**it, "column": pick.choice(field.columns)} for it in own if pick.random() < STAYS]
    named = {it["name"]: it for it in [*({**it, "name": f"{it['name'][:24]}-{pick.randrange(99)}"} for it in new), *back, *staying]}
    its["observers"] = list(named.values())[-MOST_OBSERVERS:]
    if pick.random() < 0.6:
        pick.shuffle(its["observers"])
    return json.dumps(its)


def kept_files(session, fault):
    """A folder with what a session had that differs."""
    folder = Path(tempfile.mkdtemp(prefix="keep-differs-"))
    for file in (session.manifest, session.log, session.folder / "others.json"):
        if file.exists():
            (folder / file.name).write_bytes(file.read_bytes())
    (folder / "lines").write_bytes(session.sent)
    (folder / "why").write_text(f"{fault}\n")
    return folder


def run(program, seed, number):
    """Has a session, and counts what it met; or answers why it differs."""
    pick, limits = random.Random(f"{seed} {number}"), random.Random(f"limits {seed} {number}")
    field = field_from(pick)
    with tempfile.TemporaryDirectory(prefix="session-") as folder:
        session = Session(program, folder, manifest_of(pick, field), limits if limits.random() < LIMITED else None)
        try:
            session.go(pick, field)
        except Differs as fault:
            session.stop()
            return f"session {number} of seed {seed}: {fault} ({kept_files(session, fault)})"
    session.met["drains cut off by a limit"] += session.kept.cut_off
    return session.met


def try_group(session):
    """A group of as many changes as a record may have, and of two more, which are refused."""
    lines = ["begin", *(f"put {row} 0 2a" for row in range(10_002)), "end"]
    session.exchange(["".join(f"{line}\n" for line in lines).encode()], GROUP)
    session.kept.lines = lines[1:10_001]
    session.end(0)
    session.start()
    session.exchange([b"get 9999 0\nget 10000 0\n"], ["value 2a commit 20000", "absent"])


# Each change commits two timestamps after the one before it.
GROUP = ["begun", *(f"made {2 * number} runs 0" for number in range(1, 10_001)), "refused 75", "refused 75", "ended"]


def try_passes(session):
    """Changes after which 999 and 1,000 passes find a mark: with the second, the last pass that is made isn't one without."""
    lines, wanted = ["put 998 0 01", "quiet?", "put 999 0 01", "quiet?"], ["made 2 runs 999", "quiet", "made 2002 unquiet", "quiet"]
    session.exchange(["".join(f"{line}\n" for line in lines).encode()], wanted)
    session.kept.lines = [lines[0], lines[2]]
    session.end(0)
    session.start()
    session.exchange([b"put 0 0 01\n"], ["made 4004 runs 1"])


# Changes under an observer that reads a cell and writes it, in 18 instructions, and one whose result is 1 where its cell has a value, in
# two. Each is sent alone, so that the first two have a record each, and the group has one.
COUNTED = (
    (b"put 7 0 2a\n", ["made 2 runs 2"]),
    (b"del 7 0\n", ["made 8 runs 2"]),
    (b"begin\nput 8 0 01\nput 9 0 01; put 10 0 01\nend\n", ["begun", "made 14 runs 2", "made 20 runs 4", "ended"]),
)
COUNTER = observers_of((TOP / "examples/counter.json").read_text())[0].code
IS_VALUE = encoded("ldxdw r0, [r1+32]", "exit")


def stats_of(runs, nonzero, size, entries):
    """The answer to `stats` after so many runs of both of these observers."""
    return [
        f"stats counter runs {runs} nonzero 0 conflicts 0 asks {runs} instructions {18 * runs}",
        f"stats is-value runs {runs} nonzero {nonzero} conflicts 0 asks 0 instructions {2 * runs}",
        *(f"log {size}", f"entries {entries}", "end"),
    ]


def try_stats(session):
    """What observers do is counted from the first change, also after a start, and the log and the entries are."""
    size = 13 + len(logs.header(session.manifest.read_bytes()))
    session.exchange([b"stats\n"], stats_of(0, 0, size, 0))
    for text, made in COUNTED:
        session.exchange([text], made)
    session.kept.lines = ["put 7 0 2a", "del 7 0", "put 8 0 01", "put 9 0 01; put 10 0 01"]
    # three records, each of 13 bytes and its lines; two entries for each write of a cell, and of an acknowledgment
    wanted = stats_of(5, 4, size + 13 + 11 + 13 + 8 + 13 + 35, 2 * (5 + 5 + 5 + 5))
    session.exchange([b"stats\nstats 7\nbegin\nstats\nend\nstats\n"], [*wanted, "refused 70", "begun", "refused 76", "ended", *wanted])
    session.end(0)
    session.start()
    session.exchange([b"stats\n"], wanted)


def try_generations(session):
    """A log that is compacted after each change of a cell under both of these observers. Of each generation, which has six timestamps,
    the newest writes and acknowledgments are kept; the count goes on, and so do the numbers of `stats`. A log that is compacted again
    without a change between has the same bytes."""
    # the header; and the record of 12, 16 and 80 bytes and two acknowledgments and two values
    size = 13 + len(logs.header(session.manifest.read_bytes())) + 13 + 12 + 16 + 80 + 2 * 27 + 2 * 58
    for number in range(4):
        clock = 6 * number
        if number:
            session.exchange([b"stats\n"], stats_of(number, number, size, 2 * 4))
            text, kept = f"since {clock - 1}\nsince {clock}\nget 7 15\n", f"value 0{number} commit {clock - 2}"
            session.exchange([text.encode()], [f"refused 77 {clock}", "end", kept])
        line, seen = f"if 7 0 {max(clock - 4, 0)}; put 7 0 2{number}", f"cell 7 15 commit {clock + 4} value 0{number + 1}"
        session.exchange([f"{line}\n".encode()], [f"made {clock + 2} runs 2"])
        session.exchange([f"since {clock}\n".encode()], [f"cell 7 0 commit {clock + 2} value 2{number}", seen, "end"])
        session.kept.take(line.encode())
        session.end(0)
        session.compact()
        before = session.log.read_bytes()
        session.compact()
        session.compare("a log that is compacted again", session.log.read_bytes(), before)
        session.start()


def try_limits(program):
    """Sessions at the limits of a group and of passes, and two of what observers do, one of them over a log that is compacted, whose
    answers are worked out by hand."""
    down = manifest_with(observer("down", 0, "2", DOWN.hex()))
    counted = manifest_with(observer("counter", 0, "1, 2", COUNTER.hex()), observer("is-value", 0, "", IS_VALUE.hex()))
    limits = ((try_group, NO_OBSERVERS.read_text()), (try_passes, down), (try_stats, counted), (try_generations, counted))
    for limit, manifest in limits:
        with tempfile.TemporaryDirectory(prefix="session-") as folder:
            session = Session(program, folder, manifest)
            session.start()
            limit(session)
            session.stop()
