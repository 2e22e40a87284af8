"""Tables of `percobpf_keep` with the observers of hostile_observers.py, for `checks/hostile`: each is kept, asked, compacted and opened
again, and then goes on without these observers."""
from __future__ import annotations

import json
import os
import re
import resource
import select
import subprocess
import time
from dataclasses import dataclass
from functools import partial
from pathlib import Path

from hostile_model import FULL, LIMIT, HostileTable
from hostile_observers import QUIET, ROW, SHAPES

# How long one answer may take, also that of a start, which makes all runs again. On a free processor it takes a second, and with sixteen
# writes in each run six.
ANSWER_SECONDS = 120
# The line by which a log is compacted, and a cell that no observer observes, which is changed after that. To fill a table is to change
# that cell until a change is refused.
COMPACT, MORE, FILL = "compact", (5, 15), "fill"
# The limit of a table that is filled, how many entries beyond it a change may leave, and for how long a processor may work on one answer
# there: how long it takes depends on what else the machine does.
FEW, OF_CHANGE, FEW_SECONDS = 3_401, 32, 1.0
# How much memory a program may take, in bytes.
MEMORY = 3 << 29
# Less than the table of two changes takes whose observer doesn't come to rest, and what a start says that has so much: how many changes
# were made of how many.
LITTLE = range(80 << 20, 320 << 20, 40 << 20)
IN_PART = re.compile(r"Error: no memory: ([0-9]+) of ([0-9]+) changes were made\n")


class Wrong(Exception):
    """What is wrong with a table."""


@dataclass(frozen=True)
class Tools:
    """The words by which a table is kept and a program is assembled, and a folder."""

    program: Path
    assembler: list
    folder: Path


def limited(memory=MEMORY):
    """Limits the memory of the process that is begun."""
    resource.setrlimit(resource.RLIMIT_AS, (memory, memory))


class Kept:
    """A program over a log, whose answers have a time limit, and one of what processors work on them."""

    def __init__(self, tools, manifest, log, options=(), worked=ANSWER_SECONDS):
        how = {"stdin": subprocess.PIPE, "stdout": subprocess.PIPE, "stderr": subprocess.PIPE}
        self.running = subprocess.Popen([tools.program, *options, manifest, log], preexec_fn=limited, **how)
        self.had, self.slowest, self.worked, self.most_worked = b"", 0.0, worked, 0.0

    def __enter__(self):
        return self

    def __exit__(self, *_ended):
        if self.running.poll() is None:
            self.running.kill()
        self.running.communicate()

    def more(self, until, asked):
        """Reads what there is, before a deadline."""
        out = self.running.stdout
        if not select.select([out], [], [], max(0.0, until - time.monotonic()))[0]:
            raise Wrong(f"{asked}: no answer in {ANSWER_SECONDS} s")
        piece = os.read(out.fileno(), 1 << 20)
        if not piece:
            status, errors = self.running.wait(ANSWER_SECONDS), self.running.stderr.read().decode().strip()
            raise Wrong(f"{asked}: it has ended with status {status}: {errors}")
        self.had += piece

    def work(self):
        """For how many seconds processors have worked for the program."""
        fields = Path(f"/proc/{self.running.pid}/stat").read_text().rpartition(")")[2].split()
        return (int(fields[11]) + int(fields[12])) / os.sysconf("SC_CLK_TCK")

    def answer(self, line, is_many=False):
        """The line that answers a line, or the lines up to `end`. No line asks for that of a start."""
        begun, before, ending = time.monotonic(), self.work(), b"end\n" if is_many else b"\n"
        if line:
            self.running.stdin.write(f"{line}\n".encode())
            self.running.stdin.flush()
        while not self.had.endswith(ending):
            self.more(begun + ANSWER_SECONDS, line or "the start")
        self.slowest, worked = max(self.slowest, time.monotonic() - begun), self.work() - before
        self.most_worked = max(self.most_worked, worked)
        if worked > self.worked:
            raise Wrong(f"{line or 'the start'}: processors worked {worked} s on the answer")
        said, self.had = self.had.decode().splitlines(), b""
        return said if is_many else said[0]

    def end(self):
        """Ends the input."""
        try:
            out, errors = self.running.communicate(timeout=ANSWER_SECONDS)
        except subprocess.TimeoutExpired:
            raise Wrong("it doesn't end") from None
        if self.running.returncode or out or errors:
            raise Wrong(f"status {self.running.returncode}, {out!r}, {errors!r}")


def expect(what, got, wanted):
    if got != wanted:
        pair = next(((a, b) for a, b in zip(got, wanted) if a != b), (len(got), len(wanted))) if isinstance(got, list) else (got, wanted)
        raise Wrong(f"{what}: {pair[0]!r}, wanted {pair[1]!r}")


def manifest_of(tools, place, observers):
    """A file with a manifest of these observers."""
    entries = []
    for it in observers:
        text, code = tools.folder / f"{place}-{it.name}.s", tools.folder / f"{place}-{it.name}.bin"
        text.write_text(it.text())
        subprocess.run([*tools.assembler, "asm", text, code], check=True, stdin=subprocess.DEVNULL, timeout=ANSWER_SECONDS)
        entries.append({"name": it.name, "column": it.column, "helpers": it.helpers(), "code": code.read_bytes().hex()})
    file = tools.folder / f"{place}.json"
    file.write_text(json.dumps({"profile": 1, "observers": entries}))
    return file


def ask_all(kept, shape, table):
    """Asks each question, and compares the answers. Answers the lines of `stats` on the observers."""
    expect("quiet?", kept.answer("quiet?"), table.quiet())
    for cell in shape.changes:
        if cell in table.newest:
            expect("get", kept.answer(f"get {cell[0]} {cell[1]}"), table.get(cell))
    stats = [line for line in kept.answer("stats", is_many=True) if not line.startswith("log ")]
    expect("stats", [line[: len(begin)] for line, begin in zip(stats, table.stats())], table.stats())
    if not shape.is_large:
        expect("list", kept.answer("list", is_many=True), table.list())
    after, lines = table.since_last()
    is_many = lines[-1] == "end"
    said = kept.answer(f"since {after}", is_many)
    expect("since", said if is_many else [said], lines)
    return stats[: len(table.observers)]


class Trial:
    """A table of a shape, whose program is started again and again: how many changes its log has since it was compacted; how many changes
    were made, how many of them were left unquiet, how many were refused, and the slowest answer; and the lines of `stats` on its
    observers. For so long processors may work on an answer, and have worked at most."""

    def __init__(self, tools, place, shape, limit=LIMIT, worked=ANSWER_SECONDS):
        self.tools, self.place, self.shape, self.table = tools, place, shape, HostileTable(shape.observers, limit)
        self.manifest, self.log = manifest_of(tools, place, shape.observers), tools.folder / f"{place}.log"
        self.found = self.changes = self.unquiet = self.refused = 0
        self.slowest, self.worked, self.most_worked, self.stats = 0.0, worked, 0.0, None

    def change(self, kept, cell):
        wanted = self.table.change(cell)
        expect("a change", kept.answer(f"put {cell[0]} {cell[1]} 2a"), wanted)
        is_made = wanted != FULL
        self.found += is_made
        self.changes += is_made
        self.refused += not is_made
        self.unquiet += wanted.endswith(" unquiet")

    def fill(self, kept):
        """Changes a cell until a change is refused. The table never has more entries than its limit and a change."""
        before = self.refused
        while self.refused == before:
            self.change(kept, MORE)
            entries = next(line for line in kept.answer("stats", is_many=True) if line.startswith("entries "))
            expect("entries", entries, f"entries {self.table.entries()}")
            expect(f"{entries} under a limit of {self.table.limit}", int(entries.split()[1]) <= self.table.limit + OF_CHANGE, True)

    def compact(self, kept):
        """Compacts the log by a line. What is asked then is answered as before."""
        expect("a compaction", kept.answer("compact"), f"compacted {self.table.compact()}")
        self.found = 0
        self.ask(kept)

    def ask(self, kept, is_changed=False):
        """Asks each question. What the observers did is the same as when it was asked last, if nothing was changed since then."""
        stats = ask_all(kept, self.shape, self.table)
        if not is_changed and self.stats is not None:
            expect("stats, again", stats, self.stats)
        self.stats = stats

    def serve(self, deeds):
        """Starts the program, which has to find the table of before, and has it do these: changes of cells, and compactions. Each question is
        asked before and after them."""
        options = () if self.table.limit == LIMIT or self.log.exists() else ("--limit", str(self.table.limit))
        with Kept(self.tools, self.manifest, self.log, options, self.worked) as kept:
            expect("a start", kept.answer(None), f"open {self.found}")
            if is_asked := self.changes > 0:
                self.ask(kept)
            for deed in deeds:
                if deed == COMPACT:
                    if not is_asked:
                        self.ask(kept, is_changed=True)
                    self.compact(kept)
                elif deed == FILL:
                    self.fill(kept)
                else:
                    self.change(kept, deed)
                is_asked = deed == COMPACT
            if not is_asked:
                self.ask(kept, is_changed=True)
            kept.end()
        self.slowest, self.most_worked = max(self.slowest, kept.slowest), max(self.most_worked, kept.most_worked)

    def start_with_little(self):
        """Starts the program with less and less than it takes. It says how many changes were made, and leaves the log as it is."""
        before, made = self.log.read_bytes(), set()
        words = [self.tools.program, self.manifest, self.log]
        for memory in LITTLE:
            how = {"stdin": subprocess.DEVNULL, "capture_output": True, "text": True, "timeout": ANSWER_SECONDS}
            ended = subprocess.run(words, preexec_fn=partial(limited, memory), **how)
            if not (its := IN_PART.fullmatch(ended.stderr)):
                expect(f"a start with {memory} bytes", (ended.returncode, ended.stderr), (0, ""))
                continue
            expect(f"a start with {memory} bytes", (ended.returncode, ended.stdout, int(its[2])), (1, "", self.found))
            made.add(int(its[1]))
        expect("how many changes were made by starts with little memory", sorted(made), [*range(self.found)])
        expect("the log after these", self.log.read_bytes() == before, True)

    def go_on_with(self, observers):
        """Gives the log a manifest with these of its observers alone. The table has to be quiet then, and stay so."""
        self.manifest = manifest_of(self.tools, f"{self.place}-at-rest", observers)
        words = [self.tools.program, "--compact", self.manifest, self.log]
        how = {"stdin": subprocess.DEVNULL, "capture_output": True, "text": True, "preexec_fn": limited, "timeout": ANSWER_SECONDS}
        ended = subprocess.run(words, **how)
        printed = f"open {self.found}\n{self.table.go_on_with(observers)}"
        expect("a manifest of others", (ended.returncode, ended.stdout, ended.stderr), (0, printed, ""))
        expect("a table without those that don't rest", self.table.quiet(), "quiet")
        self.found, self.stats, before = 0, None, self.unquiet
        # of cells of the columns that were observed, and of one more
        self.serve([(ROW, column) for column in sorted({it.column for it in self.shape.observers})] + [MORE])
        expect("changes that are left unquiet then", self.unquiet, before)


def deeds_of(shape):
    """What the program is asked for between one start and the next. A log is compacted between its changes, if it has several; or else
    before one more, and where that one takes long again, the log isn't opened between."""
    if shape.is_large:
        return [shape.changes, ()]
    if len(shape.changes) > 1:
        return [shape.changes[:-1], (COMPACT, shape.changes[-1]), (COMPACT,)]
    if shape.rests:
        return [shape.changes, (COMPACT, MORE), ()]
    return [(*shape.changes, COMPACT), (MORE, COMPACT)]


def try_shape(tools, place, shape):
    """Keeps a table of this shape. Answers how many changes were made, how many of them were left unquiet, and the slowest answer."""
    trial = Trial(tools, place, shape)
    for deeds in deeds_of(shape):
        if trial.found > 1 and not trial.shape.rests:
            trial.start_with_little()
        trial.serve(deeds)
    expect("whether a table is quiet", trial.unquiet == 0, shape.rests)
    if not shape.is_large:
        trial.go_on_with(tuple(it for it in shape.observers if it == QUIET))
    trial.log.unlink()
    return trial.changes, trial.unquiet, trial.slowest


def try_filled(tools, place, shape):
    """Keeps a table of this shape with few entries, and fills it, also once it is opened again, and once it is compacted. Answers how many
    changes were made and refused, and for how long processors worked on one answer at most."""
    trial = Trial(tools, f"{place}-filled", shape, FEW, FEW_SECONDS)
    for deeds in ((*shape.changes, FILL), (FILL,), (COMPACT, FILL), ()):
        trial.serve(deeds)
    expect("how many changes were refused", trial.refused, 3)
    trial.log.unlink()
    return trial.changes, trial.refused, trial.most_worked


def tried(tools, place):
    """What is wrong with a shape, or None, and what it met, with the limit of most tables and with few entries."""
    shape = SHAPES[place]
    try:
        return None, (try_filled(tools, place, shape), try_shape(tools, place, shape))
    except Wrong as fault:
        return f"{shape.name}: {fault}", ((0, 0, 0.0), (0, 0, 0.0))
