"""What checks/refused-growths runs: texts, words and programs, with how that ends; and how many runs of each must end otherwise
where a request is refused, and which calls of the program crate `test_refusals` must be refused how often.

Where a number doesn't follow from the call itself it is about half of what was met when this was written, so that a hook that
meets less is noticed.
"""
from __future__ import annotations

import sys
from dataclasses import dataclass
from pathlib import Path

import model

TOP = Path(__file__).resolve().parent.parent
PROGRAM = TOP / "crates/percobpf/out/percobpf"
STORY = TOP / "crates/percobpf_story/out/percobpf_story"
REFUSALS = TOP / "crates/test_refusals/out/test_refusals"
LARGEST_FILE = 16_777_216

# how many cases of machines there are, at least
MACHINES = 7

# how many runs of a case end otherwise than with ample memory, at least: by its first word, and where its words are refused or
# ask for help
LEAST = {"run": 50, "replay": 50, "asm": 40, "dis": 40, "check": 40, "frames": 40, "trial": 40}
LEAST_OF_WORDS = 30

# how often each call of `test_refusals` is refused, at least: of the table with each kind of step, where in each of two tables the
# journal, the book and the list of the seat grow; of a state with those kinds that grow there
KINDS = "Begin Read ReadAt Declare Prewrite Stamp CommitPrimary CommitSecondary Settle Clear NextMark Sweep".split()
GROWING_KINDS = "Begin Read ReadAt Prewrite CommitPrimary CommitSecondary Clear".split()

BY_ITSELF = {
    "a preparation": 500,
    "accept": 2,
    "assemble": 1,
    "Batch::copy": 1,
    "ChangeJob::new": 1,
    "decode": 1,
    "Declaration::new": 2,
    "disassemble": 3,
    "encode": 1,
    "EndedRun::new": 1,
    # of a program with two slots that are jumped to
    "frames": 4,
    "ListTablet::apply": 7,
    # its machine's start, and what it declares at its exit
    "ObserverJob::local": 5,
    "ObserverJob::follow": 5,
    "parse_schedule": 1,
    "parse_script": 2,
    "Program::new": 1,
    "Registry::from_json": 15,
    "Registry::into_observers": 1,
    "report": 15,
    # its own observers, and room for what it leaves
    "run_workers": 6,
    "run_workers, a seat": 25,
    # its list at 0, 4, 8 and 16 entries, and room for two answers
    "Seat::make_room": 6,
    # seats and books
    "Shared::open": 2,
    "Shared::swap": 20,
    "SlabTablet::apply": 7,
    "State::swap": 20,
    "Table::apply": 8,
    "Table::swap": 80,
    "verify": 4,
    # of six machines, each in a box, with rooms where its program reads or writes
    "Vm::start": 11,
    "World::open": 2,
    "World::run": 40,
    **{f"Shared::call {kind}": 6 for kind in KINDS},
    **{f"State::take {kind}": 1 for kind in GROWING_KINDS},
}

BESIDE_SWAPS = {"a preparation": 10, "report": 5, "run_workers": 6, "run_workers, a seat": 25}

OF_A_MACHINE = {"a preparation": 5, "Vm::start": 2}

# on the record of a deletion, where each cell that is asked for is absent: each instruction of `copy` and of `counter`, which
# have no jump that is taken; of the others those of a deletion
INSTRUCTIONS = {"copy": 16, "copier": 9, "counter": 18, "grader": 14, "meter": 12}

# what is accepted in profile 1 with the change record of version 1 alone is run here
NO_MACHINES = ("indexer", "meter.v4")

COPY = (
    "bf1600000000000079623000000000007b2ae0ff0000000079623800000000007b2ae8ff0000000079624000000000007b2af0ff00000000"
    "79624800000000007b2af8ff000000007961000000000000b702000001000000bfa300000000000007030000e0ffffff8500000002000000"
    "b7000000000000009500000000000000"
)

# the replays whose story is printed too
TOLD = ("rivals", "crashed-late", "cleared", "settled", "clock", "copy-26", "event-61", "event-63", "code-91")

# loads the flag of a change record of version 2
KEEP = "7910500000000000" "b700000000000000" "9500000000000000"


@dataclass
class Case:
    """What a program is run on in the working folder, and how that ends. A text of None is any but the empty one.

    Where it `writes`, its last word is a path that each run has for itself, and `wrote` is what stands there in the
    end, None for no file. With the words `then`, it must end with status 0 too where all requests are refused that come
    after as many as it made itself.

    At least as many of its runs as `ends`, where that is set, end otherwise than with ample memory. One of `test_refusals` has
    `calls`, with the least number of times that each is refused.

    A run of workers that reports has `cells`, with all that the script gives to each, and the number of changes. Where it
    `derives`, what observers make of other changes isn't listed here.
    """

    name: str
    words: list
    status: int = 0
    out: bytes | None = b""
    err: bytes | None = b""
    stdout: str | None = None
    program: Path = PROGRAM
    writes: bool = False
    wrote: bytes | None = None
    then: list | None = None
    cells: dict | None = None
    changes: int = 0
    workers: int = 1
    swaps: int = 0
    derives: bool = False
    ends: int | None = None
    calls: dict | None = None

    @property
    def least(self):
        """How many runs end otherwise than with ample memory, at least."""
        if self.ends is not None:
            return self.ends
        if self.calls is not None:
            return sum(self.calls.values())
        return LEAST_OF_WORDS if self.status == 2 or "--help" in self.words else LEAST[self.words[0]]

    @property
    def is_by_several(self):
        """Whether several threads ask for memory, so that a run differs from time to time."""
        return self.workers > 1 or self.swaps > 0


def report_of(script):
    """The report of a script whose lines are changes of one cell, each committed at twice its number."""
    newest = {}
    changes = [line for line in script.splitlines() if line and not line.startswith("#")]
    for number, line in enumerate(changes, 1):
        verb, row, column, *digits = line.split(" ")
        value = bytes.fromhex(digits[0]) if verb == "put" else None
        newest[int(row), int(column)] = 2 * number, value
    lines = []
    for (row, column), (commit, value) in sorted(newest.items()):
        end = "deleted" if value is None else f"value {(value.rstrip(bytes(1)) or bytes(1)).hex()}"
        lines.append(f"cell {row} {column} commit {commit} {end}\n")
    return ("".join(lines) + "quiet\n").encode()


def scripts():
    """Scripts by the name of their case, with the output, or the line of the fault."""
    watch = "put 7 0 2a"
    return {
        "one-put": (watch, b"cell 7 0 commit 2 value 2a\nquiet\n"),
        "put-and-del": (f"{watch}\ndel 7 0\n", b"cell 7 0 commit 4 deleted\nquiet\n"),
        "two-tablets": (
            "put 1000 15 00\nput 0 0 0100\n",
            b"cell 0 0 commit 4 value 01\ncell 1000 15 commit 2 value 00\nquiet\n",
        ),
        "two-cells": ("put 7 1 aa; put 7 0 2a", b"cell 7 0 commit 2 value 2a\ncell 7 1 commit 2 value aa\nquiet\n"),
        "no-change": ("", b"quiet\n"),
        "remarks": (f"# one\n\n{watch}\n#", b"cell 7 0 commit 2 value 2a\nquiet\n"),
        "code-70": ("put 7 0", b"script: line 1 code 70\n"),
        "code-70-blanks": (f"{watch}\nput 7  0 2a\n", b"script: line 2 code 70\n"),
        "code-70-tab": ("put\t7 0 2a", b"script: line 1 code 70\n"),
        "code-70-zero": ("put 07 0 2a", b"script: line 1 code 70\n"),
        "code-70-line-end": ("del 7 0\r\n", b"script: line 1 code 70\n"),
        "code-71": ("put 7 16 2a", b"script: line 1 code 71\n"),
        "code-71-row": ("del 18446744073709551616 0", b"script: line 1 code 71\n"),
        "code-72": ("put 7 0 2A", b"script: line 1 code 72\n"),
        "code-72-odd": ("put 7 0 2a2", b"script: line 1 code 72\n"),
        "code-72-long": (f"put 7 0 {'2a' * 33}", b"script: line 1 code 72\n"),
        "code-73": ("put 7 0 2a; put 7 0 2a", b"script: line 1 code 73\n"),
        "code-74": ("; ".join(f"del {row} 0" for row in range(17)), b"script: line 1 code 74\n"),
        "code-70-later": ("put 7 0 2a; x", b"script: line 1 code 70\n"),
        "code-75": ("del 0 0\n" * 10_001, b"script: line 10001 code 75\n"),
        "largest-file": ("#" * LARGEST_FILE, b"quiet\n"),
    }


def of(observers, profile=1):
    """A manifest with the texts of these observers."""
    return f'{{"profile":{profile},"observers":[{observers}]}}'


def observer(name="watch", column=0, helpers="[]", code="b7000000000000009500000000000000"):
    """The text of an observer, whose code ends with 0."""
    return f'{{"name":"{name}","column":{column},"helpers":{helpers},"code":"{code}"}}'


def manifests():
    """Manifests by the name of their case, with how the fault is reported."""
    return {
        "code-50": ('{"profile":1,"observers":[', "code 50"),
        "code-50-deep": ("[" * 200, "code 50"),
        "code-51-member": ('{"profile":1}', "code 51"),
        "code-51-twice": ('{"profile":1,"observers":[],"profile":3}', "code 51"),
        "code-51-record": (of(f'{observer()[:-1]},"record":2}}'), "code 51"),
        "code-54-record": (of(f'{observer()[:-1]},"record":3}}', 2), "observer 0 code 54"),
        "code-56-record": (of(observer(code=KEEP), 2), "observer 0 code 56 slot 0 code 27"),
        "code-51-number": ('{"profile":1.0,"observers":[]}', "code 51"),
        "code-51-large": ('{"profile":18446744073709551616,"observers":[]}', "code 51"),
        "code-51-observer": (of("5"), "code 51"),
        "code-52": (of(",".join([observer()] * 33)), "code 52"),
        "code-53": (of(observer(name="Watch")), "observer 0 code 53"),
        "code-53-used": (of(",".join([observer()] * 2)), "observer 1 code 53"),
        "code-54": (of(observer(column=16)), "observer 0 code 54"),
        "code-54-helper": (of(observer(helpers="[2,2]")), "observer 0 code 54"),
        "code-55": (of(observer(code="b")), "observer 0 code 55"),
        "code-56": (of(observer(code="9500000000000000")), "observer 0 code 56 slot 0 code 21"),
        "code-56-size": (of(observer(code="b7")), "observer 0 code 56 slot 0 code 10"),
        "code-56-end": (of(observer(code="b700000000000000")), "observer 0 code 56 slot 0 code 36"),
    }


def file_cases(room):
    """Cases of files that can't be read, with the first fault reported. Reading comes before any parsing."""
    (room / "not-text").write_bytes(b"put 7 0 \xff")
    (room / "too-large").write_bytes(b"#" * (LARGEST_FILE + 1))
    (room / "folder").mkdir()
    (room / "no-json").write_text("x")
    told = {"missing": "cannot read", "folder": "cannot read", "not-text": "not text", "too-large": "too large"}
    for name, fault in told.items():
        line = f"{fault} {name}\n".encode()
        yield Case(f"manifest-{name}", ["run", name, "first.txt"], 1, b"", line)
        yield Case(f"script-{name}", ["run", "no-json", name], 1, b"", line)
    yield Case("manifest-first", ["run", "no-json", "code-70"], 1, b"", b"manifest: code 50\n")


def program_cases(room):
    """Cases of programs that are assembled, listed and checked."""
    text, listing = b"# seven\n\nmov64 r0, 7\nlddw r1, 4294967303\nexit", b"mov64 r0, 7\nlddw r1, 4294967303\nexit\n"
    code = bytes.fromhex("b700000007000000" "1801000007000000" "0000000001000000" "9500000000000000")
    (room / "text").write_bytes(text)
    (room / "code").write_bytes(code)
    (room / "bad-text").write_bytes(b"exit\nfoo r1\n")
    (room / "bad-code").write_bytes(bytes.fromhex("9500000000000000" "8f01000000000000"))
    (room / "no-bytes").write_bytes(b"")
    (room / "remarks-alone").write_bytes(b"# one\n")
    yield Case("asm", ["asm", "text", "out"], 0, writes=True, wrote=code)
    watch = bytes.fromhex("b700000000000000" "9500000000000000")
    yield Case("asm-watch", ["asm", "watch.s", "out"], 0, writes=True, wrote=watch)
    yield Case("asm-refused", ["asm", "bad-text", "out"], 1, b"", b"line 2 code 80\n", writes=True)
    yield Case("asm-nothing", ["asm", "remarks-alone", "out"], 1, b"", b"line 0 code 84\n", writes=True)
    yield Case("asm-missing", ["asm", "missing", "out"], 1, b"", b"cannot read missing\n", writes=True)
    yield Case("asm-not-text", ["asm", "not-text", "out"], 1, b"", b"not text not-text\n", writes=True)
    yield Case("asm-too-large", ["asm", "too-large", "out"], 1, b"", b"too large too-large\n", writes=True)
    yield Case("asm-unwritable", ["asm", "text", "folder"], 1, b"", b"cannot write folder\n")
    yield Case("dis", ["dis", "code"], 0, listing)
    yield Case("dis-refused", ["dis", "bad-code"], 1, b"refused slot 1 code 12\n")
    yield Case("dis-nothing", ["dis", "no-bytes"], 1, b"refused slot 0 code 10\n")
    yield Case("dis-missing", ["dis", "missing"], 1, b"", b"cannot read missing\n")
    yield Case("dis-full-output", ["dis", "code"], 1, b"", b"cannot write the output\n", "/dev/full")
    (room / "no-exit").write_bytes(bytes.fromhex("b700000007000000"))
    yield Case("check", ["check", "code"], 0, b"accepted 4 slots\n")
    yield Case("check-refused", ["check", "no-exit"], 1, b"refused slot 0 code 36\n")
    yield Case("check-no-program", ["check", "bad-code"], 1, b"refused slot 1 code 12\n")
    yield Case("check-missing", ["check", "missing"], 1, b"", b"cannot read missing\n")
    (room / "second-text").write_bytes(b"movsx64 r0, r1, 8\nldxsb r0, [r1+80]\nexit\n")
    second = bytes.fromhex("bf10080000000000" "9110500000000000" "9500000000000000")
    (room / "second").write_bytes(second)
    (room / "keep").write_bytes(bytes.fromhex(KEEP))
    yield Case("asm-profile-2", ["asm", "--profile", "2", "second-text", "out"], 0, writes=True, wrote=second)
    yield Case("asm-profile-1", ["asm", "second-text", "out"], 1, b"", b"line 1 code 80\n", writes=True)
    yield Case("dis-profile-2", ["dis", "second", "--profile", "2"], 0, b"movsx64 r0, r1, 8\nldxsb r0, [r1+80]\nexit\n")
    yield Case("check-profile-2", ["check", "second", "--profile", "2"], 1, b"refused slot 0 code 23\n")
    yield Case("check-record-2", ["check", "keep", "--profile", "2", "--record", "2"], 0, b"accepted 3 slots\n")
    yield Case("check-record-1", ["check", "keep"], 1, b"refused slot 0 code 27\n")
    yield Case("check-full-output", ["check", "code"], 1, b"", b"cannot write the output\n", "/dev/full")


def word_cases():
    """Cases of command lines: the texts are those of `clap`."""
    lines = [[], ["walk"], ["run"], ["run", "m"], ["run", "m", "s", "x"], ["run", "--x", "m", "s"]]
    lines += [["asm"], ["asm", "i"], ["asm", "i", "o", "x"], ["dis"], ["dis", "f", "x"], ["check"], ["check", "f", "x"]]
    lines += [["run", "m", "s", "--workers"], *(["run", "m", "s", "--workers", workers] for workers in ("0", "64", "+1", "x", ""))]
    lines += [["run", "m", "s", "--workers", "1", "--workers", "1"]]
    lines += [["run", "m", "s", "--swaps"], *(["run", "m", "s", "--swaps", swaps] for swaps in ("1001", "+1", "x", ""))]
    lines += [["replay", "m", "s"], ["replay", "m", "s", "e", "x"], ["replay", "m", "s", "e", "--clock"]]
    lines += [["replay", "m", "s", "e", "--clock", clock] for clock in ("x", "-1", "1.0", "", "18446744073709551616")]
    lines += [[*words, "--profile", "3"] for words in (["asm", "i", "o"], ["dis", "f"], ["check", "f"])]
    lines += [["check", "f", "--profile"], ["check", "f", "--profile", "+1"], ["check", "f", "--record", "3"]]
    lines += [["check", "f", "--record", "+2"], ["dis", "f", "--record", "2"]]
    for number, words in enumerate(lines, 1):
        yield Case(f"words-{number}", words, 2, b"", None)
    # it is reported before the words are read
    yield Case("words-not-text", ["run", b"\xff", "s"], 2, b"", b"error: a word of the command line is not UTF-8\n", ends=2)
    yield Case("help", ["--help"], 0, None, b"")
    yield Case("help-run", ["run", "--help"], 0, None, b"")
    yield Case("help-replay", ["replay", "--help"], 0, None, b"")


def replays():
    """Replays by the name of their case: observer, script, schedule, clock, and what is left or reported."""
    one, both = "put 7 0 2a\n", "put 7 1 aa; put 7 0 2a\n"
    changed, pair = "cell 7 0 commit 2 value 2a\n", "cell 7 0 commit 2 value 2a\ncell 7 1 commit 2 value aa\n"
    copied = "cell 7 0 commit 2 value 2a\ncell 7 1 commit 4 value 2a\nruns copy 1\n"
    last, made = 2**64 - 2, "launch 1 change 1\nstep 1 100\n"
    rivals = "launch 1 run watch 7\nlaunch 2 run watch 7\nstep 1\nstep 2\nstep 1 2\nstep 2 2\nstep 1 100\nstep 2 100\n"
    once = f"{made}launch 1 change 2\nstep 1 100\nlaunch 1 run watch 7\nstep 1 100\n"
    late, early = "launch 1 change 1\nstep 1 6\ncrash 1\n", "launch 1 change 1\nstep 1 5\ncrash 1\n"
    full = "launch 1 change 1\nstep 1\nlaunch 2 change 1\nstep 2\n"
    yield "rivals", "watch", one, made + rivals, 0, changed + "runs watch 1\nquiet\n"
    yield "handled-once", "watch", "put 7 0 2a\nput 7 0 2b\n", once, 0, "cell 7 0 commit 4 value 2b\nruns watch 1\nquiet\n"
    yield "crashed-late", "watch", both, late, 0, pair + "runs watch 0\nmarks 0 locks 1\n"
    yield "cleared", "watch", both, late + "clear 7 0\n", 0, pair + "runs watch 0\nmarks 1 locks 0\n"
    yield "crashed-early", "watch", both, early, 0, "runs watch 0\nmarks 0 locks 2\n"
    yield "taken-back", "watch", both, early + "settle 7 1\nclear 7 0\n", 0, "runs watch 0\nquiet\n"
    yield "settled", "watch", one, "launch 1 change 1\nstep 1 3\nsettle 7 0\nstep 1 100\n", 0, "runs watch 0\nquiet\n"
    yield "clock", "watch", one, full, last, "runs watch 0\nquiet\n"
    yield "clock-at-its-end", "watch", one, full, last + 1, "runs watch 0\nquiet\n"
    for steps, left in (24, "marks 1 locks 1\n"), (25, "marks 1 locks 0\n"), (26, "quiet\n"):
        yield f"copy-{steps}", "copy", one, f"{made}launch 1 run copy 7\nstep 1 {steps}\n", 0, copied + left
    yield "event-61", "watch", one, "launch 1 change 1\nlaunch 1 change 1\n", 0, "event 1 code 61\n"
    yield "event-63", "watch", one, "launch 1 change 2\n", 0, "event 0 code 63\n"
    yield "code-90", "watch", one, "step 1\nstep 01\n", 0, "schedule: line 2 code 90\n"
    yield "code-91", "watch", one, "step 64\n", 0, "schedule: line 1 code 91\n"
    yield "code-92", "watch", one, "step 1 1000000\nstep 1\n", 0, "schedule: line 2 code 92\n"
    yield "code-93", "watch", one, "launch 1 run other 7\n", 0, "schedule: line 1 code 93\n"
    yield "million", "watch", one, "step 1 1000000\n", 0, "runs watch 0\nquiet\n"
    yield "largest", "watch", one, "#" * LARGEST_FILE, 0, "runs watch 0\nquiet\n"


def replay_cases(room):
    """Cases of schedules. A clock of 0 is left out, as it may be."""
    for name, manifest, script, schedule, clock, told in replays():
        (room / f"{name}.script").write_text(script)
        (room / f"{name}.schedule").write_text(schedule)
        words = ["replay", f"{manifest}.json", f"{name}.script", f"{name}.schedule", *(["--clock", str(clock)] if clock else [])]
        is_fault = told.startswith(("event", "schedule"))
        told = told.encode()
        yield Case(f"replay-{name}", words, int(is_fault), b"" if is_fault else told, told if is_fault else b"")
    watch = ["replay", "watch.json", "rivals.script"]
    yield Case("replay-missing", [*watch, "missing"], 1, b"", b"cannot read missing\n")
    yield Case("replay-not-text", [*watch, "not-text"], 1, b"", b"not text not-text\n")
    yield Case("replay-too-large", [*watch, "too-large"], 1, b"", b"too large too-large\n")
    yield Case("replay-full-output", [*watch, "rivals.schedule"], 1, b"", b"cannot write the output\n", "/dev/full")


# a trial of the counter of examples/c
TRIED = ["trial", "counter", "--row", "7", "--column", "0", "--value", "2a"]


def trial_cases(room):
    """Cases of trials of one run, with an ask, a write and an old value."""
    (room / "counter").write_bytes((TOP / "examples/c/counter.v1.bin").read_bytes())
    lines = b"read 7 15 -> value 04\nwrite 7 15 value 05\nresult 0\ninstructions 18\n"
    yield Case("trial", [*TRIED, "--old", "29", "--cell", "7", "15", "04"], 0, lines, program=STORY)
    yield Case("trial-refused", ["trial", "bad-code", *TRIED[2:]], 1, b"refused slot 1 code 12\n", program=STORY)
    yield Case("trial-missing", ["trial", "missing", *TRIED[2:]], 1, b"", b"cannot read missing\n", program=STORY)
    yield Case("trial-full-output", TRIED, 1, b"", b"cannot write the output\n", "/dev/full", STORY)


def story_cases(room):
    """Cases of the story of some of these replays, as checks/model.py prints it, and of what is known before the slots of a
    program."""
    for name, manifest, script, schedule, clock, told in replays():
        if name not in TOLD:
            continue
        words = ["replay", f"{manifest}.json", f"{name}.script", f"{name}.schedule", *(["--clock", str(clock)] if clock else [])]
        out, err, status = "", told, 1
        if not told.startswith("schedule"):
            out, err, status = model.story((room / f"{manifest}.json").read_text(), script, schedule, clock, is_idle=True)
        yield Case(f"story-{name}", [*words, "--idle"], status, out.encode(), err.encode(), program=STORY)
    rivals = ["replay", "watch.json", "rivals.script", "rivals.schedule"]
    lines = b"1 1 begin script -> at 1\n2 1 declare 1 script; 7 0 value 2a -> done\ncell 7 0 commit 2 value 2a\nruns watch 1\nquiet\n"
    yield Case("story-excerpt", [*rivals, "--events", "1-2"], 0, lines, program=STORY)
    yield Case("story-missing", [*rivals[:3], "missing"], 1, b"", b"cannot read missing\n", program=STORY)
    yield Case("story-full-output", rivals, 1, b"", b"cannot write the output\n", "/dev/full", STORY)
    known = b"0 r1=record+0 r10=stack+0\n1 r0=number r1=record+0 r10=stack+0\n2 r0=number r1=number r10=stack+0\n"
    (room / "known").write_bytes(bytes.fromhex("b700000000000000" "b701000000000000" "9500000000000000"))
    yield Case("frames", ["frames", "known", "--record", "2"], 0, known, program=STORY)
    yield Case("frames-refused", ["frames", "bad-code"], 1, b"refused slot 1 code 12\n", program=STORY)
    yield Case("frames-missing", ["frames", "missing"], 1, b"", b"cannot read missing\n", program=STORY)
    yield Case("frames-full-output", ["frames", "known"], 1, b"", b"cannot write the output\n", "/dev/full", STORY)
    yield from trial_cases(room)
    trials = ["trial", "f"], [*TRIED, "--old", "x"], [*TRIED, "--cell", "7", "16", "2a"]
    others = [], ["run", "m", "s"], ["frames"], ["frames", "f", "--profile", "+1"], ["replay", "m", "s"], [*rivals, "--events", "3-2"]
    for number, words in enumerate((*others, *trials), 1):
        yield Case(f"story-words-{number}", words, 2, b"", None, program=STORY)
    yield Case("story-help", ["--help"], 0, None, b"", program=STORY)


def machine_cases(room):
    """Cases of machines of accepted programs."""
    (room / "copy").write_bytes(bytes.fromhex(COPY))
    names = ["copy"]
    for path in sorted((TOP / "examples/c").glob("*.bin")):
        if not path.name.startswith(NO_MACHINES):
            (room / path.name).write_bytes(path.read_bytes())
            names.append(path.name)
    if len(names) < MACHINES:
        sys.exit(f"refused-growths: {len(names)} programs for machines, wanted {MACHINES}")
    for name in names:
        count = str(INSTRUCTIONS[name.split(".")[0]])
        words, then = ["start", name, count], ["run", name, count]
        yield Case(f"machine-{name}", words, 0, b"", b"", None, REFUSALS, then=then, calls=OF_A_MACHINE)


def content_of(verb, digits):
    """What a report has for a cell that was changed so."""
    if verb == "del":
        return b"deleted"
    return f"value {(bytes.fromhex(digits[0]).rstrip(bytes(1)) or bytes(1)).hex()}".encode()


def reports(room, name, manifest, script, out, workers=1, derives=False, swaps=0):
    """A case of a run of workers that reports so, of a script that is read."""
    lines = [line for line in (room / script).read_text().splitlines() if line and not line.startswith("#")]
    cells = {}
    for operation in (operation for line in lines for operation in line.split("; ")):
        verb, row, column, *digits = operation.split(" ")
        cells.setdefault((int(row), int(column)), set()).add(content_of(verb, digits))
    more = [] if workers == 1 else ["--workers", str(workers)]
    more += ["--swaps", str(swaps)] if swaps else []
    words = ["run", manifest, script, *more]
    return Case(name, words, 0, out, cells=cells, changes=len(lines), workers=workers, derives=derives, swaps=swaps)


def worker_cases(room):
    """Cases of more workers than one. Each cell is changed once, so that a report has the same contents whoever comes first."""
    copied = b"cell 7 0 commit 2 value 2a\ncell 7 1 commit 4 value 2a\nruns copy 1\nquiet\n"
    yield reports(room, "copy-by-4", "copy.json", "first.txt", copied, 4)
    (room / "apart.txt").write_text("".join(f"put {row} 0 {row:02x}\n" for row in range(1, 9)))
    apart = "".join(f"cell {row} 0 commit {2 * row} value {row:02x}\n" for row in range(1, 9)).encode()
    yield reports(room, "apart-by-4", "watch.json", "apart.txt", apart + b"runs watch 8\nquiet\n", 4)
    yield reports(room, "apart-by-2", "no-observers.json", "apart.txt", apart + b"quiet\n", 2)
    yield reports(room, "copy-swapped", "copy.json", "first.txt", copied, swaps=5)
    yield reports(room, "apart-by-2-swapped", "watch.json", "apart.txt", apart + b"runs watch 8\nquiet\n", 2, swaps=6)


def cases(room):
    run = ["run", "no-observers.json"]
    for name in ("no-observers.json", "watch.json", "watch.s", "first.txt", "several.txt", "larger.txt"):
        (room / name).write_bytes((TOP / "examples" / name).read_bytes())
    yield reports(room, "first", "no-observers.json", "first.txt", b"cell 7 0 commit 2 value 2a\nquiet\n")
    watched = b"cell 7 0 commit 2 value 2a\nruns watch 1\nquiet\n"
    yield reports(room, "watch", "watch.json", "first.txt", watched)
    several = b"cell 7 0 commit 2 value 2a\ncell 7 1 commit 4 deleted\ncell 8 0 commit 4 value 0b\ncell 1000 0 commit 4 value 0c\n"
    yield reports(room, "several", "watch.json", "several.txt", several + b"runs watch 3\nquiet\n")
    larger = report_of((room / "larger.txt").read_text())
    yield reports(room, "larger", "no-observers.json", "larger.txt", larger)
    yield Case("full-output", [*run, "first.txt"], 1, b"", b"cannot write the output\n", "/dev/full")
    for name, (text, told) in scripts().items():
        (room / name).write_text(text, newline="")
        if told.startswith(b"script:"):
            yield Case(name, [*run, name], 1, b"", told)
        else:
            yield reports(room, name, "no-observers.json", name, told)
    for name, (text, fault) in manifests().items():
        (room / name).write_text(text)
        yield Case(name, ["run", name, "first.txt"], 1, b"", f"manifest: {fault}\n".encode())
    helped = observer("start", helpers="[4]", code="85000000040000009500000000000000")
    (room / "two.json").write_text(of(f"{observer()},{helped}"))
    yield reports(room, "two", "two.json", "first.txt", watched[:-6] + b"runs start 1\nquiet\n")
    (room / "copy.json").write_text(of(observer("copy", helpers="[2]", code=COPY)))
    copied = b"cell 7 0 commit 2 value 2a\ncell 7 1 commit 4 value 2a\nruns copy 1\nquiet\n"
    yield reports(room, "copy", "copy.json", "first.txt", copied)
    yield from worker_cases(room)
    for name in ("copier", "counter", "grader", "chain", "meter", "indexer"):
        for end in ("json", "txt"):
            (room / f"{name}.{end}").write_bytes((TOP / "examples" / f"{name}.{end}").read_bytes())
        # `checks/examples` has their reports.
        yield reports(room, f"example-{name}", f"{name}.json", f"{name}.txt", None, derives=True)
    for name in ("crash.txt", "crash.schedule"):
        (room / name).write_bytes((TOP / "examples" / name).read_bytes())
    yield Case("example-crash", ["replay", "copy.json", "crash.txt", "crash.schedule"], 0, None)
    (room / "indexer.schedule").write_bytes((TOP / "examples/indexer.schedule").read_bytes())
    indexed = b"cell 5 12 commit 8 deleted\ncell 6 12 commit 8 value 07\ncell 7 0 commit 6 value 06\nruns indexer 2\nquiet\n"
    yield Case("example-indexer-replayed", ["replay", "indexer.json", "indexer.txt", "indexer.schedule"], 0, indexed)
    yield from file_cases(room)
    yield from program_cases(room)
    yield from replay_cases(room)
    yield from story_cases(room)
    yield from word_cases()
    yield from machine_cases(room)
    yield Case("refusals", [], 0, b"", b"", None, REFUSALS, calls=BY_ITSELF)
    yield Case("refusals-swapped", ["swap"], 0, b"", b"", None, REFUSALS, swaps=3, calls=BESIDE_SWAPS)
