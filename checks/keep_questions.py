"""Logs about which questions alone are answered (`percobpf_keep --questions`), for `checks/keep`.

- answers: each question about a log, with a snapshot and without one, is answered as by a program that serves the same log. Every other line
  is refused: changes and what goes with them by 76, and a line of no form as in service.
- memory: of a log whose table takes more memory than there is, the first N changes are made, and each question is answered as by a program
  that was given just these. N goes from few to all with the memory, also within a group.
- timestamps: the same where none is left for a change.
- files: a file that can't be opened is reported as in service. One that isn't there, or in which no log was begun, is reported, too, and no
  log is made.

In each case the log has the bytes afterwards that it had, and the time of its last change.
"""
from __future__ import annotations

import resource
import subprocess
from collections import Counter
from functools import partial

import logs
from keep_compactions import NO_FILE
from keep_ends import IN_USE, expect, refused_files
from keep_manifests import COPY, manifest_file
from keep_room import left_of, line_of, without_size
from keep_unquiet import NO_TIMESTAMP
from logs import Snapshot
from model import LAST

ALONE = ("--questions",)
NOT_BEGUN = "no log was begun in it"

# What is asked of each table, beside the cells of its first rows.
ASKED = ("list", "quiet?", "stats", "since 0", "since 40", "since 18446744073709551615", *(f"get {row} {column}" for row in range(4) for column in (0, 1, 15)))

# Lines that aren't answered, and their codes.
REFUSED = {
    **dict.fromkeys(("put 7 0 2a", "del 7 0; put 8 0 2b", "put", "if 7 0 0; put 7 0 2a", "begin", "end", "compact", "copy 7"), 76),
    **dict.fromkeys(("", "gets 7 0", "get 7", "get 7 0 0", "list 7", "if 7 0 0", "since", "compact 1", "copy", "#", "x" * 5000), 70),
    **dict.fromkeys(("get 7 16", "since 18446744073709551616", "copy 18446744073709551616"), 71),
}

# How many changes the log has whose table wants memory, how many of them are sent alone, and of how many a group is.
MANY, SINGLE, GROUP = 4_000, 1_000, 500

# How much memory there is, in MiB, from hardly enough to begin on. How many tables there are at least that not all changes lead to, and of
# these how many that end within a group.
MEMORY = (4, 6, 10, 14, 18, 22, 28, 40, 60, 90)
LEAST_PARTS, LEAST_WITHIN = 5, 3

# What is asked then has short answers. A long one may want more memory than is left.
SHORT, LONG = [line for line in ASKED if line != "since 0" and line != "since 40"], "since 0"

SECONDS = 120


def state_of(log):
    """What must stay of a log."""
    return log.read_bytes(), log.stat().st_mtime_ns, left_of(log)


def asked(room, log, lines, manifest=None, memory=None):
    """The status, the lines of output, and the text of errors where questions alone are answered, with so much memory. The log is left as it
    was."""
    before = state_of(log)
    limit = None if memory is None else partial(resource.setrlimit, resource.RLIMIT_AS, (memory, memory))
    words = [room.program, *ALONE, manifest or room.manifest, log]
    how = {"input": b"".join(line + b"\n" for line in lines), "capture_output": True, "timeout": SECONDS}
    ended = subprocess.run(words, preexec_fn=limit, **how)
    expect("the log after questions", state_of(log) == before, True)
    return ended.returncode, ended.stdout.decode().split("\n")[:-1], ended.stderr.decode()


def in_bytes(lines):
    return [line.encode() for line in lines]


# Answers


def is_answered(room, what, log, changes):
    """Each question about this log, which has so many changes, is answered as in service. Answers how many there were."""
    _, served, _ = room.run(log, ASKED)
    expect(f"what is served of {what}", served[0], f"open {changes}")
    answers = asked(room, log, in_bytes(ASKED))
    expect(f"questions about {what}", answers, (0, [f"open {changes} of {changes}", *served[1:]], ""))
    return len(ASKED)


def try_answers(room, changes):
    """Asks about a log, about what it is once it is compacted, and about that with changes after it. Answers how many questions there were."""
    log = room.log("asked")
    room.run(log, changes[:40])
    count = is_answered(room, "a log", log, 40)
    room.compact(log)
    count += is_answered(room, "a log with a snapshot", log, 0)
    room.run(log, ["begin", *changes[40:50], "end", *changes[50:60]])
    return count + is_answered(room, "a log with a snapshot and changes", log, 20)


def try_refused(room):
    """Sends other lines, with a question after each. Answers how many there were."""
    log = room.log("refused")
    room.run(log, ["put 7 0 2a"])
    wanted = [answer for code in REFUSED.values() for answer in (f"refused {code}", "quiet")]
    lines = [line for other in in_bytes(REFUSED) for line in (other, b"quiet?")]
    expect("lines that are no questions", asked(room, log, lines), (0, ["open 1 of 1", *wanted], ""))
    expect("a line that is no text", asked(room, log, [b"get 7 0\xff", b"quiet?"]), (0, ["open 1 of 1", "refused 70", "quiet"], ""))
    return len(REFUSED) + 1


def try_each(room):
    """Each line is answered before the next one comes."""
    log = room.log("each")
    room.run(log, ["put 7 0 2a"])
    with room.start(log, ALONE) as running:
        expect("how many changes were made", running.stdout.readline(), b"open 1 of 1\n")
        for line, answer in ((b"quiet?\n", b"quiet\n"), (b"put 7 0 2b\n", b"refused 76\n"), (b"get 7 0\n", b"value 2a commit 2\n")):
            running.stdin.write(line)
            running.stdin.flush()
            expect("a line that is answered as it comes", running.stdout.readline(), answer)
        expect("a program beside one that answers questions", room.run(log, ["quiet?"]), (1, [], line_of(f"{log}: {IN_USE}")))
        running.stdin.close()
        expect("the end of questions", (running.stderr.read(), running.wait()), (b"", 0))


# Memory


def grouped(changes):
    """These changes as lines: the first ones alone, and then in groups."""
    lines = list(changes[:SINGLE])
    for at in range(SINGLE, len(changes), GROUP):
        lines += ["begin", *changes[at : at + GROUP], "end"]
    return lines


def is_table_of(room, changes, made, answers, more):
    """These are the answers of a program that was given just the first changes, but for the size of the log. A long answer is there whole, or
    memory was refused for it."""
    log = room.log("first")
    _, served, _ = room.run(log, [*changes[:made], *SHORT, LONG])
    wanted = without_size(served[1 + made :])
    expect(f"a table of {made} changes", answers, wanted[: len(answers)])
    status, out, errors = more
    is_refused = (status, len(out), errors) == (1, 1, line_of("no memory"))
    expect(f"a long answer about {made} changes", is_refused or (status, out[1:], errors) == (0, wanted[len(answers) :], ""), True)


def try_memory(room, changes):
    """Asks about a log with less memory than its table takes. Answers how many tables of some changes there were, and how many of them end
    within a group."""
    log, parts, made = room.log("large"), set(), 0
    room.run(log, grouped(changes))
    _, whole, _ = room.run(log, ["stats"])
    size = [line for line in whole if line.startswith("log ")]
    for memory in MEMORY:
        status, out, errors = asked(room, log, in_bytes(SHORT), memory=memory << 20)
        if not out:
            # too little for the program itself
            expect(f"{memory} MiB of memory: {errors!r}", status != 0 and not made, True)
            continue
        made, many = (int(word) for word in out[0].removeprefix("open ").split(" of "))
        expect(f"questions with {memory} MiB of memory", (status, many, errors), (0, len(changes), ""))
        expect("the size of a log of which some changes are made", [line for line in out if line.startswith("log ")], size)
        is_table_of(room, changes, made, without_size(out[1:]), asked(room, log, [LONG.encode()], memory=memory << 20))
        if made == many:
            break
        parts.add(made)
    within = sum(its > SINGLE and (its - SINGLE) % GROUP > 0 for its in parts)
    is_enough = made == len(changes) and len(parts) >= LEAST_PARTS and within >= LEAST_WITHIN
    expect(f"tables of some changes: {sorted(parts)}, and one of {made}", is_enough, True)
    return len(parts), within


# Timestamps


def try_timestamps(room):
    """Asks about logs with changes for which no timestamp is left. Answers how many there were."""
    log, manifest = room.log("few"), manifest_file(room, "few", [COPY])
    begins = logs.snapshot_record(Snapshot(LAST - 9, [(0, 0, 0, 0, 0)], []))
    # a change has two timestamps, and so has the run after it
    for number, (sent, made) in enumerate(((2, 2), (3, 2), (5, 2))):
        lines = [f"put 7 0 {number:02x}" for number in range(sent)]
        script = "".join(f"{line}\n" for line in lines).encode()
        log.write_bytes(logs.log_of([logs.header(manifest.read_bytes()), begins, script]))
        found = asked(room, log, in_bytes(("get 7 0", "get 7 1", "quiet?")), manifest)
        answers = [f"value {made - 1:02x} commit {LAST - 3}", f"value {made - 1:02x} commit {LAST - 1}", "quiet"]
        expect(f"{sent} changes with few timestamps", found, (0, [f"open {made} of {sent}", *answers], ""))
        wanted = (0, [f"open {sent}", "quiet"], "") if sent == made else (1, [], line_of(NO_TIMESTAMP))
        expect(f"{sent} changes with few timestamps, in service", room.run(log, ["quiet?"], manifest), wanted)
    return number + 1


# Files


def try_files(room):
    """Asks about files that aren't opened. Answers how many there were."""
    files = refused_files(room.manifest.read_bytes())
    log = room.log("unread")
    for what, file, sentence in files:
        log.write_bytes(file)
        if sentence == logs.NO_LOG and not logs.records_in(file):
            sentence = f"{log}: {NOT_BEGUN}"
        expect(f"questions about {what}", asked(room, log, [b"list"]), (1, [], line_of(sentence)))
    header = logs.log_of([logs.header(room.manifest.read_bytes())])
    torn = [b"", b"\0", b"\xa5", b"\0" + header[1:], b"\0" + header[1:30]]
    for file in torn:
        log.write_bytes(file)
        expect(f"questions about {len(file)} bytes", asked(room, log, [b"list"]), (1, [], line_of(f"{log}: {NOT_BEGUN}")))
    log = room.log("nowhere")
    expect("questions about no file", room.run(log, ["list"], options=ALONE), (1, [], line_of(f"{log}: {NO_FILE}")))
    expect("a log that isn't made", [each.name for each in log.parent.glob(f"{log.name}*")], [])
    for name in ("new", "new-wal"):
        log = room.folder / f"taken~{name}"
        expect("a reserved name", room.run(log, [], options=ALONE)[0], 1)
    served = room.log("served")
    with room.start(served) as running:
        running.stdout.readline()
        expect("questions about a log that is served", asked(room, served, [b"list"]), (1, [], line_of(f"{served}: {IN_USE}")))
        running.kill()
    for words in ((), (room.manifest,), (room.manifest, served, served)):
        ended = subprocess.run([room.program, *ALONE, *words], stdin=subprocess.DEVNULL, capture_output=True, timeout=SECONDS)
        is_usage = ended.returncode == 1 and b"two words are wanted" in ended.stderr
        expect(f"questions with {len(words)} words", is_usage, True)
    return len(files) + len(torn) + 7


def try_all(room, changes):
    """Asks about all of these. Answers what was met."""
    met = Counter({"questions": try_answers(room, changes), "lines refused": try_refused(room), "files refused": try_files(room)})
    try_each(room)
    met["tables of some changes"], met["of these within a group"] = try_memory(room, changes[:MANY])
    met["tables of few timestamps"] = try_timestamps(room)
    return met
