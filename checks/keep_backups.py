"""What a back-up is made of, for `checks/keep`.

- manifests: `--manifest` prints the manifest that a log has, which opens it; a file that has none is reported.
- copied: a line `copy N` copies the log that is served, also one that begins with a snapshot. The copy has its records and its rights.
- refused: where there is no folder of copies, in a group, and where something has the name, no copy is made, and the log is served.
- alone: `--copy` copies a log that isn't served.
- interrupted: at each call of a program that makes a change, copies its log and makes another change, it is killed, or the call fails. What
  has the name of a copy is whole. A copy that is refused hasn't the name, and nothing is left of it.

A log has the bytes afterwards that it had.
"""
from __future__ import annotations

import os
import stat
import subprocess
import sys
from collections import Counter

import logs
from keep_compactions import KINDS, NO_FILE
from keep_ends import IN_USE, expect
from keep_manifests import COPY, manifest_file
from keep_names import RESERVED
from keep_questions import NOT_BEGUN
from keep_room import answers_in_turn, line_of, without_history

MANIFEST, COPY_ALONE, COPIES = "--manifest", "--copy", "--copies"
NO_TEXT, THERE, NO_FOLDER = "its manifest is not text", "it is there already", "it is no folder"
HELP = "`percobpf_keep --help` has more"
ONE_WORD, NOT_TOGETHER = f"one word is wanted, LOG: {HELP}", f"these options don't go together: {HELP}"
TWO_WORDS, LOG_AND_PATH = f"two words are wanted, MANIFEST and LOG: {HELP}", f"two words are wanted, LOG and PATH: {HELP}"

SECONDS = 60


def alone(room, *words):
    """The status, the output and the text of errors of a program with these words, which reads no line."""
    ended = subprocess.run([room.program, *words], stdin=subprocess.DEVNULL, capture_output=True, timeout=SECONDS)
    return ended.returncode, ended.stdout, ended.stderr.decode()


# Manifests


def is_printed(room, what, log, manifest):
    """A log has this manifest, which opens it."""
    before, own = log.read_bytes(), room.folder / "printed.json"
    status, out, errors = alone(room, MANIFEST, log)
    expect(f"the manifest of {what}", (status, out, errors), (0, manifest, ""))
    expect(f"{what}, after its manifest was printed", log.read_bytes(), before)
    own.write_bytes(out)
    status, _, errors = room.run(log, ["quiet?"], own)
    expect(f"{what}, opened with that", (status, errors), (0, ""))


def try_printed(room):
    """Prints the manifests of logs. Answers how many were."""
    log, manifest, other = room.log("printed"), room.manifest.read_bytes(), manifest_file(room, "printed-other", [COPY])
    for limit in ((), ("--limit", "50"), ("--limit", str(logs.NO_LIMIT))):
        room.run(room.log("printed"), ["put 7 0 2a"], options=limit)
        is_printed(room, f"a log with {limit}", log, manifest)
    room.compact(log, other)
    is_printed(room, "a log that was compacted for another one", log, other.read_bytes())
    blank = room.folder / "blank.json"
    blank.write_bytes(b"\n " + manifest + b"\n\n")
    room.run(room.log("printed"), ["put 7 0 2a"], blank)
    is_printed(room, "a log whose manifest has blanks", log, blank.read_bytes())
    return 5


def try_unprinted(room):
    """Asks for manifests where there are none, or in vain. Answers how often."""
    manifest, log = room.manifest.read_bytes(), room.log("unprinted")
    expect("the manifest of no file", alone(room, MANIFEST, log), (1, b"", line_of(f"{log}: {NO_FILE}")))
    header, change = logs.header(manifest), b"put 7 0 2a\n"
    whole = logs.log_of([header, change])
    files = (
        ("an empty file", b"", f"{log}: {NOT_BEGUN}"),
        ("a file of one byte", b"\0", f"{log}: {NOT_BEGUN}"),
        ("a log whose header is torn", bytes([logs.CLOSED]) + whole[1:40], f"{log}: {NOT_BEGUN}"),
        ("a damaged log", whole[:20] + b"?" + whole[21:], "the log is damaged at byte 0"),
        ("a newer log", logs.log_of([logs.header(manifest, version="2")]), logs.NEWER),
        ("another log", logs.log_of([b"percobpf", change]), logs.NO_LOG),
        ("a log without text", logs.log_of([logs.header(b"\xff{}")]), f"{log}: {NO_TEXT}"),
    )
    for what, file, sentence in files:
        log.write_bytes(file)
        expect(f"the manifest of {what}", alone(room, MANIFEST, log), (1, b"", line_of(sentence)))
        expect(f"{what}, after that", log.read_bytes(), file)
    log.write_bytes(whole)
    with room.start(log) as running:
        running.stdout.readline()
        expect("the manifest of a log that is served", alone(room, MANIFEST, log), (1, b"", line_of(f"{log}: {IN_USE}")))
        running.kill()
    for words in ((), (log, log)):
        expect(f"{len(words)} words after {MANIFEST}", alone(room, MANIFEST, *words), (1, b"", line_of(ONE_WORD)))
    expect("a limit with it", alone(room, "--limit", "5", MANIFEST, log), (1, b"", line_of(NOT_TOGETHER)))
    return 1 + len(files) + 1 + 3


# Copies


def folder_of(room, name):
    """A new folder for copies."""
    folder = room.folder / name
    folder.mkdir()
    return folder


def is_copy(what, copy, file):
    """A copy has the records of this log, and nothing after them; and nothing stands beside it."""
    expect(what, copy.read_bytes(), logs.log_of([item for _, item in logs.records_in(file)]))
    expect(f"what stands beside {what}", [it.name for it in copy.parent.glob(f"{copy.name}*")], [copy.name])


def try_copied(room, changes):
    """Has a log copied while it is served. Answers how often."""
    log, folder = room.log("copied"), folder_of(room, "copied")
    room.run(log, changes[:20])
    log.chmod(0o640)
    lines = ["copy 1", changes[20], "copy 20261201", "compact", "copy 0", changes[21], "copy 18446744073709551615"]
    status, out, errors = room.run(log, lines, options=(COPIES, folder))
    shown = [line.split(" ")[0] if line.startswith(("made ", "compacted ")) else line for line in out]
    wanted = ["open 20", "copied 20", "made", "copied 21", "compacted", "copied 0", "made", "copied 1"]
    expect("copies of a log that is served", (status, shown, errors), (0, wanted, ""))
    is_copy("the last copy", folder / "18446744073709551615.log", log.read_bytes())
    for number, count, is_whole in ((1, 20, True), (20261201, 21, True), (0, 21, False), (18446744073709551615, 22, False)):
        copy = folder / f"{number}.log"
        expect(f"the rights of copy {number}", stat.S_IMODE(copy.stat().st_mode), 0o640)
        is_copy(f"copy {number}", copy, copy.read_bytes())
        found, table = room.opened(copy)
        expect(f"the changes of copy {number}", found, count if is_whole else count - 21)
        as_wanted = (lambda its: its) if is_whole else without_history
        expect(f"the table of copy {number}", as_wanted(table), as_wanted(room.table(changes[:count])))
    # a line that waits is kept before the log is copied
    together = room.run(log, [changes[22], changes[23], "copy 2"], options=(COPIES, folder))[1]
    expect("a copy after lines that waited", together[-1], "copied 3")
    return 5


def try_refused_copies(room):
    """Asks for copies that aren't made. Answers how often."""
    log, folder = room.log("not-copied"), folder_of(room, "not-copied")
    grouped = ["begin", "copy 5", "put 7 5 2a", "end"]
    answers = ["begun", "refused 76", "made 2 runs 0", "ended"]
    expect("copies without a folder", room.run(log, [*grouped, "copy 5"]), (0, ["open 0", *answers, "refused 76"], ""))
    group = room.run(room.log("not-copied"), grouped, options=(COPIES, folder))
    expect("a copy in a group", (group, list(folder.iterdir())), ((0, ["open 0", *answers], ""), []))
    path, before = folder / "5.log", log.read_bytes()
    named = ("a file", lambda: path.write_text("text")), ("a folder", path.mkdir), ("a link to nothing", lambda: path.symlink_to("nothing"))
    for count, (what, make) in enumerate((*named, ("a link to the log", lambda: path.symlink_to(log))), start=1):
        make()
        left = path.lstat()
        status, out, errors = room.run(log, ["copy 5", "put 7 5 2a"], options=(COPIES, folder))
        wanted = (0, [f"open {count}", "refused 78", f"made {2 + 2 * count} runs 0"], f"{log}: not copied: {path}: {THERE}\n")
        expect(f"a copy where {what} has its name", (status, out, errors), wanted)
        expect(f"{what} with the name of a copy", (path.lstat(), log.read_bytes()[: len(before) - 1]), (left, before[:-1]))
        (path.rmdir if what == "a folder" else path.unlink)()
    with room.start(log, (COPIES, folder)) as running:
        running.stdout.readline()
        folder.rmdir()
        _, out, errors = answers_in_lines(running, ["copy 5", "quiet?"])
        expect("a copy into a folder that is gone", (out, errors), (["refused 78", "quiet"], f"{log}: not copied: {path}.1~new: {NO_FILE}\n"))
    file, none = room.folder / "no-folder", room.log("no-log")
    file.write_text("")
    expect("no folder for copies", room.run(none, [], options=(COPIES, folder)), (1, [], line_of(f"{folder}: {NO_FILE}")))
    expect("a file for copies", room.run(none, [], options=(COPIES, file)), (1, [], line_of(f"{file}: {NO_FOLDER}")))
    expect("the log then", none.exists(), False)
    for option in ("--compact", "--questions"):
        expect(f"copies with {option}", alone(room, COPIES, file, option, room.manifest, log), (1, b"", line_of(NOT_TOGETHER)))
    expect("copies alone", alone(room, COPIES), (1, b"", line_of(TWO_WORDS)))
    return 2 + 4 + 1 + 2 + 3


def answers_in_lines(running, lines):
    """The status, the lines of output, and the text of errors of a program whose first line was read."""
    out, errors = running.communicate("".join(f"{line}\n" for line in lines).encode(), timeout=SECONDS)
    return running.returncode, out.decode().split("\n")[:-1], errors.decode()


def try_alone(room, changes):
    """Copies logs that aren't served. Answers how often, or how often that was reported."""
    log, path = room.log("alone"), room.folder / "alone.copy"
    room.run(log, changes[:20])
    expect("a copy", alone(room, COPY_ALONE, log, path), (0, b"copied 20\n", ""))
    is_copy("a copy of a log that isn't served", path, log.read_bytes())
    path.unlink()
    room.compact(log)
    room.run(log, changes[20:23])
    expect("a copy of a log with a snapshot", alone(room, COPY_ALONE, log, path), (0, b"copied 3\n", ""))
    is_copy("the copy of a log with a snapshot", path, log.read_bytes())
    before, gone, empty = log.read_bytes(), room.folder / "gone/alone.copy", room.log("alone-empty")
    empty.write_bytes(b"")
    damaged = room.log("alone-damaged")
    damaged.write_bytes(before[:-1])
    reserved = room.folder / "alone.copy~new"
    faults = (
        ((log, path), f"{path}: {THERE}"),
        ((log, log), f"{log}: {THERE}"),
        ((log, reserved), f"{reserved}: {RESERVED}"),
        ((log, gone), f"{gone}.1~new: {NO_FILE}"),
        ((room.folder / "gone.log", path), f"{room.folder / 'gone.log'}: {NO_FILE}"),
        ((empty, room.folder / "none"), f"{empty}: {NOT_BEGUN}"),
        ((damaged, room.folder / "none"), f"the log is damaged at byte {len(before) - 1}"),
        ((log,), LOG_AND_PATH),
        ((log, path, path), LOG_AND_PATH),
    )
    for words, sentence in faults:
        expect(f"a copy by {words}", alone(room, COPY_ALONE, *words), (1, b"", line_of(sentence)))
    expect("a limit with it", alone(room, "--limit", "5", COPY_ALONE, log, path), (1, b"", line_of(NOT_TOGETHER)))
    with room.start(log) as running:
        running.stdout.readline()
        expect("a copy of a log that is served", alone(room, COPY_ALONE, log, room.folder / "none"), (1, b"", line_of(f"{log}: {IN_USE}")))
        running.kill()
    expect("a log that was copied", (log.read_bytes(), (room.folder / "none").exists()), (before, False))
    return 2 + len(faults) + 2


# Interrupted

LINES = (["put 3 0 2a"], ["copy 7"], ["put 4 0 2b; del 3 0"])


def stages_of(room, before):
    """What is found in a log before these lines and after each change of them, what a copy is, and what is printed."""
    log, found, folder = room.log("copies-stages"), [], folder_of(room, "copies-stages")
    for count in (0, 1, 3):
        log.write_bytes(before)
        room.run(log, [line for lines in LINES[:count] for line in lines if line != "copy 7"])
        found.append(room.opened(log))
    log.write_bytes(before)
    _, printed, _ = room.run(log, [line for lines in LINES for line in lines], options=(COPIES, folder))
    return found, (folder / "7.log").read_bytes(), printed


def interrupted(room, before, stages, kind, at):
    """What is wrong where this call of the program is failed so, and how it ended."""
    found, whole, printed = stages
    log, folder = room.log(f"copies-{kind}-{at}"), folder_of(room, f"copies-{kind}-{at}")
    copy = folder / "7.log"
    log.write_bytes(before)
    more = {"LD_PRELOAD": str(room.shim), "FAULT_AT": str(at), "FAULT_KIND": kind}
    with room.start(log, (COPIES, folder), env={**os.environ, **more}) as running:
        status, out, errors = answers_in_turn(running, LINES)
    is_refused = out[2:3] == ["refused 78"]
    wanted = [*printed[:2], "refused 78", *printed[3:]] if is_refused else printed
    done = found.index(its) if (its := room.opened(log)) in found else -1
    made = sum(line.startswith("made ") for line in out)
    others = [it.name for it in folder.iterdir() if it != copy]
    wrong = None
    if out != wanted[: len(out)] or len(out) < len(wanted) and status == 0:
        wrong = f"output {out}"
    elif not made <= done <= made + 1:
        wrong = f"{made} changes were answered, and {its} was found"
    elif out[2:3] == printed[2:3] and not copy.exists() or copy.exists() and copy.read_bytes() != whole:
        wrong = "the copy isn't whole"
    elif len(errors.splitlines()) != (status == 1) + is_refused or is_refused != ("not copied" in errors):
        wrong = f"errors {errors!r}"
    elif is_refused and copy.exists():
        wrong = "the copy was refused, and has its name"
    elif status == 0 and others:
        wrong = f"it left {others}"
    ended = "whole" if status == 0 and not is_refused else "not copied" if is_refused else "failed" if status == 1 else "killed"
    again = room.run(log, ["copy 8"], options=(COPIES, folder))
    if not wrong and again[1][-1:] != [f"copied {again[1][0].split(' ')[1]}"]:
        wrong = f"the next copy: {again}"
    return wrong and f"copies, {kind} at call {at}, status {status}: {wrong}", f"copies, {ended}"


def try_interrupted(room, changes, pool):
    """Fails each call of such a program in each way. Answers how often it ended so."""
    log, ends = room.log("copies-before"), Counter()
    room.run(log, changes[:12])
    before = log.read_bytes()
    stages = stages_of(room, before)
    for kind in KINDS:
        at, whole = 1, 0
        while whole < (8 if kind == "short" else 1):
            for wrong, ended in pool.map(lambda n, kind=kind: interrupted(room, before, stages, kind, n), range(at, at + 16)):
                if wrong:
                    sys.exit(f"keep: {wrong}")
                ends[ended] += 1
                whole += ended == "copies, whole"
            at += 16
            if at > 1000:
                sys.exit(f"keep: copies, {kind}: the program never came to its end")
    return ends


def try_all(room, changes, pool):
    """Tries all of it, and counts what was met."""
    met = try_interrupted(room, changes, pool)
    met["manifests printed"], met["manifests not printed"] = try_printed(room), try_unprinted(room)
    met["copied in service"], met["not copied in service"] = try_copied(room, changes), try_refused_copies(room)
    met["copied alone"] = try_alone(room, changes)
    return met
