"""How `percobpf_keep` ends where something is at fault: its line of standard error, what it had answered, and the files that it leaves.

Worked out by hand from docs/KEEPING.md, "What to do at a fault" and "Files beside the log". What only another program, another process or
a failed call of the system leads to is in checks/keep and checks/clients.
"""
from __future__ import annotations

import struct

import logs
from logs import NO_LIMIT, Version
from tables import BESIDE, COPIED, FOLDER, KEEP_PROGRAM, NOBODY, TOO_LARGE, WATCHED, Row, Tables, files_of, in_time, manifest_of, observer, within
from tables.kept_logs import OF_COPY, OF_ONE, OF_TWO, WHOLE, over, snapshot
from tables.lines import HEADED, PUT, UP, log

AT_LOG = f"{FOLDER.decode()}/l"
NO_FILE = "No such file or directory (os error 2)"
HAS_MORE = "`percobpf_keep --help` has more"


def fails(words: list[str], fault: str, out: str = "", written: dict | None = None, **files: str | bytes) -> Row:
    """These words with these files: this fault is reported after this output, and these files are there then, too."""
    return Row(words, files_of(**files), 1, out.encode(), f"Error: {fault}\n".encode(), written or {}, program=KEEP_PROGRAM)


def unopened(manifest: str, bytes_of_log: bytes, fault: str) -> Row:
    """A log that isn't opened, and is as it was."""
    return fails(["m", "l"], fault, written=BESIDE, m=manifest, l=bytes_of_log)


DAMAGED = "the log is damaged at byte {}"
NO_SNAPSHOT = "the snapshot of the log is damaged"
HIDDEN = bytes([logs.CLOSED]) + log(NOBODY, PUT)[1:]
EMPTY_AND_PUT = log(NOBODY, "", PUT)
HIDDEN_NOTHING = EMPTY_AND_PUT[: HEADED + len(NOBODY)] + bytes([logs.CLOSED]) + EMPTY_AND_PUT[HEADED + len(NOBODY) + 1 :]
NOT_TEXT = logs.log_of([logs.header(b"\xff")])


def one_of(clock: int, *versions: Version) -> bytes:
    """A log of no observers that begins with such a snapshot."""
    return log(NOBODY, snapshot(clock, *versions))


def version(start: int, commit: int, row: int = 7, column: int = 0) -> Version:
    return Version(start, (row, column, 0, 0), commit, "deleted")


# Nothing of these is dropped.
LOGS = [
    unopened(NOBODY, WHOLE[:-1], DAMAGED.format(len(WHOLE) - 1)),
    unopened(NOBODY, WHOLE[:-1] + b"\x01", DAMAGED.format(len(WHOLE) - 1)),
    # a record that is cut, one whose byte is turned, and one whose gate was closed after it was open
    unopened(NOBODY, WHOLE[:-2], DAMAGED.format(HEADED + len(NOBODY))),
    unopened(NOBODY, WHOLE[:-2] + b"\x0b\x00", DAMAGED.format(HEADED + len(NOBODY))),
    unopened(NOBODY, HIDDEN, DAMAGED.format(0)),
    unopened(NOBODY, b"x" + WHOLE[1:], DAMAGED.format(0)),
    unopened(NOBODY, b"put 7 0 2a\n", DAMAGED.format(0)),
    unopened(COPIED, WHOLE, "the log is of another manifest"),
    unopened(f"{NOBODY}\n", WHOLE, "the log is of another manifest"),
    unopened(NOBODY, logs.log_of([logs.header(NOBODY.encode(), version="2")]), "the log is of a newer version"),
    unopened(NOBODY, logs.log_of([logs.header(NOBODY.encode(), version="10")]), "the log is of a newer version"),
    unopened(NOBODY, logs.log_of([b"x"]), "the file is no log"),
    # one byte more than a crash leaves before there is a first record
    unopened(NOBODY, bytes(15 + len(logs.header(NOBODY.encode()))), "the file is no log"),
    unopened(NOBODY, log(NOBODY, "put 7\n"), "a record of the log can't be read"),
    unopened(NOBODY, log(NOBODY, "if 7 0 0; put 7 0 2a\n"), "a record of the log can't be read"),
    unopened(NOBODY, log(NOBODY, b"put 7 0 2a\xff\n"), "a record of the log can't be read"),
    # a snapshot after a change
    unopened(NOBODY, log(NOBODY, PUT, OF_ONE), "a record of the log can't be read"),
    unopened(NOBODY, log(NOBODY, b"\xff"), NO_SNAPSHOT),
    unopened(NOBODY, log(NOBODY, OF_ONE[:-1]), NO_SNAPSHOT),
    unopened(NOBODY, log(NOBODY, OF_ONE + b"\0"), NO_SNAPSHOT),
    # of an observer, where there is none; of none, where there is one
    unopened(NOBODY, log(NOBODY, OF_COPY), NO_SNAPSHOT),
    unopened(COPIED, log(COPIED, OF_ONE), NO_SNAPSHOT),
    # a commit after the clock, one that isn't after its start, a start before the last commit, and a column over 15
    unopened(NOBODY, one_of(1, version(1, 2)), NO_SNAPSHOT),
    unopened(NOBODY, one_of(2, version(2, 2)), NO_SNAPSHOT),
    unopened(NOBODY, one_of(9, version(1, 4), version(3, 6, row=8)), NO_SNAPSHOT),
    unopened(NOBODY, one_of(2, version(1, 2, column=16)), NO_SNAPSHOT),
    unopened(NOBODY, NOT_TEXT, f"{AT_LOG}: its manifest is not text"),
    unopened(NOBODY, logs.log_of([b"percobpf log 1\nlimit 5\n\xff"]), f"{AT_LOG}: its manifest is not text"),
    # the same where it is to be compacted, or asked
    over(["--compact"], NOBODY, WHOLE[:-1], (1, "", f"Error: {DAMAGED.format(len(WHOLE) - 1)}\n"), WHOLE[:-1]),
    over(["--questions"], NOBODY, WHOLE[:-1], (1, "", f"Error: {DAMAGED.format(len(WHOLE) - 1)}\n"), WHOLE[:-1]),
    over(["--questions"], COPIED, WHOLE, (1, "", "Error: the log is of another manifest\n"), WHOLE),
    over(["--questions"], NOBODY, b"", (1, "", f"Error: {AT_LOG}: no log was begun in it\n"), b""),
    over(["--questions"], NOBODY, b"\0" + log(NOBODY)[1:], (1, "", f"Error: {AT_LOG}: no log was begun in it\n"), b"\0" + log(NOBODY)[1:]),
    # a record of no byte whose gate was closed after it was open
    unopened(NOBODY, HIDDEN_NOTHING, DAMAGED.format(HEADED + len(NOBODY))),
    # the same where it is to be copied, or its manifest is wanted
    fails(["--copy", "l", "p"], f"{AT_LOG}: no log was begun in it", written=BESIDE, l=b""),
    fails(["--copy", "l", "p"], DAMAGED.format(len(WHOLE) - 1), written=BESIDE, l=WHOLE[:-1]),
    fails(["--manifest", "l"], f"{AT_LOG}: no log was begun in it", written=BESIDE, l=b""),
    fails(["--manifest", "l"], f"{AT_LOG}: its manifest is not text", written=BESIDE, l=NOT_TEXT),
    # after the first record, one whose gate was closed after it was open
    unopened(NOBODY, WHOLE[: HEADED + len(NOBODY)] + bytes([logs.CLOSED]) + log(NOBODY, PUT, PUT)[HEADED + len(NOBODY) + 1 :], DAMAGED.format(HEADED + len(NOBODY))),
    # a kind of version that there isn't, which has the bytes of an acknowledgment, and one of an observer 32
    unopened(COPIED, log(COPIED, OF_COPY.replace(struct.pack("<BQBQQ", 2, 7, 0, 3, 4), struct.pack("<BQBQQ", 3, 7, 0, 3, 4))), NO_SNAPSHOT),
    unopened(COPIED, log(COPIED, OF_COPY.replace(struct.pack("<QQB", 3, 4, 0), struct.pack("<QQB", 3, 4, 32))), NO_SNAPSHOT),
]

WATCHER = observer()

def refused(words: list[str], fault: str, manifest: str) -> Row:
    """A manifest that is refused. The log isn't opened."""
    return fails([*words, "m", "l"], fault, m=manifest, l=WHOLE)


MANIFESTS = [
    refused([], "code 50", "{"),
    refused([], "code 51", manifest_of(profile=3)),
    refused([], "code 52", manifest_of(*(observer(f"w{number}") for number in range(33)))),
    refused([], "observer 1 code 53", manifest_of(WATCHER, WATCHER)),
    refused([], "observer 0 code 54", manifest_of(observer(column=16))),
    refused([], "observer 0 code 56 slot 0 code 10", manifest_of(observer(digits="95"))),
    refused(["--compact"], "code 50", "{"),
    refused(["--questions"], "code 50", "{"),
    refused(["--compact-at", "1"], "observer 0 code 54", manifest_of(observer(column=16))),
    # no log is made
    fails(["m", "l"], "code 50", m="{"),
    fails(["--compact-at", "1", "m", "l"], "observer 1 code 53", m=manifest_of(WATCHER, WATCHER)),
    fails(["--limit", "1", "m", "l"], "observer 0 code 54", m=manifest_of(observer(column=16))),
    fails(["m", "l"], "m: stream did not contain valid UTF-8", m=b"\xff", l=WHOLE),
    fails(["m", "l"], "the manifest is too large", m=TOO_LARGE, l=WHOLE),
    fails(["/dev/zero", "l"], "the manifest is too large"),
    fails([".", "l"], ".: Is a directory (os error 21)"),
    fails(["m", "l"], f"m: {NO_FILE}", l=WHOLE),
    fails(["m", "l"], f"m: {NO_FILE}"),
    fails(["--compact", "m", "l"], f"m: {NO_FILE}", l=WHOLE),
]

# paths of a thousand bytes and of as many as a name may have here, since it has more letters beside the log
LONG, NAME = "none/" * 200 + "l", "l" * 240

PATHS = [
    fails(["m", "none/l"], f"none/l: {NO_FILE}", m=NOBODY),
    fails(["--compact", "m", "l"], f"l: {NO_FILE}", m=NOBODY),
    fails(["--questions", "m", "l"], f"l: {NO_FILE}", m=NOBODY),
    fails(["m", "."], ".: unsupported", m=NOBODY),
    fails(["m", "/dev/null"], "/dev/null: unsupported", m=NOBODY),
    fails(["m", "l~new"], "l~new: names ending in ~new or ~new-wal are reserved", m=NOBODY),
    fails(["m", "l.1~new-wal"], "l.1~new-wal: names ending in ~new or ~new-wal are reserved", m=NOBODY),
    fails(["--compact", "m", "l~new"], f"{AT_LOG}~new: names ending in ~new or ~new-wal are reserved", m=NOBODY, **{"l~new": WHOLE}),
    fails(
        ["m", "l"],
        f"{AT_LOG}: the database has a rollback journal, or something else has its name: open it with sqlite3 first",
        m=NOBODY,
        l=WHOLE,
        **{"l-journal": b"x"},
    ),
    # a path stands there whole, and what is so of it after that
    fails([LONG, "l"], f"{LONG}: {NO_FILE}"),
    fails(["m", LONG], f"{LONG}: {NO_FILE}", m=NOBODY),
    fails(["--compact", "m", LONG], f"{LONG}: {NO_FILE}", m=NOBODY),
    fails(["m", f"{LONG}~new"], f"{LONG}~new: names ending in ~new or ~new-wal are reserved", m=NOBODY),
    fails(["m", f"{LONG}/.."], f"{LONG}/..: {NO_FILE}", m=NOBODY),
    fails(["--compact", "m", NAME], f"{FOLDER.decode()}/{NAME}: its manifest is not text", written={f"{NAME}-wal": b""}, m=NOBODY, **{NAME: NOT_TEXT}),
    # what has the name of a copy stays
    fails(["--copy", "l", "p"], "p: it is there already", written=BESIDE, l=WHOLE, p=b"x"),
    fails(["--copy", "l", "l"], "l: it is there already", written=BESIDE, l=WHOLE),
    fails(["--copy", "l", "p~new"], "p~new: names ending in ~new or ~new-wal are reserved", written=BESIDE, l=WHOLE),
    fails(["--copy", "l", "none/p"], f"none/p.1~new: {NO_FILE}", written=BESIDE, l=WHOLE),
    fails(["--copy", "l", "p"], f"l: {NO_FILE}"),
    fails(["--manifest", "l"], f"l: {NO_FILE}"),
    # no log is made
    fails(["--copies", "c", "m", "l"], f"c: {NO_FILE}", m=NOBODY),
    fails(["--copies", "c", "m", "l"], "c: it is no folder", m=NOBODY, c=b"x"),
    # what has all names of a new log, and begins as none, stays
    fails(
        ["--compact", "m", "l"],
        f"{AT_LOG}: all names for a new log are taken",
        "open 1\n",
        BESIDE,
        m=NOBODY,
        l=WHOLE,
        **{f"l.{number}~new": b"x" for number in range(1, 10)},
    ),
    # the next name is taken
    Row(
        ["--compact", "m", "l"],
        files_of(m=NOBODY, l=log(NOBODY, OF_ONE), **{"l.1~new": b"x"}),
        out=b"open 0\ncompacted 1\n",
        written=BESIDE,
        program=KEEP_PROGRAM,
    ),
]

TWO_WORDS = f"two words are wanted, MANIFEST and LOG: {HAS_MORE}"
LOG_AND_PATH = f"two words are wanted, LOG and PATH: {HAS_MORE}"
ONE_WORD = f"one word is wanted, LOG: {HAS_MORE}"
NOT_TOGETHER = f"these options don't go together: {HAS_MORE}"


def no_number(name: str, word: str) -> str:
    return f"{name} is a decimal number below 2^64, and not `{word}`: {HAS_MORE}"


WORDS = [
    fails([], TWO_WORDS),
    fails(["m"], TWO_WORDS, m=NOBODY),
    fails(["m", "l", "l"], TWO_WORDS, m=NOBODY),
    fails(["--compact"], TWO_WORDS),
    fails(["--compact", "m"], TWO_WORDS, m=NOBODY),
    fails(["--questions", "m"], TWO_WORDS, m=NOBODY),
    fails(["--compact-at"], TWO_WORDS),
    fails(["--compact-at", "1", "m"], TWO_WORDS, m=NOBODY),
    fails(["--limit"], TWO_WORDS),
    fails(["--limit", "1"], TWO_WORDS),
    fails(["--limit", "1", "m"], TWO_WORDS, m=NOBODY),
    fails(["--copies"], TWO_WORDS),
    fails(["--copies", "."], TWO_WORDS),
    fails(["--copies", ".", "m"], TWO_WORDS, m=NOBODY),
    fails(["--copy"], LOG_AND_PATH),
    fails(["--copy", "l"], LOG_AND_PATH, l=WHOLE),
    fails(["--copy", "l", "p", "p"], LOG_AND_PATH, l=WHOLE),
    fails(["--manifest"], ONE_WORD),
    fails(["--manifest", "l", "l"], ONE_WORD, l=WHOLE),
    fails(["--limit", "1", "--copy", "l", "p"], NOT_TOGETHER, l=WHOLE),
    fails(["--copies", ".", "--copy", "l", "p"], NOT_TOGETHER, l=WHOLE),
    fails(["--limit", "1", "--manifest", "l"], NOT_TOGETHER, l=WHOLE),
    fails(["--copies", ".", "--manifest", "l"], NOT_TOGETHER, l=WHOLE),
    fails(["--copies", ".", "--compact", "m", "l"], NOT_TOGETHER, m=NOBODY, l=WHOLE),
    fails(["--copies", ".", "--questions", "m", "l"], NOT_TOGETHER, m=NOBODY, l=WHOLE),
    fails(["--compact-at", "01", "m", "l"], no_number("BYTES", "01"), m=NOBODY),
    fails(["--compact-at", "", "m", "l"], no_number("BYTES", ""), m=NOBODY),
    fails(["--compact-at", "18446744073709551616", "m", "l"], no_number("BYTES", "18446744073709551616"), m=NOBODY),
    fails(["--limit", "x", "m", "l"], no_number("ENTRIES", "x"), m=NOBODY),
    fails(["--limit", "-1", "m", "l"], no_number("ENTRIES", "-1"), m=NOBODY),
    fails(["--limit", "+1", "m", "l"], no_number("ENTRIES", "+1"), m=NOBODY),
    fails(["--limit", "18446744073709551616", "m", "l"], no_number("ENTRIES", "18446744073709551616"), m=NOBODY),
    # a word stands there whole
    fails(["--limit", "1" * 300, "m", "l"], no_number("ENTRIES", "1" * 300), m=NOBODY),
    # an option that there is none of is a manifest that isn't there
    fails(["--nothing", "l"], f"--nothing: {NO_FILE}", l=WHOLE),
    fails(["--compact", "--limit", "1"], f"--limit: {NO_FILE}"),
]

OPEN_1 = {"o": b"open 1\n"}


def kept(words: list[str], fault: str, out: bytes, had: bytes | None, left: bytes, lines: str = "", manifest: str = NOBODY, **more) -> Row:
    """These words over a log that has these bytes, or none: this fault is reported after this output, and the log has these bytes then."""
    files = files_of(m=manifest) | ({} if had is None else {"l": had})
    written = {"l": left, **BESIDE, **more.pop("its", {})}
    return Row([*words, "m", "l"], files, 1, out, f"Error: {fault}\n".encode(), written, program=KEEP_PROGRAM, input=lines.encode(), **more)


PUT_8 = "put 8 0 2b\n"
TOO_LONG_FILE = "the disk: File too large (os error 27)"
AFTER = log(NOBODY, PUT, PUT_8)
CLOSED_AFTER = WHOLE + AFTER[len(WHOLE) :]

# A log of more cells than an observer is run on after one change.
OF_MANY = log(NOBODY, "".join("; ".join(f"del {row} 0" for row in range(first, first + 16)) + "\n" for first in range(0, 100_016, 16)))

# A file may have no more bytes than these. Of a record that isn't on the disk the gate is closed.
DISKS = [
    kept([], TOO_LONG_FILE, b"", None, b"", room=0),
    kept([], TOO_LONG_FILE, b"", None, b"\0" + log(NOBODY)[1:20], room=20),
    kept([], TOO_LONG_FILE, b"open 1\n", WHOLE, WHOLE, PUT_8, room=len(WHOLE)),
    kept([], TOO_LONG_FILE, b"open 1\n", WHOLE, CLOSED_AFTER[: len(WHOLE) + 20], PUT_8, room=len(WHOLE) + 20),
    # what was answered before is there
    kept([], TOO_LONG_FILE, b"open 1\nmade 4 runs 0\nquiet\n", WHOLE, AFTER, f"{PUT_8}quiet?\n{PUT_8}", room=len(AFTER)),
    # a new log that isn't whole is removed
    kept(["--compact"], TOO_LONG_FILE, b"open 2\n", OF_TWO, OF_TWO, room=100),
    # nor is one of an observer that came: it is run for all cells that there are, however many those are
    in_time(30, kept(["--compact"], TOO_LONG_FILE, b"open 6251\nadded 1 runs 100016 gone 0\n", OF_MANY, OF_MANY, room=len(OF_MANY), manifest=WATCHED)),
]

INPUTS = [
    # what is written to can't be: of the first line, and of an answer
    kept([], "the write failed", b"", WHOLE, WHOLE, to="/dev/full"),
    kept([], "cannot write the output", b"", WHOLE, WHOLE, "quiet?\n", room=7, to="o", its=OPEN_1),
    kept(["--questions"], "cannot write the output", b"", WHOLE, WHOLE, "quiet?\n", room=12, to="o", its={"o": b"open 1 of 1\n"}),
    kept(["--compact"], "No space left on device (os error 28)", b"", WHOLE, WHOLE, to="/dev/full"),
    Row(["--help"], status=1, err=b"Error: No space left on device (os error 28)\n", to="/dev/full", program=KEEP_PROGRAM),
    # a folder in the place of lines
    Row(["m", "l"], files_of(m=NOBODY, l=WHOLE), 1, b"open 1\n", b"Error: cannot read the input\n", BESIDE, program=KEEP_PROGRAM, input=None),
    Row(
        ["--questions", "m", "l"],
        files_of(m=NOBODY, l=WHOLE),
        1,
        b"open 1 of 1\n",
        b"Error: cannot read the input\n",
        BESIDE,
        program=KEEP_PROGRAM,
        input=None,
    ),
]

# A hundred thousand runs follow each change where nothing bounds them, and take some 150 MB.
UNBOUNDED = log(UP, PUT, limit=NO_LIMIT)
UNBOUNDED_TWICE = log(UP, PUT, PUT, limit=NO_LIMIT)

MEMORY = [
    # for the manifest
    within(16, fails(["m", "l"], "no memory", m=NOBODY.ljust(len(TOO_LARGE) - 1))),
    # what was put into the log is made at the next start
    within(64, in_time(30, kept(["--limit", str(NO_LIMIT)], "no memory", b"open 0\n", None, UNBOUNDED, PUT, UP))),
    within(64, in_time(30, kept([], "no memory: 0 of 1 changes were made", b"", UNBOUNDED, UNBOUNDED, "", UP))),
    within(180, in_time(60, kept([], "no memory: 1 of 2 changes were made", b"", UNBOUNDED_TWICE, UNBOUNDED_TWICE, "", UP))),
]

TABLES: Tables = {
    "logs that aren't opened": LOGS,
    "manifests of tables": MANIFESTS,
    "paths of logs": PATHS,
    "words for a table": WORDS,
    "disks that are full": DISKS,
    "inputs and outputs that fail": INPUTS,
    "tables without memory": MEMORY,
}
