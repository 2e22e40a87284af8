"""Files that can't be read or written, with the first fault reported: all are read before any is taken as text or parsed.

Worked out by hand from docs/FORMATS.md, "Faults".
"""
from __future__ import annotations

from tables import CHANGED, NOBODY, ONE, TOO_LARGE, WATCH, Row, Tables, files_of, in_profile


def fails(words: list[str], fault: str, **files: str | bytes) -> Row:
    """These words with these files, and nothing else in the folder."""
    return Row(words, files_of(**files), 1, err=f"{fault}\n".encode())


RUN = ["run", "m", "s"]

OF_A_RUN = [
    fails(RUN, "cannot read m", s=""),
    fails(RUN, "cannot read s", m=NOBODY),
    fails(RUN, "too large s", m="{", s=TOO_LARGE),
    fails(RUN, "too large m", m=TOO_LARGE),
    fails(RUN, "not text m", m=b"\xff", s=b"\xff"),
    fails(RUN, "not text s", m="{", s=b"\xff"),
]

REPLAY = ["replay", "m", "s", "e"]

OF_A_REPLAY = [
    fails(REPLAY, "cannot read m", s=b"\xff", e=b"\xff"),
    fails(REPLAY, "too large s", m=b"\xff", s=TOO_LARGE, e=b"\xff"),
    fails(REPLAY, "cannot read e", m=b"\xff", s=b"\xff"),
    fails(REPLAY, "not text m", m=b"\xff", s=b"\xff", e=b"\xff"),
    fails(REPLAY, "not text s", m="{", s=b"\xff", e=b"\xff"),
    fails(REPLAY, "not text e", m="{", s="x", e=b"\xff"),
]

# the first of several that are missing
MISSING = [
    fails(REPLAY, "cannot read m"),
    fails(REPLAY, "cannot read s", m="x"),
    fails(REPLAY, "cannot read m", s=TOO_LARGE),
    fails(REPLAY, "cannot read m", e=b"\xff"),
    fails(RUN, "cannot read m"),
]

# a path that is as long as its name may be, and one file at two paths
LONG = "m" * 250

PATHS = [
    fails(["run", LONG, "s"], f"cannot read {LONG}", s=ONE),
    fails(["run", "m", LONG], f"too large {LONG}", m="{", **{LONG: TOO_LARGE}),
    fails(["run", LONG, "s"], f"not text {LONG}", s=ONE, **{LONG: b"\xff"}),
    Row(["run", LONG, "s"], files_of(s=ONE, **{LONG: NOBODY}), out=f"{CHANGED}quiet\n".encode()),
    fails(["run", "m", "m"], "script: line 1 code 70", m=NOBODY),
    fails(["run", "s", "s"], "manifest: code 50", s=ONE),
    fails(["replay", "m", "s", "s"], "schedule: line 1 code 90", m=NOBODY, s=ONE),
    Row(["asm", "i", "i"], files_of(i="mov64 r0, 0\nexit\n"), written={"i": bytes.fromhex(WATCH)}),
]

ASM = ["asm", "i", "o"]

# a path that nothing can be written to
UNWRITABLE = ["asm", "i", "missing/o"]

OF_ASM = [
    fails(ASM, "cannot read i"),
    fails(ASM, "too large i", i=TOO_LARGE),
    fails(ASM, "not text i", i=b"exit\n\xff"),
    # the first fault is reported
    fails(UNWRITABLE, "cannot read i"),
    fails(UNWRITABLE, "too large i", i=TOO_LARGE),
    fails(UNWRITABLE, "not text i", i=b"exit\n\xff"),
    fails(UNWRITABLE, "cannot write missing/o", i="exit"),
]


def unwritable(path: str, text: str = "exit\n") -> Row:
    """A text that is assembled, whose bytes can't be written to this path."""
    return fails(["asm", "i", path], f"cannot write {path}", i=text)


# any path that can't be written: a folder, what has no room, a path below a file, one that is too long, and none at all
UNWRITABLE_PATHS = [
    unwritable("."),
    unwritable("/dev/full"),
    unwritable("/dev/full", "mov64 r0, 0\n" * 512),
    in_profile(2, unwritable("/dev/full", "mov64 r0, 0\n" * 4_096)),
    unwritable("i/o"),
    unwritable("o" * 256),
    unwritable("o/" * 2_048 + "o"),
    unwritable(""),
    # what comes before is reported, though nothing can be written either
    fails(["asm", "i", "/dev/full"], "line 1 code 80", i="x"),
    fails(["asm", "i", "/dev/full"], "cannot read i"),
]

UNREADABLE_PATHS = [
    row
    for path in (".", "i/o", "o" * 256, "o/" * 2_048 + "o", "")
    for row in (
        fails(["dis", path], f"cannot read {path}", i="exit\n"),
        fails(["check", path], f"cannot read {path}", i="exit\n"),
        fails(["asm", path, "o"], f"cannot read {path}", i="exit\n"),
        fails(["run", "i", path], f"cannot read {path}", i=NOBODY),
        fails(["replay", "i", "i", path], f"cannot read {path}", i=NOBODY),
    )
]

OF_DIS_AND_CHECK = [
    fails(["dis", "i"], "cannot read i"),
    fails(["dis", "i"], "too large i", i=TOO_LARGE),
    fails(["check", "i"], "cannot read i"),
    fails(["check", "i"], "too large i", i=TOO_LARGE),
]

TABLES: Tables = {
    "of a run": OF_A_RUN,
    "of a replay": OF_A_REPLAY,
    "missing": MISSING,
    "paths": PATHS,
    "of asm": OF_ASM,
    "paths that can't be written": UNWRITABLE_PATHS,
    "paths that can't be read": UNREADABLE_PATHS,
    "of dis and check": OF_DIS_AND_CHECK,
}
