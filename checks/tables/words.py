"""Command lines: what each asks for, shown by what the program does, and those that are refused, each with what `clap` prints.

Worked out by hand from docs/FORMATS.md, "Words". The texts are those that `clap` has for each kind of fault, and after a number
that isn't read the text that Rust's `ParseIntError` has; the one of a plus is the program's own. What helps print stands in
helps.py.
"""
from __future__ import annotations

from tables import CHANGED, NOBODY, ONE, WATCH, Row, Tables, files_of

# the operands of each subcommand, as a usage names them
OPERANDS = {
    "run": "<MANIFEST> <SCRIPT>",
    "replay": "<MANIFEST> <SCRIPT> <SCHEDULE>",
    "asm": "<IN> <OUT>",
    "dis": "<FILE>",
    "check": "<FILE>",
    "frames": "<FILE>",
}

# why a text is no number
NO_DIGIT = "invalid digit found in string"
NO_TEXT = "cannot parse integer from empty string"
PAST_U64 = "number too large to fit in target type"

# texts that are no number to any option
NO_NUMBERS = [("x", NO_DIGIT), ("", NO_TEXT), ("1.0", NO_DIGIT), (" 1", NO_DIGIT), ("1 ", NO_DIGIT), ("0x1", NO_DIGIT)]


def wrong(words: list[str], text: str, usage: str = "", tip: str = "", program: str = "percobpf") -> Row:
    """Words that are no command line, with what is printed of them: the fault, and maybe a tip and a usage."""
    parts = [f"error: {text}\n"]
    if tip:
        parts.append(f"  tip: {tip}\n")
    if usage:
        parts.append(f"Usage: {program} {usage}\n")
    parts.append("For more information, try '--help'.\n")
    return Row(words, status=2, err="\n".join(parts).encode(), program=program)


def usage_of(name: str) -> str:
    """The usage of a subcommand."""
    return f"{name} [OPTIONS] {OPERANDS[name]}"


def bad_value(words: list[str], option: str, value: str, why: str, program: str = "percobpf") -> Row:
    """Words in which an option has a value that it doesn't take."""
    return wrong(words, f"invalid value '{value}' for '{option}': {why}", program=program)


def plus(words: list[str], option: str, program: str = "percobpf") -> Row:
    """Words of a subcommand in which an option has a plus before its number."""
    return wrong(words, f"invalid value for '{option}': a plus stands before the digits", usage_of(words[0]), program=program)


def no_value(words: list[str], option: str, program: str = "percobpf") -> Row:
    """Words in which an option has no value."""
    return wrong(words, f"a value is required for '{option}' but none was supplied", program=program)


def twice(words: list[str], option: str, program: str = "percobpf") -> Row:
    """Words of a subcommand that name an option twice."""
    return wrong(words, f"the argument '{option}' cannot be used multiple times", usage_of(words[0]), program=program)


def one_more(words: list[str], word: str, program: str = "percobpf") -> Row:
    """Words of a subcommand with an operand more than it takes."""
    return wrong(words, f"unexpected argument '{word}' found", usage_of(words[0]), program=program)


def hyphened(words: list[str], word: str, program: str = "percobpf") -> Row:
    """Words of a subcommand with a hyphen before a value."""
    tip = f"to pass '{word}' as a value, use '-- {word}'"
    return wrong(words, f"unexpected argument '{word}' found", usage_of(words[0]), tip, program)


def others(words: list[str], option: str, program: str = "percobpf") -> Row:
    """Words of a subcommand, its operands first, with an option that it doesn't have, and that is like none of its own."""
    tip = f"to pass '{option}' as a value, use '-- {option}'"
    return wrong(words, f"unexpected argument '{option}' found", f"{words[0]} {OPERANDS[words[0]]}", tip, program)


def like(words: list[str], option: str, named: str) -> Row:
    """Words of a subcommand, its operands first, with an option that is like this one of its own."""
    tip = f"a similar argument exists: '{named.split()[0]}'"
    return wrong(words, f"unexpected argument '{option}' found", f"{words[0]} {named} {OPERANDS[words[0]]}", tip)


def too_early(words: list[str], name: str, program: str = "percobpf") -> Row:
    """Words that begin with an option of this subcommand."""
    return wrong(words, f"unexpected argument '{words[0]}' found", "<COMMAND>", f"'{name} {words[0]}' exists", program)


def missing(words: list[str], operands: str, program: str = "percobpf") -> Row:
    """Words of a subcommand without these operands."""
    lines = "".join(f"\n  {operand}" for operand in operands.split())
    text = f"the following required arguments were not provided:{lines}"
    return wrong(words, text, f"{words[0]} {OPERANDS[words[0]]}", program=program)


def no_subcommand(words: list[str], word: str, program: str = "percobpf") -> Row:
    """Words the first of which names no subcommand, and is like none."""
    return wrong(words, f"unrecognized subcommand '{word}'", "<COMMAND>", program=program)


PROGRAM = bytes.fromhex(WATCH)

SUBCOMMANDS = [
    Row(
        ["run", "m.json", "s.txt"],
        {"m.json": NOBODY.encode(), "s.txt": ONE.encode()},
        out=b"cell 7 0 commit 2 value 2a\nquiet\n",
    ),
    Row(["asm", "p.s", "p.bin"], {"p.s": b"mov64 r0, 0\nexit\n"}, written={"p.bin": PROGRAM}),
    Row(["dis", "p.bin"], {"p.bin": PROGRAM}, out=b"mov64 r0, 0\nexit\n"),
    Row(["check", "p.bin"], {"p.bin": PROGRAM}, out=b"accepted 2 slots\n"),
]


def clocked(last: str, *words: str) -> Row:
    """A replay of one change, which ends with this line, or reports this cell and is quiet."""
    files = files_of(m=NOBODY, s=ONE, e="launch 1 change 1\nstep 1 5\n")
    return Row(["replay", *words], files, out=f"{last}\n".encode())


def committed(commit: int) -> str:
    return f"cell 7 0 commit {commit} value 2a\nquiet"


# the option may stand before, between and after the operands; with one timestamp left the change puts its lock and isn't
# stamped, and with none it doesn't begin
CLOCKS = [
    clocked("marks 0 locks 1", "m", "s", "e", "--clock", "18446744073709551614"),
    clocked("quiet", "--clock", "18446744073709551615", "m", "s", "e"),
    clocked(committed(9), "m", "s", "--clock", "+7", "e"),
    clocked(committed(2), "m", "--clock", "0", "s", "e"),
    clocked(committed(2), "m", "s", "e"),
    clocked(committed(7), "--clock=5", "m", "s", "e"),
]

CLOCK = "--clock <N>"
REPLAY = ["replay", "m", "s", "e"]

OTHER_CLOCKS = [
    *(bad_value([*REPLAY, "--clock", text], CLOCK, text, why) for text, why in [*NO_NUMBERS, ("18446744073709551616", PAST_U64)]),
    hyphened([*REPLAY, "--clock", "-1"], "-1"),
    no_value([*REPLAY, "--clock"], CLOCK),
    others(["run", "m", "s", "--clock", "1"], "--clock"),
    twice([*REPLAY, "--clock", "1", "--clock", "1"], CLOCK),
]


def manned(*words: str, report: str = f"{CHANGED}quiet\n", script: str = ONE) -> Row:
    """A run with these words, which reports so."""
    return Row(["run", *words], files_of(m=NOBODY, s=script), out=report.encode())


# the option may stand before, between and after the operands; there may be more workers than changes, and zeros before the
# digits
WORKERS = [
    *(manned("m", "s", "--workers", str(workers)) for workers in range(1, 64)),
    manned("--workers", "63", "m", "s", report="quiet\n", script=""),
    manned("m", "--workers", "2", "s"),
    manned("--workers=4", "m", "s"),
    manned("m", "s", "--workers", "09"),
]

RUN = ["run", "m", "s"]
N_WORKERS, M_SWAPS = "--workers <N>", "--swaps <M>"

OTHER_WORKERS = [
    *(
        bad_value([*RUN, "--workers", text], N_WORKERS, text, why)
        for text, why in [
            *NO_NUMBERS,
            ("0", "0 is not in 1..=63"),
            ("64", "64 is not in 1..=63"),
            ("4294967297", "4294967297 is not in 1..=63"),
            ("18446744073709551617", PAST_U64),
        ]
    ),
    *(plus([*RUN, "--workers", text], N_WORKERS) for text in ("+1", "+63")),
    hyphened([*RUN, "--workers", "-1"], "-1"),
    no_value([*RUN, "--workers"], N_WORKERS),
    bad_value(["run", "--workers", "m", "s"], N_WORKERS, "m", NO_DIGIT),
    bad_value([*RUN, "--workers=0"], N_WORKERS, "0", "0 is not in 1..=63"),
    plus([*RUN, "--workers=+1"], N_WORKERS),
    bad_value([*RUN, "--workers="], N_WORKERS, "", NO_TEXT),
    twice([*RUN, "--workers", "1", "--workers", "1"], N_WORKERS),
    one_more([*RUN, "--workers", "1", "2"], "2"),
    like([*RUN, "--worker", "1"], "--worker", N_WORKERS),
    others([*REPLAY, "--workers", "1"], "--workers"),
    others(["check", "i", "--workers", "1"], "--workers"),
    too_early(["--workers", "1", *RUN], "run"),
]

# so for the number of swaps, which may be none, beside that of workers or without it
SWAPS = [
    *(manned("m", "s", "--swaps", swaps) for swaps in ("0", "1", "7", "1000", "007")),
    manned("m", "s", "--workers", "3", "--swaps", "2"),
    manned("--swaps=2", "m", "--workers=1", "s"),
    manned("--swaps", "5", "m", "s", report="quiet\n", script=""),
]

OTHER_SWAPS = [
    *(
        bad_value([*RUN, "--swaps", text], M_SWAPS, text, why)
        for text, why in [
            *NO_NUMBERS,
            ("1001", "1001 is not in 0..=1000"),
            ("4294967296", "4294967296 is not in 0..=1000"),
            ("18446744073709551616", PAST_U64),
        ]
    ),
    *(plus([*RUN, "--swaps", text], M_SWAPS) for text in ("+1", "+0")),
    hyphened([*RUN, "--swaps", "-1"], "-1"),
    no_value([*RUN, "--swaps"], M_SWAPS),
    bad_value(["run", "--swaps", "m", "s"], M_SWAPS, "m", NO_DIGIT),
    bad_value([*RUN, "--swaps=1001"], M_SWAPS, "1001", "1001 is not in 0..=1000"),
    plus([*RUN, "--swaps=+1"], M_SWAPS),
    bad_value([*RUN, "--swaps="], M_SWAPS, "", NO_TEXT),
    twice([*RUN, "--swaps", "1", "--swaps", "1"], M_SWAPS),
    one_more([*RUN, "--swaps", "1", "2"], "2"),
    like([*RUN, "--swap", "1"], "--swap", M_SWAPS),
    bad_value([*RUN, "--workers", "0", "--swaps", "1"], N_WORKERS, "0", "0 is not in 1..=63"),
    bad_value([*RUN, "--workers", "1", "--swaps", "1001"], M_SWAPS, "1001", "1001 is not in 0..=1000"),
    plus([*RUN, "--workers", "+1", "--swaps", "1"], N_WORKERS),
    plus([*RUN, "--workers", "1", "--swaps", "+1"], M_SWAPS),
    # of two the first option is reported
    plus([*RUN, "--swaps", "+1", "--workers", "+1"], N_WORKERS),
    others([*REPLAY, "--swaps", "1"], "--swaps"),
    others(["check", "i", "--swaps", "1"], "--swaps"),
    too_early(["--swaps", "1", *RUN], "run"),
]

# each operand that isn't there is reported, and the first word that is too many
COMMAND_LINES = [
    wrong(
        [],
        "'percobpf' requires a subcommand but one was not provided\n  [subcommands: run, replay, asm, dis, check, help]",
        "<COMMAND>",
    ),
    no_subcommand(["walk"], "walk"),
    no_subcommand(["help", "walk"], "walk"),
    wrong(["chek", "i"], "unrecognized subcommand 'chek'", "<COMMAND>", "a similar subcommand exists: 'check'"),
    wrong(["--version"], "unexpected argument '--version' found", "<COMMAND>"),
    missing(["run"], "<MANIFEST> <SCRIPT>"),
    missing(["run", "m.json"], "<SCRIPT>"),
    one_more(["run", "m.json", "s.txt", "x"], "x"),
    missing(["replay", "m", "s"], "<SCHEDULE>"),
    missing(["replay"], "<MANIFEST> <SCRIPT> <SCHEDULE>"),
    one_more(["replay", "m", "s", "e", "x"], "x"),
    missing(["asm", "in"], "<OUT>"),
    missing(["asm"], "<IN> <OUT>"),
    one_more(["asm", "in", "out", "x"], "x"),
    missing(["dis"], "<FILE>"),
    one_more(["dis", "f", "x"], "x"),
    missing(["check"], "<FILE>"),
    one_more(["check", "f", "x"], "x"),
    # as many words as any command line has, and more after them
    one_more([*RUN, "--workers", "2", "--swaps", "3", "x"], "x"),
    one_more([*RUN, "--workers", "2", "--swaps", "3", "x", "y"], "x"),
    one_more([*RUN, "--workers", "2", "--swaps", "3", *["x"] * 1_000], "x"),
    one_more([*RUN, "--workers", "2", "--swaps", "3", "x" * 5_000], "x" * 5_000),
    twice([*RUN, "--workers", "2", "--swaps", "3", "--workers", "2"], N_WORKERS),
    no_value([*RUN, "--swaps", "3", "--workers"], N_WORKERS),
    one_more(["check", "i", "--profile", "2", "--record", "2", "x"], "x"),
    one_more([*REPLAY, "--clock", "1", "x"], "x"),
    # a word that isn't UTF-8, where it stands
    *(
        Row([*before, "\udcff", *after], status=2, err=b"error: a word of the command line is not UTF-8\n")
        for before, after in (([], []), (["run", "m"], []), (["help"], ["run"]), ([*RUN, "--workers", "2", "--swaps", "3"], []))
    ),
]


# of `asm`, `dis` and `check`, before, between and after the operands
PROFILES = [
    *(Row(["check", *words], {"i": PROGRAM}, out=b"accepted 2 slots\n") for words in (
        ["i", "--profile", "1"], ["i", "--profile", "2"], ["--profile", "2", "i"], ["--profile=2", "i"], ["i", "--profile", "02"])),
    Row(["dis", "--profile", "2", "i"], {"i": PROGRAM}, out=b"mov64 r0, 0\nexit\n"),
    Row(["asm", "i", "--profile", "2", "o"], {"i": b"mov64 r0, 0\nexit\n"}, written={"o": PROGRAM}),
]

N_PROFILE = "--profile <N>"
OF_PROGRAMS = (["asm", "i", "o"], ["dis", "i"], ["check", "i"])

OTHER_PROFILES = [
    *(
        bad_value([*words, "--profile", text], N_PROFILE, text, why)
        for words in OF_PROGRAMS
        for text, why in [*NO_NUMBERS, *((text, f"{text} is not in 1..=2") for text in ("0", "3", "12", "4294967297"))]
    ),
    *(plus([*words, "--profile", text], N_PROFILE) for words in OF_PROGRAMS for text in ("+1", "+2")),
    *(hyphened([*words, "--profile", "-1"], "-1") for words in OF_PROGRAMS),
    no_value(["check", "i", "--profile"], N_PROFILE),
    bad_value(["check", "--profile", "i"], N_PROFILE, "i", NO_DIGIT),
    bad_value(["check", "i", "--profile=3"], N_PROFILE, "3", "3 is not in 1..=2"),
    bad_value(["dis", "i", "--profile="], N_PROFILE, "", NO_TEXT),
    twice(["dis", "i", "--profile", "1", "--profile", "1"], N_PROFILE),
    one_more(["asm", "i", "o", "--profile", "1", "2"], "2"),
    like(["check", "i", "--profil", "1"], "--profil", N_PROFILE),
    others(["run", "m", "s", "--profile", "1"], "--profile"),
    others(["replay", "m", "s", "e", "--profile", "2"], "--profile"),
    too_early(["--profile", "1", "check", "i"], "check"),
]

N_RECORD = "--record <N>"

# of `check` alone
OTHER_RECORDS = [
    *(
        bad_value(["check", "i", "--record", text], N_RECORD, text, why)
        for text, why in [*NO_NUMBERS, ("0", "0 is not in 1..=2"), ("3", "3 is not in 1..=2")]
    ),
    *(plus(["check", "i", "--record", text], N_RECORD) for text in ("+1", "+2")),
    plus(["check", "i", "--record", "+1", "--profile", "+1"], N_PROFILE),
    hyphened(["check", "i", "--record", "-1"], "-1"),
    no_value(["check", "i", "--record"], N_RECORD),
    twice(["check", "i", "--record", "2", "--record", "2"], N_RECORD),
    others(["dis", "i", "--record", "2"], "--record"),
    others(["asm", "i", "o", "--record", "2"], "--record"),
]

TABLES: Tables = {
    "subcommands": SUBCOMMANDS,
    "clocks": CLOCKS,
    "other clocks": OTHER_CLOCKS,
    "workers": WORKERS,
    "other workers": OTHER_WORKERS,
    "swaps": SWAPS,
    "other swaps": OTHER_SWAPS,
    "profiles": PROFILES,
    "other profiles": OTHER_PROFILES,
    "other records": OTHER_RECORDS,
    "command lines": COMMAND_LINES,
}
