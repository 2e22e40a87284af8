"""Command lines of the story program that are refused, each with what is printed of it.

Worked out by hand from docs/FORMATS.md, "Words", as those of words.py.
"""
from __future__ import annotations

from tables import Row, Tables
from tables.words import (
    CLOCK, N_PROFILE, N_RECORD, NO_NUMBERS, OPERANDS, PAST_U64, REPLAY, bad_value, hyphened, missing, no_subcommand, no_value, one_more, others, plus,
    too_early, twice, usage_of, wrong,
)

STORY = "percobpf_story"
FRAMES = ["frames", "i"]

COMMAND_LINES = [
    wrong(
        [],
        "'percobpf_story' requires a subcommand but one was not provided\n  [subcommands: frames, replay, trial, help]",
        "<COMMAND>",
        program=STORY,
    ),
    *(no_subcommand(words, words[0], STORY) for words in (["run", "m", "s"], ["asm", "i", "o"], ["check", "i"])),
    missing(["frames"], "<FILE>", STORY),
    missing(["replay", "m", "s"], "<SCHEDULE>", STORY),
    one_more([*FRAMES, "x"], "x", STORY),
    one_more([*REPLAY, "x"], "x", STORY),
    # as many words as any command line has, and more behind them
    one_more([*FRAMES, "--profile", "2", "--record", "2", "x"], "x", STORY),
    one_more([*FRAMES, "--profile", "2", "--record", "2", *["x"] * 1_000], "x", STORY),
    one_more([*REPLAY, "--clock", "1", "x"], "x", STORY),
    twice([*FRAMES, "--profile", "2", "--record", "2", "--record", "2"], N_RECORD, STORY),
    *(
        Row(words, status=2, err=b"error: a word of the command line is not UTF-8\n", program=STORY)
        for words in (["\udcff"], ["frames", "\udcff"], [*FRAMES, "--profile", "2", "--record", "2", "\udcff"])
    ),
]

OPTIONS = [
    *(
        bad_value([*FRAMES, option.split()[0], text], option, text, why, STORY)
        for option in (N_PROFILE, N_RECORD)
        for text, why in [*NO_NUMBERS, ("0", "0 is not in 1..=2"), ("3", "3 is not in 1..=2")]
    ),
    *(plus([*FRAMES, "--profile", text], N_PROFILE, STORY) for text in ("+1", "+2")),
    *(plus([*FRAMES, "--record", text], N_RECORD, STORY) for text in ("+1", "+2")),
    plus([*FRAMES, "--record", "+1", "--profile", "+1"], N_PROFILE, STORY),
    hyphened([*FRAMES, "--profile", "-1"], "-1", STORY),
    no_value([*FRAMES, "--record"], N_RECORD, STORY),
    twice([*FRAMES, "--profile", "1", "--profile", "1"], N_PROFILE, STORY),
    others([*FRAMES, "--workers", "1"], "--workers", STORY),
    others([*REPLAY, "--profile", "1"], "--profile", STORY),
    too_early(["--profile", "1", *FRAMES], "frames", STORY),
    *(
        bad_value([*REPLAY, "--clock", text], CLOCK, text, why, STORY)
        for text, why in [*NO_NUMBERS, ("18446744073709551616", PAST_U64)]
    ),
    hyphened([*REPLAY, "--clock", "-1"], "-1", STORY),
    no_value([*REPLAY, "--clock"], CLOCK, STORY),
    twice([*REPLAY, "--clock", "1", "--clock", "1"], CLOCK, STORY),
]

EVENTS = "--events <A-B>"
NO_EVENTS = (
    "not two numbers with a hyphen between them, the first at most the second, both 0 to 18446744073709551615, "
    "in digits without a zero before them"
)

# texts that name no first and last event
NO_SPANS = (
    *("", "-", "3", "3-", "-3", "3-2", "1-0", "+3-4", "3-+4", "-3-4", "3--4", "3-4-", "3-4-5", "03-4", "3-04", "00-0", "0-00"),
    *(" 3-4", "3-4 ", "3 -4", "3- 4", "3 4", "3..4", "3,4", "3\u20134", "x", "a-b", "3-x", "x-4", "0x3-4", "3.0-4", "3-4\n"),
    *("0-18446744073709551616", "18446744073709551616-18446744073709551617", "18446744073709551615-18446744073709551614"),
)


def unread_events(words: list[str]) -> Row:
    """Words in which `--events` has a value that isn't read."""
    return wrong(words, f"invalid value for '{EVENTS}': {NO_EVENTS}", usage_of("replay"), program=STORY)


EXCERPTS = [
    *(unread_events([*REPLAY, f"--events={text}"]) for text in NO_SPANS),
    *(unread_events([*REPLAY, "--events", text]) for text in ("", "3", "3-", "3-2", "+3-4", " 3-4", "03-4")),
    # what isn't read is reported wherever it stands, and nothing is done
    unread_events(["replay", "--events", "3-2", "--idle", "--clock", "1", "m", "s", "e"]),
    hyphened([*REPLAY, "--events", "-3"], "-3", STORY),
    no_value([*REPLAY, "--events"], EVENTS, STORY),
    no_value([*REPLAY, "--events", "--idle"], EVENTS, STORY),
    twice([*REPLAY, "--events", "1-2", "--events", "1-2"], EVENTS, STORY),
    twice([*REPLAY, "--idle", "--idle"], "--idle", STORY),
    wrong(
        [*REPLAY, "--idle=true"],
        "unexpected value 'true' for '--idle' found; no more were expected",
        f"replay --idle {OPERANDS['replay']}",
        program=STORY,
    ),
    one_more([*REPLAY, "--idle", "3-4"], "3-4", STORY),
    others([*FRAMES, "--events", "1-2"], "--events", STORY),
    others([*FRAMES, "--idle"], "--idle", STORY),
    too_early(["--idle", *REPLAY], "replay", STORY),
    # a replay of the other program has no story
    others([*REPLAY, "--events", "1-2"], "--events"),
    others([*REPLAY, "--idle"], "--idle"),
]

TRIAL = ["trial", "i", "--row", "7", "--column", "0", "--value", "2a"]
NEEDED = "--row <R> --column <C> --value <HEX> <FILE>"
ALL_OPTIONS = f"trial [OPTIONS] {NEEDED}"

NO_ROW = "not 0 to 18446744073709551615, in digits without a zero before them"
NO_COLUMN = "not 0 to 15, in digits without a zero before them"
NO_VALUE = "not 2 to 64 lower-case hexadecimal digits, even in number"
NO_CELL = "not a row, a column of 0 to 15 and a value, as `--row`, `--column` and `--value` have them"


def unread(words: list[str], option: str, why: str) -> Row:
    """Words of a trial in which an option has a value that isn't read."""
    return wrong(words, f"invalid value for '{option}': {why}", ALL_OPTIONS, program=STORY)


def with_word(place: int, word: str) -> list[str]:
    """The words of a trial with another in this place."""
    return [*TRIAL[:place], word, *TRIAL[place + 1 :]]


TRIALS = [
    wrong(["trial", *TRIAL[2:]], "the following required arguments were not provided:\n  <FILE>", f"trial {NEEDED}", program=STORY),
    *(
        wrong(
            [*TRIAL[:place], *TRIAL[place + 2 :]],
            f"the following required arguments were not provided:\n  {option}",
            f"trial {NEEDED}",
            program=STORY,
        )
        for place, option in ((2, "--row <R>"), (4, "--column <C>"), (6, "--value <HEX>"))
    ),
    *(unread(with_word(3, text), "--row <R>", NO_ROW) for text in ("x", "", "07", "+7", "1.0", " 7", "18446744073709551616")),
    *(unread(with_word(5, text), "--column <C>", NO_COLUMN) for text in ("x", "", "00", "+0", "16", "256")),
    *(unread(with_word(7, text), "--value <HEX>", NO_VALUE) for text in ("", "2", "2A", "0x2a", "2a ", "zz", "00" * 33)),
    *(unread([*TRIAL, "--old", text], "--old <HEX>", NO_VALUE) for text in ("", "2", "2A", "00" * 33)),
    *(
        unread([*TRIAL, "--cell", *cell], "--cell <R> <C> <HEX>", NO_CELL)
        for cell in (["x", "1", "2a"], ["7", "16", "2a"], ["7", "1", "2"], ["7", "1", "2a", "--cell", "7", "2", "x"])
    ),
    *(unread([*TRIAL, option.split()[0], "+1"], option, "a plus stands before the digits") for option in (N_PROFILE, N_RECORD)),
    # the first in the order of the help is reported
    unread([*with_word(3, "x"), "--cell", "x", "1", "2a", "--profile", "+1"], "--row <R>", NO_ROW),
    *(
        wrong([*TRIAL, "--cell", *cell], f"3 values required for '--cell <R> <C> <HEX>' but {len(cell)} were provided", ALL_OPTIONS, program=STORY)
        for cell in (["7", "1"],)
    ),
]

TABLES: Tables = {"command lines": COMMAND_LINES, "options": OPTIONS, "excerpts": EXCERPTS, "trials": TRIALS}
