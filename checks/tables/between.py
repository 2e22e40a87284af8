"""What stands between the smallest and the largest: faults in late lines and events, numbers, clocks and files of many sizes.

A contract lets a body report that memory is wanted for any input; these rows don't. Worked out by hand from docs/FORMATS.md and
docs/TABLE.md, as those of sizes.py, where the largest stand.
"""
from __future__ import annotations

from itertools import cycle

from tables import (
    CHANGED, COPIED, NOBODY, ONE, WATCH, WATCHED, Row, Tables, asm, asm_fails, dis, dis_refused, encoded, files_of, in_profile,
    manifest_of, observer, refused, replay, replay_fails, run, run_fails,
)


def around(*powers: int) -> list[int]:
    """These powers of two, and the numbers beside each."""
    return [2**power + step for power in powers for step in (-1, 0, 1)]


# lines, none of which is among the first hundred, nor the last that may be at fault
LINES = sorted({*around(8, 9, 10, 11, 12, 13), 401, 402, 403, 500, 999, 1_001, 3_000, 5_000, 7_777, 8_999, 9_000, 9_001, 9_998})

BAD_OPERATIONS = cycle([("put 7 0", 70), ("put 7 16 2a", 71), ("put 7 0 2A", 72), ("del 7 0; put 7 0 2a", 73),
                        ("; ".join(f"del {row} 0" for row in range(17)), 74)])

LATE_SCRIPTS = [
    *(run_fails(NOBODY, ONE * (line - 1) + bad, f"script: line {line} code {number}")
      for line, (bad, number) in zip(LINES, BAD_OPERATIONS)),
    # remarks are lines too, of which there may be more than changes
    *(run_fails(NOBODY, "# x\n" * (line - 1) + bad, f"script: line {line} code {number}")
      for line, (bad, number) in zip((402, 9_000, 10_001, 12_345, 70_000, 1_000_001), BAD_OPERATIONS)),
]

BAD_EVENTS = cycle([("step 01", 90), ("step 64", 91), ("launch 1 run other 7", 93), ("crash", 90), ("clear 7 16", 91)])

LATE_SCHEDULES = [
    replay_fails(NOBODY, ONE, "step 1\n" * (line - 1) + bad, f"schedule: line {line} code {number}")
    for line, (bad, number) in zip([*LINES, 20_000, 65_537, 100_000, 500_001, 899_999, 999_998], BAD_EVENTS)
]

LATE_TEXTS = [
    asm_fails("# x\n" * (line - 1) + bad, line, number)
    for line, (bad, number) in zip([*LINES, 20_000, 65_537, 100_000, 1_000_001], cycle([("foo", 80), ("exit 1", 81), ("ja +40000", 82)]))
]

# events before the one at fault
PLACES = sorted({*around(*range(8, 20)), 999, 5_000, 5_001, 5_002, 10_000, 50_000, 77_777, 100_000, 300_000, 500_000, 899_998, 899_999,
                 900_000, 999_998})

# a change that isn't there, and a launch on an actor that has a job, which took the first of them
LATE_EVENTS = [
    *(replay_fails(WATCHED, ONE, f"step 1 {place}\nlaunch 1 change 2", f"event {place} code 63") for place in PLACES),
    *(replay_fails(WATCHED, ONE, f"launch 1 change 1\nstep 2 {place - 1}\nlaunch 1 run watch 7", f"event {place} code 61")
      for place in PLACES),
    *(replay_fails(WATCHED, ONE, "crash 1\n" * place + "launch 1 change 2", f"event {place} code 63")
      for place in (5_001, 12_345, 100_001)),
]

# numbers of many sizes, each above all that it may be
NUMBERS = sorted({*around(5, 6, 7, 8, 9, 15, 16, 20, 24, 30, 31, 32, 33, 40, 62, 63), 20, 99, 100, 1_000, 10_000, 999_999, 1_000_000, 1_000_001,
                  12_345_678, 500_000_000, 999_999_998, 999_999_999, 1_000_000_000, 1_000_000_001, 10**12, 10**18, 10**19, 2**64 - 2})


def of_observer(text: str, code: int = 54) -> Row:
    """A manifest of profile 2 and two observers, the second of which is refused."""
    return run_fails(manifest_of(observer(), text, profile=2), ONE, f"manifest: observer 1 code {code}")


ODD_NUMBERS = [
    *(of_observer(observer("w1", number)) for number in NUMBERS),
    *(of_observer(observer("w1", helpers=f"1,{number}")) for number in NUMBERS),
    *(of_observer(f'{observer("w1")[:-1]},"record":{number}}}') for number in NUMBERS),
    *(run_fails(manifest_of(observer(), profile=number), ONE, "manifest: code 51") for number in NUMBERS),
]

# so many observers, each of which has the form of one
MANY_OBSERVERS = [
    run_fails(manifest_of(*[observer()] * count), ONE, "manifest: code 52")
    for count in (34, 63, 64, 65, 100, 255, 256, 257, 1_000, 4_097, 9_999, 10_001, 19_999, 20_001, 32_769, 50_000, 65_537, 100_000)
]

# a name of each length, of which 32 letters are the most
NAMES = [
    *(run(manifest_of(observer("w" * letters)), ONE, f"{CHANGED}runs {'w' * letters} 1\nquiet\n") for letters in range(1, 33)),
    *(run_fails(manifest_of(observer("w" * letters)), ONE, "manifest: observer 0 code 53")
      for letters in (33, 34, 63, 64, 65, 255, 256, 257, 999, 4_096, 65_537)),
]

CLOCKS = sorted({*(2**power for power in range(64)), *(10**power for power in range(20)), 2**63 - 1, 2**64 - 6, 2**64 - 5, 9_299_999_999_999_999_999,
                 9_300_000_000_000_000_001, 12_345_678_901_234_567_890, 15 * 10**18, 17_999_999_999_999_999_999, 18 * 10**18})

# a change and the run on it take four timestamps
LATE_CLOCKS = [
    replay(
        COPIED,
        ONE,
        "launch 1 change 1\nstep 1 5\nlaunch 2 run copy 7\nstep 2 26",
        f"cell 7 0 commit {clock + 2} value 2a\ncell 7 1 commit {clock + 4} value 2a\nruns copy 1\nquiet\n",
        "--clock",
        str(clock),
    )
    for clock in CLOCKS
]


def of_one_seat(changes: int) -> Row:
    """The same change so many times by one actor, five entries each, and the run of another."""
    events = "launch 1 change 1\nstep 1 5\n" * changes + "launch 2 run watch 7\nstep 2 10"
    return replay(WATCHED, ONE, events, f"cell 7 0 commit {2 * changes} value 2a\nruns watch 1\nquiet\n")


# the last of them has 500,000 entries
LONG_SEATS = [of_one_seat(changes) for changes in (1_001, 5_999, 6_001, 6_002, 7_001, 13_108, 20_001, 65_537, 100_000)]

SIZES = sorted({*around(*range(6, 22)), 999, 5_003, 10_007, 32_001, 32_760, 33_333, 100_003, 1_000_003})


def of_size(size: int) -> list[Row]:
    """Files of so many bytes, the last of which counts, as each command reads them."""
    script = f"{'#' * (size - len(ONE))}\n{ONE[:-1]}"
    schedule = f"{'#' * (size - 25)}\nlaunch 1 change 1\nstep 1 5"
    text = f"{'#' * (size - 17)}\nmov64 r0, 0\nexit"
    return [
        run(NOBODY, script, f"{CHANGED}quiet\n"),
        run(f"{NOBODY:>{size}}", ONE, f"{CHANGED}quiet\n"),
        replay(NOBODY, ONE, schedule, f"{CHANGED}quiet\n"),
        asm(text, bytes.fromhex(WATCH)),
        Row(["run", "m", "s"], files_of(m=NOBODY, s=b"#" * (size - 1) + b"\xff"), 1, err=b"not text s\n"),
    ]


ODD_FILES = [row for size in SIZES for row in of_size(size)]

# bytes of these numbers: no multiple of 8, or more slots than a program has
ODD_BYTES = [
    row(bytes(size), 0, 10 if size % 8 else 11)
    for row in (dis_refused, refused)
    for size in SIZES
    if (size % 8 or size > 4_096) and (row, size) not in ((dis_refused, 4_095), (dis_refused, 4_097))
]

# slots of a program of profile 2, whose bytes are written, and read again
SLOTS = sorted({*around(10, 11), 600, 777, 3_001, 3_999, 4_000, 4_001, 4_002, 4_031, 4_063, 4_090, 4_094, 4_095})


def counted(slots: int) -> list[str]:
    """So many instructions, each with a number of its own."""
    return [f"mov64 r{number % 10}, {number * 524_287 - 2**30}" for number in range(slots)]


ODD_PROGRAMS = [
    in_profile(2, row)
    for slots in SLOTS
    for text, code in [("".join(f"{line}\n" for line in counted(slots)), encoded(*counted(slots)))]
    for row in (asm(text, code), dis(code, text), refused(code, slots - 1, 36))
]

TABLES: Tables = {
    "late lines of scripts": LATE_SCRIPTS,
    "late lines of schedules": LATE_SCHEDULES,
    "late lines of programs": LATE_TEXTS,
    "late events": LATE_EVENTS,
    "odd numbers": ODD_NUMBERS,
    "many observers": MANY_OBSERVERS,
    "names": NAMES,
    "late clocks": LATE_CLOCKS,
    "long seats": LONG_SEATS,
    "odd files": ODD_FILES,
    "odd bytes": ODD_BYTES,
    "odd programs": ODD_PROGRAMS,
}
