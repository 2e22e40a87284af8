"""Programs of profile 2 at the sizes that they may have, and as many of them as a manifest may name.

A contract lets a body report that memory is wanted for any input; these rows don't. Worked out by hand from docs/MACHINE.md,
docs/FORMATS.md and docs/TABLE.md, as those of sizes.py; bytes are those of the tables' encoder.
"""
from __future__ import annotations

from itertools import cycle, islice

from tables import (
    CHANGED, ONE, Row, Tables, accepted, asm, asm_fails, dis, dis_refused, encoded, in_profile, manifest_of, observer, refused,
    replay, run, run_fails, within,
)
from tables.records import FLAG, KEEP, TWO, on_record, recorded
from tables.sizes import (
    BROKEN, BROKEN_BYTES, EXIT, FIVES, LARGEST, LEFT, MOV, NO_OPCODE, NUMBERS, cells, code_of, filled, half_written, kinds_of, ran,
    runs_of, text_of,
)

SLOTS = 4_096

SIGNED_LOADS = [f"ldxs{size} r0, [r{place}]" for size, at in (("b", 79), ("h", 78), ("w", 76)) for place in (f"1+{at}", "10-512")]

# each kind of instruction in every slot that may have it, and those that profile 2 adds
KINDS = {
    **kinds_of(SLOTS),
    "moves that extend the sign": filled(
        SLOTS, NUMBERS, [*(f"movsx64 r0, r2, {bits}" for bits in (8, 16, 32)), "movsx32 r2, r0, 8", "movsx32 r0, r2, 16"], ["exit"]
    ),
    "loads that extend the sign": filled(SLOTS, ["stdw [r10-512], -5"], SIGNED_LOADS, ["exit"]),
}

CODES = {kind: code_of(lines, SLOTS) for kind, lines in KINDS.items()}

ASSEMBLED = [in_profile(2, asm(text_of(lines), CODES[kind])) for kind, lines in KINDS.items()]
LISTED = [in_profile(2, dis(CODES[kind], text_of(lines))) for kind, lines in KINDS.items()]
ACCEPTED = [in_profile(2, accepted(code, SLOTS)) for code in CODES.values()]
RUN = [ran(code, *LEFT.get(kind, ("", CHANGED)), profile=2) for kind, code in CODES.items()]

# after the first 3,000 slots each move and load that extends the sign, of all registers that hold a number: the record's place
# moves to register 6, so that its own holds one too
LATE_REGISTERS = (0, 1, 2, 3, 4, 5, 7, 8, 9)
LATE_FIRST = ["mov64 r6, r1", "stdw [r10-512], -5", *(f"mov64 r{register}, {register}" for register in LATE_REGISTERS)]
EXTENDING = [
    *(
        text.format(target, source)
        for target in LATE_REGISTERS
        for source in LATE_REGISTERS
        for text in (
            *(f"movsx64 r{{}}, r{{}}, {bits}" for bits in (8, 16, 32)), "movsx32 r{}, r{}, 8", "movsx32 r{}, r{}, 16"
        )
    ),
    *(
        f"ldxs{size} r{target}, [r{place}]"
        for target in LATE_REGISTERS
        for size in "bhw"
        for place in ("6+0", "6+76", "10-512")
    ),
]
LATE_FORMS = filled(SLOTS, [*LATE_FIRST, *["mov64 r0, 0"] * (3_000 - len(LATE_FIRST))], EXTENDING, ["exit"])
LATE_CODE = code_of(LATE_FORMS, SLOTS)

EXTENDED_LATE = [
    in_profile(2, asm(text_of(LATE_FORMS), LATE_CODE)),
    in_profile(2, dis(LATE_CODE, text_of(LATE_FORMS))),
    in_profile(2, accepted(LATE_CODE, SLOTS)),
    in_profile(2, on_record(2, accepted(LATE_CODE, SLOTS))),
    ran(LATE_CODE, "", CHANGED, profile=2),
]


def flagged(slots: int) -> Row:
    """Two changes with a run after each, of so many slots, which writes whether there was a value before, and since when."""
    code = MOV * (slots - len(FLAG) // 16) + bytes.fromhex(FLAG)
    manifest = manifest_of(recorded(2, name="flag", helpers="2", digits=code.hex()), profile=2)
    turns = "".join(f"launch 1 change {change}\nstep 1 5\nlaunch 2 run flag 7\nstep 2 5000\n" for change in (1, 2))
    report = "cell 7 0 commit 6 value 2b\ncell 7 3 commit 8 value 010000000000000003\nruns flag 2\nquiet\n"
    return replay(manifest, TWO, turns, report)


# the record's second version at sizes between the smallest and the largest
FLAGGED = [
    flagged(slots)
    for slots in (16, 17, 30, 31, 32, 33, 64, 100, 257, 500, 511, 512, 513, 600, 1_000, 1_025, 2_047, 3_001, 3_999, 4_000, SLOTS)
]

# the longest line that a listing has, in each of its lines; nobody accepts this
WIDEST = ["jsgt32 r10, -2147483648, -32768"] * SLOTS
# numbers over the whole range of an immediate
SPREAD = [*(f"mov64 r0, {-(2**31) + 1_048_583 * place}" for place in range(SLOTS - 1)), "exit"]

TEXTS = [
    *(in_profile(2, asm(text_of(lines), code_of(lines, SLOTS))) for lines in (WIDEST, SPREAD)),
    *(in_profile(2, dis(code_of(lines, SLOTS), text_of(lines))) for lines in (WIDEST, SPREAD)),
    in_profile(2, asm("".join(f"# {'x' * 200}\n{line}\n" for line in SPREAD), code_of(SPREAD, SLOTS))),
    in_profile(2, asm_fails("\n" * 70_000 + text_of(SPREAD) + "exit\n", 74_097, 83)),
]

# so many good slots stand before what is refused
LATE = (513, 1_024, 2_047, 3_000, 4_088)

BROKEN_IN_2 = [
    ("movsx64 r0, r6, 8; exit", 0, 21),
    ("movsx64 r10, r0, 8; exit", 0, 22),
    ("movsx32 r0, r1, 16; exit", 0, 23),
    ("ldxsw r0, [r10+0]; exit", 0, 25),
    ("ldxsb r0, [r10-1]; exit", 0, 26),
    ("ldxsh r0, [r1+79]; exit", 0, 27),
    ("ldxsb r0, [r0+0]; exit", 0, 29),
]

LATE_REFUSALS = [
    *(
        in_profile(2, refused(MOV * slots + encoded(text), slots + slot, number))
        for slots in LATE
        for text, slot, number in (*BROKEN, *BROKEN_IN_2)
    ),
    *(in_profile(2, on_record(2, refused(MOV * slots + encoded("ldxb r0, [r1+120]; exit"), slots, 27))) for slots in LATE),
    *(in_profile(2, on_record(2, accepted(MOV * slots + encoded("ldxb r0, [r1+119]; exit"), slots + 2))) for slots in LATE),
]

# 24 bits are no number of bits, and eight bytes need no sign
BROKEN_BYTES_IN_2 = [("bf10180000000000", 14), ("bc10200000000000", 14), ("99a0f8ff00000000", 12)]

LATE_BYTES = [
    *(
        in_profile(2, dis_refused(MOV * slots + bytes.fromhex(digits), slots, number))
        for slots in LATE
        for digits, number in (*BROKEN_BYTES, *BROKEN_BYTES_IN_2)
    ),
    in_profile(2, dis_refused(bytes(40_001), 0, 10)),
    in_profile(2, dis_refused(bytes(40_000), 0, 11)),
    in_profile(2, dis_refused(bytes(LARGEST), 0, 11)),
    in_profile(2, refused(bytes(LARGEST), 0, 11)),
]

# after many numbers of good slots or lines: nothing, bytes that are no slot's, and a line that is no instruction
LENGTHS = range(513, SLOTS, 71)

EACH_FAULT = [
    *(in_profile(2, refused(MOV * slots, slots - 1, 36)) for slots in LENGTHS),
    *(in_profile(2, dis_refused(MOV * slots + NO_OPCODE, slots, 12)) for slots in LENGTHS),
    *(in_profile(2, asm_fails("mov64 r0, 0\n" * lines + "foo\n", lines + 1, 80)) for lines in LENGTHS),
]

EACH_TEXT = [in_profile(2, asm("mov64 r0, 0\n" * slots, MOV * slots)) for slots in LENGTHS]

JUMPS = [
    *(
        in_profile(2, accepted(encoded(f"mov64 r0, 0; jeq64 r0, 1, +{target - 2}") + MOV * (SLOTS - 3) + EXIT, SLOTS))
        for target in (513, 1_000, 2_048, 3_000, SLOTS - 2)
    ),
    in_profile(2, refused(code_of(half_written(SLOTS), SLOTS), SLOTS - 2, 26)),
]


def as_many(codes: list[bytes], helpers: str = "", record: int | None = None) -> list[str]:
    """As many observers as there may be, with these programs in turn."""
    turns = islice(cycle(codes), 32)
    return [recorded(record, name=f"w{n}", helpers=helpers, digits=code.hex()) for n, code in enumerate(turns)]


def last_fails(last: str, fault: str) -> Row:
    """As many observers as there may be, the last of which is at fault."""
    manifest = manifest_of(*as_many([MOV * (SLOTS - 1) + EXIT])[:31], last, profile=2)
    return run_fails(manifest, ONE, f"manifest: observer 31 code {fault}")


def of_all(codes: list[bytes], helpers: str, report: str) -> Row:
    """A run of as many observers, which leaves these cells."""
    return within(128, run(manifest_of(*as_many(codes, helpers), profile=2), ONE, f"{report}{runs_of(1)}quiet\n"))


# `keep` after good slots
LATE_KEEP = MOV * (SLOTS - 16) + bytes.fromhex(KEEP)

# two changes, each with a run of every observer after it, of 4,106 events and one more where it has run before
EACH_TWICE = "".join(
    f"launch 1 change {change}\nstep 1 5\n" + "".join(f"launch 1 run w{n} 7\nstep 1 {events}\n" for n in range(32))
    for change, events in ((1, 4_106), (2, 4_107))
)

# the first runs of `keep` begin at 3 to 65, and the second ones commit at 70 to 132, after a change of 67 that commits at 68:
# the record of each has what stood there at its first. Of writers each writes the cells of the one before
OBSERVERS = [
    of_all([MOV * (SLOTS - 1) + EXIT], "", CHANGED),
    of_all([MOV * (slots - 1) + EXIT for slots in range(624, SLOTS + 1, 112)], "", CHANGED),
    of_all([CODES["asks"]], "1", CHANGED),
    of_all([CODES["writes"]], "2", cells(FIVES, 1).replace("commit 4", "commit 66")),
    within(
        128,
        replay(
            manifest_of(*as_many([LATE_KEEP], "2", 2), profile=2),
            TWO,
            EACH_TWICE,
            f"cell 7 0 commit 68 value 2b\ncell 7 2 commit 132 value 2a\n{runs_of(2)}quiet\n",
        ),
    ),
    within(
        128,
        run(
            manifest_of(*as_many([LATE_KEEP, CODES["loads that extend the sign"]], "2", 2), profile=2),
            ONE,
            f"{CHANGED}cell 7 2 commit 64 value 00\n{runs_of(1)}quiet\n",
        ),
    ),
    last_fails(observer("w0"), "53"),
    last_fails(recorded(3, name="w31"), "54"),
    last_fails(observer("w31", digits="b7" * 32_767 + "b"), "55"),
    last_fails(observer("w31", digits=(MOV * 4_090 + encoded("mov64 r10, 0; exit")).hex()), "56 slot 4090 code 22"),
    last_fails(observer("w31", digits=LATE_KEEP.hex()), "56 slot 4081 code 27"),
    last_fails(observer("w31", digits=(MOV * SLOTS + EXIT).hex()), "56 slot 0 code 11"),
]

TABLES: Tables = {
    "assembled": ASSEMBLED,
    "listed": LISTED,
    "accepted": ACCEPTED,
    "run": RUN,
    "texts": TEXTS,
    "late refusals": LATE_REFUSALS,
    "late bytes": LATE_BYTES,
    "each fault": EACH_FAULT,
    "each text": EACH_TEXT,
    "jumps": JUMPS,
    "observers": OBSERVERS,
    "extended late": EXTENDED_LATE,
    "flagged": FLAGGED,
}
