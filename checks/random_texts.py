"""Random manifests with the programs of examples/ and random ones, and random scripts and schedules, for checks/against-model.

They are about few cells, so that transactions meet.
"""
from __future__ import annotations

from dataclasses import dataclass
from functools import cache
from pathlib import Path

from tables import COPY, START, WATCH, encoded, manifest_of, observer
from tables.records import FLAG, KEEP, recorded

TOP = Path(__file__).resolve().parent.parent

# of the change record, by its version
RECORD_BYTES = {1: 80, 2: 120}

# keeps an index of a column in this one; and programs that write what their record has of before
INDEX = (TOP / "examples/c/indexer.v3.bin").read_bytes().hex()
INDEX_COLUMN = 12
TELLING = (KEEP, FLAG, INDEX)

ROWS_OF = (7, 8, 9, 999, 1000, 2**64 - 1)
COLUMNS = (0, 1, 2, 15)
OPERATIONS = ("add", "sub", "mul", "div", "or", "and", "lsh", "rsh", "mod", "xor", "mov", "arsh")
COMPARISONS = ("jeq", "jne", "jgt", "jge", "jlt", "jle", "jset", "jsgt", "jsge", "jslt", "jsle")


def word_of(pick):
    """An immediate."""
    return pick.choice((0, 1, 2, 7, 15, 31, 63, -1, -8, pick.randrange(-(2**31), 2**31)))


@dataclass(frozen=True)
class Field:
    """The few rows and columns that a case is about."""

    rows: tuple
    columns: tuple


def field_from(pick):
    return Field(tuple(pick.sample(ROWS_OF, pick.choice((1, 2, 3)))), tuple(pick.sample(COLUMNS, pick.choice((1, 2, 2, 3)))))


def named_cell(pick, field):
    """Instructions that name a cell in registers 1 and 2: of the changed row, or of one of a few rows."""
    row = pick.choice(("ldxdw r1, [r6+0]", f"lddw r1, {pick.choice(field.rows)}"))
    return f"{row}; mov64 r2, {pick.choice((*field.columns, 16)) if pick.random() < 0.2 else pick.choice(field.columns)}"


def signed_of(pick, target, size):
    """A move or a load that extends the sign, of profile 2; the record has so many bytes."""
    width = pick.choice((32, 64))
    moved, (name, count) = pick.choice((8, 16, 32)[: width // 16 - (width == 64)]), pick.choice((("b", 1), ("h", 2), ("w", 4)))
    loaded = pick.choice((f"r6+{pick.randrange(size - count + 1)}", f"r10-{pick.randrange(count, 33)}"))
    return pick.choice((f"movsx{width} {target}, {pick.choice(('r7', 'r8', 'r9'))}, {moved}", f"ldxs{name} {target}, [{loaded}]"))


def item_of(pick, field, profile, size):
    """Some instructions, after which registers 6 to 9 are as they have to be, and the same stack bytes are written. The
    record has so many bytes."""
    target = pick.choice(("r7", "r8", "r9"))
    kind = pick.randrange(7 if profile == 1 else 9)
    width = pick.choice((32, 64))
    if kind >= 7:
        return signed_of(pick, target, size)
    if kind <= 1:
        operand = pick.choice(("r7", "r8", "r9", word_of(pick)))
        return f"{pick.choice(OPERATIONS)}{width} {target}, {operand}"
    if kind == 2:
        return pick.choice((f"neg{width} {target}", f"ldxb {target}, [r6+{pick.randrange(size)}]", f"lddw {target}, {pick.getrandbits(64)}"))
    if kind == 3:
        return f"stxdw [r10-{pick.choice((8, 16, 24, 32))}], {target}; stb [r10-{pick.randrange(1, 33)}], {word_of(pick)}"
    if kind == 4:
        return f"{named_cell(pick, field)}; mov64 r3, r10; add64 r3, -32; call {pick.choice((1, 2))}; mov64 {target}, r0"
    if kind == 5:
        return f"{named_cell(pick, field)}; call 3"
    return f"call 4; mov64 {target}, r0; ldxdw r9, [r10-16]"


def program_of(pick, field, profile, size):
    """A program of the profile that is accepted with all helpers for a record of so many bytes."""
    places = (16, 24, 32, 40, 48, *range(80, size, 8))
    texts = ["mov64 r6, r1", "ldxdw r7, [r6+0]", *(f"ldxdw {register}, [r6+{pick.choice(places)}]" for register in ("r8", "r9"))]
    texts += [f"stdw [r10-{place}], {word_of(pick)}" for place in (8, 16, 24, 32)]
    for _ in range(pick.randrange(12)):
        item = item_of(pick, field, profile, size)
        if pick.random() < 0.3:
            slots = len(encoded(item)) // 8
            operand = pick.choice(("r7", "r8", "r9", word_of(pick)))
            texts.append(f"{pick.choice(COMPARISONS)}{pick.choice((32, 64))} {pick.choice(('r7', 'r8'))}, {operand}, +{slots}")
        texts.append(item)
    if pick.random() < 0.5:
        texts += ["stxdw [r10-32], r8; stxdw [r10-24], r9", f"{named_cell(pick, field)}; mov64 r3, r10; add64 r3, -32; call 2"]
    texts += [pick.choice(("mov64 r0, 0", "mov64 r0, 0", "mov64 r0, 0", "mov64 r0, r7"))]
    return encoded(*texts, "exit").hex()


@cache
def known_programs(profile, record):
    """Programs that are accepted in this profile for this version of the record."""
    names = ["*.v[13].bin"] if profile == 1 else ["*.bin"]
    paths = sorted(path for name in names for path in (TOP / "examples/c").glob(name))
    without = () if record == 2 else ("indexer",)
    known = [path.read_bytes().hex() for path in paths if not path.name.startswith(without)]
    return [WATCH, COPY, START, *([KEEP, FLAG] if record == 2 else []), *known]


def recorded_from(pick, record, name, column, code):
    """An observer of profile 2, which names the version of its record, but for some of version 1."""
    named = None if record == 1 and pick.random() < 0.5 else record
    return recorded(named, name=name, column=column, helpers="1,2,3,4", digits=code)


def observer_from(pick, field, name, profile):
    record, kind = pick.choice((1, 2)) if profile == 2 else 1, pick.random()
    if kind < 0.5:
        code = program_of(pick, field, profile, RECORD_BYTES[record])
    else:
        code = pick.choice(TELLING if record == 2 and kind < 0.8 else known_programs(profile, record))
    column = pick.choice(field.columns)
    return observer(name, column, "1,2,3,4", code) if profile == 1 else recorded_from(pick, record, name, column, code)


def manifest_from(pick, field):
    profile, count = pick.choice((1, 2, 2)), pick.choice((0, 1, 1, 2, 2, 3, 5))
    return manifest_of(*(observer_from(pick, field, f"o{n}", profile) for n in range(count)), profile=profile)


def manifest_for_one(pick):
    """Observers for a run by one worker, none of which is due for ever, since that takes the model long.

    Half of these runs have one whose record has a value of before: the cells of column 1 are written by `copy` once it has run
    there.
    """
    if pick.random() < 0.5:
        return manifest_of(observer("o0", pick.choice((0, 2, 15)), "1,2,3,4", pick.choice((WATCH, COPY, START))))
    told = recorded_from(pick, 2, "o0", 1, pick.choice(TELLING))
    return manifest_of(told, recorded_from(pick, pick.choice((1, 2)), "o1", 15, COPY), profile=2)


def manifest_for_more(pick):
    """Observers for a run by more workers, whose outcome the laws define: `copy`, and in profile 2 maybe `index` too."""
    if pick.random() < 0.4:
        return manifest_of(observer("copy", 0, "2", COPY))
    both = [recorded_from(pick, pick.choice((1, 2)), "copy", 0, COPY), recorded(2, name="index", column=0, helpers="2,3", digits=INDEX)]
    return manifest_of(*pick.choice((both, both[::-1], both[:1])), profile=2)


def operation_of(pick, row, column):
    if pick.random() < 0.2:
        return f"del {row} {column}"
    return f"put {row} {column} {pick.randbytes(pick.choice((1, 1, 2, 8, 32))).hex()}"


def line_of(pick, field):
    cells = {(pick.choice(field.rows), pick.choice(field.columns)): None for _ in range(pick.choice((1, 1, 2, 3, 16)))}
    return "; ".join(operation_of(pick, *cell) for cell in cells)


def script_from(pick, most, field):
    return "".join(f"{line_of(pick, field)}\n" for _ in range(pick.randrange(1, most + 1)))


def launch_from(pick, actor, changes, observers, field):
    if observers and pick.random() < 0.6:
        return f"launch {actor} run o{pick.randrange(observers)} {pick.choice(field.rows)}"
    return f"launch {actor} change {pick.randrange(1, changes + 1)}"


def clean_up_from(pick, observers, field):
    if observers and pick.random() < 0.3:
        return f"{pick.choice(('settle', 'clear'))} ack o{pick.randrange(observers)} {pick.choice(field.rows)}"
    return f"{pick.choice(('settle', 'clear', 'sweep'))} {pick.choice(field.rows)} {pick.choice(field.columns)}"


def schedule_from(pick, changes, observers, field):
    """Events on few cells: often some whole changes, and then actors turn by turn. One is launched again, but for some, only
    once it was crashed or let go on for long."""
    actors = pick.sample(range(1, 64), pick.choice((1, 2, 3, 5)))
    lines = [f"launch {actors[0]} change {n}\nstep {actors[0]} 700" for n in range(1, changes + 1) if pick.random() < 0.4]
    busy = set()
    for _ in range(pick.randrange(4, 60)):
        actor, kind = pick.choice(actors), pick.random()
        if actor not in busy or pick.random() < 0.002:
            lines.append(launch_from(pick, actor, changes, observers, field))
            if pick.random() < 0.3:
                lines.append(f"step {actor} 700")
            else:
                busy.add(actor)
        elif kind < 0.8:
            steps = pick.choice((1, 1, 2, 3, 5, 8, 20, 40, 700, 700))
            lines.append(f"step {actor}" if steps == 1 else f"step {actor} {steps}")
            if steps == 700:
                busy.discard(actor)
        elif kind < 0.87:
            busy.discard(actor)
            lines.append(f"crash {actor}")
        else:
            lines.append(clean_up_from(pick, observers, field))
    return "".join(f"{line}\n" for line in lines)
