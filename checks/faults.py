"""A plain reader of manifests, scripts, schedules and assembler text that returns where one is refused, and by which code.

It is written from docs/FORMATS.md, docs/CODES.md and docs/MACHINE.md alone, so that the program and it have nothing in common but
these pages. `checks/turned-texts` compares the two. Of an observer whose program isn't accepted it knows the place alone.
"""
from __future__ import annotations

import json
import re

from tables import ARITHMETIC_CLASSES, ARITHMETIC_CODES, JUMP_CLASSES, JUMP_CODES, SIZES, WITHOUT_WIDTH

LAST = 2**64 - 1
MEMBERS = {"name": str, "column": int, "helpers": list, "code": str}
NUMBERED = re.compile(r"0|[1-9][0-9]*")


class Fault(Exception):
    """A code, and of a manifest the place of its observer."""


def number(word, least, most, form, beyond):
    """A number of decimal digits alone; another word has one code, and one beyond its range another."""
    if not NUMBERED.fullmatch(word):
        raise Fault(form)
    if not least <= int(word) <= most:
        raise Fault(beyond)
    return int(word)


def taken(words, form):
    """The next word."""
    if not words:
        raise Fault(form)
    return words.pop(0)


def first_fault(text, of_line):
    """The line and code of the first line at fault, or None. Empty lines and comments are counted and skipped."""
    for place, line in enumerate(text.split("\n"), 1):
        try:
            if line and not line.startswith("#"):
                of_line(line)
        except Fault as fault:
            return place, fault.args[0]
    return None


# Scripts


def read_change(line):
    """Reads a line of a script."""
    cells = set()
    for operation in line.split("; "):
        verb, *words = operation.split(" ")
        if verb not in ("put", "del"):
            raise Fault(70)
        cell = number(taken(words, 70), 0, LAST, 70, 71), number(taken(words, 70), 0, 15, 70, 71)
        if verb == "put" and not re.fullmatch(r"(?:[0-9a-f]{2}){1,32}", taken(words, 70)):
            raise Fault(72)
        if words:
            raise Fault(70)
        if cell in cells:
            raise Fault(73)
        cells.add(cell)
        if len(cells) > 16:
            raise Fault(74)


def of_script(text):
    return first_fault(text, read_change)


# Schedules


def read_name(words, names):
    if taken(words, 90) not in names:
        raise Fault(93)


def read_row(words):
    number(taken(words, 90), 0, LAST, 90, 91)


def read_cell(words):
    read_row(words)
    number(taken(words, 90), 0, 15, 90, 91)


def read_event(line, names):
    """Reads a line of a schedule, whose observers have these names."""
    verb, *words = line.split(" ")
    if verb in ("launch", "step", "crash"):
        number(taken(words, 90), 1, 63, 90, 91)
    if verb == "launch":
        what = taken(words, 90)
        if what == "change":
            number(taken(words, 90), 1, 10_000, 90, 91)
        elif what == "run":
            read_name(words, names)
            read_row(words)
        else:
            raise Fault(90)
    elif verb == "step" and words:
        number(taken(words, 90), 1, 1_000_000, 90, 91)
    elif verb in ("settle", "clear") and words[:1] == ["ack"]:
        words.pop(0)
        read_name(words, names)
        read_row(words)
    elif verb in ("settle", "clear", "sweep"):
        read_cell(words)
    elif verb not in ("step", "crash"):
        raise Fault(90)
    if words:
        raise Fault(90)


def of_schedule(text, names):
    return first_fault(text, lambda line: read_event(line, names))


# Manifests


def is_number(it):
    return isinstance(it, int) and not isinstance(it, bool) and 0 <= it <= LAST


def has_form(observer, profile):
    """Whether an element of `observers` has the form of one."""
    members = dict(MEMBERS, record=int) if profile == 2 and "record" in (observer if isinstance(observer, dict) else ()) else MEMBERS
    if not isinstance(observer, dict) or observer.keys() != members.keys():
        return False
    are_types = all(is_number(observer[it]) if kind is int else isinstance(observer[it], kind) for it, kind in members.items())
    return are_types and all(map(is_number, observer["helpers"]))


def code_of(observer, before):
    """The lowest code of an observer but for its program's, or None."""
    helpers = observer["helpers"]
    if not re.fullmatch(r"[a-z0-9-]{1,32}", observer["name"]) or observer["name"] in before:
        return 53
    if observer["column"] > 15 or not set(helpers) <= {1, 2, 3, 4} or len(set(helpers)) < len(helpers) or observer.get("record", 1) not in (1, 2):
        return 54
    return None if re.fullmatch(r"(?:[0-9a-f]{2})*", observer["code"]) else 55


def no_constant(word):
    raise ValueError(word)


def written(word):
    """A number as it is written: one with a sign, a fraction or an exponent is none."""
    return int(word) if NUMBERED.fullmatch(word) else float(word)


def of_manifest(text):
    """The code of the whole, or the place and code of an observer, or None. A program that isn't accepted is no fault here."""
    try:
        whole = json.loads(text, parse_constant=no_constant, parse_int=written, parse_float=written)
    except ValueError:
        return (50,)
    if not isinstance(whole, dict) or whole.keys() != {"profile", "observers"} or not isinstance(whole["observers"], list):
        return (51,)
    if not is_number(whole["profile"]) or whole["profile"] not in (1, 2):
        return (51,)
    if not all(has_form(it, whole["profile"]) for it in whole["observers"]):
        return (51,)
    if len(whole["observers"]) > 32:
        return (52,)
    names = set()
    for place, observer in enumerate(whole["observers"]):
        if code := code_of(observer, names):
            return place, code
        names.add(observer["name"])
    return None


# Assembler text

REGISTER, SIGNED, PLAIN = r"r(?:10|\d)", r"(?:0|-?[1-9]\d*)", r"(?:0|[1-9]\d*)"
OFFSET = r"(?:\+0|[+-][1-9]\d*)"
# The form of an operand, with its number as a group, and that number's range.
OPERANDS = {
    "register": (rf"{REGISTER}()", 0, 0),
    "immediate": (rf"({SIGNED})", -(2**31), 2**31 - 1),
    "either": (rf"{REGISTER}|({SIGNED})", -(2**31), 2**31 - 1),
    "word": (rf"({PLAIN})", 0, LAST),
    "offset": (rf"({OFFSET})", -(2**15), 2**15 - 1),
    "place": (rf"\[{REGISTER}({OFFSET})\]", -(2**15), 2**15 - 1),
}
# The operands after each first word of profile 1.
WORDS = {
    **{f"{name}{width}": ("register", "either") for name in ARITHMETIC_CODES for width in ARITHMETIC_CLASSES},
    **{f"neg{width}": ("register",) for width in ARITHMETIC_CLASSES},
    **{f"{name}{width}": ("register", "either", "offset") for name in JUMP_CODES if name not in WITHOUT_WIDTH for width in JUMP_CLASSES},
    **{f"ldx{size}": ("register", "place") for size in SIZES},
    **{f"st{size}": ("place", "immediate") for size in SIZES},
    **{f"stx{size}": ("place", "register") for size in SIZES},
    "lddw": ("register", "word"),
    "ja": ("offset",),
    "call": ("immediate",),
    "exit": (),
}


def read_instruction(line):
    """Reads a line of assembler text of profile 1."""
    word, blank, rest = line.partition(" ")
    if word not in WORDS:
        raise Fault(80)
    said, kinds = rest.split(", ") if blank else [], WORDS[word]
    for place, kind in enumerate(kinds):
        form, least, most = OPERANDS[kind]
        found = re.fullmatch(form, said[place], re.A) if place < len(said) else None
        if not found or place + 1 == len(said) < len(kinds):
            raise Fault(81)
        if found[1] and not least <= int(found[1]) <= most:
            raise Fault(82)
    if len(said) > len(kinds):
        raise Fault(81)


def of_assembler_text(text):
    if not any(line and not line.startswith("#") for line in text.split("\n")):
        return 0, 84
    return first_fault(text, read_instruction)
